/* Loaded before the C library, it disturbs one of the calls that a run makes on files.

   The file that FAIL_NUMBERS names has three numbers: the number of the call to disturb, counted from 1, how it is disturbed, and how many calls
   there were since a script set that to 0. The second number is the error that the call fails with, or below 0. With HALF the call moves half of its
   bytes. With BEFORE, AFTER and TORN the run is killed before the call, after it, or after half of its bytes.

   The call is listed in the file that FAIL_CALLS names, in a line with its name and its file. If the first number is 0 no call is disturbed, and all
   are listed, a `pwrite` with its place and its bytes, and an `ftruncate` with its size. */
#define _GNU_SOURCE
#include <dlfcn.h>
#include <errno.h>
#include <limits.h>
#include <signal.h>
#include <stdarg.h>
#include <stdio.h>
#include <sys/stat.h>
#include <sys/types.h>
#include <sys/uio.h>
#include "shared_numbers.h"

enum { CHOSEN, HOW, CALLS, COUNT };
enum { HALF = -1, BEFORE = -2, AFTER = -3, TORN = -4 };

static volatile long *numbers;

static int is_how(int how) { return numbers[HOW] == how; }

static void put(long list, const char *text, long size) { syscall(SYS_write, list, text, size); }

/* Writes bytes as digits, two for each. */
static void put_bytes(long list, const unsigned char *bytes, long count) {
    char digits[4096];
    for (long done = 0, size = 0; done < count; done++) {
        size += sprintf(digits + size, "%02x", bytes[done]);
        if (size > (long)sizeof digits - 4 || done + 1 == count) put(list, digits, size), size = 0;
    }
}

struct call {
    const char *name, *path;
    long number, arguments[5];
};

/* Lists a call. Its file is that of the path or, without one, that of the descriptor. */
static void list_call(const struct call *call, int is_whole) {
    char link[40], at[PATH_MAX] = "", line[PATH_MAX + 80];
    const char *path = call->path;
    if (!path) {
        snprintf(link, sizeof link, "/proc/self/fd/%ld", call->arguments[0]);
        syscall(SYS_readlinkat, AT_FDCWD, link, at, sizeof at - 1);
        path = at;
    }
    long list = syscall(SYS_openat, AT_FDCWD, getenv("FAIL_CALLS"), O_WRONLY | O_CREAT | O_APPEND | O_CLOEXEC, 0600);
    put(list, line, snprintf(line, sizeof line, "%s %s", call->name, path));
    if (is_whole && call->number == SYS_ftruncate) put(list, line, snprintf(line, sizeof line, " %ld", call->arguments[1]));
    if (is_whole && call->number == SYS_pwrite64) {
        put(list, line, snprintf(line, sizeof line, " %ld ", call->arguments[3]));
        put_bytes(list, (const unsigned char *)call->arguments[1], call->arguments[2]);
    }
    put(list, "\n", 1);
    syscall(SYS_close, list);
}

static void die(void) {
    for (;;) kill(getpid(), SIGKILL);
}

/* Counts a call, and returns whether it is the one to disturb. */
static int is_chosen(const struct call *call) {
    if (!numbers) numbers = shared_numbers("FAIL_NUMBERS", COUNT);
    int is_one = ++numbers[CALLS] == numbers[CHOSEN];
    if (is_one || numbers[CHOSEN] == 0) list_call(call, !is_one);
    return is_one;
}

/* Whether a chosen call has to fail. */
static int fails(void) {
    if (is_how(BEFORE)) die();
    if (numbers[HOW] < 0) return 0;
    errno = numbers[HOW];
    return 1;
}

/* A system call on the file of a path or a descriptor. If it moves bytes the third argument says how many. */
static long make(const char *name, const char *path, long number, long a, long b, long c, long d, long e) {
    struct call call = {name, path, number, {a, b, c, d, e}};
    if (!is_chosen(&call)) return syscall(number, a, b, c, d, e);
    if (fails()) {
        int error = errno;
        /* A descriptor is released even if `close` fails. */
        if (number == SYS_close) syscall(number, a);
        errno = error;
        return -1;
    }
    long answer = syscall(number, a, b, is_how(HALF) || is_how(TORN) ? (c + 1) / 2 : c, d, e);
    if (is_how(AFTER) || is_how(TORN)) die();
    return answer;
}

static long on(const char *name, long number, long descriptor, long b, long c, long d) {
    return make(name, NULL, number, descriptor, b, c, d, 0);
}

static long at(const char *name, const char *path, long number, long a, long b, long c, long d, long e) {
    return make(name, path, number, a, b, c, d, e);
}

/* A call that may make the file has a mode. */
#define MODE(mode, flags) \
    if ((flags) & O_CREAT) { \
        va_list rest; \
        va_start(rest, flags); \
        mode = va_arg(rest, int); \
        va_end(rest); \
    }

int open(const char *path, int flags, ...) {
    int mode = 0;
    MODE(mode, flags);
    return at(flags & O_CREAT ? "create" : "open", path, SYS_openat, AT_FDCWD, (long)path, flags, mode, 0);
}

int openat(int folder, const char *path, int flags, ...) {
    int mode = 0;
    MODE(mode, flags);
    return at(flags & O_CREAT ? "create" : "open", path, SYS_openat, folder, (long)path, flags, mode, 0);
}

int statx(int folder, const char *restrict path, int flags, unsigned mask, struct statx *restrict found) {
    return at("statx", path[0] ? path : NULL, SYS_statx, folder, (long)path, flags, mask, (long)found);
}

int unlink(const char *path) { return at("unlink", path, SYS_unlinkat, AT_FDCWD, (long)path, 0, 0, 0); }
int unlinkat(int folder, const char *path, int flags) { return at("unlink", path, SYS_unlinkat, folder, (long)path, flags, 0, 0); }
ssize_t read(int file, void *bytes, size_t count) { return on("read", SYS_read, file, (long)bytes, count, 0); }
ssize_t write(int file, const void *bytes, size_t count) { return on("write", SYS_write, file, (long)bytes, count, 0); }
ssize_t writev(int file, const struct iovec *parts, int count) { return on("writev", SYS_writev, file, (long)parts, count, 0); }
ssize_t pread(int file, void *bytes, size_t count, off_t place) { return on("pread", SYS_pread64, file, (long)bytes, count, place); }
ssize_t pwrite(int file, const void *bytes, size_t count, off_t place) {
    return on("pwrite", SYS_pwrite64, file, (long)bytes, count, place);
}
off_t lseek(int file, off_t offset, int whence) { return on("lseek", SYS_lseek, file, offset, whence, 0); }
int fsync(int file) { return on("fsync", SYS_fsync, file, 0, 0, 0); }
int fdatasync(int file) { return on("fdatasync", SYS_fdatasync, file, 0, 0, 0); }
int ftruncate(int file, off_t size) { return on("ftruncate", SYS_ftruncate, file, size, 0, 0); }
int fchmod(int file, mode_t mode) { return on("fchmod", SYS_fchmod, file, mode, 0, 0); }
int fchown(int file, uid_t owner, gid_t group) { return on("fchown", SYS_fchown, file, owner, group, 0); }
int close(int file) { return on("close", SYS_close, file, 0, 0, 0); }

int fcntl(int file, int command, ...) {
    va_list rest;
    va_start(rest, command);
    long argument = va_arg(rest, long);
    va_end(rest);
    return on("fcntl", SYS_fcntl, file, command, argument, 0);
}

/* It returns the number of the error. */
int posix_fadvise(int file, off_t start, off_t size, int advice) {
    return on("fadvise", SYS_fadvise64, file, start, size, advice) < 0 ? errno : 0;
}

/* The C library makes several system calls for this one. */
char *realpath(const char *restrict path, char *restrict resolved) {
    char *(*real)(const char *, char *) = (char *(*)(const char *, char *))dlsym(RTLD_NEXT, "realpath");
    struct call call = {.name = "realpath", .path = path};
    if (!is_chosen(&call)) return real(path, resolved);
    if (fails()) return NULL;
    char *found = real(path, resolved);
    if (is_how(AFTER)) die();
    return found;
}

/* The same functions under other names of the C library. */
int open64(const char *, int, ...) __attribute__((alias("open")));
int openat64(int, const char *, int, ...) __attribute__((alias("openat")));
int fcntl64(int, int, ...) __attribute__((alias("fcntl")));
ssize_t pread64(int, void *, size_t, off_t) __attribute__((alias("pread")));
ssize_t pwrite64(int, const void *, size_t, off_t) __attribute__((alias("pwrite")));
int ftruncate64(int, off_t) __attribute__((alias("ftruncate")));
int posix_fadvise64(int, off_t, off_t, int) __attribute__((alias("posix_fadvise")));
off_t lseek64(int, off_t, int) __attribute__((alias("lseek")));
