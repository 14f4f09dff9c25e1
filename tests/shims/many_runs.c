/* Loaded before the C library, it runs a program many times that is started once.

   Each byte on standard input starts a run. Its status comes on standard output, in the form of waitpid. A run reads the file that RUNS_INPUT names,
   and prints to the file that RUNS_OUTPUT names. It is ended after RUNS_SECONDS seconds. A run is a call of `main`. If RUNS_APART is set, a copy of
   the process makes that call, so that it can be killed. */
#define _GNU_SOURCE
#include <dlfcn.h>
#include <fcntl.h>
#include <stdlib.h>
#include <sys/syscall.h>
#include <sys/wait.h>
#include <unistd.h>

/* The descriptors from which the bytes come and to which the statuses go. What a run opens has numbers below these. */
enum { FROM = 100, TO = 101 };

typedef int program(int, char **, char **);
static program *program_main;
int is_copy;

/* Other loaded libraries may count calls on files, so these are system calls. */
static void open_as(int number, const char *path, int flags) {
    long file = syscall(SYS_openat, AT_FDCWD, path, flags, 0600);
    if (file < 0 || syscall(SYS_dup3, file, number, 0) < 0) _exit(127);
    syscall(SYS_close, file);
}

static void begin_run(void) {
    open_as(STDIN_FILENO, getenv("RUNS_INPUT"), O_RDONLY);
    open_as(STDOUT_FILENO, getenv("RUNS_OUTPUT"), O_WRONLY | O_CREAT | O_TRUNC);
    syscall(SYS_dup3, STDOUT_FILENO, STDERR_FILENO, 0);
    alarm(atoi(getenv("RUNS_SECONDS")));
}

static int is_asked(void) {
    char byte;
    return syscall(SYS_read, FROM, &byte, 1) == 1;
}

static void report(int status) { syscall(SYS_write, TO, &status, sizeof status); }

/* Reports that the process has come here. Then each run is made by a copy of the process, which goes on from here. */
void run_copies(void) {
    alarm(0);
    report(0);
    while (is_asked()) {
        int status = -1;
        pid_t copy = fork();
        is_copy = copy == 0;
        if (is_copy) {
            begin_run();
            return;
        }
        waitpid(copy, &status, 0);
        report(status);
    }
    _exit(0);
}

static int run_often(int count, char **words, char **found) {
    syscall(SYS_dup3, STDIN_FILENO, FROM, O_CLOEXEC);
    syscall(SYS_dup3, STDOUT_FILENO, TO, O_CLOEXEC);
    if (getenv("RUNS_APART")) {
        run_copies();
        return program_main(count, words, found);
    }
    while (is_asked()) {
        begin_run();
        int status = program_main(count, words, found);
        if (is_copy) _exit(status);
        alarm(0);
        /* As at the end of a process, no file stays open. */
        syscall(SYS_close_range, STDERR_FILENO + 1, FROM - 1, 0);
        report(status << 8);
    }
    return 0;
}

int __libc_start_main(program *main, int count, char **words, void (*init)(void), void (*fini)(void), void (*rtld_fini)(void), void *end) {
    int (*start)(program *, int, char **, void (*)(void), void (*)(void), void (*)(void), void *);
    *(void **)&start = dlsym(RTLD_NEXT, "__libc_start_main");
    program_main = main;
    return start(run_often, count, words, init, fini, rtld_fini, end);
}
