/* Numbers that a run shares with the script that started it (tests/common/many_runs.py), in the file that a variable names. What one of them writes
   there the other finds. */
#include <fcntl.h>
#include <stdlib.h>
#include <sys/mman.h>
#include <sys/syscall.h>
#include <unistd.h>

static volatile long *shared_numbers(const char *variable, int count) {
    const char *path = getenv(variable);
    long file = path ? syscall(SYS_openat, AT_FDCWD, path, O_RDWR | O_CLOEXEC) : -1;
    void *found = mmap(NULL, count * sizeof(long), PROT_READ | PROT_WRITE, MAP_SHARED, file, 0);
    if (found == MAP_FAILED) abort();
    syscall(SYS_close, file);
    return found;
}
