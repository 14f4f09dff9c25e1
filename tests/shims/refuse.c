/* Loaded before the C library, it refuses allocations of a run.

   The file that REFUSE_NUMBERS names has five numbers: the first and the last allocation that is refused, how many were asked for since a script set
   this number to 0, how many of these were refused, and the allocation from which copies of a run go on (tests/shims/many_runs.c), or 0. */
#define _GNU_SOURCE
#include <errno.h>
#include <stddef.h>
#include "shared_numbers.h"

enum { FIRST, LAST, ASKED, REFUSED, COPIED, COUNT };

void *__libc_malloc(size_t);
void *__libc_calloc(size_t, size_t);
void *__libc_realloc(void *, size_t);
void __libc_free(void *);
void run_copies(void) __attribute__((weak));
extern int is_copy __attribute__((weak));

static int is_refused(void) {
    static volatile long *numbers;
    if (!numbers) numbers = shared_numbers("REFUSE_NUMBERS", COUNT);
    /* A script may set it at the same time. */
    long number = __atomic_add_fetch(&numbers[ASKED], 1, __ATOMIC_SEQ_CST);
    if (number == numbers[COPIED]) run_copies();
    if (number < numbers[FIRST] || number > numbers[LAST]) return 0;
    numbers[REFUSED]++;
    errno = ENOMEM;
    return 1;
}

void *malloc(size_t size) { return is_refused() ? NULL : __libc_malloc(size); }
void *calloc(size_t count, size_t size) { return is_refused() ? NULL : __libc_calloc(count, size); }
void *realloc(void *old, size_t size) { return is_refused() ? NULL : __libc_realloc(old, size); }

/* A copy ends soon, and the memory that it frees would have to be copied first. So it frees nothing. */
void free(void *old) {
    if (!&is_copy || !is_copy) __libc_free(old);
}
