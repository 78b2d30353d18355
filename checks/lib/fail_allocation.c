/* Makes one allocation of a program fail: the one with the number FAILED_ALLOCATION, counted from 1. The program is started with this library
   loaded before the C library (LD_PRELOAD). When the allocation fails, the library writes a byte to file descriptor 9, which the check reads. */
#include <stdlib.h>
#include <unistd.h>

extern void *__libc_malloc(size_t size);
extern void *__libc_realloc(void *old, size_t size);

static long remaining = -1;

static int must_fail(void) {
    if (remaining < 0) {
        const char *number = getenv("FAILED_ALLOCATION");
        remaining = number ? atol(number) : 0;
    }
    return remaining > 0 && --remaining == 0 && write(9, "r", 1) == 1;
}

void *malloc(size_t size) {
    return must_fail() ? NULL : __libc_malloc(size);
}

void *realloc(void *old, size_t size) {
    return must_fail() ? NULL : __libc_realloc(old, size);
}
