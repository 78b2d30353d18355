/* The C functions of the Rattle kit that the program calls (the heap, errno, the arguments), for Linux on aarch64. The kit contains them compiled
 * only for x86-64. Each function does the same as the kit's function of that name, with the same calls of the C library. */
#include <errno.h>
#include <stdint.h>
#include <stdlib.h>

/*
 * The result of an allocation: whether it succeeded, and the block. After a failure, the pointer points to a byte that no block contains.
 */
typedef struct { uint64_t ok; void *at; } Tried;

static unsigned char nothing;
static int count;
static char **words;

static Tried tried(void *at) { return (Tried){ at != 0, at ? at : &nothing }; }

/* malloc aligns blocks to 16 bytes, and the program never requests more. */
Tried rattle_alloc(uint64_t size, uint64_t align) { return tried(malloc(size ? size : align)); }

Tried rattle_realloc(void *old, uint64_t had, uint64_t size, uint64_t align) { return (void)had, tried(realloc(old, size ? size : align)); }

void rattle_dealloc(void *at) { free(at); }

int rattle_errno(void) { return errno; }

void rattle_set_errno(int number) { errno = number; }

/* The C library calls this before main, with the arguments. */
__attribute__((constructor)) static void keep(int given, char **arguments) { count = given; words = arguments; }

int64_t rattle_arg_count(void) { return count; }

/* Copies an argument. Returns its length, or -1 if there is no such argument, or -2 if it is longer than `most`. */
int64_t rattle_arg(uint64_t which, unsigned char *to, uint64_t most) {
    if (which >= (uint64_t)count || !words[which]) return -1;
    uint64_t length = 0;
    for (; words[which][length]; length++) {
        if (length == most) return -2;
        to[length] = (unsigned char)words[which][length];
    }
    return (int64_t)length;
}
