/* Calls the C functions of the kit that the program uses, such as rattle_arg, and prints their results. The test is linked once with the kit's archives
 * and once with tools/lib/aarch64.c, and the results must be the same. */
#include <stdint.h>
#include <stdio.h>
#include <string.h>

typedef struct { uint64_t ok; void *at; } Tried;

Tried rattle_alloc(uint64_t size, uint64_t align);
Tried rattle_realloc(void *old, uint64_t had, uint64_t size, uint64_t align);
void rattle_dealloc(void *at);
int rattle_errno(void);
void rattle_set_errno(int number);
int64_t rattle_arg_count(void);
int64_t rattle_arg(uint64_t which, unsigned char *to, uint64_t most);

/* Allocates a block of `size` bytes and doubles its size. Prints an error if a call fails, if the address of the block is not a multiple of 16,
   or if one of its bytes has changed. */
static void try_heap(uint64_t size) {
    Tried lent = rattle_alloc(size, 8);
    if (lent.ok != 1 || (uint64_t)lent.at % 16) printf("no %llu bytes\n", (unsigned long long)size);
    memset(lent.at, 7, size);
    Tried grown = rattle_realloc(lent.at, size, 2 * size, 8);
    if (grown.ok != 1 || (uint64_t)grown.at % 16) printf("no growth\n");
    for (uint64_t i = 0; i < size; i++) if (((unsigned char *)grown.at)[i] != 7) printf("byte %llu was lost\n", (unsigned long long)i);
    rattle_dealloc(grown.at);
}

int main(void) {
    static unsigned char room[64];
    for (uint64_t size = 0; size < 5000; size += size / 3 + 1) try_heap(size);
    Tried refused = rattle_alloc(1ULL << 62, 8);
    printf("too much: %d, a pointer: %d\n", (int)refused.ok, refused.at != 0);
    Tried lent = rattle_alloc(9, 1);
    memcpy(lent.at, "as it was", 9);
    refused = rattle_realloc(lent.at, 9, 1ULL << 62, 1);
    printf("too much: %d, a pointer: %d, %.9s\n", (int)refused.ok, refused.at != 0, (char *)lent.at);
    for (int number = 0; number < 134; number++) {
        rattle_set_errno(number);
        if (rattle_errno() != number) printf("errno %d is %d\n", number, rattle_errno());
    }
    printf("%lld words\n", (long long)rattle_arg_count());
    for (uint64_t which = 1; which < (uint64_t)rattle_arg_count() + 2; which++) {
        for (uint64_t most = 0; most <= sizeof room; most += most / 2 + 1) {
            memset(room, '.', sizeof room);
            int64_t length = rattle_arg(which, room, most);
            printf("word %llu of at most %llu: %lld %.64s\n", (unsigned long long)which, (unsigned long long)most, (long long)length, (char *)room);
        }
    }
    return (int)(rattle_arg(UINT64_MAX, room, 1) + rattle_arg(1ULL << 32, room, 1)) + 2;
}
