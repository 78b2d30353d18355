// The functions that the bench's module needs and that no C library provides: a heap, arithmetic on 128 bits, and buffers for the page's
// calls.
//
// The heap has blocks of 2^4, 2^5, .. bytes, each after a header of 16 bytes with the exponent. A freed block goes into the list for its
// exponent, from which later allocations take it. New blocks are cut from the end of memory, which grows and never shrinks.

typedef unsigned char Byte;
typedef unsigned long long Word;
typedef unsigned __int128 Wide;

enum { MIN_EXPONENT = 4, EXPONENTS = 41, HEADER = 16, PAGE_POWER = 16 };

extern Byte __heap_base;

// A freed block, as an element of its list.
typedef struct FreeBlock {
    struct FreeBlock *next;
} FreeBlock;

static FreeBlock *free_lists[EXPONENTS];
static Word end_of_heap;

// The result of an allocation: `ok` is 1 if it succeeded, otherwise 0, and `at` is the block. After a failure, `at` points to a byte outside
// all blocks.
typedef struct {
    Word ok;
    void *at;
} Allocation;

static Byte no_block;

// Returns the exponent of the smallest block that holds `count` bytes, or EXPONENTS if no block is that large.
static int exponent_for(Word count) {
    int exponent = MIN_EXPONENT;
    while (exponent < EXPONENTS && (1ULL << exponent) < count) exponent++;
    return exponent;
}

static Word *exponent_of(void *block) { return (Word *)((Byte *)block - HEADER); }

// Returns a block of `count` bytes, aligned to 16, or 0 if there is no memory.
static void *allocate(Word count) {
    int exponent = exponent_for(count);
    if (exponent >= EXPONENTS) return 0;
    if (free_lists[exponent]) {
        FreeBlock *block = free_lists[exponent];
        free_lists[exponent] = block->next;
        return block;
    }
    if (!end_of_heap) end_of_heap = ((Word)&__heap_base + HEADER - 1) & ~(Word)(HEADER - 1);
    Word end = end_of_heap + HEADER + (1ULL << exponent);
    Word size = (Word)__builtin_wasm_memory_size(0) << PAGE_POWER;
    if (end > size) {
        Word pages = (end - size + (1ULL << PAGE_POWER) - 1) >> PAGE_POWER;
        __builtin_wasm_memory_grow(0, pages);
        // Check the memory size to see whether the memory has grown. The result of the call above is unreliable: after the addresses have
        // been lowered to 32 bits, a failure does not return -1.
        if ((Word)__builtin_wasm_memory_size(0) << PAGE_POWER < end) return 0;
    }
    Byte *block = (Byte *)end_of_heap + HEADER;
    *exponent_of(block) = exponent;
    end_of_heap = end;
    return block;
}

static void release(void *block) {
    Word exponent = *exponent_of(block);
    FreeBlock *free = block;
    free->next = free_lists[exponent];
    free_lists[exponent] = free;
}

static Allocation result_of(void *block) {
    Allocation result = {block != 0, block ? block : &no_block};
    return result;
}

// ---- the allocator, with the names and contracts that the bench's library expects

// Callers pass an alignment that divides 16, and a count that is less than 2^63.
Allocation rattle_alloc(Word count, Word alignment) { return result_of(alignment > HEADER ? 0 : allocate(count)); }

// Returns a block of at least `count` bytes: the old block if it is large enough, otherwise a new block with a copy of the first `kept`
// bytes. If there is no memory, the old block stays unchanged.
Allocation rattle_realloc(void *block, Word kept, Word count, Word alignment) {
    if (exponent_for(count) <= (int)*exponent_of(block)) return result_of(block);
    void *larger = alignment > HEADER ? 0 : allocate(count);
    if (!larger) return result_of(0);
    __builtin_memcpy(larger, block, kept);
    release(block);
    return result_of(larger);
}

void rattle_dealloc(void *block) { release(block); }

// ---- buffers for the page's calls

void *bench_buffer(Word count) { return allocate(count); }

void bench_buffer_back(void *block) { release(block); }

// ---- functions that clang calls for operations that have no WebAssembly instruction

typedef union {
    Wide whole;
    struct {
        Word low, high;
    };
} Halves;

Wide __multi3(Wide x, Wide y) {
    Halves a = {x}, b = {y}, product;
    Word a0 = a.low & 0xffffffff, a1 = a.low >> 32;
    Word b0 = b.low & 0xffffffff, b1 = b.low >> 32;
    Word first = a0 * b0;
    Word second = a1 * b0 + (first >> 32);
    Word third = a0 * b1 + (second & 0xffffffff);
    product.low = third << 32 | (first & 0xffffffff);
    product.high = a1 * b1 + (second >> 32) + (third >> 32) + a.low * b.high + a.high * b.low;
    return product.whole;
}

Wide __ashlti3(Wide x, int count) {
    Halves a = {x}, shifted;
    if (count & 64) {
        shifted.low = 0;
        shifted.high = a.low << (count & 63);
    } else {
        shifted.low = a.low << (count & 63);
        shifted.high = a.high << (count & 63) | a.low >> 1 >> (63 - (count & 63));
    }
    return shifted.whole;
}

Wide __lshrti3(Wide x, int count) {
    Halves a = {x}, shifted;
    if (count & 64) {
        shifted.low = a.high >> (count & 63);
        shifted.high = 0;
    } else {
        shifted.low = a.low >> (count & 63) | a.high << 1 << (63 - (count & 63));
        shifted.high = a.high >> (count & 63);
    }
    return shifted.whole;
}
