// WebAssembly: memory, and what the compiler calls for numbers of 128 bits. There is no C library.
//
// Blocks follow one another from the end of the data to the end of the memory. In front of each are 16 bytes: its size
// and, if it is free, the next free block in order of place. A block that is given back is joined with its free
// neighbours.
#include "rattle.h"

enum {
    UNIT = 16,
    PAGE = 1 << 16
};
// A 32-bit memory has no more.
#define MOST_BYTES 0xffff0000u

struct block {
    size_t size; // of what follows this header, a multiple of UNIT
    struct block *next;
};

extern uint8_t __heap_base[];
void *memcpy(void *restrict to, const void *restrict from, size_t size);

static struct block *first_free;
static uint8_t *end_of_blocks;

static uint8_t *start_of(struct block *block)
{
    return (uint8_t *)block + sizeof(struct block);
}

static struct block *block_at(void *place)
{
    return (struct block *)((uint8_t *)place - sizeof(struct block));
}

// Puts a block among the free ones, and joins it with those beside it.
static void put_back(struct block *block)
{
    struct block *before = NULL, *after = first_free;
    while (after && after < block) {
        before = after;
        after = after->next;
    }
    block->next = after;
    if (after && start_of(block) + block->size == (uint8_t *)after) {
        block->size += sizeof(struct block) + after->size;
        block->next = after->next;
    }
    if (!before)
        first_free = block;
    else if (start_of(before) + before->size == (uint8_t *)block) {
        before->size += sizeof(struct block) + block->size;
        before->next = block->next;
    } else
        before->next = block;
}

// Makes the memory larger by at least a block of that size, which becomes free. False: the host has no more.
static int grow(size_t size)
{
    size_t end = __builtin_wasm_memory_size(0) * PAGE;
    if (!end_of_blocks)
        end_of_blocks = (uint8_t *)(((uintptr_t)__heap_base + UNIT - 1) / UNIT * UNIT);
    size_t room = end - (uintptr_t)end_of_blocks, wanted = size + sizeof(struct block);
    if (room < wanted) {
        size_t pages = (wanted - room + PAGE - 1) / PAGE;
        // Where the 64-bit form is lowered to a 32-bit one, a failure is 2^32 - 1, and else 2^64 - 1.
        if (end + pages * PAGE > MOST_BYTES || (uint32_t)__builtin_wasm_memory_grow(0, pages) == UINT32_MAX)
            return 0;
        room += pages * PAGE;
    }
    struct block *block = (struct block *)end_of_blocks;
    block->size = (room - sizeof(struct block)) / UNIT * UNIT;
    end_of_blocks = start_of(block) + block->size;
    put_back(block);
    return 1;
}

// Takes the front of a free block. What it doesn't need of it stays free.
static void *take(struct block *block, struct block *before, size_t size)
{
    struct block *rest = block->next;
    if (block->size >= size + sizeof(struct block) + UNIT) {
        rest = (struct block *)(start_of(block) + size);
        rest->size = block->size - size - sizeof(struct block);
        rest->next = block->next;
        block->size = size;
    }
    if (before)
        before->next = rest;
    else
        first_free = rest;
    return start_of(block);
}

void *rattle_find(size_t size)
{
    if (size > MOST_BYTES)
        return NULL;
    size = (size + UNIT - 1) / UNIT * UNIT;
    do {
        struct block *before = NULL;
        for (struct block *block = first_free; block; before = block, block = block->next)
            if (block->size >= size)
                return take(block, before, size);
    } while (grow(size));
    return NULL;
}

void *rattle_resize(void *place, size_t kept, size_t size)
{
    if (block_at(place)->size >= size)
        return place;
    void *moved = rattle_find(size);
    if (moved) {
        memcpy(moved, place, kept);
        rattle_dealloc(place);
    }
    return moved;
}

void rattle_dealloc(void *place)
{
    if (place)
        put_back(block_at(place));
}

// A number of 128 bits as its two halves.
union halves {
    unsigned __int128 whole;
    struct {
        uint64_t low, high;
    } half;
};

static unsigned __int128 of_halves(uint64_t low, uint64_t high)
{
    return (union halves){.half = {low, high}}.whole;
}

// The product of two numbers of 128 bits, without the bits above those.
unsigned __int128 __multi3(unsigned __int128 a, unsigned __int128 b)
{
    uint64_t a_low = (uint64_t)a, b_low = (uint64_t)b;
    uint64_t a0 = (uint32_t)a_low, a1 = a_low >> 32, b0 = (uint32_t)b_low, b1 = b_low >> 32;
    uint64_t low = a0 * b0, middle = a1 * b0 + (low >> 32), other = a0 * b1 + (uint32_t)middle;
    uint64_t high = a1 * b1 + (middle >> 32) + (other >> 32);
    union halves x = {a}, y = {b};
    return of_halves(other << 32 | (uint32_t)low, high + x.half.high * b_low + a_low * y.half.high);
}

// Shifts to the left by 0 to 127 bits.
unsigned __int128 __ashlti3(unsigned __int128 number, int32_t bits)
{
    union halves x = {number};
    if (bits == 0)
        return number;
    if (bits >= 64)
        return of_halves(0, x.half.low << (bits - 64));
    return of_halves(x.half.low << bits, x.half.high << bits | x.half.low >> (64 - bits));
}

// Shifts to the right by 0 to 127 bits; zeros come in.
unsigned __int128 __lshrti3(unsigned __int128 number, int32_t bits)
{
    union halves x = {number};
    if (bits == 0)
        return number;
    if (bits >= 64)
        return of_halves(x.half.high >> (bits - 64), 0);
    return of_halves(x.half.low >> bits | x.half.high << (64 - bits), x.half.high >> bits);
}
