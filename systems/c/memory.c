// memcpy, memmove and memset as C defines them, for systems without a C library. Blocks of up to 32 bytes, which are
// the most common by far, take two loads and two stores that may overlap.
#include <stddef.h>
#include <stdint.h>

typedef uint16_t two __attribute__((aligned(1), may_alias));
typedef uint32_t four __attribute__((aligned(1), may_alias));
typedef uint64_t eight __attribute__((aligned(1), may_alias));
typedef uint64_t sixteen __attribute__((vector_size(16), aligned(1), may_alias));

// Moves SIZE bytes, at least one TYPE and at most two. Both are loaded before one is stored.
#define MOVE_ENDS(type)                                                                                                \
    do {                                                                                                               \
        type first = *(const type *)from, last = *(const type *)(from + size - sizeof(type));                          \
        *(type *)to = first;                                                                                           \
        *(type *)(to + size - sizeof(type)) = last;                                                                    \
    } while (0)

static void move_few(uint8_t *to, const uint8_t *from, size_t size)
{
    if (size >= 16)
        MOVE_ENDS(sixteen);
    else if (size >= 8)
        MOVE_ENDS(eight);
    else if (size >= 4)
        MOVE_ENDS(four);
    else if (size >= 2)
        MOVE_ENDS(two);
    else if (size)
        *to = *from;
}

// Moves more than 32 bytes from the front on, to a place that is not within those that follow FROM. The last bytes are
// loaded first, since the loop may write to them.
static void move_forwards(uint8_t *to, const uint8_t *from, size_t size)
{
    sixteen last = *(const sixteen *)(from + size - 16);
    size_t at = 0;
    for (; at < size - 16; at += 16)
        *(sixteen *)(to + at) = *(const sixteen *)(from + at);
    *(sixteen *)(to + size - 16) = last;
}

// The same from the end on, for a place after FROM.
static void move_backwards(uint8_t *to, const uint8_t *from, size_t size)
{
    sixteen first = *(const sixteen *)from;
    for (size_t at = size; at > 16; at -= 16)
        *(sixteen *)(to + at - 16) = *(const sixteen *)(from + at - 16);
    *(sixteen *)to = first;
}

void *memmove(void *to, const void *from, size_t size)
{
    if (size <= 32)
        move_few(to, from, size);
    else if ((uintptr_t)to - (uintptr_t)from >= size)
        move_forwards(to, from, size);
    else
        move_backwards(to, from, size);
    return to;
}

void *memcpy(void *restrict to, const void *restrict from, size_t size)
{
    return memmove(to, from, size);
}

void *memset(void *place, int byte, size_t size)
{
    uint8_t *to = place;
    uint64_t word = (uint8_t)byte * 0x0101010101010101u;
    sixteen many = {word, word};
    if (size < 16) {
        for (size_t at = 0; at < size; at++)
            ((volatile uint8_t *)to)[at] = (uint8_t)byte;
        return place;
    }
    for (size_t at = 0; at < size - 16; at += 16)
        *(sixteen *)(to + at) = many;
    *(sixteen *)(to + size - 16) = many;
    return place;
}
