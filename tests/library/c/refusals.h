/*
 * malloc and realloc of the library, which the linker puts in the place of those of the system: see
 * tests/library/c_library.py. They count, for the thread that calls them, and refuse one allocation if that is asked
 * for.
 */
#include "inputs.h"

void *__wrap_malloc(size_t size);
void *__wrap_realloc(void *block, size_t size);

static _Thread_local long allocations_left = -1;
static _Thread_local long allocations;
/* The bytes that were asked for. */
static _Thread_local size_t allocated;

static bool refused(size_t size)
{
    allocations++;
    allocated += size;
    return allocations_left >= 0 && allocations_left-- == 0;
}

void *__wrap_malloc(size_t size)
{
    return refused(size) ? NULL : __real_malloc(size);
}

void *__wrap_realloc(void *block, size_t size)
{
    return refused(size) ? NULL : __real_realloc(block, size);
}
