// Windows: memory, for the program and the library. Blocks of the heap are aligned to 16 on 64-bit systems.
#define WIN32_LEAN_AND_MEAN
#include <windows.h>

#include "rattle.h"

void *rattle_find(size_t size)
{
    return HeapAlloc(GetProcessHeap(), 0, size);
}

void *rattle_resize(void *place, size_t kept, size_t size)
{
    (void)kept;
    return HeapReAlloc(GetProcessHeap(), 0, place, size);
}

void rattle_dealloc(void *place)
{
    HeapFree(GetProcessHeap(), 0, place);
}
