// Memory, over the C library of a system whose blocks are aligned to 16.
#include <stdlib.h>

#include "rattle.h"

void *rattle_find(size_t size)
{
    return malloc(size);
}

// realloc keeps at least KEPT bytes: as many as the smaller block has.
void *rattle_resize(void *place, size_t kept, size_t size)
{
    (void)kept;
    return realloc(place, size);
}

void rattle_dealloc(void *place)
{
    free(place);
}
