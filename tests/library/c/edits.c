/*
 * edits
 *
 * Makes an edit for each line of standard input: a descriptor and its changes in hex, with '-' for none. It prints the
 * numbers of the outcome and those of the counts that were written, and what the descriptor is then. Each block has
 * exactly its size, so a sanitizer sees what is beside it. Then it refuses each allocation in turn: the call says so
 * and leaves the output as it was, or has the fault that comes before. At the end it prints how many bytes the edit
 * took that took most.
 */
#include <malloc.h>
#include <stdio.h>
#include <stdlib.h>
#include <string.h>

#include "inputs.h"

enum {
    UNWRITTEN = 0xaaaaaaaa,
    FILLED = 0xaa
};

static struct bytes descriptor, changes;
static uint32_t *touched;
static uint8_t *output;
/* How many bytes the library has now, and had at most; its allocations, and how many more are not refused. */
static size_t held, most_held;
static long allocations, allocations_left = -1;
static bool is_in_library;

void *__wrap_malloc(size_t size);
void *__wrap_realloc(void *block, size_t size);
void __wrap_free(void *block);
void __real_free(void *block);

static bool refused(void)
{
    allocations++;
    return allocations_left >= 0 && allocations_left-- == 0;
}

static void take(void *block)
{
    if (block != NULL)
        held += malloc_usable_size(block);
    if (held > most_held)
        most_held = held;
}

void *__wrap_malloc(size_t size)
{
    void *block = refused() ? NULL : __real_malloc(size);

    take(block);
    return block;
}

/* Two blocks are there while one is copied. */
void *__wrap_realloc(void *block, size_t size)
{
    size_t before = malloc_usable_size(block);
    void *other = refused() ? NULL : __real_realloc(block, size);

    take(other);
    if (other != NULL)
        held -= before;
    return other;
}

void __wrap_free(void *block)
{
    if (is_in_library)
        held -= malloc_usable_size(block);
    __real_free(block);
}

static size_t count_of(void)
{
    return changes.size / sizeof(struct sdtool_change);
}

static struct sdtool_outcome edit(size_t size)
{
    if (count_of() != 0)
        memset(touched, FILLED, count_of() * sizeof *touched);
    memset(output, FILLED, size);
    held = 0;
    is_in_library = true;
    struct sdtool_outcome o = sdtool_edit(descriptor.cells, descriptor.size,
                                          (const struct sdtool_change *)changes.cells, count_of(), touched, count_of(),
                                          output, size);
    is_in_library = false;
    if (held != 0)
        complain("memory that is not given back");
    return o;
}

static bool is_unwritten(size_t size)
{
    for (size_t at = 0; at < size; at++)
        if (output[at] != FILLED)
            return false;
    return true;
}

/* Before the first allocation come the faults of the changes and of the descriptor. */
static void try_refusals(const struct sdtool_outcome *whole, size_t size, long most)
{
    for (long n = 0; n < most; n++) {
        allocations_left = n;
        struct sdtool_outcome o = edit(size);
        allocations_left = -1;
        if (!(o.fault == SDTOOL_NO_MEMORY && o.length == 0 && o.argument == SDTOOL_NO_ARGUMENT && is_unwritten(size))
            && !is_same(&o, whole))
            complain("a refused allocation");
        if (n == 0 && o.fault != SDTOOL_NO_MEMORY)
            complain("no memory is no fault");
    }
}

static void print(const struct sdtool_outcome *o)
{
    printf("%u %u %u %u %zu %zu", (unsigned)o->fault, (unsigned)o->part, (unsigned)o->other_part, (unsigned)o->argument,
           o->entry, o->length);
    for (size_t at = 0; at < count_of() && touched[at] != UNWRITTEN; at++)
        printf(" %u", (unsigned)touched[at]);
    printf(" :");
    for (size_t at = 0; o->fault == SDTOOL_OK && at < o->length; at++)
        printf("%02x", output[at]);
    putchar('\n');
}

int main(void)
{
    char *line = NULL, *second;
    size_t room = 0;

    read_environment();
    job = "edits";
    while (getline(&line, &room, stdin) > 0) {
        if ((second = strchr(line, ' ')) == NULL)
            return 2;
        descriptor = spelled(line);
        changes = spelled(second + 1);
        touched = (uint32_t *)block(count_of() * sizeof *touched);
        output = block(SDTOOL_MOST_BYTES);
        allocations = 0;
        struct sdtool_outcome whole = edit(SDTOOL_MOST_BYTES);
        print(&whole);
        try_refusals(&whole, SDTOOL_MOST_BYTES, allocations > 40 ? 40 : allocations);
        release(output, SDTOOL_MOST_BYTES);
        release((uint8_t *)touched, count_of() * sizeof *touched);
        release(changes.cells, changes.size);
        release(descriptor.cells, descriptor.size);
    }
    free(line);
    printf("%zu bytes\n", most_held);
    return wrong;
}
