/*
 * texts
 *
 * Makes a call for each line of standard input: its name, and what it reads in hex, with '-' for none. Each block has
 * exactly its size, the output too: a first call without one says how many bytes there are. It prints the fault, its
 * argument, the length or the number that a text means, and the output in hex. Only sdtool_ace_from_text may allocate,
 * once; then it is refused that memory, and says so, or has the fault that comes before.
 */
#include <stdio.h>
#include <stdlib.h>
#include <string.h>

#include "refusals.h"

enum {
    FILLED = 0xaa,
    OF_AN_ACE = 131226
};

static struct bytes first, second;
static uint32_t meant; /* by a text that is a number */

/* A number of the second input, low byte first. */
static uint32_t number(void)
{
    uint32_t found = 0;

    for (size_t at = second.size; at > 0; at--)
        found = found << 8 | second.cells[at - 1];
    return found;
}

static struct sdtool_outcome told(struct sdtool_number found)
{
    meant = found.number;
    return found.outcome;
}

static struct sdtool_outcome make(const char *call, uint8_t *output, size_t size)
{
    if (strcmp(call, "ace_from_text") == 0)
        return sdtool_ace_from_text(first.cells, first.size, second.cells, second.size, output, size);
    if (strcmp(call, "ace_to_text") == 0)
        return sdtool_ace_to_text(first.cells, first.size, second.cells, second.size, false, output, size);
    if (strcmp(call, "ace_to_numbers") == 0)
        return sdtool_ace_to_text(first.cells, first.size, second.cells, second.size, true, output, size);
    if (strcmp(call, "rights_from_text") == 0)
        return told(sdtool_rights_from_text(first.cells, first.size));
    if (strcmp(call, "rights_to_text") == 0)
        return sdtool_rights_to_text(number(), first.size != 0, output, size);
    if (strcmp(call, "flags_from_text") == 0)
        return told(sdtool_flags_from_text(first.cells, first.size));
    if (strcmp(call, "flags_to_text") == 0)
        return sdtool_flags_to_text(number(), output, size);
    if (strcmp(call, "guid_from_text") == 0)
        return sdtool_guid_from_text(first.cells, first.size, output, size);
    if (strcmp(call, "guid_to_text") == 0)
        return sdtool_guid_to_text(first.cells, first.size, output, size);
    return (struct sdtool_outcome){.fault = sdtool_ace_read(first.cells, first.size).fault};
}

static void try_refusal(const char *call, uint8_t *output, size_t size, const struct sdtool_outcome *whole)
{
    struct sdtool_outcome o;

    if (allocations != 1 || allocated > OF_AN_ACE || strcmp(call, "ace_from_text") != 0)
        complain("memory that it is not to take");
    if (size != 0)
        memset(output, FILLED, size);
    allocations_left = 0;
    o = make(call, output, size);
    allocations_left = -1;
    if (o.fault != SDTOOL_NO_MEMORY || o.length != 0 || o.argument != SDTOOL_NO_ARGUMENT
        || whole->fault == SDTOOL_ARGUMENT)
        complain("a refused allocation");
    for (size_t at = 0; at < size; at++)
        if (output[at] != FILLED)
            complain("an output without memory");
}

static void print(const struct sdtool_outcome *o, const uint8_t *output)
{
    printf("%u %u %zu ", (unsigned)o->fault, (unsigned)o->argument, o->length + meant);
    for (size_t at = 0; o->fault == SDTOOL_OK && at < o->length; at++)
        printf("%02x", output[at]);
    putchar('\n');
}

int main(void)
{
    char *line = NULL, *call, *inputs;
    size_t room = 0;

    read_environment();
    while (getline(&line, &room, stdin) > 0) {
        call = strtok(line, " ");
        job = call;
        inputs = strtok(NULL, " ");
        first = spelled(inputs == NULL ? "" : inputs);
        inputs = strtok(NULL, " \n");
        second = spelled(inputs == NULL ? "" : inputs);
        struct sdtool_outcome o = make(call, NULL, 0);
        size_t size = o.fault == SDTOOL_TOO_SMALL ? o.length : 0;
        uint8_t *output = block(size);
        allocations = 0;
        allocated = 0;
        meant = 0;
        o = make(call, output, size);
        print(&o, output);
        if (allocations != 0)
            try_refusal(call, output, size, &o);
        release(output, size);
        release(second.cells, second.size);
        release(first.cells, first.size);
    }
    free(line);
    return wrong;
}
