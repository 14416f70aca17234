/*
 * What programs that call the library share: the bytes that they read, and how they say what goes wrong. memory.h has
 * their blocks, and most also have refusals.h.
 */
#include <inttypes.h>

#include "memory.h"
#include "sdtool.h"

struct bytes {
    uint8_t *cells;
    size_t size;
};

static const char *job;
static int wrong;

static inline void complain(const char *what)
{
    fprintf(stderr, "%s: %s\n", job, what);
    wrong = 1;
}

static inline void expect(bool is_right, const char *what)
{
    if (!is_right)
        complain(what);
}

/* Memory of the test itself. */
static inline void *room_for(size_t count, size_t size)
{
    void *cells = calloc(count + 1, size);

    if (cells == NULL)
        abort();
    return cells;
}

static inline int digit(int c)
{
    return c >= 'a' ? c - 'a' + 10 : c - '0';
}

static inline void spell(uint8_t *cells, const char *digits, size_t size)
{
    for (size_t at = 0; at < size; at++)
        cells[at] = (uint8_t)(16 * digit(digits[2 * at]) + digit(digits[2 * at + 1]));
}

/* The bytes that the hex digits at the front of a text spell, where nothing can be written. */
static inline struct bytes spelled(const char *text)
{
    size_t size = strspn(text, "0123456789abcdef") / 2;
    struct bytes bytes = {block(size), size};

    spell(bytes.cells, text, size);
    seal(bytes.cells, size);
    return bytes;
}

static inline struct bytes copied(const void *cells, size_t size)
{
    struct bytes bytes = {block(size), size};

    if (size != 0)
        memcpy(bytes.cells, cells, size);
    seal(bytes.cells, size);
    return bytes;
}

static inline bool is_same(const struct sdtool_outcome *a, const struct sdtool_outcome *b)
{
    return a->fault == b->fault && a->part == b->part && a->other_part == b->other_part && a->argument == b->argument
           && a->entry == b->entry && a->length == b->length;
}

static inline void print_hex(const uint8_t *cells, size_t size)
{
    for (size_t at = 0; at < size; at++)
        printf("%02x", cells[at]);
    putchar('\n');
}

static inline void print_fault(uint32_t fault, uint32_t part, uint32_t other_part)
{
    static const char *const parts[] = {"", " owner", " group", " sacl", " dacl"};

    if (part > 4 || other_part > 4)
        complain("a part that is none");
    else
        printf("error %" PRIu32 "%s%s\n", fault, parts[part], parts[other_part]);
}

static inline void print_outcome(const struct sdtool_outcome *o)
{
    if (o->length != 0 || (o->argument != 0) != (o->fault == SDTOOL_ARGUMENT))
        complain("what a fault tells");
    if (o->fault == SDTOOL_ARGUMENT)
        printf("error 70 %" PRIu32 " %zu\n", o->argument, o->entry);
    else
        print_fault(o->fault, o->part, o->other_part);
}
