/*
 * columns JOB KIND DOMAIN [numeric]
 *
 * Asks about the lines of standard input as the rows of a column. KIND is to_sddl, from_sddl, normalize, derive or
 * check; DOMAIN is hex digits or -. Lines are hex digits, for from_sddl texts. To derive, DOMAIN is the descriptor that
 * the creator brings, and 'numeric' makes containers.
 *
 *   print    prints the answers: bytes as hex digits, SDDL as it is, a fault as 'error NUMBER PART PART'
 *   lies     the offsets of the rows are random and often wrong
 *   small    outputs have each size
 *   refused  the call is refused
 *
 * Each outcome and each answer has to be that of the call for a single row, with offsets of 32 and of 64 bits, in one
 * piece and in pieces that go on. What goes wrong is printed to standard error, and the status is then 1. memory.h says
 * what the environment asks for.
 */
#include <stdio.h>
#include <stdlib.h>
#include <string.h>

#include "refusals.h"

static bool is_outcome(const struct sdtool_outcome *o, uint32_t fault, uint32_t argument, size_t entry, size_t length)
{
    struct sdtool_outcome wanted = {.fault = fault, .argument = argument, .entry = entry, .length = length};

    return is_same(o, &wanted);
}

/* A column, and what is asked of it. The offsets are there in both sizes. */
struct column {
    struct bytes data, domain;
    uint64_t *offsets;
    uint32_t *small;
    size_t rows, begin;
    uint32_t kind, options;
    struct sdtool_creation creation;
};

/* Kinds behind those of enum sdtool_conversion_kind. */
enum {
    DERIVE = SDTOOL_CONVERT_NORMALIZE + 1,
    CHECK
};

static const uint8_t everyone[] = {1, 1, 0, 0, 0, 0, 0, 1, 0, 0, 0, 0};
static const uint8_t system_sid[] = {1, 1, 0, 0, 0, 0, 0, 5, 18, 0, 0, 0};

/* What is lent to a call, each block of exactly its size, and filled with UNUSED_BYTE. */
struct lent {
    uint8_t *out;
    uint64_t *offsets;
    uint32_t *small;
    struct sdtool_outcome *outcomes;
    size_t size, offset_count, outcome_count;
};

static void *filled(size_t size)
{
    uint8_t *cells = block(size);

    if (size != 0)
        memset(cells, UNUSED_BYTE, size);
    return cells;
}

static struct lent lend(size_t size, size_t offset_count, size_t outcome_count)
{
    return (struct lent){filled(size),
                         filled(offset_count * sizeof(uint64_t)),
                         filled(offset_count * sizeof(uint32_t)),
                         filled(outcome_count * sizeof(struct sdtool_outcome)),
                         size,
                         offset_count,
                         outcome_count};
}

static void give_back_lent(struct lent *lent)
{
    release(lent->out, lent->size);
    release((uint8_t *)lent->offsets, lent->offset_count * sizeof *lent->offsets);
    release((uint8_t *)lent->small, lent->offset_count * sizeof *lent->small);
    release((uint8_t *)lent->outcomes, lent->outcome_count * sizeof *lent->outcomes);
}

/* Derives from a row on. */
static struct sdtool_outcome derive(const struct column *c, size_t first, bool is_large, struct lent *lent)
{
    struct sdtool_bytes data = {c->data.cells, c->data.size};
    size_t count = c->rows + 1 - first;

    if (is_large) {
        struct sdtool_large_derivation asked = {{data, c->offsets + first, count}, c->creation, c->begin};
        return sdtool_derive_many_large(&asked, lent->out, lent->size, lent->offsets + first,
                                        lent->offset_count - first, lent->outcomes + first,
                                        lent->outcome_count - first);
    }
    struct sdtool_derivation asked = {{data, c->small + first, count}, c->creation, c->begin};
    return sdtool_derive_many(&asked, lent->out, lent->size, lent->small + first, lent->offset_count - first,
                              lent->outcomes + first, lent->outcome_count - first);
}

/* Converts from a row on, with offsets of 64 bits or of 32. */
static struct sdtool_outcome convert(const struct column *c, size_t first, bool is_large, struct lent *lent)
{
    struct sdtool_bytes data = {c->data.cells, c->data.size}, domain = {c->domain.cells, c->domain.size};
    size_t count = c->rows + 1 - first;

    if (c->kind == DERIVE)
        return derive(c, first, is_large, lent);
    if (is_large) {
        struct sdtool_large_conversion asked = {data, c->offsets + first, count, domain, c->begin, c->kind, c->options};
        return sdtool_convert_many_large(&asked, lent->out, lent->size, lent->offsets + first,
                                         lent->offset_count - first, lent->outcomes + first,
                                         lent->outcome_count - first);
    }
    struct sdtool_conversion asked = {data, c->small + first, count, domain, c->begin, c->kind, c->options};
    return sdtool_convert_many(&asked, lent->out, lent->size, lent->small + first, lent->offset_count - first,
                               lent->outcomes + first, lent->outcome_count - first);
}

static uint64_t offset_at(const struct lent *lent, bool is_large, size_t place)
{
    return is_large ? lent->offsets[place] : lent->small[place];
}

/* Whether nothing is written from these places on. */
static bool is_untouched(const struct lent *lent, bool is_large, size_t offset, size_t outcome)
{
    const uint8_t *offsets = is_large ? (uint8_t *)(lent->offsets + offset) : (uint8_t *)(lent->small + offset);
    size_t size = (lent->offset_count - offset) * (is_large ? sizeof *lent->offsets : sizeof *lent->small);

    for (size_t i = 0; i < size; i++)
        if (offsets[i] != UNUSED_BYTE)
            return false;
    for (size_t i = 0; i < (lent->outcome_count - outcome) * sizeof *lent->outcomes; i++)
        if (((uint8_t *)(lent->outcomes + outcome))[i] != UNUSED_BYTE)
            return false;
    return true;
}

static bool is_row(const struct column *c, size_t row)
{
    return c->offsets[row] <= c->offsets[row + 1] && c->offsets[row + 1] <= c->data.size;
}

static struct sdtool_outcome derive_one(const struct column *c, const uint8_t *parent, size_t parent_size, uint8_t *out,
                                        size_t size)
{
    const struct sdtool_creation *made = &c->creation;

    return sdtool_derive(parent, parent_size, made->creator.bytes, made->creator.size, made->owner.bytes,
                         made->owner.size, made->group.bytes, made->group.size, made->kind, made->mapping, out, size);
}

/* The call for a row by itself. */
static struct sdtool_outcome convert_one(const struct column *c, size_t row, uint8_t *out, size_t size)
{
    uint64_t from = c->offsets[row], to = c->offsets[row + 1];

    if (!is_row(c, row))
        return (struct sdtool_outcome){.fault = SDTOOL_ARGUMENT, .argument = SDTOOL_ARGUMENT_OFFSETS};
    if (c->kind == DERIVE)
        return derive_one(c, c->data.cells + from, to - from, out, size);
    if (c->kind == SDTOOL_CONVERT_TO_SDDL)
        return sdtool_to_sddl(c->data.cells + from, to - from, c->domain.cells, c->domain.size,
                              c->options == SDTOOL_NUMERIC, out, size);
    if (c->kind == SDTOOL_CONVERT_FROM_SDDL)
        return sdtool_from_sddl(c->data.cells + from, to - from, c->domain.cells, c->domain.size, out, size);
    return sdtool_normalize(c->data.cells + from, to - from, out, size);
}

static uint8_t alone[SDTOOL_MOST_TEXT];

/* The rows up to this one are answered as by themselves. */
static void compare(const struct column *c, const struct lent *lent, bool is_large, size_t begin, size_t count)
{
    uint64_t at = begin;

    expect(offset_at(lent, is_large, 0) == begin, "the first offset");
    for (size_t row = 0; row < count; row++) {
        struct sdtool_outcome one = convert_one(c, row, alone, sizeof alone);
        uint64_t end = offset_at(lent, is_large, row + 1);

        expect(is_same(&one, &lent->outcomes[row]), "the outcome of a row is another than that of a single call");
        expect(end == at + one.length && (one.length == 0 || memcmp(lent->out + at, alone, one.length) == 0),
               "the answer of a row is another than that of a single call");
        at = end;
    }
}

static size_t whole_size(const struct column *c)
{
    size_t size = 0;

    for (size_t row = 0; row < c->rows; row++)
        size += convert_one(c, row, alone, sizeof alone).length;
    return size;
}

/* The rows in one piece, behind BEGIN bytes that are left as they are. */
static void convert_whole(struct column *c, bool is_large, size_t size, size_t begin)
{
    struct lent lent = lend(begin + size, c->rows + 1, c->rows);

    c->begin = begin;
    struct sdtool_outcome o = convert(c, 0, is_large, &lent);
    expect(is_outcome(&o, SDTOOL_OK, 0, 0, begin + size), "the outcome of all rows");
    compare(c, &lent, is_large, begin, c->rows);
    for (size_t i = 0; i < begin; i++)
        expect(lent.out[i] == UNUSED_BYTE, "a byte before the first answer");
    c->begin = 0;
    give_back_lent(&lent);
}

/* The rows in pieces: the output grows where the next answer has no room. */
static void convert_in_pieces(struct column *c, bool is_large, size_t size)
{
    struct lent lent = lend(size, c->rows + 1, c->rows);
    size_t first = 0, whole = lent.size;

    lent.size = size / 7;
    c->begin = 0;
    for (size_t turns = 0;; turns++) {
        struct sdtool_outcome o = convert(c, first, is_large, &lent);

        if (o.fault != SDTOOL_TOO_SMALL) {
            expect(is_outcome(&o, SDTOOL_OK, 0, 0, size), "the outcome of the last piece");
            break;
        }
        if (lent.size == whole || turns == c->rows) {
            complain("a row that has no room in all");
            break;
        }
        first += o.entry;
        c->begin = offset_at(&lent, is_large, first);
        expect(c->begin <= lent.size && c->begin + o.length > lent.size, "a row that has room");
        lent.size = c->begin + o.length > whole / 2 ? whole : c->begin + o.length;
    }
    lent.size = whole;
    compare(c, &lent, is_large, 0, c->rows);
    c->begin = 0;
    give_back_lent(&lent);
}

/* Outputs of each size: the rows before the first one that has no room are answered, and no other. */
static void small(struct column *c, bool is_large)
{
    size_t whole = whole_size(c);

    for (size_t size = 0; size <= whole; size++) {
        struct lent lent = lend(size, c->rows + 1, c->rows);
        struct sdtool_outcome o = convert(c, 0, is_large, &lent);
        size_t fitting = 0, end = 0, next = 0;

        for (; fitting < c->rows; fitting++) {
            next = convert_one(c, fitting, alone, sizeof alone).length;
            if (end + next > size)
                break;
            end += next;
        }
        if (fitting == c->rows)
            expect(is_outcome(&o, SDTOOL_OK, 0, 0, whole), "an output that is large enough");
        else
            expect(is_outcome(&o, SDTOOL_TOO_SMALL, 0, fitting, next), "an output that is too small");
        compare(c, &lent, is_large, 0, fitting);
        expect(is_untouched(&lent, is_large, fitting + 1, fitting), "something behind the rows that are answered");
        give_back_lent(&lent);
    }
}

/* A call that is refused, with room that is left as it was. */
static void refuse(const struct column *c, size_t size, size_t offset_count, size_t outcome_count, uint32_t fault,
                   uint32_t argument)
{
    for (int is_large = 0; is_large < 2; is_large++) {
        struct lent lent = lend(size, offset_count, outcome_count);
        long left = allocations_left;
        struct sdtool_outcome o = convert(c, 0, is_large, &lent);

        allocations_left = left;
        expect(is_outcome(&o, fault, argument, 0, 0), "a call that has to be refused");
        expect(is_untouched(&lent, is_large, 0, 0), "something that is written beside a refusal");
        for (size_t i = 0; i < size; i++)
            expect(lent.out[i] == UNUSED_BYTE, "a byte that is written beside a refusal");
        give_back_lent(&lent);
    }
}

/* What all new descriptors have in common is refused in this order, the last one first. */
static void refuse_creations(struct column *c)
{
    static const struct sdtool_bytes none = {everyone, 1};

    c->creation.creator = none;
    refuse(c, 0, 0, 0, SDTOOL_ARGUMENT, SDTOOL_ARGUMENT_CREATOR);
    c->creation.group = none;
    refuse(c, 0, 0, 0, SDTOOL_ARGUMENT, SDTOOL_ARGUMENT_GROUP);
    c->creation.owner = none;
    refuse(c, 0, 0, 0, SDTOOL_ARGUMENT, SDTOOL_ARGUMENT_OWNER);
    c->creation.mapping = 3;
    refuse(c, 0, 0, 0, SDTOOL_ARGUMENT, SDTOOL_ARGUMENT_MAPPING);
    c->creation.kind = 2;
    refuse(c, 0, 0, 0, SDTOOL_ARGUMENT, SDTOOL_ARGUMENT_KIND);
}

static void refuse_conversions(struct column *c)
{
    uint8_t none[1] = {1};

    c->domain = (struct bytes){none, 1};
    refuse(c, 0, 0, 0, SDTOOL_ARGUMENT, SDTOOL_ARGUMENT_DOMAIN);
    c->options = 2;
    refuse(c, 0, 0, 0, SDTOOL_ARGUMENT, SDTOOL_ARGUMENT_OPTIONS);
    c->kind = 5;
    refuse(c, 0, 0, 0, SDTOOL_ARGUMENT, SDTOOL_ARGUMENT_CONVERSION);
}

static void refusals(const struct column *column)
{
    struct column c = *column;
    size_t n = c.rows;

    /* Without memory each other refusal comes first. */
    for (int without = 0; without < 2; without++) {
        allocations_left = without ? 0 : -1;
        c.begin = 101;
        refuse(&c, 100, n + 1, n, SDTOOL_ARGUMENT, SDTOOL_ARGUMENT_OFFSETS);
        c.begin = 0;
        refuse(&c, 100, n, n, SDTOOL_ARGUMENT, SDTOOL_ARGUMENT_OFFSETS);
        refuse(&c, 100, n + 1, n - 1, SDTOOL_ARGUMENT, SDTOOL_ARGUMENT_OFFSETS);
        c.rows = SIZE_MAX; /* no offset */
        refuse(&c, 100, 1, 1, SDTOOL_ARGUMENT, SDTOOL_ARGUMENT_OFFSETS);
        c.rows = n;
        (c.kind == DERIVE ? refuse_creations : refuse_conversions)(&c);
        c = *column;
    }
    if (CAN_REFUSE) {
        allocations_left = 0;
        refuse(&c, 100, n + 1, n, SDTOOL_NO_MEMORY, 0);
    }
    allocations_left = -1;
    allocations = 0;
    allocated = 0;
    convert_whole(&c, true, whole_size(&c), 0);
    /* The calls for single rows, of which there are two each, allocate as much. */
    expect(!CAN_REFUSE
               || allocated <= 131226 * (1 + (c.kind == SDTOOL_CONVERT_FROM_SDDL || c.kind == DERIVE ? 2 * n : 0)),
           "the memory of a call");
    /* A column without rows. */
    c.rows = 0;
    convert_whole(&c, false, 0, 0);
    convert_whole(&c, true, 0, 3);
}

/* Checks. */

static const uint8_t entries[] = {SDTOOL_ENABLED, SDTOOL_ENABLED};
static const struct sdtool_request request = {{SDTOOL_MAPPING_FILE, 0, 0}, 0, SDTOOL_MAXIMUM};

static uint8_t sids[sizeof everyone + sizeof system_sid];

static struct sdtool_outcome check(const struct column *c, bool is_large, size_t sids_size,
                                   struct sdtool_verdict *verdicts, size_t room)
{
    struct sdtool_bytes data = {c->data.cells, c->data.size}, none = {NULL, 0};
    struct sdtool_column_check small = {
        {data, c->small, c->rows + 1}, {sids, sids_size}, {entries, 2}, none, none, request};
    struct sdtool_large_column_check large = {
        {data, c->offsets, c->rows + 1}, {sids, sids_size}, {entries, 2}, none, none, request};

    return is_large ? sdtool_check_column_large(&large, verdicts, room) : sdtool_check_column(&small, verdicts, room);
}

static struct sdtool_verdict check_one(const struct column *c, size_t row)
{
    if (!is_row(c, row))
        return (struct sdtool_verdict){.outcome = {.fault = SDTOOL_ARGUMENT, .argument = SDTOOL_ARGUMENT_OFFSETS}};
    return sdtool_check(c->data.cells + c->offsets[row], c->offsets[row + 1] - c->offsets[row], sids, sizeof sids,
                        entries, 2, NULL, 0, NULL, 0, &request);
}

/* Checks that tell this, with room for so many verdicts, of which the first ones are those of single calls. */
static void check_rows(const struct column *c, size_t sids_size, size_t room, size_t answered,
                       struct sdtool_outcome told)
{
    for (int is_large = 0; is_large < 2; is_large++) {
        size_t size = room * sizeof(struct sdtool_verdict);
        struct sdtool_verdict *verdicts = filled(size);
        long left = allocations_left;
        struct sdtool_outcome o = check(c, is_large, sids_size, verdicts, room);

        allocations_left = left;
        expect(is_same(&o, &told), "the outcome of checks");
        for (size_t row = 0; row < answered; row++) {
            struct sdtool_verdict one = check_one(c, row);
            expect(is_same(&one.outcome, &verdicts[row].outcome) && one.mask == verdicts[row].mask
                       && one.granted == verdicts[row].granted,
                   "the verdict on a row is another than that of a single call");
        }
        for (size_t i = answered * sizeof *verdicts; i < size; i++)
            expect(((uint8_t *)verdicts)[i] == UNUSED_BYTE, "something behind the verdicts");
        release((uint8_t *)verdicts, size);
    }
}

static void refuse_checks(struct column *c)
{
    size_t n = c->rows, all = sizeof sids;
    struct sdtool_outcome of_sids = {.fault = SDTOOL_ARGUMENT, .argument = SDTOOL_ARGUMENT_SIDS, .entry = 1};
    struct sdtool_outcome of_offsets = {.fault = SDTOOL_ARGUMENT, .argument = SDTOOL_ARGUMENT_OFFSETS};

    /* Without memory each other refusal comes first. */
    for (int without = 0; without < 2; without++) {
        allocations_left = without ? 0 : -1;
        check_rows(c, all - 1, n, 0, of_sids);
        for (size_t room = 0; room < n; room++)
            check_rows(c, all - 1, room, 0, (struct sdtool_outcome){.fault = SDTOOL_TOO_SMALL, .length = n});
        c->rows = SIZE_MAX; /* no offset */
        check_rows(c, all - 1, 1, 0, of_offsets);
        c->rows = n;
    }
    for (int is_large = 0; CAN_REFUSE && is_large < 2; is_large++) {
        struct sdtool_verdict verdict;
        size_t rows = c->rows;

        c->rows = 1;
        allocations_left = 0;
        struct sdtool_outcome o = check(c, is_large, all, &verdict, 1);
        expect(is_outcome(&o, SDTOOL_NO_MEMORY, 0, 0, 0), "checks without memory");
        c->rows = rows;
    }
    allocations_left = -1;
    check_rows(c, all, n + 2, n, (struct sdtool_outcome){.length = n});
    c->rows = 0;
    check_rows(c, all, 0, 0, (struct sdtool_outcome){0});
    check_rows(c, all, 1, 0, (struct sdtool_outcome){0});
    c->rows = n;
}

/* Offsets of which many lie. What they reach beyond the data is a page that cannot be touched, with a guard. */
static void lies(struct column *c)
{
    uint32_t state = 12345;

    for (size_t i = 0; i <= c->rows; i++) {
        state = state * 1664525 + 1013904223;
        switch (state >> 28) {
        case 0:
            c->offsets[i] = state % 7 == 0 ? UINT64_MAX : UINT64_MAX - (state & 0xffff);
            break;
        case 1:
            c->offsets[i] = c->data.size + 1 + (state & 3);
            break;
        case 2:
            c->offsets[i] = (state >> 4) % (c->data.size + 1);
            break;
        case 3:
            c->offsets[i] = 0x80000000u + (state & 0xff);
            break;
        case 4:
            c->offsets[i] = (uint64_t)1 << 32 | (c->offsets[i] & 0xffff);
            break;
        default:
            break;
        }
    }
}

static void make_small(struct column *c)
{
    for (size_t i = 0; i <= c->rows; i++)
        c->small[i] = c->offsets[i] > UINT32_MAX ? UINT32_MAX : (uint32_t)c->offsets[i];
}

static void print_answers(const struct column *c)
{
    for (size_t row = 0; row < c->rows; row++) {
        struct sdtool_outcome o = convert_one(c, row, alone, sizeof alone);

        if (o.fault != SDTOOL_OK)
            print_outcome(&o);
        else if (c->kind == SDTOOL_CONVERT_TO_SDDL)
            printf("%.*s\n", (int)o.length, (const char *)alone);
        else
            print_hex(alone, o.length);
    }
}

/* The lines of standard input as a column. */
static struct column read_column(bool is_hex)
{
    struct column c = {0};
    size_t room = 0, most = 1 << 12, line_room = 0;
    uint8_t *data = NULL;
    char *line = NULL;
    ptrdiff_t length;

    c.offsets = room_for(most, sizeof *c.offsets);
    while ((length = getline(&line, &line_room, stdin)) > 0) {
        size_t size = (size_t)length - (line[length - 1] == '\n');
        size_t at = c.offsets[c.rows];

        if (at + size + 1 > room && (data = realloc(data, room = 2 * (at + size) + 64)) == NULL)
            abort();
        if (is_hex)
            spell(data + at, line, size / 2);
        else
            memcpy(data + at, line, size);
        if (c.rows + 2 > most && (c.offsets = realloc(c.offsets, (most *= 2) * sizeof *c.offsets)) == NULL)
            abort();
        c.rows++;
        c.offsets[c.rows] = at + (is_hex ? size / 2 : size);
    }
    c.data.size = c.offsets[c.rows];
    c.data.cells = block(c.data.size);
    if (c.data.size != 0)
        memcpy(c.data.cells, data, c.data.size);
    seal(c.data.cells, c.data.size);
    c.small = room_for(c.rows + 1, sizeof *c.small);
    free(data);
    free(line);
    return c;
}

int main(int argc, char **argv)
{
    static const char *const kinds[] = {"to_sddl", "from_sddl", "normalize", "derive", "check"};
    uint32_t kind = 0;

    if (argc < 4)
        return 2;
    read_environment();
    job = argv[1];
    while (kind < CHECK && strcmp(kinds[kind], argv[2]) != 0)
        kind++;
    struct column c = read_column(kind != SDTOOL_CONVERT_FROM_SDDL);
    c.kind = kind;
    c.options = argc > 4 ? SDTOOL_NUMERIC : 0;
    c.domain = spelled(argv[3]);
    c.creation = (struct sdtool_creation){{c.domain.cells, c.domain.size},
                                          {everyone, sizeof everyone},
                                          {system_sid, sizeof system_sid},
                                          c.options == SDTOOL_NUMERIC ? SDTOOL_KIND_CONTAINER : SDTOOL_KIND_FILE,
                                          SDTOOL_MAPPING_FILE};
    memcpy(sids, everyone, sizeof everyone);
    memcpy(sids + sizeof everyone, system_sid, sizeof system_sid);
    if (strcmp(job, "lies") == 0)
        lies(&c);
    make_small(&c);
    if (kind == CHECK) {
        if (strcmp(job, "refused") == 0)
            refuse_checks(&c);
        else
            check_rows(&c, sizeof sids, c.rows, c.rows, (struct sdtool_outcome){.length = c.rows});
    } else if (strcmp(job, "refused") == 0) {
        refusals(&c);
    } else if (strcmp(job, "small") == 0) {
        small(&c, false);
        small(&c, true);
    } else {
        size_t whole = whole_size(&c);

        for (int is_large = 0; is_large < 2; is_large++) {
            convert_whole(&c, is_large, whole, 0);
            convert_whole(&c, is_large, whole, 41);
            convert_in_pieces(&c, is_large, whole);
        }
        if (strcmp(job, "print") == 0)
            print_answers(&c);
    }
    release(c.domain.cells, c.domain.size);
    release(c.data.cells, c.data.size);
    free(c.offsets);
    free(c.small);
    return wrong;
}
