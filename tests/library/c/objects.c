/*
 * objects JOB [WORD..]
 *
 * Makes the calls for SIDs, parts, ACEs, many checks, tokens and building, one for each line of standard input, and
 * prints what they answer. Bytes are hex digits, and - is no byte. A fault is 'error NUMBER PART PART', that of an
 * argument 'error 70 ARGUMENT ENTRY'.
 *
 *   parts                   of a descriptor: control word, resource manager byte, owner, group, and each ACL with its
 *                           ACEs, as 'explain --numeric' has them, but types and flags as numbers and no rights; then
 *                           the layout of the descriptor that is built of these
 *   walk                    of an ACL: its ACEs, and 'end' or the fault; then it walks on while the ACL changes
 *   from_text DOMAIN        of a text: the SID
 *   to_text DOMAIN [numeric]  of a SID: its text
 *   size                    of bytes: the size of the SID at their front
 *   many SIDS ENTRIES OBJECT SELF WANTED MAPPING FLAGS LEVEL
 *                           the verdicts on all lines at once; the last four words are as for calls.c
 *   with, and words as for many
 *                           the verdicts on the lines, by a token that is read once; then threads share it
 *   arguments, large        read no line and print nothing: their cases are below
 *
 * Each call that has an output is made again with outputs of each size that is too small. What goes wrong is printed
 * to standard error, and the status is then 1. memory.h says what the environment asks for.
 */
#include <stdio.h>
#include <stdlib.h>
#include <string.h>
#include <time.h>

#include "refusals.h"

enum {
    MOST_STEPS = 700,
    LARGEST_ACL = 65535,
    LONG_SID = 68,
    GUID_SIZE = 16,
    LONGEST_TEXT = 200
};

static bool is_outcome(const struct sdtool_outcome *o, uint32_t fault, uint32_t part, uint32_t argument, size_t entry,
                       size_t length)
{
    return o->fault == fault && o->part == part && o->other_part == 0 && o->argument == argument && o->entry == entry
           && o->length == length;
}

/* A call that has an output, and what it is made with. */
struct call {
    struct sdtool_outcome (*make)(const struct call *call, uint8_t *out, size_t size);
    struct bytes in, domain;
    bool numeric;
    const struct sdtool_new_descriptor *descriptor;
};

/* None of these calls allocates memory. */
static struct sdtool_outcome make(const struct call *call, uint8_t *out, size_t size)
{
    long before = allocations;
    struct sdtool_outcome o = call->make(call, out, size);

    expect(allocations == before, "a call that allocates");
    return o;
}

static void try_size(const struct call *call, const struct bytes *answer, size_t size)
{
    uint8_t *cells = block(size);
    struct sdtool_outcome o = make(call, cells, size);

    if (size < answer->size)
        expect(is_outcome(&o, SDTOOL_TOO_SMALL, 0, 0, 0, answer->size), "an output that is too small");
    else
        expect(is_outcome(&o, SDTOOL_OK, 0, 0, 0, answer->size) && memcmp(cells, answer->cells, answer->size) == 0,
               "an output that is large enough");
    release(cells, size);
}

/* The answer to a call, for which there are so many bytes, and its outcome. */
static struct bytes answer_to(const struct call *call, size_t most, struct sdtool_outcome *o)
{
    uint8_t *cells = block(most);
    struct bytes answer = {NULL, 0};

    *o = make(call, cells, most);
    if (o->fault == SDTOOL_OK) {
        size_t step = o->length <= MOST_STEPS ? 1 : o->length / 7;

        answer.size = o->length;
        answer.cells = room_for(o->length, 1);
        memcpy(answer.cells, cells, o->length);
        for (size_t size = 0; size <= o->length; size += step)
            try_size(call, &answer, size);
        try_size(call, &answer, o->length - 1);
        try_size(call, &answer, o->length);
        try_size(call, &answer, o->length + 1);
    } else {
        struct sdtool_outcome none = make(call, NULL, 0);

        expect(is_outcome(&none, o->fault, o->part, o->argument, o->entry, 0), "a fault without an output");
    }
    release(cells, most);
    return answer;
}

static struct sdtool_outcome make_from_text(const struct call *call, uint8_t *out, size_t size)
{
    return sdtool_sid_from_text(call->in.cells, call->in.size, call->domain.cells, call->domain.size, out, size);
}

static struct sdtool_outcome make_to_text(const struct call *call, uint8_t *out, size_t size)
{
    return sdtool_sid_to_text(call->in.cells, call->in.size, call->domain.cells, call->domain.size, call->numeric, out,
                              size);
}

static struct sdtool_outcome make_build(const struct call *call, uint8_t *out, size_t size)
{
    return sdtool_build(call->descriptor, out, size);
}

static void print_sid(const char *label, const uint8_t *bytes, const struct sdtool_place *place)
{
    uint8_t text[SDTOOL_MOST_SID_TEXT];
    struct sdtool_outcome o = sdtool_sid_to_text(bytes + place->offset, place->size, NULL, 0, true, text, sizeof text);

    expect(o.fault == SDTOOL_OK && sdtool_sid_size(bytes + place->offset, place->size) == place->size, "a SID");
    printf("%s %.*s\n", label, (int)o.length, (const char *)text);
}

/* The first three fields of a GUID have their low byte first. */
static void print_guid(const char *label, const uint8_t *bytes, const struct sdtool_place *place)
{
    static const int order[GUID_SIZE] = {3, 2, 1, 0, 5, 4, 7, 6, 8, 9, 10, 11, 12, 13, 14, 15};

    if (place->size == 0)
        return;
    printf(" %s ", label);
    for (int i = 0; i < GUID_SIZE; i++)
        printf("%s%02x", i == 4 || i == 6 || i == 8 || i == 10 ? "-" : "", bytes[place->offset + (size_t)order[i]]);
}

static void print_ace(const char *name, const uint8_t *acl, const struct sdtool_ace *ace)
{
    printf("%s %" PRIu32 " %u flags %u mask 0x%08" PRIx32, name, ace->number, ace->kind, ace->flags, ace->mask);
    print_guid("object", acl, &ace->object_type);
    print_guid("inherited", acl, &ace->inherited_object_type);
    print_sid(" sid", acl, &ace->sid);
}

static bool is_none(const struct sdtool_place *place)
{
    return place->offset == 0 && place->size == 0;
}

static bool is_within(const struct sdtool_place *inner, const struct sdtool_place *outer)
{
    return inner->offset >= outer->offset && inner->size <= outer->size
           && inner->offset - outer->offset <= outer->size - inner->size;
}

static bool is_guid_of(const struct sdtool_place *guid, const struct sdtool_ace *ace)
{
    return is_none(guid) || (guid->size == GUID_SIZE && is_within(guid, &ace->place));
}

/* Whether an ACE lies in its ACL, with its parts in it. */
static bool is_whole(const struct sdtool_ace *ace, size_t acl_size)
{
    struct sdtool_place acl = {0, acl_size};

    return ace->fault == SDTOOL_OK && ace->place.size >= 16 && is_within(&ace->place, &acl) && !is_none(&ace->sid)
           && is_within(&ace->sid, &ace->place) && is_guid_of(&ace->object_type, ace)
           && is_guid_of(&ace->inherited_object_type, ace);
}

static struct sdtool_bytes bytes_at(const uint8_t *bytes, const struct sdtool_place *place)
{
    struct sdtool_bytes found = {place->size == 0 ? NULL : bytes + place->offset, place->size};

    return found;
}

static struct sdtool_new_ace new_ace(const uint8_t *acl, const struct sdtool_ace *ace)
{
    struct sdtool_new_ace made = {bytes_at(acl, &ace->sid),
                                  bytes_at(acl, &ace->object_type),
                                  bytes_at(acl, &ace->inherited_object_type),
                                  ace->mask,
                                  ace->kind,
                                  ace->flags};

    return made;
}

static bool next(const uint8_t *acl, size_t size, struct sdtool_ace *ace)
{
    struct sdtool_ace last = *ace;
    long before = allocations;
    bool is_there = sdtool_next_ace(acl, size, ace);

    expect(allocations == before, "a step that allocates");
    if (is_there)
        expect(ace->number == last.number + 1 && is_whole(ace, size), "an ACE that is not whole");
    else
        expect(ace->number == last.number && ace->place.offset == last.place.offset
                   && ace->place.size == last.place.size,
               "a walk that ends has gone on");
    return is_there;
}

/* Walks to the end, prints each ACE, and keeps it where there is room. Returns the fault that ends the walk. */
static uint32_t walk(const char *name, const uint8_t *acl, size_t size, struct sdtool_new_ace *kept, uint32_t *count)
{
    struct sdtool_ace ace = {0};
    size_t at = 8;
    uint32_t fault;

    while (next(acl, size, &ace)) {
        expect(ace.place.offset == at, "an ACE that is not behind the last one");
        at = ace.place.offset + ace.place.size;
        print_ace(name, acl, &ace);
        if (kept != NULL && ace.number <= *count)
            kept[ace.number - 1] = new_ace(acl, &ace);
    }
    fault = ace.fault;
    expect(!next(acl, size, &ace) && ace.fault == fault, "a walk that has ended goes on");
    *count = ace.number;
    return fault;
}

/* Prints an ACL of a descriptor, and gives what it is built of. */
static struct sdtool_new_acl print_acl(const char *name, const struct bytes *in, const struct sdtool_acl_place *acl)
{
    struct sdtool_new_acl made = {NULL, 0, acl->state};
    struct sdtool_place whole = {0, in->size};
    uint32_t count = acl->ace_count;

    if (acl->state != SDTOOL_ACL_LIST) {
        expect(acl->state <= SDTOOL_ACL_NULL && count == 0 && is_none(&acl->place), "an ACL that is no list");
        printf("%s %s\n", name, acl->state == SDTOOL_ACL_NULL ? "null" : "absent");
        return made;
    }
    expect(acl->place.size >= 8 && is_within(&acl->place, &whole), "the place of an ACL");
    printf("%s list %" PRIu32 "\n", name, count);
    struct sdtool_new_ace *kept = room_for(count, sizeof *kept);
    expect(walk(name, in->cells + acl->place.offset, acl->place.size, kept, &count) == SDTOOL_OK,
           "a walk through an ACL of a descriptor ends with a fault");
    expect(count == acl->ace_count, "the number of ACEs");
    made.aces = kept;
    made.ace_count = count;
    return made;
}

static void print_part(const char *name, const struct bytes *in, const struct sdtool_place *place)
{
    struct sdtool_place whole = {0, in->size};

    if (is_none(place)) {
        printf("%s none\n", name);
        return;
    }
    expect(is_within(place, &whole), "the place of a SID");
    print_sid(name, in->cells, place);
}

/* Prints what is built of the parts. It has to be the same whatever the three bits of the control word are. */
static void build(const struct sdtool_new_descriptor *descriptor)
{
    struct sdtool_new_descriptor other = *descriptor;
    struct call call = {.make = make_build, .descriptor = descriptor};
    struct sdtool_outcome o;
    struct bytes answer = answer_to(&call, SDTOOL_MOST_BYTES, &o);

    expect(o.fault == SDTOOL_OK, "parts that can't be built");
    print_hex(answer.cells, answer.size);
    other.control ^= 0x8014;
    call.descriptor = &other;
    try_size(&call, &answer, answer.size);
    free(answer.cells);
}

/* The place of the fault that the parts have. */
static void fault_place(const struct bytes *in, const struct sdtool_contents *contents)
{
    long before = allocations;
    struct sdtool_fault_place found = sdtool_place(in->cells, in->size);
    const struct sdtool_outcome *outcome = &contents->outcome;
    bool is_told = outcome->fault != SDTOOL_OK && outcome->fault != SDTOOL_FAULT_TOO_LONG;

    expect(allocations == before, "sdtool_place allocates");
    expect(found.fault == (is_told ? outcome->fault : SDTOOL_OK), "the place of another fault");
    expect(found.place.offset <= in->size && found.place.size <= in->size - found.place.offset,
           "a place past the bytes");
    expect(found.part
               == (outcome->other_part != SDTOOL_NO_PART ? outcome->other_part
                   : is_told                             ? outcome->part
                                                         : 0),
           "a place in another part");
    expect(is_told || (found.ace == SDTOOL_NO_ACE && found.field == SDTOOL_NO_FIELD && is_none(&found.place)),
           "a place without a fault");
}

static void parts(const struct bytes *in)
{
    long before = allocations;
    struct sdtool_contents contents = sdtool_parts(in->cells, in->size);

    expect(allocations == before, "sdtool_parts allocates");
    fault_place(in, &contents);
    if (contents.outcome.fault != SDTOOL_OK) {
        print_fault(contents.outcome.fault, contents.outcome.part, contents.outcome.other_part);
        expect(contents.outcome.argument == 0 && contents.outcome.entry == 0 && contents.outcome.length == 0,
               "more than a fault of a descriptor");
        expect(contents.control == 0 && contents.resource_manager == 0 && is_none(&contents.owner)
                   && is_none(&contents.group) && is_none(&contents.sacl.place) && is_none(&contents.dacl.place)
                   && contents.sacl.state == 0 && contents.dacl.state == 0 && contents.sacl.ace_count == 0
                   && contents.dacl.ace_count == 0,
               "parts beside a fault");
        return;
    }
    expect(is_outcome(&contents.outcome, SDTOOL_OK, 0, 0, 0, 0), "the outcome of parts");
    printf("control 0x%04x\nrm 0x%02x\n", contents.control, contents.resource_manager);
    print_part("owner", in, &contents.owner);
    print_part("group", in, &contents.group);
    struct sdtool_new_acl dacl = print_acl("dacl", in, &contents.dacl), sacl = print_acl("sacl", in, &contents.sacl);
    struct sdtool_new_descriptor made = {bytes_at(in->cells, &contents.owner),
                                         bytes_at(in->cells, &contents.group),
                                         sacl,
                                         dacl,
                                         contents.control,
                                         contents.resource_manager};
    puts("end");
    build(&made);
    free((void *)dacl.aces);
    free((void *)sacl.aces);
}

/* The numbers of a simple generator, the same in each run. */
static uint32_t any_number(void)
{
    static uint64_t state = 29;

    state = state * 6364136223846793005u + 1442695040888963407u;
    return (uint32_t)(state >> 33);
}

/* Walks while bytes of the ACL change and its end moves forward. Each ACE is whole, and the walk ends. */
static void walk_while_it_changes(const struct bytes *in)
{
    for (int round = 0; round < 8; round++) {
        struct sdtool_ace ace = {0};
        size_t size = in->size, steps = 0;
        uint8_t *cells = block(size);

        if (size != 0)
            memcpy(cells, in->cells, size);
        while (sdtool_next_ace(cells, size, &ace)) {
            expect(is_whole(&ace, size), "an ACE of a changed ACL that is not whole");
            /* The count of an ACL is at most 65,535. */
            if (++steps > LARGEST_ACL)
                break;
            if (round % 2 == 0)
                cells[any_number() % size] = (uint8_t)any_number();
            else
                cells[2] = cells[2] > 16 ? (uint8_t)(cells[2] - 4) : cells[2];
        }
        expect(steps <= LARGEST_ACL, "a walk without an end");
        release(cells, in->size);
    }
}

/* Each front of an ACL, in a block of its size. */
static void walk_fronts(const struct bytes *in)
{
    for (size_t size = 0; size < in->size && size < MOST_STEPS; size++) {
        struct bytes front = copied(in->cells, size);
        struct sdtool_ace ace = {0};

        while (next(front.cells, size, &ace))
            ;
        expect(ace.fault == SDTOOL_OK || (ace.fault >= SDTOOL_FAULT_SID && ace.fault <= SDTOOL_FAULT_ACE_FLAGS),
               "the fault of a front");
        release(front.cells, size);
    }
}

/* Steps from places that no walk has left: nothing outside the ACL is read. */
static void step_from_anywhere(const struct bytes *in)
{
    static const size_t ends[] = {0, 1, 7, 8, 16, 65535, 65536, SIZE_MAX / 2, SIZE_MAX - 8, SIZE_MAX};
    enum {
        ENDS = sizeof ends / sizeof ends[0]
    };

    for (size_t i = 0; i < ENDS * ENDS; i++) {
        struct sdtool_ace ace = {
            .fault = any_number(), .number = any_number() % 3, .place = {ends[i % ENDS], ends[i / ENDS]}};

        if (sdtool_next_ace(in->cells, in->size, &ace))
            expect(is_whole(&ace, in->size), "an ACE from anywhere that is not whole");
    }
    struct sdtool_ace last = {.number = UINT32_MAX};
    expect(!sdtool_next_ace(in->cells, in->size, &last), "an ACE behind the last number");
}

static void walk_acl(const struct bytes *in)
{
    uint32_t count = 0, fault = walk("dacl", in->cells, in->size, NULL, &count);

    if (fault == SDTOOL_OK)
        puts("end");
    else
        print_fault(fault, 0, 0);
    walk_fronts(in);
    walk_while_it_changes(in);
    step_from_anywhere(in);
}

/* The question of many checks. */
struct question {
    struct bytes sids, entries, object, self;
    struct sdtool_request request;
};

static struct sdtool_outcome check_many(const struct question *q, const struct sdtool_bytes *descriptors, size_t count,
                                        struct sdtool_verdict *verdicts, size_t room)
{
    return sdtool_check_many(descriptors, count, q->sids.cells, q->sids.size, q->entries.cells, q->entries.size,
                             q->object.cells, q->object.size, q->self.cells, q->self.size, &q->request, verdicts, room);
}

static struct sdtool_verdict check(const struct question *q, const struct sdtool_bytes *in)
{
    return sdtool_check(in->bytes, in->size, q->sids.cells, q->sids.size, q->entries.cells, q->entries.size,
                        q->object.cells, q->object.size, q->self.cells, q->self.size, &q->request);
}

static bool are_same(const struct sdtool_verdict *a, const struct sdtool_verdict *b)
{
    return a->outcome.fault == b->outcome.fault && a->outcome.part == b->outcome.part
           && a->outcome.other_part == b->outcome.other_part && a->outcome.argument == b->outcome.argument
           && a->outcome.entry == b->outcome.entry && a->outcome.length == b->outcome.length && a->mask == b->mask
           && a->granted == b->granted;
}

/* The verdicts, with room for that many, of which none is written after a fault. */
static void try_many(const struct question *q, const struct sdtool_bytes *descriptors, size_t count, size_t room,
                     uint32_t fault, uint32_t argument, size_t entry, size_t length)
{
    struct sdtool_verdict *verdicts = (struct sdtool_verdict *)block(room * sizeof *verdicts);
    struct sdtool_outcome o;

    if (room != 0)
        memset(verdicts, UNUSED_BYTE, room * sizeof *verdicts);
    o = check_many(q, descriptors, count, verdicts, room);
    expect(is_outcome(&o, fault, 0, argument, entry, length), "the outcome of many checks");
    for (size_t i = 0; i < room; i++) {
        static uint8_t untouched[sizeof *verdicts];

        memset(untouched, UNUSED_BYTE, sizeof untouched);
        if (fault == SDTOOL_OK && i < count) {
            struct sdtool_verdict alone = check(q, &descriptors[i]);

            expect(are_same(&verdicts[i], &alone), "one of many verdicts is another than that of one check");
        } else {
            expect(memcmp(&verdicts[i], untouched, sizeof untouched) == 0, "a verdict that is written");
        }
    }
    release((uint8_t *)verdicts, room * sizeof *verdicts);
}

static void refuse_allocations(const struct question *q, const struct sdtool_bytes *descriptors, size_t count,
                               const struct question *faulty)
{
    struct sdtool_verdict *verdicts = room_for(count, sizeof *verdicts);
    long most;

    allocations = 0;
    allocated = 0;
    check_many(q, descriptors, count, verdicts, count);
    most = allocations;
    expect(most > 0 || !CAN_REFUSE, "many checks allocate nothing");
    expect(allocated < 128 << 10, "many checks allocate 128 KiB");
    for (long n = 0; n < most; n++) {
        allocations_left = n;
        try_many(q, descriptors, 0, count, SDTOOL_NO_MEMORY, 0, 0, 0);
        allocations_left = n;
        struct sdtool_outcome o = check_many(faulty, descriptors, count, verdicts, count);
        allocations_left = -1;
        expect(is_outcome(&o, SDTOOL_ARGUMENT, 0, SDTOOL_ARGUMENT_MAPPING, 0, 0),
               "a refused allocation before a wrong argument");
    }
    allocations_left = 0;
    if (count != 0 && CAN_REFUSE) {
        struct sdtool_outcome o = check_many(q, descriptors, count, verdicts, count - 1);

        expect(is_outcome(&o, SDTOOL_TOO_SMALL, 0, 0, 0, count), "too little room before a refused allocation");
    }
    allocations_left = -1;
    free(verdicts);
}

static void print_verdict(const struct sdtool_verdict *verdict)
{
    if (verdict->outcome.fault == SDTOOL_OK)
        printf("%s 0x%08" PRIx32 "\n", verdict->granted ? "granted" : "denied", verdict->mask);
    else
        print_fault(verdict->outcome.fault, verdict->outcome.part, verdict->outcome.other_part);
}

static void many(const struct question *q, const struct sdtool_bytes *descriptors, size_t count)
{
    struct sdtool_verdict *verdicts = room_for(count, sizeof *verdicts);
    struct question faulty = *q;
    struct sdtool_outcome o = check_many(q, descriptors, count, verdicts, count);
    size_t step = count < 40 ? 1 : count / 40;

    expect(is_outcome(&o, SDTOOL_OK, 0, 0, 0, count), "the outcome of all checks");
    for (size_t i = 0; i < count; i++)
        print_verdict(&verdicts[i]);
    free(verdicts);
    for (size_t room = 0; room < count; room += step)
        try_many(q, descriptors, count, room, SDTOOL_TOO_SMALL, 0, 0, count);
    try_many(q, descriptors, count, count, SDTOOL_OK, 0, 0, count);
    try_many(q, descriptors, count, count + 3, SDTOOL_OK, 0, 0, count);
    try_many(q, descriptors, 0, 2, SDTOOL_OK, 0, 0, 0);
    try_many(q, NULL, 0, 0, SDTOOL_OK, 0, 0, 0);
    faulty.request.asker.mapping = 3;
    refuse_allocations(q, descriptors, count, &faulty);
    /* Too little room comes before a wrong argument, and that before what the request asks for. */
    try_many(&faulty, descriptors, count, 0, SDTOOL_TOO_SMALL, 0, 0, count);
    faulty.request.wanted = 0;
    faulty.request.options = 0;
    try_many(&faulty, descriptors, count, count, SDTOOL_ARGUMENT, SDTOOL_ARGUMENT_MAPPING, 0, 0);
    faulty.request.asker.mapping = SDTOOL_MAPPING_KEY;
    try_many(&faulty, descriptors, count, count, SDTOOL_FAULT_EMPTY_REQUEST, 0, 0, 0);
    faulty.request.wanted = 1u << 27;
    try_many(&faulty, descriptors, count, count, SDTOOL_FAULT_RESERVED_BITS, 0, 0, 0);
}

/* Memory of exactly so many numbers. */
struct token {
    uint32_t *words;
    size_t count;
};

static struct token token_memory(size_t count)
{
    struct token token = {(uint32_t *)block(count * sizeof *token.words), count};

    if (count != 0)
        memset(token.words, UNUSED_BYTE, count * sizeof *token.words);
    return token;
}

static void forget(struct token *token)
{
    release((uint8_t *)token->words, token->count * sizeof *token->words);
}

static struct sdtool_outcome read_token(const struct question *q, struct token *token)
{
    return sdtool_token_read(q->sids.cells, q->sids.size, q->entries.cells, q->entries.size, token->words,
                             token->count);
}

static struct sdtool_verdict check_with(const struct question *q, const struct token *token,
                                        const struct sdtool_bytes *in)
{
    return sdtool_check_with(in->bytes, in->size, token->words, token->count, q->object.cells, q->object.size,
                             q->self.cells, q->self.size, &q->request);
}

/* The reasons with a token are those of the call that reads it, and grant what a check grants. */
static void try_reasons(const struct question *q, const struct token *token, const struct sdtool_bytes *in)
{
    struct sdtool_reason alone[SDTOOL_RIGHTS], *told = (struct sdtool_reason *)block(sizeof alone);
    struct question one = *q;
    struct sdtool_outcome o = sdtool_reasons(in->bytes, in->size, q->sids.cells, q->sids.size, q->entries.cells,
                                             q->entries.size, q->object.cells, q->object.size, q->self.cells,
                                             q->self.size, &q->request.asker, alone);
    long before = allocations;
    struct sdtool_outcome with = sdtool_reasons_with(in->bytes, in->size, token->words, token->count, q->object.cells,
                                                     q->object.size, q->self.cells, q->self.size, &q->request.asker,
                                                     told);

    expect(allocations == before, "reasons with a token allocate");
    expect(with.fault == o.fault && with.part == o.part && with.other_part == o.other_part
               && with.argument == o.argument && with.entry == o.entry && with.length == o.length,
           "the outcome of reasons with a token");
    expect(memcmp(alone, told, sizeof alone) == 0, "other reasons with a token");
    one.request.options = 0;
    for (int right = 0; right < SDTOOL_RIGHTS; right++) {
        uint16_t kind = alone[right].kind;
        bool grants = kind == SDTOOL_REASON_NO_DACL || kind == SDTOOL_REASON_OWNER || kind == SDTOOL_REASON_PRIVILEGE
                      || kind == SDTOOL_REASON_GRANTED;

        one.request.wanted = 1u << right;
        expect(check_with(&one, token, in).granted == grants, "a reason that does not fit the verdict");
    }
    release((uint8_t *)told, sizeof alone);
}

static void expect_no_token(const struct question *q, const struct token *token, const char *what)
{
    static const struct sdtool_bytes no_descriptor;
    static const struct sdtool_verdict no_token = {
        .outcome = {.fault = SDTOOL_ARGUMENT, .argument = SDTOOL_ARGUMENT_TOKEN}};
    struct sdtool_verdict verdict = check_with(q, token, &no_descriptor);

    struct sdtool_reason told[SDTOOL_RIGHTS];
    struct sdtool_outcome o = sdtool_reasons_with(NULL, 0, token->words, token->count, q->object.cells, q->object.size,
                                                  q->self.cells, q->self.size, &q->request.asker, told);

    expect(are_same(&verdict, &no_token), what);
    expect(is_outcome(&o, SDTOOL_ARGUMENT, 0, SDTOOL_ARGUMENT_TOKEN, 0, 0), what);
    for (int right = 0; right < SDTOOL_RIGHTS; right++)
        expect(told[right].kind == SDTOOL_REASON_NOTHING && told[right].place == SDTOOL_NO_PLACE, what);
}

/* Reads no token into memory that holds one already, if there is room for any. */
static void expect_unread(const struct question *q, size_t room, uint32_t fault, uint32_t argument, size_t entry,
                          size_t length, const char *what)
{
    struct token token = token_memory(room);
    struct question nobody = {.request = q->request};
    struct sdtool_outcome o = read_token(&nobody, &token);

    expect(is_outcome(&o, room < SDTOOL_TOKEN_WORDS(0) ? SDTOOL_TOO_SMALL : SDTOOL_OK, 0, 0, 0, SDTOOL_TOKEN_WORDS(0)),
           "a token without SIDs");
    o = read_token(q, &token);
    expect(is_outcome(&o, fault, 0, argument, entry, length), what);
    expect_no_token(q, &token, what);
    forget(&token);
}

/* Numbers that no call has written are taken for no token, or for one of any SIDs; nothing outside is read. */
static void check_with_any_numbers(const struct question *q, const struct token *right, const struct sdtool_bytes *in)
{
    struct token token = token_memory(right->count);

    expect_no_token(q, &token, "memory that was never filled");
    memset(token.words, 0, token.count * sizeof *token.words);
    expect_no_token(q, &token, "memory of zeros");
    for (int round = 0; round < 8; round++) {
        memcpy(token.words, right->words, token.count * sizeof *token.words);
        for (size_t i = 1; i < token.count; i++)
            if (any_number() % 4 == 0)
                token.words[i] = (uint32_t)any_number();
        check_with(q, &token, in);
        token.words[1] = round == 0 ? SDTOOL_MOST_SIDS + 1 : UINT32_MAX >> round;
        expect_no_token(q, &token, "a token of too many SIDs");
    }
    forget(&token);
}

enum {
    SHARERS = 4
};

struct shared {
    const struct question *question;
    const struct token *token;
    const struct sdtool_bytes *descriptors;
    const struct sdtool_verdict *verdicts;
    size_t count;
    bool differs;
};

static void *check_again(void *given)
{
    struct shared *shared = given;

    for (size_t i = 0; i < shared->count; i++) {
        struct sdtool_verdict verdict = check_with(shared->question, shared->token, &shared->descriptors[i]);

        if (!are_same(&verdict, &shared->verdicts[i]))
            shared->differs = true;
    }
    return NULL;
}

/* Threads check with one token at once. */
static void share(const struct shared *shared)
{
    pthread_t threads[SHARERS];
    struct shared each[SHARERS];

    for (int i = 0; i < SHARERS; i++) {
        each[i] = *shared;
        if (pthread_create(&threads[i], NULL, check_again, &each[i]) != 0)
            abort();
    }
    for (int i = 0; i < SHARERS; i++) {
        pthread_join(threads[i], NULL);
        expect(!each[i].differs, "a verdict in a thread");
    }
}

/* The same token in other memory that is larger, and cut. */
static void move_token(const struct question *q, const struct token *token, const struct sdtool_bytes *in,
                       const struct sdtool_verdict *verdict)
{
    struct token larger = token_memory(token->count + 3);
    struct sdtool_verdict again;

    memcpy(larger.words, token->words, token->count * sizeof *token->words);
    again = check_with(q, &larger, in);
    expect(are_same(&again, verdict), "a token in larger memory");
    forget(&larger);
    for (size_t count = 0; count < token->count; count += 1 + token->count / 50) {
        struct token cut = token_memory(count);

        if (count != 0)
            memcpy(cut.words, token->words, count * sizeof *token->words);
        expect_no_token(q, &cut, "a token that is cut");
        forget(&cut);
    }
}

/* A fault of the token comes before those of the request, and these before that of the descriptor. */
static void order_of_faults(const struct question *q, const struct token *token)
{
    static const struct sdtool_bytes no_descriptor;
    struct question faulty = *q;
    struct sdtool_verdict verdict;

    faulty.request.asker.mapping = 3;
    expect_no_token(&faulty, &(struct token){NULL, 0}, "no token, and a wrong argument");
    verdict = check_with(&faulty, token, &no_descriptor);
    expect(is_outcome(&verdict.outcome, SDTOOL_ARGUMENT, 0, SDTOOL_ARGUMENT_MAPPING, 0, 0), "a wrong mapping");
    faulty.request = (struct sdtool_request){.wanted = 0};
    verdict = check_with(&faulty, token, &no_descriptor);
    expect(verdict.outcome.fault == SDTOOL_FAULT_EMPTY_REQUEST, "a request without a right");
    verdict = check_with(q, token, &no_descriptor);
    expect(verdict.outcome.fault == SDTOOL_FAULT_SHORT, "an empty descriptor");
}

static void unread_tokens(const struct question *q, size_t size)
{
    struct question faulty = *q;
    struct bytes entries = copied(q->entries.cells, q->entries.size), sids = copied(q->sids.cells, q->sids.size);

    for (size_t room = 0; room < size; room += 1 + size / 50)
        expect_unread(q, room, SDTOOL_TOO_SMALL, 0, 0, size, "a token without room");
    if (q->entries.size == 0)
        return;
    release(entries.cells, entries.size);
    entries.cells = block(entries.size);
    memcpy(entries.cells, q->entries.cells, entries.size);
    entries.cells[entries.size - 1] = 2;
    faulty.entries = entries;
    expect_unread(&faulty, size, SDTOOL_ARGUMENT, SDTOOL_ARGUMENT_ENTRIES, entries.size - 1, 0, "a wrong entry");
    expect_unread(&faulty, size - 1, SDTOOL_TOO_SMALL, 0, 0, size, "a wrong entry without room");
    faulty = *q;
    faulty.sids.size--;
    expect_unread(&faulty, size, SDTOOL_ARGUMENT, SDTOOL_ARGUMENT_SIDS, entries.size - 1, 0, "a SID that is cut");
    release(entries.cells, entries.size);
    release(sids.cells, sids.size);
}

static void with(const struct question *q, const struct sdtool_bytes *descriptors, size_t count)
{
    size_t size = SDTOOL_TOKEN_WORDS(q->entries.size);
    struct token token = token_memory(size);
    struct sdtool_verdict *verdicts = room_for(count, sizeof *verdicts);
    struct sdtool_outcome o;
    long before = allocations;

    o = read_token(q, &token);
    expect(is_outcome(&o, SDTOOL_OK, 0, 0, 0, size), "a token that is read");
    seal((uint8_t *)token.words, size * sizeof *token.words);
    for (size_t i = 0; i < count; i++)
        verdicts[i] = check_with(q, &token, &descriptors[i]);
    /* Before the first print, which takes memory for the output. */
    expect(allocations == before, "a token allocates");
    for (size_t i = 0; i < count; i++) {
        struct sdtool_verdict alone = check(q, &descriptors[i]);

        print_verdict(&verdicts[i]);
        expect(are_same(&verdicts[i], &alone), "a verdict with a token is another than that of a check");
        try_reasons(q, &token, &descriptors[i]);
    }
    share(&(struct shared){q, &token, descriptors, verdicts, count, false});
    if (count != 0) {
        move_token(q, &token, descriptors, verdicts);
        check_with_any_numbers(q, &token, descriptors);
    }
    order_of_faults(q, &token);
    unread_tokens(q, size);
    free(verdicts);
    forget(&token);
}

/* A SID of so many sub-authorities. */
static struct bytes a_sid(uint8_t subs)
{
    uint8_t cells[LONG_SID] = {1, subs, 0, 0, 0, 0, 0, 5, 1};

    return copied(cells, 8 + 4 * (size_t)subs);
}

/* More SIDs than a token has, which is told before the size of its memory. */
static void tokens_of_most_sids(void)
{
    struct bytes sid = a_sid(0);
    size_t most = SDTOOL_MOST_SIDS;
    struct bytes sids = {block((most + 1) * sid.size), most * sid.size}, entries = {block(most + 1), most};
    struct question q = {.sids = sids, .entries = entries, .request = {.wanted = 1}};
    struct token token = token_memory(SDTOOL_TOKEN_WORDS(most));
    struct sdtool_outcome o;

    for (size_t i = 0; i <= most; i++)
        memcpy(sids.cells + i * sid.size, sid.cells, sid.size);
    memset(entries.cells, SDTOOL_ENABLED, most + 1);
    o = read_token(&q, &token);
    expect(is_outcome(&o, SDTOOL_OK, 0, 0, 0, token.count), "a token of the most SIDs");
    q.entries.size = most + 1;
    q.sids.size = (most + 1) * sid.size;
    o = read_token(&q, &token);
    expect(is_outcome(&o, SDTOOL_ARGUMENT, 0, SDTOOL_ARGUMENT_ENTRIES, most, 0), "a token of too many SIDs");
    expect_no_token(&q, &token, "memory behind a token of too many SIDs");
    expect_unread(&q, 0, SDTOOL_ARGUMENT, SDTOOL_ARGUMENT_ENTRIES, most, 0, "too many SIDs without memory");
    forget(&token);
    release(sids.cells, (most + 1) * sid.size);
    release(entries.cells, most + 1);
    release(sid.cells, sid.size);
}

static struct sdtool_bytes lent(const struct bytes *bytes)
{
    struct sdtool_bytes lent = {bytes->cells, bytes->size};

    return lent;
}

static void expect_build(const struct sdtool_new_descriptor *descriptor, uint32_t fault, uint32_t part,
                         uint32_t argument, size_t entry, const char *what)
{
    struct call call = {.make = make_build, .descriptor = descriptor};
    struct sdtool_outcome o;
    struct bytes answer = answer_to(&call, SDTOOL_MOST_BYTES, &o);

    expect(is_outcome(&o, fault, part, argument, entry, answer.size), what);
    free(answer.cells);
}

/* The bytes that are no SID: one too few, one too many, another revision, too many sub-authorities. */
enum {
    WRONG_SIDS = 5
};

static void wrong_sids(struct bytes *found)
{
    struct bytes sid = a_sid(1);
    uint8_t cells[LONG_SID + 4] = {0};

    memcpy(cells, sid.cells, sid.size);
    found[0] = copied(cells, sid.size - 1);
    found[1] = copied(cells, sid.size + 1);
    found[2] = copied(cells, 1);
    cells[0] = 2;
    found[3] = copied(cells, sid.size);
    cells[0] = 1;
    cells[1] = 16;
    found[4] = copied(cells, LONG_SID + 4);
    release(sid.cells, sid.size);
}

/* An ACE that can't be, in an ACL with one that can before it. */
static void expect_wrong_ace(const struct sdtool_new_ace *right, const struct sdtool_new_ace *wrong_one,
                             const char *what)
{
    struct sdtool_new_ace aces[3] = {*right, *wrong_one, *wrong_one};
    struct sdtool_new_descriptor d = {.dacl = {aces, 3, SDTOOL_ACL_LIST}};

    expect_build(&d, SDTOOL_ARGUMENT, 0, SDTOOL_ARGUMENT_DACL, 1, what);
    d.sacl = d.dacl;
    expect_build(&d, SDTOOL_ARGUMENT, 0, SDTOOL_ARGUMENT_SACL, 1, what);
    d.sacl.aces = aces + 1;
    expect_build(&d, SDTOOL_ARGUMENT, 0, SDTOOL_ARGUMENT_SACL, 0, what);
}

static bool is_kind(unsigned kind)
{
    return kind <= 2 || (kind >= 5 && kind <= 7) || kind == 0x11;
}

static void wrong_aces(void)
{
    struct bytes sid = a_sid(1), guid = copied("0123456789abcdefg", GUID_SIZE), sids[WRONG_SIDS];
    struct sdtool_new_ace right = {.sid = lent(&sid)}, other;
    struct sdtool_new_descriptor d = {.dacl = {&right, 1, SDTOOL_ACL_LIST}};

    wrong_sids(sids);
    expect_build(&d, SDTOOL_OK, 0, 0, 0, "an ACE that can be");
    for (unsigned kind = 0; kind < 256; kind++) {
        other = right;
        other.kind = (uint8_t)kind;
        d.dacl.aces = &other;
        if (is_kind(kind))
            expect_build(&d, SDTOOL_OK, 0, 0, 0, "a type");
        else
            expect_wrong_ace(&right, &other, "a type that is none");
        other.object_type = lent(&guid);
        if (kind >= 5 && kind <= 7)
            expect_build(&d, SDTOOL_OK, 0, 0, 0, "a type with an object type");
        else
            expect_wrong_ace(&right, &other, "a type without object types that has one");
        other.inherited_object_type = other.object_type;
        other.object_type.size = 0;
        if (!(kind >= 5 && kind <= 7))
            expect_wrong_ace(&right, &other, "a type without object types that has an inherited one");
    }
    for (unsigned flags = 0; flags < 256; flags++) {
        other = right;
        other.flags = (uint8_t)flags;
        d.dacl.aces = &other;
        if ((flags & 0x20) != 0)
            expect_wrong_ace(&right, &other, "flag 0x20");
        else
            expect_build(&d, SDTOOL_OK, 0, 0, 0, "flags");
    }
    for (size_t size = 1; size < GUID_SIZE; size++) {
        other = right;
        other.kind = 5;
        other.object_type = lent(&guid);
        other.object_type.size = size;
        expect_wrong_ace(&right, &other, "an object type that is short");
        other.inherited_object_type = other.object_type;
        other.object_type.size = GUID_SIZE;
        expect_wrong_ace(&right, &other, "an inherited object type that is short");
    }
    other = right;
    other.sid.size = 0;
    expect_wrong_ace(&right, &other, "an ACE without a SID");
    for (int i = 0; i < WRONG_SIDS; i++) {
        other.sid = lent(&sids[i]);
        expect_wrong_ace(&right, &other, "an ACE whose SID is none");
    }
    for (int i = 0; i < WRONG_SIDS; i++)
        release(sids[i].cells, sids[i].size);
    release(sid.cells, sid.size);
    release(guid.cells, guid.size);
}

/* The order of the arguments of sdtool_build: each is wrong, and then one after the other is right. */
static void order_of_arguments(void)
{
    struct bytes sids[WRONG_SIDS], sid = a_sid(15);
    struct sdtool_new_ace ace = {.sid = lent(&sid)}, no_ace = {.sid = {NULL, 0}};

    wrong_sids(sids);
    for (int i = 0; i < WRONG_SIDS; i++) {
        struct sdtool_new_descriptor d = {
            lent(&sids[i]), lent(&sids[i]), {&ace, 1, SDTOOL_ACL_NULL}, {&no_ace, 1, 3}, 0, 0};

        expect_build(&d, SDTOOL_ARGUMENT, 0, SDTOOL_ARGUMENT_OWNER, 0, "an owner that is no SID");
        d.owner = lent(&sid);
        expect_build(&d, SDTOOL_ARGUMENT, 0, SDTOOL_ARGUMENT_GROUP, 0, "a group that is no SID");
        d.group.size = 0;
        expect_build(&d, SDTOOL_ARGUMENT, 0, SDTOOL_ARGUMENT_SACL, 0, "a null SACL with an ACE");
        d.sacl.state = SDTOOL_ACL_ABSENT;
        expect_build(&d, SDTOOL_ARGUMENT, 0, SDTOOL_ARGUMENT_SACL, 0, "an absent SACL with an ACE");
        d.sacl.state = UINT32_MAX;
        expect_build(&d, SDTOOL_ARGUMENT, 0, SDTOOL_ARGUMENT_SACL, 0, "a state that is none");
        d.sacl.ace_count = 0;
        expect_build(&d, SDTOOL_ARGUMENT, 0, SDTOOL_ARGUMENT_SACL, 0, "a state that is none, without ACEs");
        d.sacl.state = SDTOOL_ACL_LIST;
        expect_build(&d, SDTOOL_ARGUMENT, 0, SDTOOL_ARGUMENT_DACL, 0, "the state of a DACL that is none");
        d.dacl.state = SDTOOL_ACL_LIST;
        expect_build(&d, SDTOOL_ARGUMENT, 0, SDTOOL_ARGUMENT_DACL, 0, "an ACE that can't be");
        d.dacl.aces = &ace;
        expect_build(&d, SDTOOL_OK, 0, 0, 0, "a descriptor that can be");
        d.dacl.aces = NULL;
        d.dacl.ace_count = 0;
        expect_build(&d, SDTOOL_OK, 0, 0, 0, "a list that is empty, of a null pointer");
    }
    for (int i = 0; i < WRONG_SIDS; i++)
        release(sids[i].cells, sids[i].size);
    release(sid.cells, sid.size);
}

static void expect_call(const struct call *call, uint32_t fault, uint32_t argument, const char *what)
{
    struct sdtool_outcome o;
    struct bytes answer = answer_to(call, LONGEST_TEXT, &o);

    expect(is_outcome(&o, fault, 0, argument, 0, answer.size), what);
    free(answer.cells);
}

/* Arguments of the calls for SIDs: SID comes before DOMAIN, and DOMAIN before what is wrong in a text. */
static void arguments_of_sids(void)
{
    struct bytes sid = a_sid(2), nothing = {NULL, 0}, sids[WRONG_SIDS], text = copied("ZZ", 2), right = copied("BA", 2);

    wrong_sids(sids);
    for (int i = 0; i < WRONG_SIDS; i++) {
        struct call to_text = {make_to_text, sids[i], sids[i], false, NULL};
        struct call from_text = {make_from_text, text, sids[i], false, NULL};

        expect_call(&to_text, SDTOOL_ARGUMENT, SDTOOL_ARGUMENT_SID, "the text of no SID");
        to_text.in = sid;
        expect_call(&to_text, SDTOOL_ARGUMENT, SDTOOL_ARGUMENT_DOMAIN, "a domain that is no SID");
        to_text.numeric = true;
        expect_call(&to_text, SDTOOL_ARGUMENT, SDTOOL_ARGUMENT_DOMAIN, "a domain that is no SID, which is not used");
        to_text.domain = nothing;
        expect_call(&to_text, SDTOOL_OK, 0, "a SID");
        to_text.in = nothing;
        expect_call(&to_text, SDTOOL_ARGUMENT, SDTOOL_ARGUMENT_SID, "no bytes as a SID");
        expect_call(&from_text, SDTOOL_ARGUMENT, SDTOOL_ARGUMENT_DOMAIN, "the domain of a wrong text");
        from_text.in = right;
        expect_call(&from_text, SDTOOL_ARGUMENT, SDTOOL_ARGUMENT_DOMAIN, "the domain of a right text");
        from_text.domain = nothing;
        expect_call(&from_text, SDTOOL_OK, 0, "an alias");
        from_text.in = nothing;
        expect_call(&from_text, SDTOOL_FAULT_SID_FORM, 0, "no text");
        from_text.in = text;
        expect_call(&from_text, SDTOOL_FAULT_ALIAS, 0, "no alias");
    }
    expect(sdtool_sid_size(NULL, 0) == 0, "the size of no bytes");
    expect(sdtool_parts(NULL, 0).outcome.fault == SDTOOL_FAULT_SHORT, "the parts of no bytes");
    struct sdtool_ace ace = {0};
    expect(!sdtool_next_ace(NULL, 0, &ace) && ace.fault == SDTOOL_FAULT_ACL, "an ACE of no bytes");
    for (int i = 0; i < WRONG_SIDS; i++)
        release(sids[i].cells, sids[i].size);
    release(sid.cells, sid.size);
    release(text.cells, text.size);
    release(right.cells, right.size);
}

/* The arguments of many checks, in their order. */
static void arguments_of_many(void)
{
    struct bytes sid = a_sid(1), nothing = {NULL, 0}, zero = copied("", 1), two = copied("\2", 1), sids[WRONG_SIDS];
    struct bytes short_guid = copied("0123456789abcdef", GUID_SIZE - 1);
    uint8_t empty[20] = {1, 0, 0, 0x80};
    struct sdtool_bytes one = {empty, sizeof empty};

    wrong_sids(sids);
    for (int i = 0; i < WRONG_SIDS; i++) {
        struct question q = {sids[i], two, short_guid, sids[i], {.asker = {.mapping = 3}}};

        try_many(&q, &one, 1, 1, SDTOOL_ARGUMENT, SDTOOL_ARGUMENT_ENTRIES, 0, 0);
        q.entries = zero;
        /* The second one has a SID, and a byte behind it. */
        try_many(&q, &one, 1, 1, SDTOOL_ARGUMENT, SDTOOL_ARGUMENT_SIDS, i == 1, 0);
        q.sids = sid;
        try_many(&q, &one, 1, 1, SDTOOL_ARGUMENT, SDTOOL_ARGUMENT_MAPPING, 0, 0);
        q.request.asker.mapping = SDTOOL_MAPPING_DS;
        try_many(&q, &one, 1, 1, SDTOOL_ARGUMENT, SDTOOL_ARGUMENT_OBJECT, 0, 0);
        q.object = nothing;
        try_many(&q, &one, 1, 1, SDTOOL_ARGUMENT, SDTOOL_ARGUMENT_PRINCIPAL_SELF, 0, 0);
        q.self = sid;
        try_many(&q, &one, 1, 1, SDTOOL_FAULT_EMPTY_REQUEST, 0, 0, 0);
        q.request.wanted = 1;
        try_many(&q, &one, 1, 1, SDTOOL_OK, 0, 0, 1);
        q.sids = q.entries = q.self = nothing;
        try_many(&q, &one, 1, 1, SDTOOL_OK, 0, 0, 1);
    }
    for (int i = 0; i < WRONG_SIDS; i++)
        release(sids[i].cells, sids[i].size);
    release(sid.cells, sid.size);
    release(zero.cells, zero.size);
    release(two.cells, two.size);
    release(short_guid.cells, short_guid.size);
}

static void wrong_state(const struct sdtool_new_ace *ace, uint32_t state)
{
    struct sdtool_new_descriptor d = {.sacl = {.state = state}};

    expect_build(&d, SDTOOL_ARGUMENT, 0, SDTOOL_ARGUMENT_SACL, 0, "the state of a SACL that is too high");
    d.sacl.aces = ace;
    d.sacl.ace_count = 1;
    expect_build(&d, SDTOOL_ARGUMENT, 0, SDTOOL_ARGUMENT_SACL, 0, "the state of a SACL with an ACE that is too high");
    d.dacl = d.sacl;
    d.sacl = (struct sdtool_new_acl){NULL, 0, SDTOOL_ACL_ABSENT};
    expect_build(&d, SDTOOL_ARGUMENT, 0, SDTOOL_ARGUMENT_DACL, 0, "the state of a DACL with an ACE that is too high");
    d.dacl.ace_count = 0;
    expect_build(&d, SDTOOL_ARGUMENT, 0, SDTOOL_ARGUMENT_DACL, 0, "the state of a DACL that is too high");
}

static void wrong_mapping(const struct question *right, const struct token *token, uint32_t mapping)
{
    static const struct sdtool_verdict expected = {
        .outcome = {.fault = SDTOOL_ARGUMENT, .argument = SDTOOL_ARGUMENT_MAPPING}};
    uint8_t empty[20] = {1, 0, 0, 0x80};
    struct sdtool_bytes one = {empty, sizeof empty};
    struct question q = *right;
    struct sdtool_verdict verdict;

    q.request.asker.mapping = mapping;
    try_many(&q, &one, 1, 1, SDTOOL_ARGUMENT, SDTOOL_ARGUMENT_MAPPING, 0, 0);
    verdict = check(&q, &one);
    expect(are_same(&verdict, &expected), "a mapping that is too high");
    verdict = check_with(&q, token, &one);
    expect(are_same(&verdict, &expected), "a mapping that is too high, with a token");
}

/* Each bit without a meaning is refused, of who asks and of the request, behind the mapping and before the object. */
static void wrong_options(const struct question *right, const struct token *token)
{
    static const struct sdtool_verdict expected = {
        .outcome = {.fault = SDTOOL_ARGUMENT, .argument = SDTOOL_ARGUMENT_OPTIONS}};
    uint8_t empty[20] = {1, 0, 0, 0x80};
    struct sdtool_bytes one = {empty, sizeof empty};

    for (int at = 0; at < 64; at++) {
        uint32_t bit = 1u << (at % 32), known = at < 32 ? 7 : SDTOOL_MAXIMUM;
        struct question q = *right;
        struct sdtool_reason told[SDTOOL_RIGHTS];
        uint32_t *options = at < 32 ? &q.request.asker.options : &q.request.options;
        struct sdtool_verdict verdict, with;
        bool is_known = (bit & known) != 0;

        *options = bit | (at % 2 == 0 ? known : 0);
        verdict = check(&q, &one);
        with = check_with(&q, token, &one);
        expect((verdict.outcome.fault == SDTOOL_OK) == is_known, "an option without a meaning");
        expect(are_same(&verdict, &with), "an option with a token");
        expect(is_known || are_same(&verdict, &expected), "another fault of an option");
        try_many(&q, &one, 1, 1, is_known ? SDTOOL_OK : SDTOOL_ARGUMENT, is_known ? 0 : SDTOOL_ARGUMENT_OPTIONS, 0,
                 is_known ? 1 : 0);
        struct sdtool_outcome o = sdtool_reasons_with(one.bytes, one.size, token->words, token->count, NULL, 0, NULL, 0,
                                                      &q.request.asker, told);
        expect(o.fault == (is_known || at >= 32 ? SDTOOL_OK : SDTOOL_ARGUMENT), "an option of who asks for reasons");
        if (is_known)
            continue;
        q.object = (struct bytes){(uint8_t *)"", 1};
        verdict = check(&q, &one);
        expect(are_same(&verdict, &expected), "an option behind the object");
        q.request.asker.mapping = 3;
        verdict = check(&q, &one);
        expect(verdict.outcome.argument == SDTOOL_ARGUMENT_MAPPING, "an option before the mapping");
    }
}

/* Numbers whose low 8, 16 or 24 bits are a right number: nothing may cut them. */
static void numbers_too_high(void)
{
    struct bytes sid = a_sid(1), zero = copied("", 1), nothing = {NULL, 0};
    struct sdtool_new_ace ace = {.sid = lent(&sid)};
    struct question q = {sid, zero, nothing, nothing, {.wanted = 1}};
    struct token token = token_memory(SDTOOL_TOKEN_WORDS(1));
    struct sdtool_outcome o = read_token(&q, &token);

    expect(is_outcome(&o, SDTOOL_OK, 0, 0, 0, token.count), "a token of one SID");
    wrong_options(&q, &token);
    for (uint32_t high = 256; high != 0; high <<= 8) {
        for (uint32_t low = 0; low <= 2; low++) {
            wrong_state(&ace, high + low);
            wrong_mapping(&q, &token, high + low);
        }
        for (uint32_t low = 0; low <= SDTOOL_NO_MEMORY; low++) {
            uint8_t text[SDTOOL_MOST_FAULT_TEXT];

            o = sdtool_fault_text(high + low, text, sizeof text);
            expect(is_outcome(&o, SDTOOL_ARGUMENT, 0, SDTOOL_ARGUMENT_FAULT, 0, 0), "a fault that is too high");
        }
    }
    forget(&token);
    release(sid.cells, sid.size);
    release(zero.cells, zero.size);
}

/* An ACL of so many bytes as it is written: ACEs of 16 bytes, and a last one of the rest. */
static struct sdtool_new_acl acl_of(size_t size, struct sdtool_new_ace *aces, const struct sdtool_bytes *sids)
{
    size_t count = (size - 8) / 16, rest = (size - 8) % 16;

    for (size_t i = 0; i < count; i++) {
        aces[i] = (struct sdtool_new_ace){.sid = sids[0]};
        if (i + 1 == count)
            aces[i].sid = sids[rest / 4];
    }
    return (struct sdtool_new_acl){aces, count, SDTOOL_ACL_LIST};
}

/* ACLs round the limit: 65,532 bytes are the most that ACEs fill, and 4 more are too many. */
static void large(void)
{
    struct bytes all[4] = {a_sid(0), a_sid(1), a_sid(2), a_sid(3)}, longest = a_sid(15);
    struct sdtool_bytes sids[4] = {lent(&all[0]), lent(&all[1]), lent(&all[2]), lent(&all[3])};
    struct sdtool_new_ace *aces = room_for(LARGEST_ACL / 8, sizeof *aces);
    struct sdtool_new_ace *others = room_for(LARGEST_ACL / 8, sizeof *others);
    struct sdtool_new_acl most = acl_of(LARGEST_ACL - 3, aces, sids), over = acl_of(LARGEST_ACL + 1, others, sids);
    struct sdtool_new_descriptor d = {lent(&longest), lent(&longest), most, most, 0, 0};
    struct call call = {.make = make_build, .descriptor = &d};
    struct sdtool_outcome o;
    struct bytes answer = answer_to(&call, SDTOOL_MOST_BYTES, &o);
    struct sdtool_new_ace *wrong_ones = room_for(LARGEST_ACL, sizeof *aces);

    expect(is_outcome(&o, SDTOOL_OK, 0, 0, 0, 20 + 2 * LONG_SID + 2 * (LARGEST_ACL - 3)), "the largest ACLs");
    struct sdtool_contents contents = sdtool_parts(answer.cells, answer.size);
    expect(contents.outcome.fault == SDTOOL_OK && contents.dacl.place.size == LARGEST_ACL - 3
               && contents.dacl.ace_count == most.ace_count,
           "the parts of the largest ACLs");
    free(answer.cells);
    d.dacl = over;
    expect_build(&d, SDTOOL_FAULT_ACL_TOO_LARGE, SDTOOL_DACL, 0, 0, "a DACL that is too large");
    d.sacl = over;
    expect_build(&d, SDTOOL_FAULT_ACL_TOO_LARGE, SDTOOL_SACL, 0, 0, "ACLs that are too large");
    d.dacl = most;
    expect_build(&d, SDTOOL_FAULT_ACL_TOO_LARGE, SDTOOL_SACL, 0, 0, "a SACL that is too large");
    /* An ACE that can't be comes before a list that is too large, however many ACEs there are. */
    for (size_t i = 0; i < LARGEST_ACL; i++)
        wrong_ones[i].sid = sids[0];
    wrong_ones[LARGEST_ACL - 1].sid.size = 0;
    d.dacl = (struct sdtool_new_acl){wrong_ones, LARGEST_ACL, SDTOOL_ACL_LIST};
    expect_build(&d, SDTOOL_ARGUMENT, 0, SDTOOL_ARGUMENT_DACL, LARGEST_ACL - 1, "an ACE that can't be, far behind");
    d.dacl.state = SDTOOL_ACL_ABSENT;
    expect_build(&d, SDTOOL_ARGUMENT, 0, SDTOOL_ARGUMENT_DACL, 0, "an absent DACL of many ACEs");
    free(wrong_ones);
    free(aces);
    free(others);
    for (int i = 0; i < 4; i++)
        release(all[i].cells, all[i].size);
    release(longest.cells, longest.size);
}

/* The time of some walks through an ACL of so many ACEs of 16 bytes: of the processor, but on Windows by the clock. */
static double seconds_of_walks(uint16_t count, int rounds)
{
    static const uint8_t one[16] = {0, 0, 16, 0, 1, 0, 0, 0, 1, 0, 0, 0, 0, 0, 0, 5};
    size_t size = 8 + 16 * (size_t)count;
    uint8_t *acl = room_for(size, 1);
    clock_t start;
    uint32_t steps = 0;

    acl[0] = 2;
    acl[2] = (uint8_t)size;
    acl[3] = (uint8_t)(size >> 8);
    acl[4] = (uint8_t)count;
    acl[5] = (uint8_t)(count >> 8);
    for (size_t i = 0; i < count; i++)
        memcpy(acl + 8 + 16 * i, one, sizeof one);
    start = clock();
    for (int round = 0; round < rounds; round++) {
        struct sdtool_ace ace = {0};

        while (sdtool_next_ace(acl, size, &ace))
            steps++;
    }
    start = clock() - start;
    expect(steps == (uint32_t)rounds * count, "the ACEs of a long walk");
    free(acl);
    return (double)start / CLOCKS_PER_SEC;
}

/* A walk takes time in proportion to its ACL: one through 4,000 ACEs takes as long as ten through 400. */
static void long_walks(void)
{
    double few = seconds_of_walks(400, 100), many = seconds_of_walks(4000, 10);

    for (int round = 0; round < 4; round++) {
        double again = seconds_of_walks(400, 100), longer = seconds_of_walks(4000, 10);

        few = again < few ? again : few;
        many = longer < many ? longer : many;
    }
    expect(many < 4 * few + 0.005, "a walk takes more time than in proportion to its ACL");
}

/* As many descriptors as a large folder has objects: one without a DACL, and one with an empty DACL, by turns. */
static void many_descriptors(void)
{
    enum {
        DESCRIPTORS = 100000
    };
    uint8_t open[20] = {1, 0, 0, 0x80}, closed[28] = {1, 0, 4, 0x80, [16] = 20, [20] = 2, [22] = 8};
    struct bytes sid = a_sid(1), zero = copied("", 1), nothing = {NULL, 0};
    struct question q = {sid, zero, nothing, nothing, {.wanted = 1}};
    struct sdtool_bytes *descriptors = room_for(DESCRIPTORS, sizeof *descriptors);
    struct sdtool_verdict *verdicts = room_for(DESCRIPTORS, sizeof *verdicts);
    bool are_right = true;

    for (size_t i = 0; i < DESCRIPTORS; i++)
        descriptors[i] = i % 2 == 0 ? (struct sdtool_bytes){open, sizeof open}
                                    : (struct sdtool_bytes){closed, sizeof closed};
    struct sdtool_outcome o = check_many(&q, descriptors, DESCRIPTORS, verdicts, DESCRIPTORS);
    expect(is_outcome(&o, SDTOOL_OK, 0, 0, 0, DESCRIPTORS), "the outcome of 100,000 checks");
    for (size_t i = 0; i < DESCRIPTORS; i++)
        are_right = are_right && verdicts[i].outcome.fault == SDTOOL_OK && verdicts[i].mask == 1
                    && verdicts[i].granted == (i % 2 == 0);
    expect(are_right, "one of 100,000 verdicts");
    free(descriptors);
    free(verdicts);
    release(sid.cells, sid.size);
    release(zero.cells, zero.size);
}

static void answer_line(char **words, int count, const char *line, size_t length)
{
    bool is_text = strcmp(job, "from_text") == 0;
    struct bytes in = is_text ? copied(line, length) : spelled(line);
    struct call call = {.in = in, .numeric = count > 3};
    struct sdtool_outcome o;

    if (strcmp(job, "parts") == 0) {
        parts(&in);
    } else if (strcmp(job, "walk") == 0) {
        walk_acl(&in);
    } else if (strcmp(job, "size") == 0) {
        printf("%zu\n", sdtool_sid_size(in.cells, in.size));
    } else {
        struct bytes domain = spelled(words[2]);

        call.make = is_text ? make_from_text : make_to_text;
        call.domain = domain;
        struct bytes answer = answer_to(&call, is_text ? SDTOOL_MOST_SID : SDTOOL_MOST_SID_TEXT, &o);
        if (o.fault != SDTOOL_OK)
            print_outcome(&o);
        else if (is_text)
            print_hex(answer.cells, answer.size);
        else
            printf("%.*s\n", (int)answer.size, (const char *)answer.cells);
        free(answer.cells);
        release(domain.cells, domain.size);
    }
    release(in.cells, in.size);
}

/* All lines of the input as descriptors, and one question for them. */
static void answer_all(char **words)
{
    struct question q = {spelled(words[2]), spelled(words[3]), spelled(words[4]), spelled(words[5]), {.wanted = 0}};
    unsigned long flags = strtoul(words[8], NULL, 10);
    struct sdtool_bytes *descriptors = NULL;
    size_t count = 0, room = 0;
    char *line = NULL;
    size_t line_room = 0;

    q.request = (struct sdtool_request){
        .asker = {.mapping = (uint32_t)strtoul(words[7], NULL, 10),
                  .level = (uint32_t)strtoul(words[9], NULL, 10),
                  .options = (strcmp(words[9], "-") != 0 ? SDTOOL_HAS_LEVEL : 0)
                             | ((flags & 2) != 0 ? SDTOOL_SECURITY : 0)
                             | ((flags & 4) != 0 ? SDTOOL_TAKE_OWNERSHIP : 0)},
        .wanted = (uint32_t)strtoul(words[6], NULL, 10),
        .options = (flags & 1) != 0 ? SDTOOL_MAXIMUM : 0,
    };
    while (getline(&line, &line_room, stdin) > 0) {
        struct bytes in = spelled(line);

        if (count == room) {
            struct sdtool_bytes *more = room_for(room = 2 * room + 16, sizeof *more);

            if (count != 0)
                memcpy(more, descriptors, count * sizeof *more);
            free(descriptors);
            descriptors = more;
        }
        descriptors[count++] = lent(&in);
    }
    if (strcmp(job, "many") == 0)
        many(&q, descriptors, count);
    else
        with(&q, descriptors, count);
    for (size_t i = 0; i < count; i++)
        release((uint8_t *)descriptors[i].bytes, descriptors[i].size);
    free(descriptors);
    free(line);
    release(q.sids.cells, q.sids.size);
    release(q.entries.cells, q.entries.size);
    release(q.object.cells, q.object.size);
    release(q.self.cells, q.self.size);
}

int main(int count, char **words)
{
    char *line = NULL;
    size_t room = 0;
    ssize_t got;

    if (count < 2)
        return 2;
    read_environment();
    job = words[1];
    if (strcmp(job, "arguments") == 0) {
        wrong_aces();
        order_of_arguments();
        arguments_of_sids();
        arguments_of_many();
        numbers_too_high();
        tokens_of_most_sids();
    } else if (strcmp(job, "large") == 0) {
        large();
        many_descriptors();
        long_walks();
    } else if ((strcmp(job, "many") == 0 || strcmp(job, "with") == 0) && count == 10) {
        answer_all(words);
    } else {
        while ((got = getline(&line, &room, stdin)) > 0)
            answer_line(words, count, line, (size_t)got - (line[got - 1] == '\n'));
    }
    free(line);
    return wrong;
}
