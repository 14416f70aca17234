/*
 * calls convert|explain|normalize|from_sddl|check|reasons|derive|origins [DOMAIN] [numeric]
 *
 * Makes one call for each line of standard input and prints its answer as the program does; a fault as
 * 'error NUMBER PART PART', and that of an argument as 'error 70 ARGUMENT ENTRY'. DOMAIN is a SID as hex digits, or -.
 * A line is hex digits, or SDDL for from_sddl. For these it has words, of which - is an empty one:
 *
 *   check    DESCRIPTOR SIDS ENTRIES OBJECT SELF in hex, WANTED MAPPING FLAGS LEVEL in decimal, where - is no level;
 *            FLAGS adds up 1 for the maximum, 2 for SeSecurityPrivilege and 4 for SeTakeOwnershipPrivilege
 *   reasons  the same; the wanted rights and the maximum are not looked at. The answer is a reason for each right: its
 *            number, and with a place a colon and the place
 *   derive   PARENT CREATOR OWNER GROUP in hex, KIND MAPPING in decimal
 *   origins  the same. The answer is 'sacl', the origins of its ACEs, 'dacl' and those of its ACEs: c for the creator's
 * ACE or p for the parent's, its place, and + behind it for the copy that is inherit-only
 *
 * Each call is made again with outputs that are too small, with each allocation refused, and at the end from eight
 * threads, one of which also forks processes that make it. What it allocates has to be what the header says. What goes
 * wrong there is printed to standard error, and the status is then 1. memory.h says what the environment asks for.
 */
#include <pthread.h>
#include <stdio.h>
#include <stdlib.h>
#include <string.h>
#ifndef _WIN32
#include <sys/wait.h>
#include <unistd.h>
#endif

#include "refusals.h"

enum {
    THREADS = 8,
    ROUNDS = 250,
    FORKS = 20,
    MOST_KEPT = 64,
    MOST_FIELDS = 5,
    MOST_NUMBERS = 4,
    VERDICT = 18,
    REASON = 8,
    ORIGIN = 8
};

/* The arguments of a call. */
struct question {
    struct bytes fields[MOST_FIELDS];
    uint32_t numbers[MOST_NUMBERS];
    bool has_level;
};

static struct bytes domain;
static bool numeric;

static bool is_fault(const struct sdtool_outcome *o, uint32_t fault, size_t length)
{
    return o->fault == fault && o->part == 0 && o->other_part == 0 && o->argument == 0 && o->entry == 0
           && o->length == length;
}

/* Who asks: the flags of a question are the maximum and the two privileges. */
static struct sdtool_asker asker_of(const struct question *q)
{
    uint32_t flags = q->numbers[2], options = q->has_level ? SDTOOL_HAS_LEVEL : 0;

    options |= (flags & 2) != 0 ? SDTOOL_SECURITY : 0;
    options |= (flags & 4) != 0 ? SDTOOL_TAKE_OWNERSHIP : 0;
    return (struct sdtool_asker){.mapping = q->numbers[1], .level = q->numbers[3], .options = options};
}

/* A verdict as the program prints it, with the room that there is for it. */
static struct sdtool_outcome check(const struct question *q, uint8_t *out, size_t size)
{
    const struct bytes *in = q->fields;
    struct sdtool_request request = {
        .asker = asker_of(q),
        .wanted = q->numbers[0],
        .options = (q->numbers[2] & 1) != 0 ? SDTOOL_MAXIMUM : 0,
    };
    struct sdtool_verdict v = sdtool_check(in[0].cells, in[0].size, in[1].cells, in[1].size, in[2].cells, in[2].size,
                                           in[3].cells, in[3].size, in[4].cells, in[4].size, &request);
    struct sdtool_outcome o = v.outcome;
    char text[VERDICT + 2];

    if (o.length != 0)
        complain("a length beside a verdict");
    if (o.fault != SDTOOL_OK) {
        if (v.mask != 0 || v.granted)
            complain("a verdict beside a fault");
        return o;
    }
    o.length = (size_t)snprintf(text, sizeof text, "%s 0x%08x", v.granted ? "granted" : "denied", (unsigned)v.mask);
    if (size < o.length)
        o.fault = SDTOOL_TOO_SMALL;
    else
        memcpy(out, text, o.length);
    return o;
}

/* Reasons as text, with the room that there is for it. After a fault each of them is nothing. */
static struct sdtool_outcome reasons(const struct question *q, uint8_t *out, size_t size)
{
    const struct bytes *in = q->fields;
    struct sdtool_asker asker = asker_of(q);
    struct sdtool_reason *told = (struct sdtool_reason *)block(SDTOOL_RIGHTS * sizeof *told);
    memset(told, 0xaa, SDTOOL_RIGHTS * sizeof *told);
    struct sdtool_outcome o = sdtool_reasons(in[0].cells, in[0].size, in[1].cells, in[1].size, in[2].cells, in[2].size,
                                             in[3].cells, in[3].size, in[4].cells, in[4].size, &asker, told);
    char text[SDTOOL_RIGHTS * REASON + 1] = "", *at = text;

    for (int right = 0; right < SDTOOL_RIGHTS; right++) {
        if (o.fault != SDTOOL_OK && (told[right].kind != SDTOOL_REASON_NOTHING || told[right].place != SDTOOL_NO_PLACE))
            complain("a reason beside a fault");
        at += sprintf(at, told[right].place == SDTOOL_NO_PLACE ? "%s%u" : "%s%u:%u", right ? " " : "",
                      (unsigned)told[right].kind, (unsigned)told[right].place);
    }
    release((uint8_t *)told, SDTOOL_RIGHTS * sizeof *told);
    if (o.fault != SDTOOL_OK)
        return o;
    if (o.length != SDTOOL_RIGHTS)
        complain("another count of reasons");
    o.length = (size_t)(at - text);
    if (size < o.length)
        o.fault = SDTOOL_TOO_SMALL;
    else
        memcpy(out, text, o.length);
    return o;
}

/* The origins of the ACEs of an ACL. */
struct origins {
    struct sdtool_origin *told;
    size_t room;
};

static struct origins origins_block(size_t room)
{
    struct origins origins = {(struct sdtool_origin *)block(room * sizeof *origins.told), room};

    if (room != 0)
        memset(origins.told, 0xaa, room * sizeof *origins.told);
    return origins;
}

static bool is_untouched(const struct origins *origins, size_t from)
{
    const uint8_t *cells = (const uint8_t *)origins->told;

    for (size_t i = from * sizeof *origins->told; i < origins->room * sizeof *origins->told; i++)
        if (cells[i] != 0xaa)
            return false;
    return true;
}

static char *print_origins(const struct origins *origins, size_t count, char *at)
{
    for (size_t i = 0; i < count; i++)
        at += sprintf(at, " %c%u%s", origins->told[i].from_creator ? 'c' : 'p', (unsigned)origins->told[i].place,
                      origins->told[i].inherit_only ? "+" : "");
    return at;
}

/* Asks with so much room, and writes the origins to a text that has room for them. */
static struct sdtool_origins ask_origins(const struct question *q, size_t sacl_room, size_t dacl_room, char *text)
{
    const struct bytes *in = q->fields;
    struct origins sacl = origins_block(sacl_room), dacl = origins_block(dacl_room);
    struct sdtool_origins o = sdtool_derive_origins(in[0].cells, in[0].size, in[1].cells, in[1].size, in[2].cells,
                                                    in[2].size, in[3].cells, in[3].size, q->numbers[0], q->numbers[1],
                                                    sacl.told, sacl_room, dacl.told, dacl_room);

    if (o.outcome.fault == SDTOOL_OK) {
        /* Cells behind the last origin may hold anything, but here they are as they were. */
        if (!is_untouched(&sacl, o.sacl_count) || !is_untouched(&dacl, o.dacl_count))
            complain("more origins than were told");
        if (text != NULL) {
            text = print_origins(&sacl, o.sacl_count, text + sprintf(text, "sacl"));
            print_origins(&dacl, o.dacl_count, text + sprintf(text, " dacl"));
        }
    } else {
        if (!is_untouched(&sacl, 0) || !is_untouched(&dacl, 0))
            complain("an origin beside a fault");
        if (o.outcome.fault != SDTOOL_TOO_SMALL && (o.sacl_count != 0 || o.dacl_count != 0))
            complain("a count beside a fault");
    }
    release((uint8_t *)sacl.told, sacl_room * sizeof *sacl.told);
    release((uint8_t *)dacl.told, dacl_room * sizeof *dacl.told);
    return o;
}

static void try_room(const struct question *q, const struct sdtool_origins *whole, size_t sacl_room, size_t dacl_room)
{
    bool fits = whole->sacl_count <= sacl_room && whole->dacl_count <= dacl_room;
    struct sdtool_origins o = ask_origins(q, sacl_room, dacl_room, NULL);

    if (!is_fault(&o.outcome, fits ? SDTOOL_OK : SDTOOL_TOO_SMALL, 0) || o.sacl_count != whole->sacl_count
        || o.dacl_count != whole->dacl_count)
        complain("other room for origins");
}

/* Origins as text, with the room that there is for it. */
static struct sdtool_outcome origins(const struct question *q, uint8_t *out, size_t size)
{
    enum {
        MOST = SDTOOL_MOST_DERIVED_ACES
    };
    char *text = (char *)__real_malloc(2 * MOST * ORIGIN + sizeof "sacl dacl");
    struct sdtool_origins whole = ask_origins(q, MOST, MOST, text);
    struct sdtool_outcome o = whole.outcome;

    if (o.length != 0)
        complain("a length beside origins");
    if (o.fault == SDTOOL_OK) {
        size_t sacl = whole.sacl_count, dacl = whole.dacl_count;

        try_room(q, &whole, sacl, dacl);
        try_room(q, &whole, 0, 0);
        try_room(q, &whole, sacl, dacl == 0 ? 0 : dacl - 1);
        try_room(q, &whole, sacl == 0 ? 0 : sacl - 1, dacl);
        try_room(q, &whole, sacl + 1, dacl + 3);
        o.length = strlen(text);
        if (size < o.length)
            o.fault = SDTOOL_TOO_SMALL;
        else
            memcpy(out, text, o.length);
    }
    free(text);
    return o;
}

/* Whether the job is a call for a token. */
static bool asks(void)
{
    return strcmp(job, "check") == 0 || strcmp(job, "reasons") == 0;
}

/* Whether the job is a call for what is derived. */
static bool derives(void)
{
    return strcmp(job, "derive") == 0 || strcmp(job, "origins") == 0;
}

/* A call that runs on some stack. Counts of allocations are those of the thread that makes the call. */
struct made {
    const struct question *question;
    uint8_t *out;
    size_t size;
    long allocations_left, allocations;
    size_t allocated;
    struct sdtool_outcome outcome;
};

static struct sdtool_outcome call_here(const struct question *q, uint8_t *out, size_t size);

static void *make(void *argument)
{
    struct made *made = argument;

    allocations_left = made->allocations_left;
    allocations = made->allocations;
    allocated = made->allocated;
    made->outcome = call_here(made->question, made->out, made->size);
    made->allocations_left = allocations_left;
    made->allocations = allocations;
    made->allocated = allocated;
    return NULL;
}

static struct sdtool_outcome call(const struct question *q, uint8_t *out, size_t size)
{
    struct made made = {q, out, size, allocations_left, allocations, allocated, {0}};

    make_call(make, &made);
    allocations_left = made.allocations_left;
    allocations = made.allocations;
    allocated = made.allocated;
    return made.outcome;
}

/* Describes a fault and its place in so many bytes. */
static struct sdtool_outcome describe(const struct sdtool_outcome *outcome, const struct sdtool_fault_place *place,
                                      size_t size)
{
    uint8_t *cells = block(size);
    long before = allocations;
    struct sdtool_outcome o = sdtool_describe(outcome, place, cells, size);

    if (allocations != before)
        complain("sdtool_describe allocates");
    if (o.fault == SDTOOL_OK
        && (o.length != size || size < sizeof "error" || memcmp(cells, "error", strlen("error")) != 0))
        complain("another description");
    release(cells, size);
    return o;
}

/* Describes a fault and its place in a text of exactly its size, and of one byte less. All structs are in blocks. */
static void try_description(const struct sdtool_outcome *o, const struct sdtool_fault_place *found)
{
    struct sdtool_outcome *outcome = (struct sdtool_outcome *)block(sizeof *outcome);
    struct sdtool_fault_place *place = (struct sdtool_fault_place *)block(sizeof *place);

    *outcome = *o;
    *place = *found;
    struct sdtool_outcome none = describe(outcome, place, 0);
    if (o->fault == SDTOOL_OK) {
        if (none.fault != SDTOOL_ARGUMENT || none.argument != SDTOOL_ARGUMENT_FAULT || none.length != 0)
            complain("a description of no fault");
    } else {
        struct sdtool_outcome whole = describe(outcome, place, none.length);
        struct sdtool_outcome small = describe(outcome, place, none.length - 1);

        if (none.fault != SDTOOL_TOO_SMALL || none.length > SDTOOL_MOST_DESCRIPTION || whole.fault != SDTOOL_OK
            || small.fault != SDTOOL_TOO_SMALL || small.length != none.length)
            complain("the size of a description");
    }
    release((uint8_t *)outcome, sizeof *outcome);
    release((uint8_t *)place, sizeof *place);
}

/* Looks for the place of the fault that a text has. */
static void try_place(const struct bytes *in, const struct sdtool_outcome *o)
{
    long before = allocations;
    struct sdtool_fault_place found = sdtool_sddl_place(in->cells, in->size, domain.cells, domain.size);
    bool is_told = o->fault >= SDTOOL_FAULT_SHAPE && o->fault <= SDTOOL_FAULT_ACL_TOO_LARGE;

    if (allocations != before)
        complain("sdtool_sddl_place allocates");
    if (found.fault != (is_told ? o->fault : SDTOOL_OK))
        complain("the place of another fault");
    if (found.place.offset > in->size || found.place.size > in->size - found.place.offset)
        complain("a place past the text");
    if (o->part != SDTOOL_NO_PART && found.part != o->part)
        complain("a place in another part");
    if (!is_told
        && (found.part != SDTOOL_NO_PART || found.ace != SDTOOL_NO_ACE || found.field != SDTOOL_NO_FIELD
            || found.place.offset != 0 || found.place.size != 0))
        complain("a place without a fault");
    if (o->argument == SDTOOL_NO_ARGUMENT)
        try_description(o, &found);
}

static struct sdtool_outcome from_sddl(const struct bytes *in, uint8_t *out, size_t size)
{
    struct sdtool_outcome o = sdtool_from_sddl(in->cells, in->size, domain.cells, domain.size, out, size);

    if (o.fault != SDTOOL_NO_MEMORY)
        try_place(in, &o);
    return o;
}

static struct sdtool_outcome call_here(const struct question *q, uint8_t *out, size_t size)
{
    const struct bytes *in = q->fields;

    if (strcmp(job, "convert") == 0)
        return sdtool_to_sddl(in->cells, in->size, domain.cells, domain.size, numeric, out, size);
    if (strcmp(job, "explain") == 0)
        return sdtool_explain(in->cells, in->size, domain.cells, domain.size, numeric, out, size);
    if (strcmp(job, "normalize") == 0)
        return sdtool_normalize(in->cells, in->size, out, size);
    if (strcmp(job, "check") == 0)
        return check(q, out, size);
    if (strcmp(job, "reasons") == 0)
        return reasons(q, out, size);
    if (strcmp(job, "derive") == 0)
        return sdtool_derive(in[0].cells, in[0].size, in[1].cells, in[1].size, in[2].cells, in[2].size, in[3].cells,
                             in[3].size, q->numbers[0], q->numbers[1], out, size);
    if (strcmp(job, "origins") == 0)
        return origins(q, out, size);
    return from_sddl(in, out, size);
}

static void try_size(const struct question *in, const struct bytes *answer, size_t size)
{
    uint8_t *cells = block(size);
    struct sdtool_outcome o = call(in, cells, size);

    if (size < answer->size) {
        if (!is_fault(&o, SDTOOL_TOO_SMALL, answer->size))
            complain("an output that is too small");
    } else if (!is_fault(&o, SDTOOL_OK, answer->size)
               || (answer->size != 0 && memcmp(cells, answer->cells, answer->size) != 0)) {
        complain("an output that is large enough");
    }
    release(cells, size);
}

static void try_sizes(const struct question *in, const struct bytes *answer)
{
    size_t step = answer->size <= 700 ? 1 : answer->size / 7;

    for (size_t size = 0; size <= answer->size; size += step)
        try_size(in, answer, size);
    if (answer->size > 0)
        try_size(in, answer, answer->size - 1);
    try_size(in, answer, answer->size);
    try_size(in, answer, answer->size + 9);
}

/* Memory that is refused for a token hides an answer, but no fault. The other calls allocate behind their arguments. */
static bool hides(const struct sdtool_outcome *o)
{
    return !asks() || o->fault == SDTOOL_OK || o->fault == SDTOOL_TOO_SMALL;
}

/* Whether a call with this outcome takes a buffer. It does so only after it has found no fault in its arguments. */
static bool takes_buffer(const struct sdtool_outcome *o)
{
    if (strcmp(job, "from_sddl") == 0)
        return o->fault != SDTOOL_ARGUMENT && o->fault != SDTOOL_FAULT_TOO_LONG;
    return strcmp(job, "derive") == 0
           && (o->fault == SDTOOL_OK || o->fault == SDTOOL_TOO_SMALL || o->fault == SDTOOL_FAULT_DERIVED_TOO_LARGE);
}

/* What a call allocates is what the header says: a token of less than 128 KiB, one buffer, or nothing. */
static bool is_as_said(const struct sdtool_outcome *o)
{
    if (asks())
        return allocated < 128 << 10;
    return !CAN_REFUSE || allocated == (takes_buffer(o) ? SDTOOL_MOST_BYTES : 0);
}

static void try_refusals(const struct question *in, size_t size)
{
    long most;

    allocations = 0;
    allocated = 0;
    uint8_t *cells = block(size);
    struct sdtool_outcome whole = call(in, cells, size);
    most = allocations;
    if (!is_as_said(&whole))
        complain("other allocations than the header says");
    for (long n = 0; n < most; n++) {
        allocations_left = n;
        struct sdtool_outcome o = call(in, cells, size);
        allocations_left = -1;
        if (hides(&whole) ? !is_fault(&o, SDTOOL_NO_MEMORY, 0) : !is_same(&o, &whole))
            complain("a refused allocation");
        if (whole.fault == SDTOOL_ARGUMENT && o.fault == SDTOOL_NO_MEMORY)
            complain("a refused allocation before a wrong argument");
    }
    struct sdtool_outcome again = call(in, cells, size);
    if (!is_same(&again, &whole))
        complain("a call after refused allocations");
    release(cells, size);
}

static bool gives_text(void)
{
    return strcmp(job, "convert") == 0 || strcmp(job, "explain") == 0 || strcmp(job, "origins") == 0 || asks();
}

static void print(const struct bytes *answer)
{
    if (gives_text()) {
        fwrite(answer->cells, 1, answer->size, stdout);
        if (strcmp(job, "explain") != 0)
            putchar('\n');
        return;
    }
    print_hex(answer->cells, answer->size);
}

/* The size of the block for an answer. Origins may be the creator's. */
static size_t most_of(const struct question *in)
{
    if (!gives_text())
        return SDTOOL_MOST_BYTES;
    return SDTOOL_TEXT_SIZE(in->fields[0].size) + (derives() ? SDTOOL_TEXT_SIZE(in->fields[1].size) : 0);
}

static struct bytes answer_to(const struct question *in)
{
    size_t most = most_of(in);
    struct bytes answer = {block(most), 0};
    struct sdtool_outcome o = call(in, answer.cells, most);

    if (o.fault == SDTOOL_NO_MEMORY)
        complain("out of memory, although there is memory");
    if (o.fault == SDTOOL_OK) {
        answer.size = o.length;
        print(&answer);
        try_sizes(in, &answer);
        try_refusals(in, 0);
    } else {
        print_outcome(&o);
    }
    try_refusals(in, most);
    return answer;
}

/* The call that a line asks for. */
static struct question question_in(char *line, size_t length)
{
    struct question q = {0};
    size_t fields = asks() ? 5 : 4;
    size_t at = 0;
    char *rest = NULL;

    if (strcmp(job, "from_sddl") == 0)
        q.fields[0] = copied(line, length);
    else if (!asks() && !derives())
        q.fields[0] = spelled(line);
    else
        for (char *word = strtok_r(line, " \n", &rest); word != NULL; word = strtok_r(NULL, " \n", &rest), at++) {
            if (at < fields)
                q.fields[at] = spelled(word);
            else if (at < fields + MOST_NUMBERS && strcmp(word, "-") != 0)
                q.numbers[at - fields] = (uint32_t)strtoul(word, NULL, 10);
            q.has_level = at == fields + 3 && strcmp(word, "-") != 0;
        }
    return q;
}

static void free_question(const struct question *q)
{
    for (size_t i = 0; i < MOST_FIELDS; i++)
        if (q->fields[i].cells != NULL)
            release(q->fields[i].cells, q->fields[i].size);
}

struct kept {
    struct question in;
    struct bytes answer;
};

static struct kept kept[MOST_KEPT];
static size_t kept_count;

static void *repeat(void *unused)
{
    (void)unused;
    for (int round = rounds_of(ROUNDS); round > 0; round--) {
        for (size_t i = 0; i < kept_count; i++) {
            uint8_t *cells = block(kept[i].answer.size);
            struct sdtool_outcome o = call(&kept[i].in, cells, kept[i].answer.size);

            if (!is_fault(&o, SDTOOL_OK, kept[i].answer.size) || memcmp(cells, kept[i].answer.cells, o.length) != 0)
                complain("a call in a thread");
            release(cells, kept[i].answer.size);
        }
    }
    return NULL;
}

/* Forks while the other threads are in the middle of their calls. Each process makes every call once. */
static void *fork_often(void *unused)
{
#ifndef _WIN32
    for (int round = 0; round < FORKS && forks; round++) {
        pid_t child = fork();
        int status = 0;

        if (child == 0) {
            for (size_t i = 0; i < kept_count; i++) {
                uint8_t *cells = block(kept[i].answer.size);
                struct sdtool_outcome o = call(&kept[i].in, cells, kept[i].answer.size);

                if (!is_fault(&o, SDTOOL_OK, kept[i].answer.size) || memcmp(cells, kept[i].answer.cells, o.length) != 0)
                    _exit(1);
            }
            _exit(0);
        }
        if (child < 0 || waitpid(child, &status, 0) != child || status != 0)
            complain("a call in a process that a thread forked");
    }
#endif
    return unused;
}

int main(int count, char **words)
{
    pthread_t threads[THREADS + 1];
    char *line = NULL;
    size_t room = 0;
    ssize_t got;
    char version[16] = "";
    struct sdtool_outcome o = sdtool_version((uint8_t *)version, sizeof version - 1);

    if (count < 2)
        return 2;
    read_environment();
    job = words[1];
    if (!is_fault(&o, SDTOOL_OK, strlen(version)) || strcmp(version, SDTOOL_VERSION_TEXT) != 0
        || sdtool_version_number() != SDTOOL_VERSION)
        complain("the version");
    if (count > 2 && strcmp(words[2], "-") != 0)
        domain = spelled(words[2]);
    numeric = count > 3;
    while ((got = getline(&line, &room, stdin)) > 0) {
        size_t length = (size_t)got - (line[got - 1] == '\n');
        struct question in = question_in(line, length);
        struct bytes answer = answer_to(&in);

        if (kept_count < MOST_KEPT && answer.size != 0 && answer.size < 2000) {
            kept[kept_count].in = in;
            kept[kept_count++].answer = answer;
        } else {
            free_question(&in);
            release(answer.cells, most_of(&in));
        }
    }
    for (int i = 0; i < THREADS; i++)
        if (pthread_create(&threads[i], NULL, repeat, NULL) != 0)
            return 2;
    if (pthread_create(&threads[THREADS], NULL, fork_often, NULL) != 0)
        return 2;
    for (int i = 0; i <= THREADS; i++)
        pthread_join(threads[i], NULL);
    print_stack();
    while (kept_count > 0) {
        kept_count--;
        free_question(&kept[kept_count].in);
        release(kept[kept_count].answer.cells, most_of(&kept[kept_count].in));
    }
    if (domain.cells != NULL)
        release(domain.cells, domain.size);
    free(line);
    return wrong;
}
