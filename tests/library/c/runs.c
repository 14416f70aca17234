/*
 * runs TASK WORD ..
 *
 * Calls sdtool_run with the words on standard input, and prints what the program would: the output, the message
 * and the exit status. With the task
 *
 *   plain     it also tries each size of the message, and null pointers of size 0
 *   sizes     it prints only a line for each size of the output: the size, the status, and the length of the output
 *   refusals  it also refuses each allocation in turn; all of them are less than 2 MiB
 *   threads   it also makes the call from eight threads at once
 *   cut       the last word lacks its NUL
 *
 * What goes wrong there is printed to standard error, and the status is then 99. memory.h says what the environment
 * asks for.
 */
#include <pthread.h>
#include <stdio.h>
#include <stdlib.h>
#include <string.h>

#include "refusals.h"

enum {
    THREADS = 8,
    ROUNDS = 100,
    WRONG = 99,
    FIRST_SIZE = 1 << 16
};

static struct bytes words, input, answers;
static size_t answers_room;
static uint8_t message[SDTOOL_MOST_MESSAGE];
static struct sdtool_ending whole;

static void complain_at(const char *what, size_t at)
{
    fprintf(stderr, "%s: %s %zu\n", job, what, at);
    wrong = 1;
}

static bool same(const uint8_t *a, const uint8_t *b, size_t size)
{
    return size == 0 || memcmp(a, b, size) == 0;
}

/* A call that runs on some stack. Counts of allocations are those of the thread that makes the call. */
struct made {
    uint8_t *out;
    size_t size;
    uint8_t *says;
    size_t says_size;
    long allocations_left, allocations;
    size_t allocated;
    struct sdtool_ending ending;
};

static void *make(void *argument)
{
    struct made *made = argument;

    allocations_left = made->allocations_left;
    allocations = made->allocations;
    allocated = made->allocated;
    made->ending = sdtool_run(words.cells, words.size, input.cells, input.size, made->out, made->size, made->says,
                              made->says_size);
    made->allocations_left = allocations_left;
    made->allocations = allocations;
    made->allocated = allocated;
    return NULL;
}

static struct sdtool_ending call(uint8_t *out, size_t size, uint8_t *says, size_t says_size)
{
    struct made made = {out, size, says, says_size, allocations_left, allocations, allocated, {0}};
    struct sdtool_ending e;

    make_call(make, &made);
    allocations_left = made.allocations_left;
    allocations = made.allocations;
    allocated = made.allocated;
    e = made.ending;
    if (e.length > size || e.message_length > says_size)
        complain_at("a length beyond the size", size);
    return e;
}

/* The whole answers: the output grows until they fit. */
static void answer(void)
{
    for (size_t size = FIRST_SIZE;; size *= 4) {
        answers.cells = block(size);
        answers_room = size;
        whole = call(answers.cells, size, message, sizeof message);
        answers.size = whole.length;
        if (whole.length < size && whole.status != SDTOOL_STATUS_STOPPED)
            return;
        release(answers.cells, size);
    }
}

static bool is_whole(const struct sdtool_ending *e, const uint8_t *out)
{
    return e->status == whole.status && e->length == whole.length && same(out, answers.cells, whole.length);
}

/* A message that is too short has the front, and nothing else changes. */
static void try_messages(void)
{
    for (size_t size = 0; size <= whole.message_length + 1; size++) {
        uint8_t *out = block(answers.size + 1), *says = block(size);
        struct sdtool_ending e = call(out, answers.size + 1, says, size);
        size_t most = size < whole.message_length ? size : whole.message_length;

        if (!is_whole(&e, out) || e.message_length != most || !same(says, message, most))
            complain_at("a message of size", size);
        release(out, answers.size + 1);
        release(says, size);
    }
}

static void try_refusals(void)
{
    static const char no_memory[] = "sdtool: no memory\n";
    uint8_t *out = block(answers.size + 1);
    uint8_t says[SDTOOL_MOST_MESSAGE];
    struct sdtool_ending e;
    long most;

    allocations = 0;
    allocated = 0;
    e = call(out, answers.size + 1, says, sizeof says);
    most = allocations;
    if (allocated >= 2 << 20)
        complain_at("allocated bytes:", allocated);
    if (!is_whole(&e, out))
        complain("a second call");
    for (long n = 0; n < most; n++) {
        allocations_left = n;
        e = call(out, answers.size + 1, says, sizeof says);
        allocations_left = -1;
        /* Words that are wrong may be refused although memory was, as by the program. */
        if (whole.status == SDTOOL_STATUS_USAGE && is_whole(&e, out) && e.message_length == whole.message_length
            && same(says, message, whole.message_length))
            continue;
        if (e.status != SDTOOL_STATUS_NO_MEMORY || e.length != 0 || e.message_length != strlen(no_memory)
            || memcmp(says, no_memory, e.message_length) != 0)
            complain_at("a refused allocation", (size_t)n);
    }
    e = call(out, answers.size + 1, says, sizeof says);
    if (!is_whole(&e, out))
        complain("a call after refused allocations");
    release(out, answers.size + 1);
}

static void print_sizes(void)
{
    for (size_t size = 0; size <= answers.size + 1; size++) {
        uint8_t *out = block(size);
        uint8_t says[SDTOOL_MOST_MESSAGE];
        struct sdtool_ending e = call(out, size, says, sizeof says);

        if (!same(out, answers.cells, e.length))
            complain_at("another front of the answers at size", size);
        printf("%zu %u %zu %.*s", size, (unsigned)e.status, e.length, (int)e.message_length, (const char *)says);
        if (e.message_length == 0)
            putchar('\n');
        release(out, size);
    }
}

static void *repeat(void *unused)
{
    (void)unused;
    for (int round = rounds_of(ROUNDS); round > 0; round--) {
        uint8_t *out = block(answers.size + 1);
        uint8_t says[SDTOOL_MOST_MESSAGE];
        struct sdtool_ending e = call(out, answers.size + 1, says, sizeof says);

        if (!is_whole(&e, out) || e.message_length != whole.message_length || !same(says, message, e.message_length))
            complain_at("a call in a thread", (size_t)round);
        release(out, answers.size + 1);
    }
    return NULL;
}

static void try_threads(void)
{
    pthread_t threads[THREADS];

    for (int i = 0; i < THREADS; i++)
        if (pthread_create(&threads[i], NULL, repeat, NULL) != 0)
            abort();
    for (int i = 0; i < THREADS; i++)
        pthread_join(threads[i], NULL);
}

/* The words, each with its NUL; the last without it if they are cut. */
static struct bytes joined(int count, char **list, bool is_cut)
{
    struct bytes all = {NULL, 0};
    size_t at = 0;

    for (int i = 0; i < count; i++)
        all.size += strlen(list[i]) + 1;
    if (is_cut && all.size > 0)
        all.size--;
    all.cells = block(all.size);
    for (int i = 0; i < count; i++)
        for (size_t k = 0; k <= strlen(list[i]) && at < all.size; k++)
            all.cells[at++] = (uint8_t)list[i][k];
    seal(all.cells, all.size);
    return all;
}

/* All of standard input, in a block of exactly its size. */
static struct bytes read_all(void)
{
    struct bytes all = {NULL, 0};
    char piece[FIRST_SIZE];
    size_t got;

    while ((got = fread(piece, 1, sizeof piece, stdin)) > 0) {
        uint8_t *more = block(all.size + got);

        if (all.size > 0)
            memcpy(more, all.cells, all.size);
        memcpy(more + all.size, piece, got);
        if (all.cells != NULL)
            release(all.cells, all.size);
        all.cells = more;
        all.size += got;
    }
    seal(all.cells, all.size);
    return all;
}

int main(int count, char **list)
{
    const char *task = count > 1 ? list[1] : "";

    read_environment();
    job = "runs";
    words = joined(count - 2, list + 2, strcmp(task, "cut") == 0);
    input = read_all();
    answer();
    if (strcmp(task, "plain") == 0)
        try_messages();
    else if (strcmp(task, "refusals") == 0)
        try_refusals();
    else if (strcmp(task, "threads") == 0)
        try_threads();
    if (strcmp(task, "sizes") == 0) {
        print_sizes();
    } else if (stack_size != 0) {
        print_stack();
    } else {
        fwrite(answers.cells, 1, answers.size, stdout);
        fwrite(message, 1, whole.message_length, stderr);
    }
    release(words.cells, words.size);
    if (input.cells != NULL)
        release(input.cells, input.size);
    release(answers.cells, answers_room);
    return wrong ? WRONG : (int)whole.status;
}
