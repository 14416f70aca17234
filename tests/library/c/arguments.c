/*
 * arguments: what the small C layer of a system gives of the words of the command line.
 *
 * SYSTEM is the file of systems/c that is tested, linux.c or wasi.c. Its rattle_arg gets rooms that are shorter than a
 * word, as long, and longer, and may write to none of the bytes behind a room. What is wrong is printed, and the status
 * is then 1.
 */
#include <pthread.h>
#include <stdio.h>
#include <stdlib.h>
#include <string.h>
#include <sys/syscall.h>

#define main start_with
#include SYSTEM
#undef main

enum {
    WORDS = 7,
    LONG = 70000,
    SLACK = 3,
    UNTOUCHED = 0xee
};

static char long_word[LONG + 1], other_long_word[257];
static const char *const given[WORDS] = {"sdtool", "", "a", "--to=hex", "\xc3\xa9\xff\x01", long_word, other_long_word};
static uint8_t room[LONG + 2 * SLACK];
static int wrong;

static void expect(int is_right, size_t index, size_t size, const char *what)
{
    if (!is_right) {
        printf("word %zu in a room of %zu bytes: %s\n", index, size, what);
        wrong = 1;
    }
}

/* A word in a room of so many bytes. */
static void try_room(size_t index, size_t size)
{
    size_t length = strlen(given[index]);
    int64_t answer;

    memset(room, UNTOUCHED, sizeof room);
    answer = rattle_arg(index, room, size);
    if (length > size) {
        expect(answer == -2, index, size, "it is not told to be too long");
    } else {
        expect(answer == (int64_t)length, index, size, "it has another length");
        expect(memcmp(room, given[index], length) == 0, index, size, "it has other bytes");
    }
    for (size_t at = size; at < size + SLACK; at++)
        expect(room[at] == UNTOUCHED, index, size, "a byte behind the room is written to");
}

static void try_words(void)
{
    for (size_t index = 0; index < WORDS; index++) {
        size_t length = strlen(given[index]);

        for (size_t size = length > 300 ? length - 3 : 0; size <= length + SLACK; size++)
            try_room(index, size);
        try_room(index, 0);
    }
    for (size_t index = WORDS; index < WORDS + 3; index++)
        expect(rattle_arg(index, room, sizeof room) == -1, index, sizeof room, "there is no such word");
    expect(rattle_arg(SIZE_MAX, room, sizeof room) == -1, SIZE_MAX, sizeof room, "there is no such word");
}

/* The layer calls this as the proved program. */
int32_t rattle_main(void)
{
    try_words();
    return wrong;
}

static void fill_words(void)
{
    memset(long_word, 'x', LONG);
    memset(other_long_word, 'y', sizeof other_long_word - 1);
}

#ifdef WASI
long syscall(long number, ...);

/* The host, which keeps its words here. Places are 32 bits, so this program and its stack lie below 2^32. */
int32_t args_sizes_get(uint32_t count, uint32_t size)
{
    uint32_t total = 0;

    for (size_t index = 0; index < WORDS; index++)
        total += (uint32_t)strlen(given[index]) + 1;
    *(uint32_t *)(uintptr_t)count = WORDS;
    *(uint32_t *)(uintptr_t)size = total;
    return 0;
}

int32_t args_get(uint32_t places, uint32_t texts)
{
    for (size_t index = 0; index < WORDS; index++) {
        ((uint32_t *)(uintptr_t)places)[index] = texts;
        strcpy((char *)(uintptr_t)texts, given[index]);
        texts += (uint32_t)strlen(given[index]) + 1;
    }
    return 0;
}

void *rattle_find(size_t size)
{
    static _Alignas(16) uint8_t memory[2 * LONG];
    static size_t used;
    void *found = memory + used;

    used += (size + 15) & ~(size_t)15;
    return used <= sizeof memory ? found : NULL;
}

int32_t fd_read(int32_t stream, uint32_t slices, uint32_t slice_count, uint32_t came)
{
    (void)stream, (void)slices, (void)slice_count, (void)came;
    return WASI_EBADF;
}

/* What this program prints goes through the layer too. */
int32_t fd_write(int32_t stream, uint32_t slices, uint32_t slice_count, uint32_t took)
{
    const struct slice *slice = (const struct slice *)(uintptr_t)slices;
    long count = slice_count == 1 ? syscall(SYS_write, stream, (uintptr_t)slice->place, (size_t)slice->size) : -1;

    *(uint32_t *)(uintptr_t)took = (uint32_t)count;
    return count < 0 ? WASI_EBADF : 0;
}

void proc_exit(int32_t status)
{
    exit(status);
}

static void *run_start(void *nothing)
{
    start();
    return nothing;
}

int main(void)
{
    static _Alignas(4096) uint8_t stack[1 << 20];
    static char printed[BUFSIZ];
    pthread_attr_t attributes;
    pthread_t thread;

    fill_words();
    setvbuf(stdout, printed, _IOLBF, sizeof printed);
    pthread_attr_init(&attributes);
    pthread_attr_setstack(&attributes, stack, sizeof stack);
    if (pthread_create(&thread, &attributes, run_start, NULL) == 0)
        pthread_join(thread, NULL);
    return 2;
}
#else
int main(void)
{
    fill_words();
    return start_with(WORDS, (char **)given);
}
#endif
