// WASI, preview 1, for the program: its streams, its arguments, and how it starts and ends.
#include "rattle.h"

#define IMPORT(name) __attribute__((import_module("wasi_snapshot_preview1"), import_name(#name))) int32_t name

// Places and sizes are 32 bits, as in a module with a 32-bit memory.
struct slice {
    uint32_t place, size;
};
IMPORT(fd_read)(int32_t stream, uint32_t slices, uint32_t slice_count, uint32_t came);
IMPORT(fd_write)(int32_t stream, uint32_t slices, uint32_t slice_count, uint32_t took);
IMPORT(args_sizes_get)(uint32_t count, uint32_t size);
IMPORT(args_get)(uint32_t places, uint32_t texts);
__attribute__((import_module("wasi_snapshot_preview1"), import_name("proc_exit"), noreturn)) void
proc_exit(int32_t status);

// The numbers of WASI that the proved code tells from others, or that say more than that something failed.
enum {
    WASI_EAGAIN = 6,
    WASI_EBADF = 8,
    WASI_EINTR = 27,
    WASI_EPIPE = 64
};
enum {
    MOST_BYTES = 1 << 30,
    NO_MEMORY_STATUS = 4
};

static uint32_t *words;
static uint32_t word_count;
static int32_t last_error;

int32_t rattle_errno(void)
{
    return last_error;
}

void rattle_set_errno(int32_t number)
{
    last_error = number;
}

static uint32_t place_of(const void *pointer)
{
    return (uint32_t)(uintptr_t)pointer;
}

static int64_t failed(int32_t number)
{
    switch (number) {
    case WASI_EAGAIN:
        last_error = RATTLE_EAGAIN;
        break;
    case WASI_EBADF:
        last_error = RATTLE_EBADF;
        break;
    case WASI_EINTR:
        last_error = RATTLE_EINTR;
        break;
    case WASI_EPIPE:
        last_error = RATTLE_EPIPE;
        break;
    default:
        last_error = RATTLE_EIO;
    }
    return -1;
}

static struct slice slice_of(const void *place, size_t size)
{
    return (struct slice){place_of(place), (uint32_t)(size < MOST_BYTES ? size : MOST_BYTES)};
}

// POSIX's read: the number of bytes that came, 0 at the end, or -1 and a number in rattle_errno.
int64_t read(int32_t stream, uint8_t *room, size_t size)
{
    struct slice slice = slice_of(room, size);
    uint32_t came = 0;
    int32_t error = fd_read(stream, place_of(&slice), 1, place_of(&came));
    return error ? failed(error) : came;
}

// POSIX's write: the number of bytes that the stream took, or -1 and a number in rattle_errno.
int64_t write(int32_t stream, const uint8_t *bytes, size_t size)
{
    struct slice slice = slice_of(bytes, size);
    uint32_t took = 0;
    int32_t error = fd_write(stream, place_of(&slice), 1, place_of(&took));
    return error ? failed(error) : took;
}

// By this name the check of the processor writes.
int64_t __write(int32_t stream, const uint8_t *bytes, size_t size)
{
    return write(stream, bytes, size);
}

// The code is compiled for WebAssembly, which has all that it is compiled for.
const struct processor *__x86_get_cpuid_feature_leaf(uint32_t leaf)
{
    static const struct processor all = {{~0u, ~0u, ~0u, ~0u}, {~0u, ~0u, ~0u, ~0u}};
    (void)leaf;
    return &all;
}

// WASI has no signals: a write to a closed pipe fails, as the proved code wants it.
int64_t __sysv_signal(int32_t number, int64_t handler)
{
    (void)number;
    (void)handler;
    return 0;
}

int64_t rattle_arg(size_t index, uint8_t *room, size_t room_size)
{
    if (index >= word_count)
        return -1;
    const uint8_t *word = (const uint8_t *)(uintptr_t)words[index];
    size_t length = 0;
    for (; word[length]; length++) {
        if (length == room_size)
            return -2;
        room[length] = word[length];
    }
    return (int64_t)length;
}

// Gets the words of the command line. False: there is no memory for them, or the host has none to give.
static int get_words(void)
{
    uint32_t size = 0;
    if (args_sizes_get(place_of(&word_count), place_of(&size)))
        return 0;
    words = rattle_find((size_t)word_count * sizeof *words + 1);
    uint8_t *texts = rattle_find((size_t)size + 1);
    return words && texts && !args_get(place_of(words), place_of(texts));
}

// Where the host starts the program.
__attribute__((export_name("_start"))) void start(void)
{
    static const char no_memory[] = "sdtool: no memory\n";
    if (!get_words()) {
        write(2, (const uint8_t *)no_memory, sizeof no_memory - 1);
        proc_exit(NO_MEMORY_STATUS);
    }
    proc_exit(rattle_main());
}
