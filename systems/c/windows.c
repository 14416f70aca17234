// Windows, for the program: its streams, its arguments, and how it starts and ends. It needs kernel32.dll and
// shell32.dll alone, and no C library: so nothing translates line ends, takes Control-Z for an end, or expands
// wildcards.
#define WIN32_LEAN_AND_MEAN
#include <windows.h>

#include <cpuid.h>
#include <shellapi.h>

#include "rattle.h"

// One call moves at most so many bytes: to a console fewer, since older versions of Windows refuse more.
enum {
    MOST_BYTES = 1 << 30,
    MOST_CONSOLE_BYTES = 1 << 13,
    NO_MEMORY_STATUS = 4,
    CONTROL_Z = 0x1a
};

static wchar_t **words;
static int word_count;
static int32_t last_error;

int32_t rattle_errno(void)
{
    return last_error;
}

void rattle_set_errno(int32_t number)
{
    last_error = number;
}

static int64_t failed(int32_t number)
{
    last_error = number;
    return -1;
}

// The handle of a stream; null if the program was started without it.
static HANDLE handle_of(int32_t stream)
{
    static const DWORD names[] = {STD_INPUT_HANDLE, STD_OUTPUT_HANDLE, STD_ERROR_HANDLE};
    if (stream < 0 || stream > 2)
        return NULL;
    HANDLE handle = GetStdHandle(names[stream]);
    return handle == INVALID_HANDLE_VALUE ? NULL : handle;
}

static BOOL is_console(HANDLE handle)
{
    DWORD mode;
    return GetConsoleMode(handle, &mode);
}

static DWORD size_of_move(HANDLE handle, size_t size)
{
    size_t most = is_console(handle) ? MOST_CONSOLE_BYTES : MOST_BYTES;
    return (DWORD)(size < most ? size : most);
}

// Whether a read that gave nothing may be followed by one that gives something: a writer that writes no byte to a pipe
// wakes its reader. The end of a pipe is an error and not an empty read.
static BOOL goes_on(HANDLE handle)
{
    return GetFileType(handle) == FILE_TYPE_PIPE && PeekNamedPipe(handle, NULL, 0, NULL, NULL, NULL);
}

// POSIX's read: the number of bytes that came, 0 at the end, or -1 and a number in rattle_errno.
int64_t read(int32_t stream, uint8_t *room, size_t size)
{
    HANDLE handle = handle_of(stream);
    if (!handle)
        return failed(RATTLE_EBADF);
    DWORD came, wanted = size_of_move(handle, size);
    do {
        if (!ReadFile(handle, room, wanted, &came, NULL)) {
            switch (GetLastError()) {
            case ERROR_BROKEN_PIPE: // each writer has closed the pipe
            case ERROR_HANDLE_EOF:
                return 0;
            case ERROR_NO_DATA: // a pipe that doesn't wait has nothing yet
                return failed(RATTLE_EAGAIN);
            default:
                return failed(RATTLE_EIO);
            }
        }
    } while (wanted && !came && goes_on(handle));
    // Control-Z at the start of what a console gives is the end. Windows then gives nothing, and wine the line.
    return came && *room == CONTROL_Z && is_console(handle) ? 0 : came;
}

// POSIX's write: the number of bytes that the stream took, or -1 and a number in rattle_errno.
int64_t write(int32_t stream, const uint8_t *bytes, size_t size)
{
    HANDLE handle = handle_of(stream);
    if (!handle)
        return failed(RATTLE_EBADF);
    DWORD took;
    if (WriteFile(handle, bytes, size_of_move(handle, size), &took, NULL))
        return took;
    switch (GetLastError()) {
    case ERROR_BROKEN_PIPE:
    case ERROR_NO_DATA:
    case ERROR_PIPE_NOT_CONNECTED:
        return failed(RATTLE_EPIPE);
    default:
        return failed(RATTLE_EIO);
    }
}

// By this name the check of the processor writes.
int64_t __write(int32_t stream, const uint8_t *bytes, size_t size)
{
    return write(stream, bytes, size);
}

const struct processor *__x86_get_cpuid_feature_leaf(uint32_t leaf)
{
    static const uint32_t numbers[] = {1, 7, 0x80000001};
    static struct processor found;
    uint32_t *words = found.has;
    found = (struct processor){0};
    if (leaf < sizeof numbers / sizeof *numbers
        && __get_cpuid_count(numbers[leaf], 0, &words[0], &words[1], &words[2], &words[3]))
        for (int at = 0; at < 4; at++)
            found.may_use[at] = words[at];
    return &found;
}

// Windows has no signals: a write to a closed pipe fails, as the proved code wants it.
int64_t __sysv_signal(int32_t number, int64_t handler)
{
    (void)number;
    (void)handler;
    return 0;
}

// Writes a code point as UTF-8, if it fits, and returns its length. A surrogate without its partner is written in the
// same way: that is not UTF-8, so the proved code refuses it, as it refuses other bytes that are no text.
static size_t put_utf8(uint32_t point, uint8_t *room, size_t room_size)
{
    static const uint8_t fronts[] = {0, 0, 0xc0, 0xe0, 0xf0};
    size_t length = point < 0x80 ? 1 : point < 0x800 ? 2 : point < 0x10000 ? 3 : 4;
    if (length > room_size)
        return length;
    for (size_t at = length; --at > 0; point >>= 6)
        room[at] = (uint8_t)(0x80 | (point & 0x3f));
    room[0] = (uint8_t)(fronts[length == 1 ? 0 : length] | point);
    return length;
}

// The code point at the start of some UTF-16 that ends with a NUL, and how many units it has.
static uint32_t point_at(const wchar_t *units, size_t *count)
{
    uint32_t unit = units[0], next = units[1];
    *count = 1;
    if ((unit & 0xfc00) != 0xd800 || (next & 0xfc00) != 0xdc00)
        return unit;
    *count = 2;
    return 0x10000 + ((unit & 0x3ff) << 10 | (next & 0x3ff));
}

// The name of a program's file without folders and without .exe, for which the word is cut. Help tells that name, on
// each system the same.
static wchar_t *name_in(wchar_t *path)
{
    wchar_t *name = path, *at = path;
    for (; *at; at++)
        if (*at == L'\\' || *at == L'/' || *at == L':')
            name = at + 1;
    if (at - name > 4 && lstrcmpiW(at - 4, L".exe") == 0)
        at[-4] = 0;
    return name;
}

int64_t rattle_arg(size_t index, uint8_t *room, size_t room_size)
{
    if (index >= (size_t)word_count)
        return -1;
    size_t length = 0, count;
    for (const wchar_t *at = words[index]; *at; at += count) {
        size_t size = put_utf8(point_at(at, &count), room + length, room_size - length);
        if (size > room_size - length)
            return -2;
        length += size;
    }
    return (int64_t)length;
}

// Where Windows starts the program.
__attribute__((noreturn)) void start(void)
{
    static const char no_memory[] = "sdtool: no memory\n";
    words = CommandLineToArgvW(GetCommandLineW(), &word_count);
    if (!words) {
        write(2, (const uint8_t *)no_memory, sizeof no_memory - 1);
        ExitProcess(NO_MEMORY_STATUS);
    }
    if (word_count > 0)
        words[0] = name_in(words[0]);
    ExitProcess((UINT)rattle_main());
}
