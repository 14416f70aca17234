// A library to preload under the program: it fails reads or writes, cuts them short, and tells of each.
//
//   FAULT_FD=FD       where calls fail: reads of 0, or writes of 1 or 2
//   FAULT_AT=N        the Nth of them is the first that fails; 0, or left out: none
//   FAULT_TIMES=N     and so do the ones after it, N in all; 0: every one from then on
//   FAULT_ERROR=E     the errno that a failed call leaves; 0: it answers 0 instead
//   FAULT_PIECE=N     a read of 0 gives at most N bytes
//   FAULT_TAKES=N     a write of 1 takes at most N bytes
//   FAULT_TELL=FD     where it tells, for each call a line of a letter and the bytes that were moved: 'r' a read of 0,
//                     'w' a write of 1, 'v' a write of 2; where it was failed, the same in upper case and 0
//
// A call of another kind on one of the three, as readv or poll, is not seen: a test that waits for one of the letters
// tells. After MOST_AFTER calls behind the first failed one the program is ended, so that one which tries for ever
// does not hang. It includes nothing, so that a C compiler is enough to build it.
typedef __SIZE_TYPE__ size_t;

extern long __read(int fd, void *buffer, size_t size);
extern long __write(int fd, const void *buffer, size_t size);
extern int *__errno_location(void);
extern char *getenv(const char *name);
extern long atol(const char *text);
extern void _exit(int status) __attribute__((noreturn));

enum {
    MOST_AFTER = 1000,
    TRIED_FOR_EVER = 99
};

static long fails_on = -1, fails_at, fails_times, leaves, piece, takes;
static int told_to = -1;
static long calls, after;

static long setting(const char *name, long otherwise)
{
    const char *text = getenv(name);
    return text ? atol(text) : otherwise;
}

__attribute__((constructor)) static void start(void)
{
    fails_on = setting("FAULT_FD", -1);
    fails_at = setting("FAULT_AT", 0);
    fails_times = setting("FAULT_TIMES", 1);
    leaves = setting("FAULT_ERROR", 5);
    piece = setting("FAULT_PIECE", 0);
    takes = setting("FAULT_TAKES", 0);
    told_to = (int)setting("FAULT_TELL", -1);
}

static void tell(char letter, long moved)
{
    char line[24], *at = line + sizeof line;
    *--at = '\n';
    do
        *--at = (char)('0' + moved % 10);
    while (moved /= 10);
    *--at = letter;
    size_t size = (size_t)(line + sizeof line - at);
    if (told_to >= 0 && __write(told_to, at, size) != (long)size)
        __builtin_trap();
}

// Whether this call of one of the three streams is one of those that fail.
static int is_failed(int fd)
{
    if (after && ++after > MOST_AFTER)
        _exit(TRIED_FOR_EVER);
    if (fd != fails_on || !fails_at)
        return 0;
    calls++;
    if (calls < fails_at || (fails_times && calls >= fails_at + fails_times))
        return 0;
    after += !after;
    return 1;
}

static long failed(char letter)
{
    tell(letter, 0);
    if (!leaves)
        return 0;
    *__errno_location() = (int)leaves;
    return -1;
}

static size_t at_most(size_t size, long most)
{
    return most && size > (size_t)most ? (size_t)most : size;
}

long read(int fd, void *buffer, size_t size)
{
    if (fd != 0)
        return __read(fd, buffer, size);
    if (is_failed(fd))
        return failed('R');
    long got = __read(fd, buffer, at_most(size, piece));
    int kept = *__errno_location();
    tell('r', got < 0 ? 0 : got);
    *__errno_location() = kept;
    return got;
}

long write(int fd, const void *buffer, size_t size)
{
    if (fd != 1 && fd != 2)
        return __write(fd, buffer, size);
    char letter = fd == 1 ? 'w' : 'v';
    if (is_failed(fd))
        return failed((char)(letter - 'a' + 'A'));
    long put = __write(fd, buffer, fd == 1 ? at_most(size, takes) : size);
    int kept = *__errno_location();
    tell(letter, put < 0 ? 0 : put);
    *__errno_location() = kept;
    return put;
}
