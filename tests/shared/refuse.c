// A library to preload under the program: it refuses allocations, and tells what it saw.
//
//   REFUSE_AT=K            refuses the Kth allocation, and no other
//   REFUSE_WHEN_READING=1  refuses every allocation from the first read of the standard input on
//   REFUSE_TELL=FD         where it tells, one letter for each event: 'r' the first read of the standard
//                          input, 'x' an allocation of more than MOST bytes, 'l' another of LARGE bytes or
//                          more, 'm' another of MIDDLING bytes or more; and a refused one 'X', 'L', 'M', or 'S'
//                          where it is smaller
//
// It includes nothing, so that a C compiler is enough to build it: no header of a C library is wanted.
typedef __SIZE_TYPE__ size_t;

extern void *__libc_malloc(size_t size);
extern void *__libc_calloc(size_t count, size_t size);
extern void *__libc_realloc(void *block, size_t size);
extern void *__libc_memalign(size_t alignment, size_t size);
extern long __read(int fd, void *buffer, size_t size);
extern long write(int fd, const void *buffer, size_t size);
extern char *getenv(const char *name);
extern long atol(const char *text);

enum {
    OUT_OF_MEMORY = 12
}; // ENOMEM on Linux
enum {
    MOST = 174968
}; // the characters of the largest descriptor in base64
enum {
    LARGE = 131226
}; // the bytes of the largest descriptor
enum {
    MIDDLING = 8192
}; // eight bytes for each entry of the largest token

static long refused_one;
static int refuses_when_reading;
static int told_to = -1;
static int is_reading;
static long allocations;

static long setting(const char *name, long otherwise)
{
    const char *text = getenv(name);
    return text ? atol(text) : otherwise;
}

// What the loader allocates before this is not the program's.
__attribute__((constructor)) static void start(void)
{
    refused_one = setting("REFUSE_AT", 0);
    refuses_when_reading = setting("REFUSE_WHEN_READING", 0) != 0;
    told_to = (int)setting("REFUSE_TELL", -1);
    allocations = 0;
}

static void tell(char event)
{
    if (told_to >= 0 && write(told_to, &event, 1) != 1)
        __builtin_trap();
}

static char letter(size_t size)
{
    return size > MOST ? 'x' : size >= LARGE ? 'l' : size >= MIDDLING ? 'm' : 's';
}

static int is_refused(size_t size)
{
    int refused = ++allocations == refused_one || (refuses_when_reading && is_reading);
    if (refused)
        tell((char)(letter(size) - 'a' + 'A'));
    else if (size >= MIDDLING)
        tell(letter(size));
    return refused;
}

void *malloc(size_t size)
{
    return is_refused(size) ? 0 : __libc_malloc(size);
}

void *calloc(size_t count, size_t size)
{
    return is_refused(count * size) ? 0 : __libc_calloc(count, size);
}

void *realloc(void *block, size_t size)
{
    return is_refused(size) ? 0 : __libc_realloc(block, size);
}

void *memalign(size_t alignment, size_t size)
{
    return is_refused(size) ? 0 : __libc_memalign(alignment, size);
}

void *aligned_alloc(size_t alignment, size_t size)
{
    return memalign(alignment, size);
}

int posix_memalign(void **block, size_t alignment, size_t size)
{
    void *made = memalign(alignment, size);
    if (!made)
        return OUT_OF_MEMORY;
    *block = made;
    return 0;
}

long read(int fd, void *buffer, size_t size)
{
    if (fd == 0 && !is_reading) {
        is_reading = 1;
        tell('r');
    }
    return __read(fd, buffer, size);
}
