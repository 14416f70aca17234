// A library to preload under Python: where a call of the main thread is about to wait, it holds the call back for a
// while. A signal that comes in this time is behind Python's look for signals, and before the system call.
//
//   HOLD_CALLS=NAMES   the calls: open, read, write, lock
//   HOLD_OPEN=PATH     the file whose opening waits
//   HOLD_FILE=PATH     the first call that is held removes this file; without it none is held
//
// It includes nothing, so that a C compiler is enough to build it.
typedef __SIZE_TYPE__ size_t;

struct time {
    long seconds, nanoseconds;
};
struct polled {
    int file;
    short events, found;
};

extern void *dlsym(void *handle, const char *name);
extern char *getenv(const char *name);
extern char *strstr(const char *text, const char *part);
extern int strcmp(const char *one, const char *other);
extern int *__errno_location(void);
extern int __poll(struct polled *files, unsigned long count, int wait);
extern int getpid(void);
extern int gettid(void);
extern int nanosleep(const struct time *wanted, struct time *left);
extern int sem_getvalue(void *lock, int *value);
extern int unlink(const char *path);

enum {
    HELD_FOR = 300000000
}; // nanoseconds
enum {
    CAN_READ = 1,
    CAN_WRITE = 4
};

static const char *calls, *opened, *file;
static int process;

__attribute__((constructor)) static void start(void)
{
    calls = getenv("HOLD_CALLS");
    opened = getenv("HOLD_OPEN");
    file = getenv("HOLD_FILE");
    process = getpid();
}

static void *next(const char *name)
{
    return dlsym((void *)-1L, name);
}

static int is_meant(const char *call)
{
    return calls && file && strstr(calls, call) && getpid() == process && gettid() == process;
}

// A signal ends no pause early.
static void hold(void)
{
    int before = *__errno_location();
    struct time left = {0, HELD_FOR};
    if (unlink(file) == 0)
        while (nanosleep(&left, &left) != 0) {
        }
    *__errno_location() = before;
}

static int would_wait(int of, short events)
{
    struct polled one = {of, events, 0};
    return __poll(&one, 1, 0) == 0;
}

long read(int of, void *buffer, size_t size)
{
    if (is_meant("read") && would_wait(of, CAN_READ))
        hold();
    return ((long (*)(int, void *, size_t))next("read"))(of, buffer, size);
}

long write(int of, const void *buffer, size_t size)
{
    if (is_meant("write") && would_wait(of, CAN_WRITE))
        hold();
    return ((long (*)(int, const void *, size_t))next("write"))(of, buffer, size);
}

static void hold_open(const char *path)
{
    if (is_meant("open") && opened && strcmp(path, opened) == 0)
        hold();
}

int open(const char *path, int flags, unsigned mode)
{
    hold_open(path);
    return ((int (*)(const char *, int, unsigned))next("open"))(path, flags, mode);
}

int open64(const char *path, int flags, unsigned mode)
{
    hold_open(path);
    return ((int (*)(const char *, int, unsigned))next("open64"))(path, flags, mode);
}

static void hold_lock(void *lock)
{
    int value = 1;
    if (is_meant("lock") && sem_getvalue(lock, &value) == 0 && value == 0)
        hold();
}

int sem_wait(void *lock)
{
    hold_lock(lock);
    return ((int (*)(void *))next("sem_wait"))(lock);
}

int sem_clockwait(void *lock, int clock, const struct time *until)
{
    hold_lock(lock);
    return ((int (*)(void *, int, const struct time *))next("sem_clockwait"))(lock, clock, until);
}
