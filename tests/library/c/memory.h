/*
 * What the programs lend to the library: blocks of exactly their size, and stacks.
 *
 * On Windows the library takes no memory from malloc, so no allocation is refused there, and no process is forked.
 *
 * In the environment
 *
 *   GUARD=after    each block ends where a page begins that cannot be touched
 *   GUARD=before   each block begins where such a page ends
 *   STACK=SIZE     each call runs on a stack of so many bytes, with such a page below it; how much of it the call that
 *                  needed most has used is printed by print_stack
 *   FORKS=0        no process is forked
 *   ROUNDS=N       each thread makes its calls so many times
 */
#include <pthread.h>
#include <stdbool.h>
#include <stdint.h>
#include <stdio.h>
#include <stdlib.h>
#include <string.h>
#ifdef _WIN32
#include <windows.h>

#include <fcntl.h>
#include <io.h>
#else
#include <sys/mman.h>
#endif

enum {
    PAGE = 4096,
    UNUSED_BYTE = 0xa5
};

#ifdef _WIN32
enum {
    CAN_REFUSE = 0
};

static inline void *__real_malloc(size_t size)
{
    return malloc(size);
}

static inline void *__real_realloc(void *block, size_t size)
{
    return realloc(block, size);
}

/* A line with its LF, as POSIX has it. */
static inline ptrdiff_t getline(char **line, size_t *room, FILE *file)
{
    size_t length = 0;
    int c;

    while ((c = getc(file)) != EOF) {
        if (length + 2 > *room && (*line = realloc(*line, *room = 2 * *room + 128)) == NULL)
            abort();
        (*line)[length++] = (char)c;
        if (c == '\n')
            break;
    }
    if (length == 0)
        return -1;
    (*line)[length] = 0;
    return (ptrdiff_t)length;
}

static inline void *reserved(size_t size)
{
    return VirtualAlloc(NULL, size, MEM_RESERVE | MEM_COMMIT, PAGE_NOACCESS);
}

static inline bool set_access(void *place, size_t size, bool is_input)
{
    DWORD before;

    return VirtualProtect(place, size, is_input ? PAGE_READONLY : PAGE_READWRITE, &before) != 0;
}

static inline bool give_back(void *place, size_t size)
{
    (void)size;
    return VirtualFree(place, 0, MEM_RELEASE) != 0;
}
#else
enum {
    CAN_REFUSE = 1
};

void *__real_malloc(size_t size);
void *__real_realloc(void *block, size_t size);

static inline void *reserved(size_t size)
{
    void *found = mmap(NULL, size, PROT_NONE, MAP_PRIVATE | MAP_ANONYMOUS, -1, 0);

    return found == MAP_FAILED ? NULL : found;
}

static inline bool set_access(void *place, size_t size, bool is_input)
{
    return mprotect(place, size, is_input ? PROT_READ : PROT_READ | PROT_WRITE) == 0;
}

static inline bool give_back(void *place, size_t size)
{
    return munmap(place, size) == 0;
}
#endif

enum guard {
    NO_GUARD,
    GUARD_AFTER,
    GUARD_BEFORE
};

static enum guard guard;
static bool forks = true;
static size_t stack_size, stack_used, stack_of_none;

static void read_environment(void)
{
    const char *where = getenv("GUARD"), *size = getenv("STACK");

    if (where != NULL)
        guard = strcmp(where, "after") == 0 ? GUARD_AFTER : GUARD_BEFORE;
    if (size != NULL)
        stack_size = strtoul(size, NULL, 10);
    forks = getenv("FORKS") == NULL;
#ifdef _WIN32
    /* No C library takes Control-Z for an end, or writes CR LF. */
    for (int stream = 0; stream <= 2; stream++)
        _setmode(stream, _O_BINARY);
#endif
}

/* How often a thread makes its calls; USUAL where nothing else is asked for. */
static inline int rounds_of(int usual)
{
    const char *rounds = getenv("ROUNDS");

    return rounds == NULL ? usual : (int)strtol(rounds, NULL, 10);
}

static size_t in_pages(size_t size)
{
    return (size + PAGE - 1) / PAGE * PAGE;
}

/* Some pages with a page on each side that cannot be touched. */
static uint8_t *pages(size_t size)
{
    uint8_t *all = reserved(size + 2 * PAGE);

    if (all == NULL || (size != 0 && !set_access(all + PAGE, size, false)))
        abort();
    return all + PAGE;
}

/* A block of exactly this size, so that a sanitizer or a guard sees each byte beyond it. None is null, or a guard. */
static uint8_t *block(size_t size)
{
    uint8_t *cells = NULL;

    if (guard == GUARD_AFTER)
        return pages(in_pages(size)) + in_pages(size) - size;
    if (guard == GUARD_BEFORE)
        return pages(in_pages(size));
    if (size != 0 && (cells = __real_malloc(size)) == NULL)
        abort();
    return cells;
}

static uint8_t *first_page(const uint8_t *cells, size_t size)
{
    return (uint8_t *)cells - (guard == GUARD_AFTER ? in_pages(size) - size : 0);
}

/* The block is input from now on: with a guard, a write to it is a fault. */
static void seal(const uint8_t *cells, size_t size)
{
    if (guard != NO_GUARD && size != 0 && !set_access(first_page(cells, size), in_pages(size), true))
        abort();
}

static void release(uint8_t *cells, size_t size)
{
    if (guard == NO_GUARD)
        free(cells);
    else if (!give_back(first_page(cells, size) - PAGE, in_pages(size) + 2 * PAGE))
        abort();
}

#ifndef _WIN32
static pthread_mutex_t stack_lock = PTHREAD_MUTEX_INITIALIZER;

/* How many bytes of a stack were used. */
static size_t used_of(const uint8_t *stack, size_t size)
{
    size_t unused = 0;

    while (unused < size && stack[unused] == UNUSED_BYTE)
        unused++;
    return size - unused;
}

/* Runs a function on a stack of its own. Returns how many bytes of it were used. */
static size_t run_on_stack(void *(*function)(void *), void *argument)
{
    size_t size = in_pages(stack_size);
    uint8_t *stack = pages(size);
    pthread_attr_t attributes;
    pthread_t thread;
    size_t used;

    memset(stack, UNUSED_BYTE, size);
    if (pthread_attr_init(&attributes) != 0 || pthread_attr_setstack(&attributes, stack, size) != 0
        || pthread_create(&thread, &attributes, function, argument) != 0 || pthread_join(thread, NULL) != 0)
        abort();
    pthread_attr_destroy(&attributes);
    used = used_of(stack, size);
    give_back(stack - PAGE, size + 2 * PAGE);
    return used;
}
#endif

static inline void *nothing(void *unused)
{
    return unused;
}

/* Makes a call: on a stack of its own if one is asked for. */
static inline void make_call(void *(*function)(void *), void *argument)
{
    if (stack_size == 0) {
        function(argument);
        return;
    }
#ifndef _WIN32
    size_t none, used;

    none = run_on_stack(nothing, NULL);
    used = run_on_stack(function, argument);
    pthread_mutex_lock(&stack_lock);
    if (used - none > stack_used)
        stack_used = used - none;
    stack_of_none = none;
    pthread_mutex_unlock(&stack_lock);
#endif
}

/* What the call that needed most used beyond what a thread uses that does nothing. */
static inline void print_stack(void)
{
    if (stack_size != 0)
        printf("stack %zu of %zu, %zu for the thread itself\n", stack_used, stack_size, stack_of_none);
}
