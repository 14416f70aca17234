// What the proved code calls, and what its proofs assume of each function. A definition that does less makes the proofs
// worthless. Each system defines these functions in a file of its own.
//
// A function keeps no pointer that it was given, and writes to no memory but that which its comment names.
#ifndef RATTLE_H
#define RATTLE_H

#include <stddef.h>
#include <stdint.h>

// Linux's numbers, on every system. After RATTLE_EINTR the proved code tries again; each other number ends the run.
enum {
    RATTLE_EINTR = 4,
    RATTLE_EIO = 5,
    RATTLE_EBADF = 9,
    RATTLE_EAGAIN = 11,
    RATTLE_EPIPE = 32
};

// Finds SIZE bytes that nothing else uses, aligned to 16. SIZE is above 0 and below 2^63. Null: there is no memory.
// The proved code calls rattle_alloc, which heap.ll defines over this function.
void *rattle_find(size_t size);

// Makes the block at PLACE, which rattle_find or rattle_resize found, a block of SIZE bytes whose first KEPT bytes are
// as they were. Both the old block and the new one have at least KEPT bytes. The block may move. Null: there is no
// memory, and the block is as it was. The proved code calls rattle_realloc, which heap.ll defines over this function.
void *rattle_resize(void *place, size_t kept, size_t size);

// Gives back a block that rattle_find or rattle_resize found.
void rattle_dealloc(void *place);

// The program: returns its exit status. It is called once.
int32_t rattle_main(void);

// Writes argument INDEX of the command line to ROOM, without a final NUL, and returns its length. -1: there is no such
// argument. -2: it has more than ROOM_SIZE bytes. Argument 0 is the program's name. The proved code refuses an argument
// that is not UTF-8.
int64_t rattle_arg(size_t index, uint8_t *room, size_t room_size);

// The number of the last read or write that returned -1.
int32_t rattle_errno(void);

// Sets what rattle_errno returns next.
void rattle_set_errno(int32_t number);

// What the processor can do, by the four words that the instruction cpuid gives, and what of it the system lets be
// used.
struct processor {
    uint32_t has[4], may_use[4];
};

// Before anything else the program looks whether the processor has what the code is compiled for. LEAF 0 stands for
// the number 1 of cpuid and 2 for the number 0x80000001. The code uses no register that a system has to save in a new
// way. Where something is missing, the program says so by __write, which is write, and returns 127.
const struct processor *__x86_get_cpuid_feature_leaf(uint32_t leaf);

// The proved code also calls POSIX's read and write for the three standard streams: they return the number of bytes
// that were moved, 0 at the end of what is read, or -1 and a number in rattle_errno. They may move less than SIZE
// bytes. What read puts into ROOM is the stream's next bytes, unchanged, and what write takes goes to the stream
// unchanged.
//
// It calls memcpy, memmove and memset as C defines them, and __sysv_signal(SIGPIPE, SIG_IGN) first of all, so that a
// write to a pipe that nobody reads fails and ends nothing.

#endif
