// Linux: for the static program on x86-64, and for the program on arm64. The C library has read, write and
// __sysv_signal.
#include <errno.h>
#include <stdlib.h>

#include "rattle.h"

static char **words;
static size_t word_count;

int main(int count, char **arguments)
{
    words = arguments;
    word_count = (size_t)count;
    return rattle_main();
}

int64_t rattle_arg(size_t index, uint8_t *room, size_t room_size)
{
    if (index >= word_count)
        return -1;
    size_t length = 0;
    for (; words[index][length]; length++) {
        if (length == room_size)
            return -2;
        room[length] = (uint8_t)words[index][length];
    }
    return (int64_t)length;
}

int32_t rattle_errno(void)
{
    return errno;
}

void rattle_set_errno(int32_t number)
{
    errno = number;
}
