/*
 * run_lines WORD ..
 *
 * Calls sdtool_run with the words on all of standard input, and prints what the program would: the output, the message
 * and the exit status. It needs nothing but standard C, so it is the test of the library on systems without POSIX.
 */
#include <stdio.h>
#include <stdlib.h>
#include <string.h>
#ifdef _WIN32
#include <fcntl.h>
#include <io.h>
#endif

#include "sdtool.h"

enum {
    PIECE = 1 << 16
};

static uint8_t *larger(uint8_t *cells, size_t size)
{
    cells = realloc(cells, size);
    if (cells == NULL)
        abort();
    return cells;
}

int main(int count, char **list)
{
    size_t words_size = 0, size = 0, got, room = PIECE;
    uint8_t *words = larger(NULL, PIECE), *input = larger(NULL, PIECE), *output = NULL, message[SDTOOL_MOST_MESSAGE];
    struct sdtool_ending ending;

#ifdef _WIN32
    _setmode(0, _O_BINARY);
    _setmode(1, _O_BINARY);
    _setmode(2, _O_BINARY);
#endif
    for (int i = 1; i < count; i++) {
        words = larger(words, words_size + strlen(list[i]) + 1);
        memcpy(words + words_size, list[i], strlen(list[i]) + 1);
        words_size += strlen(list[i]) + 1;
    }
    while ((got = fread(input + size, 1, PIECE, stdin)) > 0) {
        size += got;
        input = larger(input, size + PIECE);
    }
    do {
        room *= 4;
        output = larger(output, room);
        ending = sdtool_run(words, words_size, input, size, output, room, message, sizeof message);
    } while (ending.status == SDTOOL_STATUS_STOPPED || ending.length == room);
    fwrite(output, 1, ending.length, stdout);
    fwrite(message, 1, ending.message_length, stderr);
    free(output);
    free(input);
    free(words);
    return (int)ending.status;
}
