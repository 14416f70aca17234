// check_times DESCRIPTOR SID: nanoseconds of a check, and of an empty call, as the programs of other languages measure.
#include "sdtool.h"
#include <stdio.h>
#include <stdlib.h>
#include <string.h>
#include <time.h>

enum {
    CALLS = 2000,
    ROUNDS = 200,
    MOST = 4096
};

static uint8_t descriptor[MOST], sid[SDTOOL_MOST_SID];
static size_t descriptor_size, sid_size;
static uint32_t token[SDTOOL_TOKEN_WORDS(1)];

static size_t bytes_of(const char *digits, uint8_t *bytes, size_t most)
{
    size_t size = strlen(digits) / 2;
    if (size > most)
        exit(2);
    for (size_t at = 0; at < size; at++) {
        unsigned byte;
        if (sscanf(digits + 2 * at, "%2x", &byte) != 1)
            exit(2);
        bytes[at] = (uint8_t)byte;
    }
    return size;
}

static void check(void)
{
    static const struct sdtool_request request = {.wanted = 0x120089};
    struct sdtool_verdict verdict = sdtool_check_with(descriptor, descriptor_size, token, sizeof token / sizeof *token,
                                                      NULL, 0, NULL, 0, &request);
    if (verdict.outcome.fault != SDTOOL_OK || !verdict.granted)
        exit(3);
}

static void empty(void)
{
    if (!sdtool_version_number())
        exit(4);
}

static double measured(void (*call)(void))
{
    double best = 1e9;
    for (int round = 0; round < ROUNDS; round++) {
        struct timespec began, ended;
        clock_gettime(CLOCK_MONOTONIC, &began);
        for (int index = 0; index < CALLS; index++)
            call();
        clock_gettime(CLOCK_MONOTONIC, &ended);
        double took = (1e9 * (double)(ended.tv_sec - began.tv_sec) + (double)(ended.tv_nsec - began.tv_nsec)) / CALLS;
        if (took < best)
            best = took;
    }
    return best;
}

int main(int count, char **words)
{
    if (count != 3)
        return 2;
    descriptor_size = bytes_of(words[1], descriptor, sizeof descriptor);
    sid_size = bytes_of(words[2], sid, sizeof sid);
    uint8_t entry = SDTOOL_ENABLED;
    if (sdtool_token_read(sid, sid_size, &entry, 1, token, sizeof token / sizeof *token).fault != SDTOOL_OK)
        return 2;
    printf("%f %f\n", measured(check), measured(empty));
    return 0;
}
