/*
 * reasons_speed
 *
 * For each line of standard input, DESCRIPTOR SIDS LEVEL in hex, prints the processor time of sdtool_check_with that
 * wants 0x00FFFFFF and that of sdtool_reasons_with, in nanoseconds: the least of several rounds, which take turns. Each
 * SID is enabled. LEVEL is 0 for none.
 */
#include <stdint.h>
#include <stdio.h>
#include <stdlib.h>
#include <string.h>
#include <time.h>

#include "sdtool.h"

enum {
    ROUNDS = 15,
    MOST_CALLS = 4096
};

static uint8_t descriptor[SDTOOL_MOST_BYTES], sids[SDTOOL_MOST_SID * SDTOOL_MOST_SIDS], entries[SDTOOL_MOST_SIDS];
static uint32_t token[SDTOOL_TOKEN_WORDS(SDTOOL_MOST_SIDS)];
static size_t size, token_words;
static struct sdtool_request request = {.wanted = 0xffffff};
static struct sdtool_asker asker;

static size_t read_hex(uint8_t *to)
{
    size_t length = 0;
    unsigned byte;

    while (scanf("%2x", &byte) == 1) {
        to[length++] = (uint8_t)byte;
        int next = getchar();
        if (next == ' ')
            break;
        ungetc(next, stdin);
    }
    return length;
}

static uint32_t check(void)
{
    return sdtool_check_with(descriptor, size, token, token_words, NULL, 0, NULL, 0, &request).outcome.fault;
}

static uint32_t reasons(void)
{
    struct sdtool_reason told[SDTOOL_RIGHTS];

    return sdtool_reasons_with(descriptor, size, token, token_words, NULL, 0, NULL, 0, &asker, told).fault;
}

static double now(void)
{
    struct timespec time;

    clock_gettime(CLOCK_PROCESS_CPUTIME_ID, &time);
    return (double)time.tv_sec * 1e9 + (double)time.tv_nsec;
}

static double time_of(uint32_t (*call)(void), int calls)
{
    double start = now();

    for (int n = 0; n < calls; n++)
        if (call() != SDTOOL_OK)
            exit(1);
    return (now() - start) / calls;
}

int main(void)
{
    for (;;) {
        size = read_hex(descriptor);
        if (size == 0)
            return 0;
        size_t count = 0, sids_size = read_hex(sids), at = 0;
        unsigned level = 0;
        double least[2] = {1e18, 1e18};
        int calls = 1;

        while (at < sids_size) {
            at += 8 + 4 * (size_t)sids[at + 1];
            count++;
        }
        if (scanf("%x", &level) != 1 || getchar() != '\n')
            return 2;
        asker.options = level != 0 ? SDTOOL_HAS_LEVEL : 0;
        asker.level = level;
        request.asker = asker;
        token_words = SDTOOL_TOKEN_WORDS(count);
        if (sdtool_token_read(sids, sids_size, entries, count, token, token_words).fault != SDTOOL_OK)
            return 2;
        while (calls < MOST_CALLS && time_of(check, calls) * calls < 2e5)
            calls *= 2;
        for (int round = 0; round < ROUNDS; round++)
            for (int which = 0; which < 2; which++) {
                double time = time_of(which == 0 ? check : reasons, calls);
                if (time < least[which])
                    least[which] = time;
            }
        printf("%.1f %.1f\n", least[0], least[1]);
    }
}
