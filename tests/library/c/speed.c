/*
 * speed ROUNDS
 *
 * Prints the processor time of a call from C, in microseconds: of sdtool_to_sddl, sdtool_from_sddl and sdtool_check, on
 * what ../javascript/speed.mjs calls them on.
 */
#include <stdio.h>
#include <stdlib.h>
#include <string.h>
#include <time.h>

#include "sdtool.h"

static const char sddl[] =
    "O:BAG:SYD:PAI(A;OICI;FA;;;SY)(A;OICI;FA;;;BA)(A;OICI;0x1200a9;;;BU)(A;;FR;;;S-1-5-21-1-2-3-1105)";
static const uint8_t users[] = {1, 2, 0, 0, 0, 0, 0, 5, 32, 0, 0, 0, 33, 2, 0, 0};
static const uint8_t entries[] = {SDTOOL_ENABLED};
static const struct sdtool_request request = {.wanted = 0x120089};
static uint8_t descriptor[SDTOOL_MOST_BYTES], output[SDTOOL_MOST_BYTES];
static size_t size;

static uint32_t from_sddl(void)
{
    return sdtool_from_sddl((const uint8_t *)sddl, strlen(sddl), NULL, 0, output, sizeof output).fault;
}

static uint32_t to_sddl(void)
{
    return sdtool_to_sddl(descriptor, size, NULL, 0, false, output, sizeof output).fault;
}

static uint32_t check(void)
{
    return sdtool_check(descriptor, size, users, sizeof users, entries, sizeof entries, NULL, 0, NULL, 0, &request)
        .outcome.fault;
}

static double time_of(uint32_t (*call)(void), long rounds)
{
    clock_t start = clock();

    for (long round = 0; round < rounds; round++)
        if (call() != SDTOOL_OK)
            exit(1);
    return (double)(clock() - start) * 1e6 / CLOCKS_PER_SEC / (double)rounds;
}

int main(int count, char **words)
{
    uint32_t (*const calls[])(void) = {to_sddl, from_sddl, check};
    long rounds = count > 1 ? strtol(words[1], NULL, 10) : 1;

    size = sdtool_from_sddl((const uint8_t *)sddl, strlen(sddl), NULL, 0, descriptor, sizeof descriptor).length;
    for (int i = 0; i < 3; i++)
        printf("%s%.3f", i == 0 ? "" : " ", time_of(calls[i], rounds));
    putchar('\n');
    return 0;
}
