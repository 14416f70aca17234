/*
 * counted_checks CALL ROUNDS
 *
 * Checks one descriptor for one token, ROUNDS times, by the call that CALL names: check, with, many or reasons.
 * Standard input has four numbers of 32 bits in the machine's order, which are the number of SIDs, the bytes of the
 * SIDs, the bytes of the descriptor and the rights that are wanted; then the SIDs and the descriptor. Prints how many
 * verdicts granted them. tests/library/instructions.py counts what it takes.
 */
#include <stdio.h>
#include <stdlib.h>
#include <string.h>

#include "sdtool.h"

enum {
    MOST_SIDS_SIZE = 68 * SDTOOL_MOST_SIDS,
    AT_ONCE = 16
};

static uint32_t head[4], token[SDTOOL_TOKEN_WORDS(SDTOOL_MOST_SIDS)];
static uint8_t sids[MOST_SIDS_SIZE], entries[SDTOOL_MOST_SIDS], descriptor[SDTOOL_MOST_BYTES];
static struct sdtool_request request;
static struct sdtool_verdict verdicts[AT_ONCE];

static void must(bool holds)
{
    if (!holds)
        exit(1);
}

static long check(void)
{
    verdicts[0] = sdtool_check(descriptor, head[2], sids, head[1], entries, head[0], NULL, 0, NULL, 0, &request);
    return 1;
}

static long check_with(void)
{
    verdicts[0] = sdtool_check_with(descriptor, head[2], token, SDTOOL_TOKEN_WORDS(head[0]), NULL, 0, NULL, 0,
                                    &request);
    return 1;
}

static long reasons(void)
{
    static const struct sdtool_asker asker = {.mapping = SDTOOL_MAPPING_FILE};
    struct sdtool_reason all[SDTOOL_RIGHTS];
    struct sdtool_outcome told = sdtool_reasons_with(descriptor, head[2], token, SDTOOL_TOKEN_WORDS(head[0]), NULL, 0,
                                                     NULL, 0, &asker, all);

    verdicts[0] = (struct sdtool_verdict){.outcome = told, .granted = all[0].kind == SDTOOL_REASON_NO_DACL};
    return 1;
}

static long check_many(void)
{
    struct sdtool_bytes all[AT_ONCE];

    for (int i = 0; i < AT_ONCE; i++)
        all[i] = (struct sdtool_bytes){descriptor, head[2]};
    must(sdtool_check_many(all, AT_ONCE, sids, head[1], entries, head[0], NULL, 0, NULL, 0, &request, verdicts, AT_ONCE)
             .fault
         == SDTOOL_OK);
    return AT_ONCE;
}

int main(int count, char **words)
{
    must(count == 3);
    must(fread(head, sizeof head, 1, stdin) == 1 && head[0] <= SDTOOL_MOST_SIDS && head[1] <= sizeof sids);
    must(head[2] <= sizeof descriptor && fread(sids, 1, head[1], stdin) == head[1]);
    must(fread(descriptor, 1, head[2], stdin) == head[2]);
    memset(entries, SDTOOL_ENABLED, head[0]);
    request.wanted = head[3];
    must(sdtool_token_read(sids, head[1], entries, head[0], token, sizeof token / sizeof *token).fault == SDTOOL_OK);

    long (*call)(void) = strcmp(words[1], "check") == 0     ? check
                         : strcmp(words[1], "with") == 0    ? check_with
                         : strcmp(words[1], "reasons") == 0 ? reasons
                                                            : check_many;
    long granted = 0;
    for (long round = strtol(words[2], NULL, 10); round > 0; round--)
        for (long made = call(); made > 0; made--) {
            must(verdicts[made - 1].outcome.fault == SDTOOL_OK);
            granted += verdicts[made - 1].granted;
        }
    printf("%ld\n", granted);
    return 0;
}
