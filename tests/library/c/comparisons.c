/*
 * comparisons CALL SIDS ACES CHECKS
 *
 * Checks CHECKS descriptors, each with a DACL of ACES ACEs, for a token of SIDS SIDs, of which no ACE names one. So
 * each ACE has to be compared with each SID. CALL is `check`, `many`, `held` for a token that is read before, `run` for
 * the whole program, or `reasons` or `reasons-held` for the reasons of all rights.
 */
#include <stdio.h>
#include <stdlib.h>
#include <string.h>

#include "sdtool.h"

enum {
    SID_SIZE = 28,
    ACE_TEXT = 64
};

static const char before_sids[] = "check\0--want\0"
                                  "0x1\0--token";

static uint8_t descriptor[SDTOOL_MOST_BYTES], sids[SDTOOL_MOST_SIDS * SID_SIZE], entries[SDTOOL_MOST_SIDS];
static uint32_t token[SDTOOL_TOKEN_WORDS(SDTOOL_MOST_SIDS)];
static char run_words[sizeof before_sids + SDTOOL_MOST_SIDS * ACE_TEXT], line[2 * SDTOOL_MOST_BYTES + 2];
static const struct sdtool_request request = {.asker = {.mapping = SDTOOL_MAPPING_FILE}, .wanted = 1};
static const struct sdtool_asker asker = {.mapping = SDTOOL_MAPPING_FILE};
static size_t size, count, words_size, line_size;

static int failed(const char *what)
{
    fprintf(stderr, "comparisons: %s\n", what);
    return 1;
}

static bool make_descriptor(size_t aces)
{
    char *text = malloc(aces * ACE_TEXT + 3);
    if (text == NULL)
        return false;
    size_t length = (size_t)sprintf(text, "D:");
    for (size_t i = 0; i < aces; i++)
        length += (size_t)sprintf(text + length, "(A;;CC;;;S-1-5-21-9-8-7-%zu)", 20000 + i);
    struct sdtool_outcome made = sdtool_from_sddl((const uint8_t *)text, length, NULL, 0, descriptor,
                                                  sizeof descriptor);
    size = made.length;
    free(text);
    return made.fault == SDTOOL_OK;
}

static bool make_token(void)
{
    for (size_t i = 0; i < count; i++) {
        char text[ACE_TEXT];
        int length = sprintf(text, "S-1-5-21-1-2-3-%zu", 40000 + i);
        struct sdtool_outcome read = sdtool_sid_from_text((const uint8_t *)text, (size_t)length, NULL, 0,
                                                          sids + i * SID_SIZE, SID_SIZE);
        if (read.fault != SDTOOL_OK || read.length != SID_SIZE)
            return false;
    }
    return sdtool_token_read(sids, count * SID_SIZE, entries, count, token, sizeof token / sizeof *token).fault
           == SDTOOL_OK;
}

static void make_words(void)
{
    memcpy(run_words, before_sids, sizeof before_sids);
    words_size = sizeof before_sids;
    for (size_t i = 0; i < count; i++)
        words_size += (size_t)sprintf(run_words + words_size, "%sS-1-5-21-1-2-3-%zu", i == 0 ? "" : ",", 40000 + i);
    words_size++;
    for (size_t i = 0; i < size; i++)
        line_size += (size_t)sprintf(line + line_size, "%02x", descriptor[i]);
    line[line_size++] = '\n';
}

static struct sdtool_verdict check_once(void)
{
    return sdtool_check(descriptor, size, sids, count * SID_SIZE, entries, count, NULL, 0, NULL, 0, &request);
}

static struct sdtool_verdict check_held(void)
{
    return sdtool_check_with(descriptor, size, token, sizeof token / sizeof *token, NULL, 0, NULL, 0, &request);
}

static struct sdtool_verdict check_many(void)
{
    struct sdtool_bytes bytes = {descriptor, size};
    struct sdtool_verdict verdict;
    memset(&verdict, 0, sizeof verdict);
    struct sdtool_outcome made = sdtool_check_many(&bytes, 1, sids, count * SID_SIZE, entries, count, NULL, 0, NULL, 0,
                                                   &request, &verdict, 1);
    if (made.fault != SDTOOL_OK)
        verdict.outcome = made;
    return verdict;
}

/* A verdict of the reasons: denied where no right has one. */
static struct sdtool_verdict verdict_of(struct sdtool_outcome made, const struct sdtool_reason *reasons)
{
    struct sdtool_verdict verdict;
    memset(&verdict, 0, sizeof verdict);
    verdict.outcome = made;
    verdict.mask = request.wanted;
    for (size_t i = 0; i < SDTOOL_RIGHTS; i++)
        verdict.granted |= reasons[i].kind != SDTOOL_REASON_NOTHING;
    return verdict;
}

static struct sdtool_verdict reasons_once(void)
{
    struct sdtool_reason reasons[SDTOOL_RIGHTS];
    return verdict_of(
        sdtool_reasons(descriptor, size, sids, count * SID_SIZE, entries, count, NULL, 0, NULL, 0, &asker, reasons),
        reasons);
}

static struct sdtool_verdict reasons_held(void)
{
    struct sdtool_reason reasons[SDTOOL_RIGHTS];
    return verdict_of(
        sdtool_reasons_with(descriptor, size, token, sizeof token / sizeof *token, NULL, 0, NULL, 0, &asker, reasons),
        reasons);
}

static struct sdtool_verdict check_by_run(void)
{
    static const char denied[] = "denied 0x00000001\n";
    uint8_t output[sizeof denied], message[64];
    struct sdtool_ending ended = sdtool_run((const uint8_t *)run_words, words_size, (const uint8_t *)line, line_size,
                                            output, sizeof output, message, sizeof message);
    struct sdtool_verdict verdict;
    memset(&verdict, 0, sizeof verdict);
    bool is_denied = ended.length == sizeof denied - 1 && memcmp(output, denied, ended.length) == 0;
    verdict.outcome.fault = ended.status != SDTOOL_STATUS_ANSWERED;
    verdict.granted = !is_denied;
    verdict.mask = is_denied;
    return verdict;
}

int main(int words, char **word)
{
    if (words != 5)
        return failed("wrong arguments");
    count = strtoul(word[2], NULL, 10);
    if (count > SDTOOL_MOST_SIDS || !make_descriptor(strtoul(word[3], NULL, 10)) || !make_token())
        return failed("no descriptor or no token");
    make_words();
    for (unsigned long checks = strtoul(word[4], NULL, 10); checks > 0; checks--) {
        struct sdtool_verdict verdict = strcmp(word[1], "check") == 0          ? check_once()
                                        : strcmp(word[1], "held") == 0         ? check_held()
                                        : strcmp(word[1], "run") == 0          ? check_by_run()
                                        : strcmp(word[1], "reasons") == 0      ? reasons_once()
                                        : strcmp(word[1], "reasons-held") == 0 ? reasons_held()
                                                                               : check_many();
        if (verdict.outcome.fault != SDTOOL_OK || verdict.granted || verdict.mask != request.wanted)
            return failed("another verdict");
    }
    return 0;
}
