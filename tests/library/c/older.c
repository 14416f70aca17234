/*
 * older
 *
 * A program of version 0.1.0: it is compiled with the declarations in older/sdtool.h, and linked to the library of
 * today. It makes each call on one descriptor and prints the answers. Bytes behind what a call hands back must stay.
 */
#include <stdio.h>
#include <stdlib.h>
#include <string.h>

#include "older/sdtool.h"

enum {
    GUARD = 64,
    GUARD_BYTE = 0x5a
};

/* Bytes behind what a call hands back: a library whose structs grew would write there. */
#define GUARDED(type)                                                                                                  \
    struct {                                                                                                           \
        type value;                                                                                                    \
        unsigned char behind[GUARD];                                                                                   \
    }
#define CALL(place, made)                                                                                              \
    do {                                                                                                               \
        memset(&(place), GUARD_BYTE, sizeof(place));                                                                   \
        (place).value = (made);                                                                                        \
        check_guard((place).behind);                                                                                   \
    } while (0)

static GUARDED(struct sdtool_outcome) outcome;
static GUARDED(struct sdtool_verdict) verdict;
static GUARDED(struct sdtool_ending) ending;
static uint8_t bytes[SDTOOL_MOST_BYTES], other[SDTOOL_MOST_BYTES];
static uint8_t text[SDTOOL_TEXT_SIZE(1024)], message[SDTOOL_MOST_MESSAGE];

static const char sddl[] = "O:BAG:SYD:(A;OICI;FA;;;WD)";
/* S-1-1-0 and S-1-5-32-544. */
static const uint8_t everyone[] = {1, 1, 0, 0, 0, 0, 0, 1, 0, 0, 0, 0};
static const uint8_t admins[] = {1, 2, 0, 0, 0, 0, 0, 5, 32, 0, 0, 0, 32, 2, 0, 0};

static void check_guard(const unsigned char *behind)
{
    for (int i = 0; i < GUARD; i++)
        if (behind[i] != GUARD_BYTE) {
            puts("a byte behind a struct has changed");
            exit(1);
        }
}

static void print_hex(const uint8_t *cells, size_t size)
{
    for (size_t i = 0; i < size; i++)
        printf("%02x", cells[i]);
    putchar('\n');
}

static void print_fault(const char *name)
{
    printf("%s: %u %u %u %u %zu %zu\n", name, (unsigned)outcome.value.fault, (unsigned)outcome.value.part,
           (unsigned)outcome.value.other_part, (unsigned)outcome.value.argument, outcome.value.entry,
           outcome.value.length);
}

int main(void)
{
    static const uint8_t entries[] = {SDTOOL_ENABLED, 7};
    struct sdtool_request request = {.asker = {.mapping = SDTOOL_MAPPING_FILE}, .wanted = 0x120089};
    uint8_t both[sizeof everyone + sizeof admins];
    size_t size;

    memcpy(both, everyone, sizeof everyone);
    memcpy(both + sizeof everyone, admins, sizeof admins);
    CALL(outcome, sdtool_version(text, sizeof text));
    if (outcome.value.fault != SDTOOL_OK || sdtool_version_number() < SDTOOL_VERSION)
        puts("the library has no version, or an older one");
    CALL(outcome, sdtool_from_sddl((const uint8_t *)sddl, strlen(sddl), NULL, 0, bytes, sizeof bytes));
    size = outcome.value.length;
    print_hex(bytes, size);
    CALL(outcome, sdtool_normalize(bytes, size, other, sizeof other));
    print_hex(other, outcome.value.length);
    CALL(outcome, sdtool_to_sddl(bytes, size, NULL, 0, false, text, sizeof text));
    printf("%.*s\n", (int)outcome.value.length, text);
    CALL(outcome, sdtool_explain(bytes, size, NULL, 0, true, text, sizeof text));
    printf("%.*s", (int)outcome.value.length, text);
    CALL(outcome, sdtool_derive(bytes, size, NULL, 0, admins, sizeof admins, everyone, sizeof everyone,
                                SDTOOL_KIND_CONTAINER, SDTOOL_MAPPING_FILE, other, sizeof other));
    print_hex(other, outcome.value.length);
    CALL(verdict, sdtool_check(bytes, size, both, sizeof everyone, entries, 1, NULL, 0, NULL, 0, &request));
    printf("%u %d 0x%08x\n", (unsigned)verdict.value.outcome.fault, verdict.value.granted,
           (unsigned)verdict.value.mask);
    CALL(verdict, sdtool_check(bytes, size, both, sizeof both, entries, 2, NULL, 0, NULL, 0, &request));
    printf("%u %u %zu\n", (unsigned)verdict.value.outcome.fault, (unsigned)verdict.value.outcome.argument,
           verdict.value.outcome.entry);
    CALL(ending, sdtool_run((const uint8_t *)"convert\0--from\0sddl", 20, (const uint8_t *)"D:\nzz\n", 6, text,
                            sizeof text, message, sizeof message));
    printf("%u %zu\n%.*s", (unsigned)ending.value.status, ending.value.message_length, (int)ending.value.length, text);
    CALL(outcome, sdtool_fault_text(SDTOOL_FAULT_SID_FORM, text, sizeof text));
    printf("%.*s\n", (int)outcome.value.length, text);
    CALL(outcome, sdtool_to_sddl(bytes, size, everyone, 3, false, text, sizeof text));
    print_fault("domain");
    CALL(outcome, sdtool_to_sddl(bytes, size, NULL, 0, false, text, 4));
    print_fault("small");
    bytes[19] = 0xff;
    CALL(outcome, sdtool_to_sddl(bytes, size, NULL, 0, false, text, sizeof text));
    print_fault("offset");
    return 0;
}
