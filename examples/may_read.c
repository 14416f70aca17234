/* Answers lines of SDDL: the ACEs of each descriptor, and whether a member of Users may read the object. */
#include <sdtool.h>
#include <stdio.h>
#include <string.h>

enum {
    MOST_LINES = 16,
    GROUPS = 3
};

static uint8_t layouts[MOST_LINES][SDTOOL_MOST_BYTES];
static struct sdtool_bytes descriptors[MOST_LINES];
static struct sdtool_verdict verdicts[MOST_LINES];

static void show_aces(const struct sdtool_bytes *descriptor)
{
    struct sdtool_contents contents = sdtool_parts(descriptor->bytes, descriptor->size);
    const uint8_t *acl = descriptor->bytes + contents.dacl.place.offset;
    struct sdtool_ace ace = {0};

    if (contents.outcome.fault != SDTOOL_OK)
        return;
    if (contents.dacl.state != SDTOOL_ACL_LIST) {
        puts("    no DACL, so everyone may do everything");
        return;
    }
    while (sdtool_next_ace(acl, contents.dacl.place.size, &ace)) {
        uint8_t text[SDTOOL_MOST_SID_TEXT];
        struct sdtool_outcome name = sdtool_sid_to_text(acl + ace.sid.offset, ace.sid.size, NULL, 0, false, text,
                                                        sizeof text);

        printf("    type %u, flags 0x%02x, mask 0x%08x, %.*s\n", ace.kind, ace.flags, (unsigned)ace.mask,
               (int)name.length, (const char *)text);
    }
}

int main(void)
{
    static const char *const groups[GROUPS] = {"BU", "WD", "AU"};
    uint8_t sids[GROUPS * SDTOOL_MOST_SID], entries[GROUPS] = {SDTOOL_ENABLED};
    struct sdtool_request request = {.asker = {.mapping = SDTOOL_MAPPING_FILE}, .wanted = 0x120089};
    size_t sids_size = 0, count = 0;
    char line[1000];

    /* The token is read once. */
    for (int i = 0; i < GROUPS; i++)
        sids_size += sdtool_sid_from_text((const uint8_t *)groups[i], 2, NULL, 0, sids + sids_size,
                                          sizeof sids - sids_size)
                         .length;
    for (; count < MOST_LINES && fgets(line, sizeof line, stdin) != NULL; count++) {
        size_t length = strcspn(line, "\n");
        struct sdtool_outcome read;

        /* Part of a line could be the text of another descriptor. */
        if (line[length] != '\n') {
            fprintf(stderr, "line %zu is too long, has a NUL in it or no line end\n", count + 1);
            return 1;
        }
        read = sdtool_from_sddl((const uint8_t *)line, length, NULL, 0, layouts[count], SDTOOL_MOST_BYTES);
        if (read.fault != SDTOOL_OK)
            printf("line %zu: error %u\n", count + 1, (unsigned)read.fault);
        /* A line that is empty or refused has no bytes, and so no verdict. */
        descriptors[count] = (struct sdtool_bytes){layouts[count], length == 0 ? 0 : read.length};
    }
    if (sdtool_check_many(descriptors, count, sids, sids_size, entries, GROUPS, NULL, 0, NULL, 0, &request, verdicts,
                          MOST_LINES)
            .fault
        != SDTOOL_OK)
        return 1;
    for (size_t i = 0; i < count; i++) {
        const char *answer = verdicts[i].granted ? "yes" : "no";

        printf("line %zu: %s\n", i + 1, verdicts[i].outcome.fault == SDTOOL_OK ? answer : "unknown");
        show_aces(&descriptors[i]);
    }
    return 0;
}
