/*
 * installed
 *
 * Prints the version of the installed library, and each line of SDDL on standard input in its canonical layout and as
 * SDDL again. It is built as C and as C++.
 */
#include <sdtool.h>

#include <stdio.h>
#include <string.h>

static uint8_t bytes[SDTOOL_MOST_BYTES];
static char line[4096], text[4096];

int main(void)
{
    struct sdtool_outcome version = sdtool_version((uint8_t *)text, sizeof text);

    printf("%.*s\n", (int)version.length, text);
    while (fgets(line, sizeof line, stdin) != NULL) {
        size_t size = strcspn(line, "\n");
        struct sdtool_outcome layout = sdtool_from_sddl((const uint8_t *)line, size, NULL, 0, bytes, sizeof bytes);
        struct sdtool_outcome sddl = sdtool_to_sddl(bytes, layout.length, NULL, 0, false, (uint8_t *)text, sizeof text);

        if (layout.fault != SDTOOL_OK) {
            printf("error %u\n", (unsigned)layout.fault);
            continue;
        }
        for (size_t i = 0; i < layout.length; i++)
            printf("%02x", bytes[i]);
        printf(" %.*s\n", (int)sddl.length, text);
    }
    return 0;
}
