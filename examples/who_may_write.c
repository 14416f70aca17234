/*
 * who_may_write DIRECTORY [ATTRIBUTE]
 *
 * Prints for DIRECTORY and everything below it the SIDs of those who may change it, by the security descriptor in its
 * attribute security.NTACL, as Samba keeps it, or system.ntfs_acl, as ntfs-3g shows it. ATTRIBUTE is another one, in
 * Samba's form if its name ends with NTACL. Files whose descriptor is missing or malformed are 'unknown'.
 *
 * To change is to write, to append, to write attributes, to delete, to delete what is in a folder, to change
 * permissions or to take ownership. Whoever has a printed SID may do one of these, unless an ACE denies it to another
 * of their SIDs. Nobody else may, privileges aside. The status is 0, 1 if a file is unknown, and 2 if the files cannot
 * be listed.
 *
 * cc who_may_write.c $(pkg-config --cflags --libs sdtool) -o who_may_write
 */
#include <errno.h>
#include <fts.h>
#include <stdio.h>
#include <string.h>
#include <sys/xattr.h>

#include <sdtool.h>

/* FILE_WRITE_DATA, FILE_APPEND_DATA, FILE_WRITE_EA, FILE_DELETE_CHILD, FILE_WRITE_ATTRIBUTES, DELETE, WRITE_DAC,
 * WRITE_OWNER */
#define CHANGES (0x2u | 0x4u | 0x10u | 0x40u | 0x100u | 0x10000u | 0x40000u | 0x80000u)

enum {
    HEADER = 20,
    MOST_SID = 68,
    MOST_SID_TEXT = 200,
    MOST_ATTRIBUTE = 65536
};

static const uint8_t everyone[] = {1, 1, 0, 0, 0, 0, 0, 1, 0, 0, 0, 0};
static uint8_t attribute[MOST_ATTRIBUTE];
static char explanation[SDTOOL_MOST_TEXT + 1];
static char found[SDTOOL_MOST_TEXT + 1];

/* Other characters than these would let the name of a file pretend to be an answer. */
static void print_path(const char *path)
{
    for (; *path != '\0'; path++)
        putchar((unsigned char)*path < ' ' || *path == 0x7f ? '?' : *path);
}

static bool unknown(const char *path, const char *why)
{
    print_path(path);
    printf(": unknown, %s\n", why);
    return false;
}

static bool faulty(const char *path, uint32_t fault, uint32_t part, uint32_t other_part)
{
    static const char *const parts[] = {"", " owner", " group", " sacl", " dacl"};
    uint8_t text[SDTOOL_MOST_FAULT_TEXT];
    struct sdtool_outcome name = sdtool_fault_text(fault, text, sizeof text);
    char why[SDTOOL_MOST_FAULT_TEXT + 32];

    snprintf(why, sizeof why, "error %u %.*s%s%s", (unsigned)fault, (int)name.length, (const char *)text, parts[part],
             parts[other_part]);
    return unknown(path, why);
}

static uint32_t number_at(const uint8_t *bytes)
{
    return bytes[0] | (uint32_t)bytes[1] << 8 | (uint32_t)bytes[2] << 16 | (uint32_t)bytes[3] << 24;
}

static void set_number(uint8_t *bytes, uint32_t number)
{
    for (int i = 0; i < 4; i++)
        bytes[i] = (uint8_t)(number >> 8 * i);
}

/*
 * Where the descriptor begins in Samba's attribute, xattr_NTACL of its xattr.idl; 0 if there is none. The attribute
 * has its version twice and a reference to what follows. In version 1 that is the descriptor. Later versions have a
 * reference to the descriptor, hashes, and in version 4 a text and a time, and then the descriptor.
 */
static size_t descriptor_at(const uint8_t *bytes, size_t size)
{
    const uint8_t *end;

    if (size < 12 || memcmp(bytes, bytes + 2, 2) != 0 || bytes[1] != 0 || number_at(bytes + 4) == 0)
        return 0;
    if (bytes[0] > 1 && number_at(bytes + 8) == 0)
        return 0;
    switch (bytes[0]) {
    case 1:
        return 8;
    case 2: /* a hash of 16 bytes */
        return 28;
    case 3: /* the type of the hash, the hash of 64 bytes, and 2 bytes to a multiple of 4 */
        return 80;
    case 4: /* the same without the 2 bytes, a text up to its NUL, bytes to a multiple of 4, a time, and another hash */
        end = size <= 78 ? NULL : memchr(bytes + 78, 0, size - 78);
        return end == NULL ? 0 : ((size_t)(end + 1 - bytes) + 3) / 4 * 4 + 8 + 64;
    default:
        return 0;
    }
}

/*
 * Moves the descriptor of Samba's attribute to the front, and gives its size. Its offsets count from the first byte of
 * the attribute, so they are moved too.
 */
static size_t unwrap(uint8_t *bytes, size_t size)
{
    size_t at = descriptor_at(bytes, size);

    if (at == 0 || size < at + HEADER)
        return 0;
    for (uint8_t *offset = bytes + at + 4; offset < bytes + at + HEADER; offset += 4) {
        uint32_t from_start = number_at(offset);

        if (from_start != 0 && from_start < at + HEADER)
            return 0;
        set_number(offset, from_start == 0 ? 0 : from_start - (uint32_t)at);
    }
    memmove(bytes, bytes + at, size - at);
    return size - at;
}

/* What a token with this SID and Everyone is granted. */
static struct sdtool_verdict check(const uint8_t *descriptor, size_t size, const char *sid)
{
    const struct sdtool_request all = {.asker = {.mapping = SDTOOL_MAPPING_FILE}, .options = SDTOOL_MAXIMUM};
    const uint8_t enabled[2] = {SDTOOL_ENABLED, SDTOOL_ENABLED};
    uint8_t text[MOST_SID_TEXT], owned[HEADER + MOST_SID], sids[sizeof everyone + MOST_SID];
    size_t length = (size_t)snprintf((char *)text, sizeof text, "O:%s", sid);
    /* The SID in binary is what follows the header of a descriptor that has only this owner. */
    struct sdtool_outcome outcome = sdtool_from_sddl(text, length, NULL, 0, owned, sizeof owned);

    if (outcome.fault != SDTOOL_OK)
        return (struct sdtool_verdict){.outcome = outcome};
    memcpy(sids, everyone, sizeof everyone);
    memcpy(sids + sizeof everyone, owned + HEADER, outcome.length - HEADER);
    return sdtool_check(descriptor, size, sids, sizeof everyone + outcome.length - HEADER, enabled, 2, NULL, 0, NULL, 0,
                        &all);
}

/* The next SID that may have rights: that of the owner, or of an ACE that allows. NULL at the end. */
static const char *next_sid(char **lines)
{
    char *line, kind[8];

    while ((line = strsep(lines, "\n")) != NULL) {
        if (strncmp(line, "owner S-", 8) == 0)
            return line + 6;
        if (sscanf(line, "dacl %*u %7s", kind) == 1 && (strcmp(kind, "A") == 0 || strcmp(kind, "OA") == 0))
            return strrchr(line, ' ') + 1;
    }
    return NULL;
}

/* Prints who may change a file. False if that is unknown. */
static bool answer(const char *path, const uint8_t *descriptor, size_t size)
{
    uint8_t *text = (uint8_t *)explanation;
    struct sdtool_outcome outcome = sdtool_explain(descriptor, size, NULL, 0, true, text, SDTOOL_MOST_TEXT);
    char *lines = explanation, *end = found, word[MOST_SID_TEXT];

    if (outcome.fault != SDTOOL_OK)
        return faulty(path, outcome.fault, outcome.part, outcome.other_part);
    explanation[outcome.length] = '\0';
    found[0] = '\0';
    for (const char *sid = "S-1-1-0"; sid != NULL; sid = next_sid(&lines)) {
        struct sdtool_verdict verdict = check(descriptor, size, sid);

        if (verdict.outcome.fault != SDTOOL_OK)
            return faulty(path, verdict.outcome.fault, verdict.outcome.part, verdict.outcome.other_part);
        snprintf(word, sizeof word, " %s,", sid);
        if (verdict.granted && (verdict.mask & CHANGES) != 0 && strstr(found, word) == NULL)
            end = stpcpy(end, word);
    }
    print_path(path);
    printf(":%.*s\n", end == found ? 7 : (int)(end - found) - 1, end == found ? " nobody" : found);
    return true;
}

static bool is_of_samba(const char *name)
{
    size_t length = strlen(name);

    return length >= 5 && strcmp(name + length - 5, "NTACL") == 0;
}

/* The same for the descriptor in the file's attribute. */
static bool answer_file(const char *path, const char *const *names)
{
    for (; *names != NULL; names++) {
        ssize_t got = lgetxattr(path, *names, attribute, sizeof attribute);
        size_t size = got < 0 ? 0 : (size_t)got;

        if (got < 0 && errno != ENODATA && errno != ENOTSUP)
            return unknown(path, strerror(errno));
        if (got < 0)
            continue;
        if (is_of_samba(*names) && (size = unwrap(attribute, size)) == 0)
            return unknown(path, "no descriptor in the attribute");
        return answer(path, attribute, size);
    }
    return unknown(path, "no attribute");
}

static int by_name(const FTSENT **a, const FTSENT **b)
{
    return strcmp((*a)->fts_name, (*b)->fts_name);
}

int main(int count, char **words)
{
    const char *names[] = {"security.NTACL", "system.ntfs_acl", NULL};
    bool known = true;
    FTSENT *entry;
    FTS *tree;

    if (count != 2 && count != 3) {
        fputs("usage: who_may_write DIRECTORY [ATTRIBUTE]\n", stderr);
        return 2;
    }
    if (count == 3) {
        names[0] = words[2];
        names[1] = NULL;
    }
    tree = fts_open((char *[]){words[1], NULL}, FTS_PHYSICAL | FTS_NOCHDIR, by_name);
    while (tree != NULL && (errno = 0, entry = fts_read(tree)) != NULL) {
        switch (entry->fts_info) {
        case FTS_DP: /* a directory once more, after what is in it */
        case FTS_SL: /* a symbolic link, which has no permissions */
            break;
        case FTS_DNR: /* a directory whose entries cannot be read, after its own answer */
            print_path(entry->fts_path);
            known = unknown("/*", strerror(entry->fts_errno));
            break;
        case FTS_NS:
        case FTS_ERR:
            known = unknown(entry->fts_path, strerror(entry->fts_errno));
            break;
        default:
            known = answer_file(entry->fts_path, names) && known;
        }
    }
    if (tree == NULL || errno != 0 || fts_close(tree) != 0 || fflush(stdout) != 0) {
        perror("who_may_write");
        return 2;
    }
    return known ? 0 : 1;
}
