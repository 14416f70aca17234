/*
 * library FILE ROUNDS
 *
 * Measures calls of libsdtool and of Samba's libraries on the same descriptors. FILE has a line with a domain, the
 * rights that are wanted and the SIDs of a token; then for each descriptor a line with its bytes as hex digits, and its
 * SDDL. In each round each call is made for all descriptors again and again, for at least LEAST_SECONDS of processor
 * time. Prints 'descriptors COUNT', and then for each round and call 'JOB LIBRARY NANOSECONDS'.
 *
 * Samba's calls use its own structure of a descriptor. 'samba' is the call alone; 'samba-bytes' also reads the
 * structure from bytes, or writes it to bytes. Its token is at hand in each check. Ours is read anew in each 'check',
 * and was read once before each 'check_with'.
 *
 * Both libraries have to give the same answers. The status is 1 where they do not.
 */
#include <stdbool.h>
#include <stdint.h>
#include <stdio.h>
#include <stdlib.h>
#include <string.h>
#include <time.h>

#include <core/ntstatus.h>
#include <ndr.h>
#include <gen_ndr/security.h>

#include "sdtool.h"

/* These libraries of Samba have no public headers. The declarations are those of version 4.17. */
struct security_descriptor *sddl_decode(TALLOC_CTX *memory, const char *sddl, const struct dom_sid *domain);
char *sddl_encode(TALLOC_CTX *memory, const struct security_descriptor *sd, const struct dom_sid *domain);
NTSTATUS se_access_check(const struct security_descriptor *sd, const struct security_token *token, uint32_t wanted,
                         uint32_t *granted);
struct dom_sid *dom_sid_parse_talloc(TALLOC_CTX *memory, const char *text);
enum ndr_err_code ndr_push_security_descriptor(struct ndr_push *to, int flags, const struct security_descriptor *sd);
enum ndr_err_code ndr_pull_security_descriptor(struct ndr_pull *from, int flags, struct security_descriptor *sd);

enum {
    MOST_LINE = 1 << 20,
    MOST_SIDS = SDTOOL_MOST_SIDS,
    MOST_SID = 68,
    HEADER = 20
};

static const double LEAST_SECONDS = 0.2;

struct item {
    uint8_t *bytes;
    size_t size;
    char *sddl;
    size_t sddl_size;
    struct security_descriptor *of_samba;
};

static TALLOC_CTX *of_samba; /* Samba reads nothing without a parent */
static struct item *items;
static size_t count;
static uint8_t domain[MOST_SID], sids[MOST_SIDS * MOST_SID], entries[MOST_SIDS];
static size_t domain_size, sids_size, sid_count;
static uint32_t token[SDTOOL_TOKEN_WORDS(MOST_SIDS)];
static struct dom_sid *domain_of_samba;
static struct security_token token_of_samba;
static struct sdtool_request request = {.asker = {.mapping = SDTOOL_MAPPING_FILE}};

static uint8_t output[SDTOOL_MOST_TEXT], other[SDTOOL_MOST_BYTES], third[SDTOOL_MOST_BYTES];
static size_t sum; /* of what the calls give, so that none of them is left out */

static void stop(const char *what, size_t at)
{
    fprintf(stderr, "library: %s, descriptor %zu\n", what, at);
    exit(1);
}

static bool our_from(struct item *item)
{
    const uint8_t *text = (const uint8_t *)item->sddl;
    struct sdtool_outcome o = sdtool_from_sddl(text, item->sddl_size, domain, domain_size, output, sizeof output);

    sum += o.length;
    return o.fault == SDTOOL_OK;
}

static bool our_to(struct item *item)
{
    struct sdtool_outcome o = sdtool_to_sddl(item->bytes, item->size, domain, domain_size, false, output,
                                             sizeof output);

    sum += o.length;
    return o.fault == SDTOOL_OK;
}

static struct sdtool_verdict verdict_on(const struct item *item)
{
    return sdtool_check(item->bytes, item->size, sids, sids_size, entries, sid_count, NULL, 0, NULL, 0, &request);
}

static bool our_check(struct item *item)
{
    struct sdtool_verdict v = verdict_on(item);

    sum += v.granted;
    return v.outcome.fault == SDTOOL_OK;
}

static struct sdtool_verdict verdict_with_token(const struct item *item)
{
    return sdtool_check_with(item->bytes, item->size, token, SDTOOL_TOKEN_WORDS(sid_count), NULL, 0, NULL, 0, &request);
}

static bool our_check_with(struct item *item)
{
    struct sdtool_verdict v = verdict_with_token(item);

    sum += v.granted;
    return v.outcome.fault == SDTOOL_OK;
}

static bool push(TALLOC_CTX *memory, const struct security_descriptor *sd, DATA_BLOB *blob)
{
    return ndr_push_struct_blob(blob, memory, sd, (ndr_push_flags_fn_t)ndr_push_security_descriptor) == NDR_ERR_SUCCESS;
}

static struct security_descriptor *pull(TALLOC_CTX *memory, const struct item *item)
{
    struct security_descriptor *sd = talloc_zero(memory, struct security_descriptor);
    DATA_BLOB blob = {item->bytes, item->size};

    if (ndr_pull_struct_blob(&blob, memory, sd, (ndr_pull_flags_fn_t)ndr_pull_security_descriptor) != NDR_ERR_SUCCESS)
        return NULL;
    return sd;
}

static bool samba_from(struct item *item)
{
    struct security_descriptor *sd = sddl_decode(NULL, item->sddl, domain_of_samba);
    bool is_read = sd != NULL;

    sum += is_read;
    talloc_free(sd);
    return is_read;
}

static bool samba_from_to_bytes(struct item *item)
{
    TALLOC_CTX *memory = talloc_new(NULL);
    struct security_descriptor *sd = sddl_decode(memory, item->sddl, domain_of_samba);
    DATA_BLOB blob = {NULL, 0};
    bool is_read = sd != NULL && push(memory, sd, &blob);

    sum += blob.length;
    talloc_free(memory);
    return is_read;
}

static bool samba_to(struct item *item)
{
    char *text = sddl_encode(NULL, item->of_samba, domain_of_samba);
    bool is_printed = text != NULL;

    sum += is_printed;
    talloc_free(text);
    return is_printed;
}

static bool samba_to_from_bytes(struct item *item)
{
    TALLOC_CTX *memory = talloc_new(NULL);
    struct security_descriptor *sd = pull(memory, item);
    char *text = sd == NULL ? NULL : sddl_encode(memory, sd, domain_of_samba);

    sum += text != NULL;
    talloc_free(memory);
    return text != NULL;
}

static bool samba_check(struct item *item)
{
    uint32_t granted;

    sum += NT_STATUS_IS_OK(se_access_check(item->of_samba, &token_of_samba, request.wanted, &granted));
    return true;
}

static bool samba_check_of_bytes(struct item *item)
{
    TALLOC_CTX *memory = talloc_new(NULL);
    struct security_descriptor *sd = pull(memory, item);
    uint32_t granted;

    sum += sd != NULL && NT_STATUS_IS_OK(se_access_check(sd, &token_of_samba, request.wanted, &granted));
    talloc_free(memory);
    return sd != NULL;
}

static const struct job {
    const char *name;
    const char *library;
    bool (*call)(struct item *item);
} jobs[] = {
    {"from_sddl", "sdtool", our_from},
    {"from_sddl", "samba", samba_from},
    {"from_sddl", "samba-bytes", samba_from_to_bytes},
    {"to_sddl", "sdtool", our_to},
    {"to_sddl", "samba", samba_to},
    {"to_sddl", "samba-bytes", samba_to_from_bytes},
    {"check", "sdtool", our_check},
    {"check", "samba", samba_check},
    {"check", "samba-bytes", samba_check_of_bytes},
    {"check_with", "sdtool", our_check_with},
    {"check_with", "samba", samba_check},
    {"check_with", "samba-bytes", samba_check_of_bytes},
};

/* The layout of what SDDL describes, by libsdtool. */
static size_t layout_of(const char *sddl, uint8_t *cells)
{
    struct sdtool_outcome o = sdtool_from_sddl((const uint8_t *)sddl, strlen(sddl), domain, domain_size, cells,
                                               SDTOOL_MOST_BYTES);
    return o.fault == SDTOOL_OK ? o.length : 0;
}

/* Both libraries have to give the same answers, in whichever spelling. */
static void compare(struct item *item, size_t at)
{
    TALLOC_CTX *memory = talloc_new(NULL);
    struct sdtool_outcome layout = sdtool_normalize(item->bytes, item->size, other, sizeof other);
    struct sdtool_outcome bytes;
    struct security_descriptor *sd = sddl_decode(memory, item->sddl, domain_of_samba);
    char *text = sddl_encode(memory, item->of_samba, domain_of_samba);
    DATA_BLOB blob;
    uint32_t granted;
    bool is_granted;

    if (layout.fault != SDTOOL_OK || layout_of(item->sddl, third) != layout.length
        || memcmp(other, third, layout.length) != 0)
        stop("libsdtool reads something else from SDDL", at);
    if (sd == NULL || !push(memory, sd, &blob))
        stop("Samba does not read the SDDL", at);
    bytes = sdtool_normalize(blob.data, blob.length, third, sizeof third);
    if (bytes.fault != SDTOOL_OK || bytes.length != layout.length || memcmp(other, third, layout.length) != 0)
        stop("Samba reads something else from SDDL", at);
    if (text == NULL || layout_of(text, third) != layout.length || memcmp(other, third, layout.length) != 0)
        stop("Samba prints other SDDL", at);
    is_granted = NT_STATUS_IS_OK(se_access_check(item->of_samba, &token_of_samba, request.wanted, &granted));
    if (is_granted != verdict_on(item).granted || is_granted != verdict_with_token(item).granted)
        stop("the verdicts differ", at);
    talloc_free(memory);
}

/* The SID in binary of its text. */
static size_t sid_of(const char *text, uint8_t *cells)
{
    char owner[256];
    size_t size;

    snprintf(owner, sizeof owner, "O:%s", text);
    size = layout_of(owner, third);
    if (size <= HEADER)
        stop("a SID does not read", 0);
    memcpy(cells, third + HEADER, size - HEADER);
    return size - HEADER;
}

static void read_question(char *line)
{
    const char *word = strtok(line, " \n");

    domain_of_samba = dom_sid_parse_talloc(of_samba, word);
    domain_size = sid_of(word, domain);
    request.wanted = (uint32_t)strtoul(strtok(NULL, " \n"), NULL, 0);
    token_of_samba.sids = talloc_zero_array(of_samba, struct dom_sid, MOST_SIDS);
    while ((word = strtok(NULL, " \n")) != NULL && sid_count < MOST_SIDS) {
        token_of_samba.sids[sid_count++] = *dom_sid_parse_talloc(of_samba, word);
        sids_size += sid_of(word, sids + sids_size);
    }
    token_of_samba.num_sids = (uint32_t)sid_count;
    if (sdtool_token_read(sids, sids_size, entries, sid_count, token, SDTOOL_TOKEN_WORDS(MOST_SIDS)).fault != SDTOOL_OK)
        stop("the token does not read", 0);
}

static void read_item(char *line)
{
    struct item *item = &items[count];
    char *digits = strtok(line, " \n");

    item->size = strlen(digits) / 2;
    item->bytes = malloc(item->size);
    for (size_t i = 0; i < item->size; i++)
        sscanf(digits + 2 * i, "%2hhx", &item->bytes[i]);
    item->sddl = strdup(strtok(NULL, "\n"));
    item->sddl_size = strlen(item->sddl);
    item->of_samba = pull(of_samba, item);
    if (item->of_samba == NULL)
        stop("Samba does not read the bytes", count);
    compare(item, count++);
}

static double seconds(void)
{
    struct timespec time;

    clock_gettime(CLOCK_PROCESS_CPUTIME_ID, &time);
    return (double)time.tv_sec + (double)time.tv_nsec / 1e9;
}

static void measure(const struct job *job)
{
    double began = seconds(), taken;
    size_t calls = 0;

    do {
        for (size_t i = 0; i < count; i++)
            if (!job->call(&items[i]))
                stop(job->name, i);
        calls += count;
        taken = seconds() - began;
    } while (taken < LEAST_SECONDS);
    printf("%s %s %.1f\n", job->name, job->library, taken / (double)calls * 1e9);
}

int main(int words, char **word)
{
    FILE *file = words == 3 ? fopen(word[1], "r") : NULL;
    char *line = malloc(MOST_LINE);

    if (file == NULL || line == NULL || fgets(line, MOST_LINE, file) == NULL)
        return 2;
    of_samba = talloc_new(NULL);
    read_question(line);
    while (fgets(line, MOST_LINE, file) != NULL) {
        items = realloc(items, (count + 1) * sizeof *items);
        read_item(line);
    }
    printf("descriptors %zu\n", count);
    for (int round = 0; round < atoi(word[2]); round++)
        for (size_t i = 0; i < sizeof jobs / sizeof *jobs; i++)
            measure(&jobs[i]);
    return sum == 0;
}
