/* The declarations of version 0.1.0, without their comments: programs that were compiled with them are still run. */
#ifndef SDTOOL_H
#define SDTOOL_H
#include <stdbool.h>
#include <stddef.h>
#include <stdint.h>
#ifdef __cplusplus
extern "C" {
#endif
#define SDTOOL_VERSION 100
#define SDTOOL_VERSION_TEXT "0.1.0"
struct sdtool_outcome {
    uint32_t fault;
    uint32_t part;
    uint32_t other_part;
    uint32_t argument;
    size_t entry;
    size_t length;
};
enum sdtool_fault {
    SDTOOL_OK = 0,
    SDTOOL_FAULT_TOO_LONG = 1,
    SDTOOL_FAULT_HEX_DIGIT = 2,
    SDTOOL_FAULT_HEX_ODD = 3,
    SDTOOL_FAULT_BASE64 = 4,
    SDTOOL_FAULT_SHORT = 5,
    SDTOOL_FAULT_REVISION = 6,
    SDTOOL_FAULT_NOT_SELF_RELATIVE = 7,
    SDTOOL_FAULT_OFFSET = 8,
    SDTOOL_FAULT_SID = 9,
    SDTOOL_FAULT_ACL = 10,
    SDTOOL_FAULT_ACE_SIZE = 11,
    SDTOOL_FAULT_ACE_TYPE = 12,
    SDTOOL_FAULT_ACE_FLAGS = 13,
    SDTOOL_FAULT_OVERLAP = 14,
    SDTOOL_FAULT_SHAPE = 20,
    SDTOOL_FAULT_PART_TWICE = 21,
    SDTOOL_FAULT_ALIAS = 22,
    SDTOOL_FAULT_NEEDS_DOMAIN = 23,
    SDTOOL_FAULT_NUMBER = 24,
    SDTOOL_FAULT_SID_FORM = 25,
    SDTOOL_FAULT_FLAGS = 26,
    SDTOOL_FAULT_RIGHTS = 27,
    SDTOOL_FAULT_GUID = 28,
    SDTOOL_FAULT_KIND = 29,
    SDTOOL_FAULT_ACL_TOO_LARGE = 30,
    SDTOOL_FAULT_DERIVED_TOO_LARGE = 40,
    SDTOOL_FAULT_EMPTY_REQUEST = 50,
    SDTOOL_FAULT_RESERVED_BITS = 51,
    SDTOOL_FAULT_READ = 60,
    SDTOOL_FAULT_WRITE = 61,
    SDTOOL_FAULT_TOO_MANY_READS = 62,
    SDTOOL_ARGUMENT = 70,
    SDTOOL_TOO_SMALL = 71,
    SDTOOL_NO_MEMORY = 72
};
enum sdtool_argument {
    SDTOOL_NO_ARGUMENT = 0,
    SDTOOL_ARGUMENT_DOMAIN = 1,
    SDTOOL_ARGUMENT_SIDS = 2,
    SDTOOL_ARGUMENT_ENTRIES = 3,
    SDTOOL_ARGUMENT_OBJECT = 4,
    SDTOOL_ARGUMENT_PRINCIPAL_SELF = 5,
    SDTOOL_ARGUMENT_MAPPING = 6,
    SDTOOL_ARGUMENT_CREATOR = 7,
    SDTOOL_ARGUMENT_OWNER = 8,
    SDTOOL_ARGUMENT_GROUP = 9,
    SDTOOL_ARGUMENT_KIND = 10,
    SDTOOL_ARGUMENT_FAULT = 11
};
enum sdtool_part {
    SDTOOL_NO_PART = 0,
    SDTOOL_OWNER = 1,
    SDTOOL_GROUP = 2,
    SDTOOL_SACL = 3,
    SDTOOL_DACL = 4
};
enum sdtool_mapping {
    SDTOOL_MAPPING_FILE = 0,
    SDTOOL_MAPPING_KEY = 1,
    SDTOOL_MAPPING_DS = 2
};
enum sdtool_kind {
    SDTOOL_KIND_FILE = 0,
    SDTOOL_KIND_CONTAINER = 1
};
enum sdtool_entry {
    SDTOOL_ENABLED = 0,
    SDTOOL_DENY_ONLY = 1
};
enum {
    SDTOOL_MOST_BYTES = 131226,
    SDTOOL_MOST_TEXT = 1049872,
    SDTOOL_MOST_SIDS = 1024,
    SDTOOL_MOST_FAULT_TEXT = 32,
    SDTOOL_MOST_MESSAGE = 64
};
#define SDTOOL_TEXT_SIZE(bytes) (8 * (size_t)(bytes) + 64)
struct sdtool_outcome sdtool_version(uint8_t *text, size_t text_size);
uint32_t sdtool_version_number(void);
struct sdtool_outcome sdtool_to_sddl(const uint8_t *descriptor, size_t descriptor_size, const uint8_t *domain,
                                     size_t domain_size, bool numeric, uint8_t *text, size_t text_size);
struct sdtool_outcome sdtool_explain(const uint8_t *descriptor, size_t descriptor_size, const uint8_t *domain,
                                     size_t domain_size, bool numeric, uint8_t *text, size_t text_size);
struct sdtool_outcome sdtool_normalize(const uint8_t *descriptor, size_t descriptor_size, uint8_t *output,
                                       size_t output_size);
struct sdtool_outcome sdtool_from_sddl(const uint8_t *text, size_t text_size, const uint8_t *domain, size_t domain_size,
                                       uint8_t *output, size_t output_size);
enum sdtool_asker_option {
    SDTOOL_HAS_LEVEL = 1,
    SDTOOL_SECURITY = 2,
    SDTOOL_TAKE_OWNERSHIP = 4
};
struct sdtool_asker {
    uint32_t mapping;
    uint32_t level;
    uint32_t options;
};
enum sdtool_request_option {
    SDTOOL_MAXIMUM = 1
};
struct sdtool_request {
    struct sdtool_asker asker;
    uint32_t wanted;
    uint32_t options;
};
struct sdtool_verdict {
    struct sdtool_outcome outcome;
    uint32_t mask;
    uint8_t granted;
};
struct sdtool_verdict sdtool_check(const uint8_t *descriptor, size_t descriptor_size, const uint8_t *sids,
                                   size_t sids_size, const uint8_t *entries, size_t sid_count, const uint8_t *object,
                                   size_t object_size, const uint8_t *principal_self, size_t principal_self_size,
                                   const struct sdtool_request *request);
struct sdtool_outcome sdtool_derive(const uint8_t *parent, size_t parent_size, const uint8_t *creator,
                                    size_t creator_size, const uint8_t *owner, size_t owner_size,
                                    const uint8_t *group, size_t group_size, uint32_t kind, uint32_t mapping,
                                    uint8_t *output, size_t output_size);
enum sdtool_status {
    SDTOOL_STATUS_ANSWERED = 0,
    SDTOOL_STATUS_ERRORS = 1,
    SDTOOL_STATUS_USAGE = 2,
    SDTOOL_STATUS_STOPPED = 3,
    SDTOOL_STATUS_NO_MEMORY = 4
};
struct sdtool_ending {
    uint32_t status;
    size_t length;
    size_t message_length;
};
struct sdtool_ending sdtool_run(const uint8_t *words, size_t words_size, const uint8_t *input, size_t input_size,
                                uint8_t *output, size_t output_size, uint8_t *message, size_t message_size);
struct sdtool_outcome sdtool_fault_text(uint32_t fault, uint8_t *text, size_t text_size);
#ifdef __cplusplus
}
#endif
#endif
