/*
 * sdtool: Windows security descriptors (MS-DTYP 2.4.6) and SDDL (MS-DTYP 2.5.1), for C and C++.
 *
 * A call reads its input and writes its answer to a buffer of the caller. It keeps no pointer, has no state, prints
 * nothing and never ends the process, so calls from several threads need no lock. Calls may use malloc and free;
 * nothing that they allocate is left when they return. Do not call them from a signal handler. A process that a thread
 * forked may call them if it may call malloc, as with glibc.
 *
 * sdtool_run needs at most 56 KiB of stack, each other call at most 14 KiB, whatever its input is.
 *
 * How this header grows: the shared library's name has a number, libsdtool.so.0. Under one number no struct and no
 * function of this header changes, no number gets another meaning, and none is taken away; a version that needs such a
 * change gets the next number. So a program runs with each later library of the same number, without being compiled
 * again. What may come with a later version are functions, structs of their own, and numbers of the enums: a program
 * has to take a fault that it does not know as one, and never as an answer. A program that needs a function of a later
 * version can compare sdtool_version_number() with the SDTOOL_VERSION that it was compiled with.
 *
 * Sizes, lengths and offsets are in bytes. Texts are bytes without a final NUL. A pointer may be null if its size is 0.
 * What an output holds behind its answer is unspecified. A struct of zeros is `= {0}` in C and `= {}` in C++.
 *
 * An output must not overlap an input or another output. Until a call returns, no other thread may write to its inputs,
 * or read or write its outputs. Else the call may answer anything, or end the process.
 */
#ifndef SDTOOL_H
#define SDTOOL_H

#include <stdbool.h>
#include <stddef.h>
#include <stdint.h>

#ifdef __cplusplus
extern "C" {
#endif

/* The version of this header: 10000 times the first number, 100 times the second, and the third. */
#define SDTOOL_VERSION 100
/* The same as a text, a string with its NUL. */
#define SDTOOL_VERSION_TEXT "0.1.0"

/* What a call answers. */
struct sdtool_outcome {
    /* SDTOOL_OK, or why there is no answer: one of enum sdtool_fault. */
    uint32_t fault;
    /* The part of the descriptor that the fault is about, as in enum sdtool_part. */
    uint32_t part;
    /* The second part of SDTOOL_FAULT_OVERLAP; else SDTOOL_NO_PART. */
    uint32_t other_part;
    /*
     * With SDTOOL_ARGUMENT the argument that is wrong, as in enum sdtool_argument; with a change that can't be made
     * SDTOOL_ARGUMENT_CHANGES; else SDTOOL_NO_ARGUMENT.
     */
    uint32_t argument;
    /*
     * Which entry of that argument it is, from 0 on, if it is a list; with SDTOOL_TOO_SMALL of sdtool_convert_many and
     * sdtool_derive_many the row whose answer has no room; else 0.
     */
    size_t entry;
    /* With SDTOOL_OK the length of the answer, and with SDTOOL_TOO_SMALL the size that it needs; else 0. */
    size_t length;
};

/*
 * Why a call has no answer. The numbers are those of the program's `error` lines and messages. With 2 to 4 a line of
 * sdtool_run spells no bytes, with 5 to 14 the bytes are no descriptor, with 20 to 30 the text is no SDDL. 60 to 62 say
 * how a run of the program ends; of these sdtool_run has 61 alone, in its message. Those from 70 on are of this library
 * alone. The list is written from windows/errors.toml.
 */
enum sdtool_fault {
    SDTOOL_OK = 0,
    /* The input exceeds SDTOOL_MOST_BYTES or SDTOOL_MOST_TEXT. */
    SDTOOL_FAULT_TOO_LONG = 1,
    /* A character is not a hex digit. */
    SDTOOL_FAULT_HEX_DIGIT = 2,
    /* The number of characters is odd. */
    SDTOOL_FAULT_HEX_ODD = 3,
    /* The line is not base64. */
    SDTOOL_FAULT_BASE64 = 4,
    /* Fewer than 20 bytes. */
    SDTOOL_FAULT_SHORT = 5,
    /* The revision of the header is not 1. */
    SDTOOL_FAULT_REVISION = 6,
    /* Control bit 0x8000 is clear. */
    SDTOOL_FAULT_NOT_SELF_RELATIVE = 7,
    /* The offset is below 20, or fewer than 8 bytes follow it. */
    SDTOOL_FAULT_OFFSET = 8,
    /* The revision of a SID is not 1, its count exceeds 15, or it passes the end of the bytes or of its ACE. */
    SDTOOL_FAULT_SID = 9,
    /* The revision of the ACL is not 2 or 4, its size is below 8, or it passes the end of the bytes. */
    SDTOOL_FAULT_ACL = 10,
    /* Fewer than 16 bytes of the ACL are left for an ACE; or its size is below 16, not a multiple of 4 or beyond the
     * ACL; or its object fields and 8 bytes of a SID do not fit in it. */
    SDTOOL_FAULT_ACE_SIZE = 11,
    /* The type of an ACE is not supported, such as a callback ACE: what the descriptor grants is unknown. */
    SDTOOL_FAULT_ACE_TYPE = 12,
    /* An ACE has flag 0x20. */
    SDTOOL_FAULT_ACE_FLAGS = 13,
    /* Two parts share a byte. */
    SDTOOL_FAULT_OVERLAP = 14,
    /* Parentheses, colons or the number of fields are wrong. */
    SDTOOL_FAULT_SHAPE = 20,
    /* Two parts have the same letter. */
    SDTOOL_FAULT_PART_TWICE = 21,
    /* Two letters that are not an alias. */
    SDTOOL_FAULT_ALIAS = 22,
    /* A relative alias, such as DA, stands in a text that is read without a domain, or under a full one. */
    SDTOOL_FAULT_NEEDS_DOMAIN = 23,
    /* A decimal number of a SID has more than ten digits, or is 2^32 or more. */
    SDTOOL_FAULT_NUMBER = 24,
    /* Any other text that is not a SID. */
    SDTOOL_FAULT_SID_FORM = 25,
    /* Flags of an ACL or an ACE that are not in the tables. */
    SDTOOL_FAULT_FLAGS = 26,
    /* Rights that are not in the tables. */
    SDTOOL_FAULT_RIGHTS = 27,
    /* An object type is not a GUID, or its ACE is of a kind without object types. */
    SDTOOL_FAULT_GUID = 28,
    /* No such kind of ACE, such as XA. */
    SDTOOL_FAULT_KIND = 29,
    /* The ACL would exceed 65,535 bytes; the first from the left. */
    SDTOOL_FAULT_ACL_TOO_LARGE = 30,
    /* A derived ACL exceeds 65,535 bytes; the SACL is checked first. */
    SDTOOL_FAULT_DERIVED_TOO_LARGE = 40,
    /* No right is asked for. */
    SDTOOL_FAULT_EMPTY_REQUEST = 50,
    /* Bit 26 or 27 is set in the rights that are asked for. */
    SDTOOL_FAULT_RESERVED_BITS = 51,
    /* A read failed; every line that had ended is answered. */
    SDTOOL_FAULT_READ = 60,
    /* The output is a closed pipe or a full disk; nothing is written after it. */
    SDTOOL_FAULT_WRITE = 61,
    /* 2^40 reads without an end. */
    SDTOOL_FAULT_TOO_MANY_READS = 62,
    /* An argument beside the descriptor or the text is invalid. */
    SDTOOL_ARGUMENT = 70,
    /* The output is too small; the call says how many bytes it needs. What it holds is unspecified. */
    SDTOOL_TOO_SMALL = 71,
    /* malloc failed. */
    SDTOOL_NO_MEMORY = 72,
    /* A change can't be made: see sdtool_edit. */
    SDTOOL_CHANGE = 73
};

/* Which argument is wrong. */
enum sdtool_argument {
    SDTOOL_NO_ARGUMENT = 0,
    /* DOMAIN is neither empty nor a SID. */
    SDTOOL_ARGUMENT_DOMAIN = 1,
    /* The bytes of the SIDs have no SID at ENTRY, or with ENTRY = SID_COUNT bytes behind the last one. */
    SDTOOL_ARGUMENT_SIDS = 2,
    /* The byte at ENTRY is none of enum sdtool_entry, or ENTRY is SDTOOL_MOST_SIDS and there are more. */
    SDTOOL_ARGUMENT_ENTRIES = 3,
    /* OBJECT is neither empty nor 16 bytes. */
    SDTOOL_ARGUMENT_OBJECT = 4,
    /* PRINCIPAL_SELF is neither empty nor a SID. */
    SDTOOL_ARGUMENT_PRINCIPAL_SELF = 5,
    /* MAPPING, or that of an asker, is none of enum sdtool_mapping. */
    SDTOOL_ARGUMENT_MAPPING = 6,
    /* CREATOR is neither empty nor a descriptor. */
    SDTOOL_ARGUMENT_CREATOR = 7,
    /* OWNER is no SID. */
    SDTOOL_ARGUMENT_OWNER = 8,
    /* GROUP is no SID. */
    SDTOOL_ARGUMENT_GROUP = 9,
    /* KIND is none of enum sdtool_kind. */
    SDTOOL_ARGUMENT_KIND = 10,
    /* FAULT is the number of no fault. */
    SDTOOL_ARGUMENT_FAULT = 11,
    /* SID is no SID. */
    SDTOOL_ARGUMENT_SID = 12,
    /*
     * The SACL or the DACL to build: the ACE at ENTRY can't be, the state is none of enum sdtool_acl_state, or an ACL
     * that is absent or null has ACEs. In the last two cases ENTRY is 0.
     */
    SDTOOL_ARGUMENT_SACL = 13,
    SDTOOL_ARGUMENT_DACL = 14,
    /* TOKEN holds no token that sdtool_token_read has read, or not all of it. */
    SDTOOL_ARGUMENT_TOKEN = 15,
    /* There are more than SDTOOL_MOST_CHANGES, or the change at ENTRY is none or can't be made. */
    SDTOOL_ARGUMENT_CHANGES = 16,
    /* The options of a request, of its asker or of a conversion have a bit that means nothing. */
    SDTOOL_ARGUMENT_OPTIONS = 17,
    /* ACE is not the bytes of one ACE. */
    SDTOOL_ARGUMENT_ACE = 18,
    /* FLAGS has a bit that is no flag of an ACE. */
    SDTOOL_ARGUMENT_FLAGS = 19,
    /* GUID is not 16 bytes. */
    SDTOOL_ARGUMENT_GUID = 20,
    /* Of a row: its offsets decrease, or pass the end of the bytes. Of all rows: there is no room for as many. */
    SDTOOL_ARGUMENT_OFFSETS = 21,
    /* KIND is none of enum sdtool_conversion_kind. */
    SDTOOL_ARGUMENT_CONVERSION = 22
};

enum sdtool_part {
    SDTOOL_NO_PART = 0,
    SDTOOL_OWNER = 1,
    SDTOOL_GROUP = 2,
    SDTOOL_SACL = 3,
    SDTOOL_DACL = 4
};

/* The kind of object whose rights the generic rights stand for, as --type of the program. */
enum sdtool_mapping {
    SDTOOL_MAPPING_FILE = 0,
    SDTOOL_MAPPING_KEY = 1,
    SDTOOL_MAPPING_DS = 2
};

/* What is made in a folder, as --kind of the program. */
enum sdtool_kind {
    SDTOOL_KIND_FILE = 0,
    SDTOOL_KIND_CONTAINER = 1
};

/* Whether a SID of a token counts for each ACE, or only for those that deny. */
enum sdtool_entry {
    SDTOOL_ENABLED = 0,
    SDTOOL_DENY_ONLY = 1
};

enum {
    /*
     * No descriptor has more bytes. An output of this size always suffices for sdtool_from_sddl, sdtool_normalize,
     * sdtool_derive and sdtool_build.
     */
    SDTOOL_MOST_BYTES = 131226,
    /* No text of SDDL has more bytes. An output of this size always suffices for sdtool_to_sddl and sdtool_explain. */
    SDTOOL_MOST_TEXT = 1049872,
    /* No token has more SIDs. */
    SDTOOL_MOST_SIDS = 1024,
    /* No SID in binary has more bytes. */
    SDTOOL_MOST_SID = 68,
    /* No text of a SID has more bytes. */
    SDTOOL_MOST_SID_TEXT = 183,
    /* No ACE that sdtool_ace_from_text gives has more bytes. */
    SDTOOL_MOST_ACE = 112,
    /* No text of an ACE, of its rights, its flags or a GUID has more bytes. */
    SDTOOL_MOST_ACE_TEXT = 312,
    /* No text of sdtool_fault_text has more bytes. */
    SDTOOL_MOST_FAULT_TEXT = 32,
    /* No text of sdtool_describe has more bytes. */
    SDTOOL_MOST_DESCRIPTION = 512,
    /* No message of sdtool_run has more bytes. */
    SDTOOL_MOST_MESSAGE = 64
};

/*
 * The size that always suffices for the text of a descriptor whose canonical layout has that many bytes. The layout
 * has at most as many bytes as the descriptor.
 */
#define SDTOOL_TEXT_SIZE(bytes) (8 * (size_t)(bytes) + 64)

/* Gives the version of the library, as SDTOOL_VERSION_TEXT without its NUL. */
struct sdtool_outcome sdtool_version(uint8_t *text, size_t text_size);

/* The version of the library as a number, as SDTOOL_VERSION is that of the header. */
uint32_t sdtool_version_number(void);

/*
 * Gives a descriptor as SDDL: 'sdtool convert'. DOMAIN is empty or a SID in binary; then aliases of that domain, such
 * as DA, are printed. In each call a domain of 15 sub-authorities is full: it has no room for one more, and counts as
 * none. With NUMERIC no aliases are printed. SDTOOL_ARGUMENT comes first, then the faults of the descriptor. It
 * allocates no memory.
 */
struct sdtool_outcome sdtool_to_sddl(const uint8_t *descriptor, size_t descriptor_size, const uint8_t *domain,
                                     size_t domain_size, bool numeric, uint8_t *text, size_t text_size);

/* Gives the lines of 'sdtool explain'. All else is as for sdtool_to_sddl. */
struct sdtool_outcome sdtool_explain(const uint8_t *descriptor, size_t descriptor_size, const uint8_t *domain,
                                     size_t domain_size, bool numeric, uint8_t *text, size_t text_size);

/*
 * Gives a descriptor in its canonical layout: 'sdtool convert --to hex', in binary. Two descriptors have the same
 * layout exactly if their content is the same. It allocates no memory.
 */
struct sdtool_outcome sdtool_normalize(const uint8_t *descriptor, size_t descriptor_size, uint8_t *output,
                                       size_t output_size);

/*
 * Gives the descriptor that SDDL describes, in its canonical layout: 'sdtool convert --from sddl --to hex', in
 * binary. DOMAIN is empty or a SID in binary; then aliases of that domain are read. A text with the end of its line is
 * SDTOOL_FAULT_SHAPE.
 *
 * The empty text is a descriptor without parts, as SDDL has it, and such a descriptor grants everything. A caller for
 * whom an empty text is a record that got lost has to refuse TEXT_SIZE 0 itself.
 *
 * It allocates 131,226 bytes, after it has looked at DOMAIN and TEXT_SIZE. So SDTOOL_NO_MEMORY comes behind
 * SDTOOL_ARGUMENT and SDTOOL_FAULT_TOO_LONG.
 */
struct sdtool_outcome sdtool_from_sddl(const uint8_t *text, size_t text_size, const uint8_t *domain, size_t domain_size,
                                       uint8_t *output, size_t output_size);

/* The options of an asker. */
enum sdtool_asker_option {
    /* The token has the integrity level LEVEL. */
    SDTOOL_HAS_LEVEL = 1,
    /* It has SeSecurityPrivilege. */
    SDTOOL_SECURITY = 2,
    /* It has SeTakeOwnershipPrivilege. */
    SDTOOL_TAKE_OWNERSHIP = 4
};

/* Who asks, beside the SIDs. */
struct sdtool_asker {
    /* One of enum sdtool_mapping. */
    uint32_t mapping;
    /* The integrity level of the token, such as 8192 for medium. It counts only with SDTOOL_HAS_LEVEL. */
    uint32_t level;
    /* Bits of enum sdtool_asker_option. */
    uint32_t options;
};

/* The options of a request. */
enum sdtool_request_option {
    /* Asks also for each right that is granted. */
    SDTOOL_MAXIMUM = 1
};

/* What an access check asks for. */
struct sdtool_request {
    struct sdtool_asker asker;
    /* The rights that are wanted, an access mask (MS-DTYP 2.4.3). It may be 0 with SDTOOL_MAXIMUM. */
    uint32_t wanted;
    /* SDTOOL_MAXIMUM or 0. */
    uint32_t options;
};

/* What an access check answers. */
struct sdtool_verdict {
    /* SDTOOL_OK, or why there is no verdict. Its length is 0. */
    struct sdtool_outcome outcome;
    /*
     * With GRANTED the rights that are granted: those that are wanted and, with SDTOOL_MAXIMUM, each other that is
     * granted. Without GRANTED, those of the wanted rights that are missing. 0 after a fault.
     */
    uint32_t mask;
    /* 1 if each wanted right is granted, else 0. */
    uint8_t granted;
};

/*
 * Gives the answer of 'sdtool check': whether a descriptor grants a token what REQUEST asks for.
 *
 * The token is SID_COUNT SIDs in binary, one directly after the other, of SIDS_SIZE bytes in all. ENTRIES has a byte
 * for each of them, one of enum sdtool_entry. OBJECT is empty or the 16 bytes of the GUID of an object type.
 * PRINCIPAL_SELF is empty or the SID in binary that PRINCIPAL SELF stands for.
 *
 * A descriptor without a DACL grants everything; sdtool_from_sddl makes one of an empty text.
 *
 * SDTOOL_ARGUMENT comes first, then 50 and 51, then the faults of the descriptor. SDTOOL_ARGUMENT means that there are
 * more than SDTOOL_MOST_SIDS, that an entry or its SID is none of the above, that bytes are behind the last SID, or
 * that the mapping, the options, OBJECT or PRINCIPAL_SELF is none of the above, in this order. Entries and SIDs are
 * looked at in pairs: the first pair with a fault counts, and in it the entry. It allocates less than 128 KiB.
 * SDTOOL_NO_MEMORY comes last, in place of a verdict alone.
 */
struct sdtool_verdict sdtool_check(const uint8_t *descriptor, size_t descriptor_size, const uint8_t *sids,
                                   size_t sids_size, const uint8_t *entries, size_t sid_count, const uint8_t *object,
                                   size_t object_size, const uint8_t *principal_self, size_t principal_self_size,
                                   const struct sdtool_request *request);

/*
 * Gives the descriptor of a new file or container whose folder has the descriptor PARENT, in its canonical layout:
 * 'sdtool derive --to hex', in binary. CREATOR is empty or the descriptor that the creator brings. OWNER and GROUP
 * are a SID in binary each. KIND is one of enum sdtool_kind and MAPPING one of enum sdtool_mapping.
 *
 * SDTOOL_ARGUMENT means that KIND, MAPPING, OWNER or GROUP is none of these or that CREATOR is no descriptor, in this
 * order; it comes first, and then the faults of PARENT. After these it allocates 131,226 bytes.
 */
struct sdtool_outcome sdtool_derive(const uint8_t *parent, size_t parent_size, const uint8_t *creator,
                                    size_t creator_size, const uint8_t *owner, size_t owner_size, const uint8_t *group,
                                    size_t group_size, uint32_t kind, uint32_t mapping, uint8_t *output,
                                    size_t output_size);

enum {
    /* No ACL of a descriptor that sdtool_derive gives has more ACEs. */
    SDTOOL_MOST_DERIVED_ACES = 4095
};

/* Where an ACE of a derived descriptor comes from. */
struct sdtool_origin {
    /* The place of the ACE that it was made of, from 0 on among all ACEs of its ACL. */
    uint16_t place;
    /* 1 if that ACL is CREATOR's, 0 if it is PARENT's. */
    uint8_t from_creator;
    /*
     * 1 if this is the copy for what is made in the new object, else 0. It has the flag inherit-only, and no other copy
     * has it.
     */
    uint8_t inherit_only;
};

/* How many origins a derivation has. */
struct sdtool_origins {
    /* SDTOOL_OK, or why there are none. Its length is 0. */
    struct sdtool_outcome outcome;
    /*
     * With SDTOOL_OK how many ACEs the SACL and the DACL have, and with SDTOOL_TOO_SMALL how many origins they need
     * room for; else 0. An ACL that is null or absent has no ACEs.
     */
    size_t sacl_count;
    size_t dacl_count;
};

/*
 * Says of each ACE of the descriptor that sdtool_derive gives for the same arguments which ACE it was made of. SACL has
 * room for SACL_ROOM origins and DACL for DACL_ROOM; SDTOOL_MOST_DERIVED_ACES suffice for each. Origins are in the
 * order of the ACEs: first what is made of CREATOR's ACL and then what is made of PARENT's, by their places there.
 * Where one ACE gives two, the one for the object itself comes first.
 *
 * The faults are those of sdtool_derive, in the same order. SDTOOL_TOO_SMALL comes last, if there is less room. After
 * any of these no origin is written. It allocates no memory.
 *
 * It reads its inputs again after it has written origins. So a SACL or a DACL that overlaps PARENT, CREATOR, OWNER or
 * GROUP may end the process.
 */
struct sdtool_origins sdtool_derive_origins(const uint8_t *parent, size_t parent_size, const uint8_t *creator,
                                            size_t creator_size, const uint8_t *owner, size_t owner_size,
                                            const uint8_t *group, size_t group_size, uint32_t kind, uint32_t mapping,
                                            struct sdtool_origin *sacl, size_t sacl_room, struct sdtool_origin *dacl,
                                            size_t dacl_room);

/*
 * Gives the SID that a text names, in binary: an alias such as BA, or S-1- and numbers. DOMAIN is empty or a SID in
 * binary; then aliases of that domain, such as DA, are read. SDTOOL_MOST_SID bytes always suffice. The faults are
 * SDTOOL_ARGUMENT for DOMAIN, then SDTOOL_FAULT_ALIAS to SDTOOL_FAULT_SID_FORM. It allocates no memory.
 */
struct sdtool_outcome sdtool_sid_from_text(const uint8_t *text, size_t text_size, const uint8_t *domain,
                                           size_t domain_size, uint8_t *sid, size_t sid_size);

/*
 * Gives the text of a SID in binary: its alias if it has one and NUMERIC is false, and else its numbers. DOMAIN is
 * empty or a SID in binary whose relative aliases are used too. SDTOOL_MOST_SID_TEXT bytes always suffice.
 * SDTOOL_ARGUMENT means that SID, looked at first, or DOMAIN is no SID. It allocates no memory.
 */
struct sdtool_outcome sdtool_sid_to_text(const uint8_t *sid, size_t sid_size, const uint8_t *domain, size_t domain_size,
                                         bool numeric, uint8_t *text, size_t text_size);

/*
 * How many bytes the SID at the front of some bytes has, such as one of several in a row. It is 0 if they begin with
 * no SID: the revision is not 1, there are more than 15 sub-authorities, or the bytes end too soon.
 */
size_t sdtool_sid_size(const uint8_t *bytes, size_t bytes_size);

/* Where something lies in bytes of the caller. What is not there has offset 0 and size 0. */
struct sdtool_place {
    size_t offset;
    size_t size;
};

/* An absent DACL and a null DACL both grant everything. An empty list grants nothing by itself. */
enum sdtool_acl_state {
    SDTOOL_ACL_ABSENT = 0,
    SDTOOL_ACL_NULL = 1,
    SDTOOL_ACL_LIST = 2
};

/* An ACL of a descriptor. */
struct sdtool_acl_place {
    /* One of enum sdtool_acl_state. */
    uint32_t state;
    /* How many ACEs a list has, else 0. */
    uint32_t ace_count;
    /* The ACL, as its size field says. It is not there unless the ACL is a list. */
    struct sdtool_place place;
};

/* What is in a descriptor. */
struct sdtool_contents {
    /* SDTOOL_OK, or why the bytes are no descriptor, as for sdtool_normalize. After a fault all else is 0. */
    struct sdtool_outcome outcome;
    /* The control word (MS-DTYP 2.4.6), as it stands in the bytes. */
    uint16_t control;
    uint8_t resource_manager;
    /* The SIDs. They may be missing. */
    struct sdtool_place owner;
    struct sdtool_place group;
    struct sdtool_acl_place sacl;
    struct sdtool_acl_place dacl;
};

/*
 * Says what is in a descriptor and where it lies in the bytes of the caller. The faults are those of sdtool_normalize,
 * with the part or the two parts that they are about. It allocates no memory.
 */
struct sdtool_contents sdtool_parts(const uint8_t *descriptor, size_t descriptor_size);

/* A field of an ACE or of a part. */
enum sdtool_field {
    SDTOOL_NO_FIELD = 0,
    /* The type of an ACE. */
    SDTOOL_FIELD_KIND = 1,
    /* The flags of an ACE, or of an ACL before its ACEs. */
    SDTOOL_FIELD_FLAGS = 2,
    /* The access mask. */
    SDTOOL_FIELD_RIGHTS = 3,
    SDTOOL_FIELD_OBJECT_TYPE = 4,
    SDTOOL_FIELD_INHERITED_OBJECT_TYPE = 5,
    /* The SID of an ACE, an owner or a group. */
    SDTOOL_FIELD_SID = 6,
    /* The size of an ACE. */
    SDTOOL_FIELD_SIZE = 7
};

/* The number of an ACE where there is none. */
#define SDTOOL_NO_ACE 0xFFFFFFFFu

/* Where a fault is. */
struct sdtool_fault_place {
    /* The fault, or SDTOOL_OK if there is none that has a place. */
    uint32_t fault;
    /* The part that it is in, as in enum sdtool_part; of SDTOOL_FAULT_OVERLAP the second one. */
    uint32_t part;
    /* The ACE of that part that it is in, from 0 on, or SDTOOL_NO_ACE. */
    uint32_t ace;
    /* One of enum sdtool_field. */
    uint32_t field;
    /* The bytes that it is in. Where something is missing, as after SDTOOL_FAULT_SHORT, there are none: SIZE is 0. */
    struct sdtool_place place;
};

/*
 * Says where the first fault of a descriptor is, after a call has refused it. All places are in DESCRIPTOR, and cut by
 * what holds them: of SDTOOL_FAULT_SHORT the end; of SDTOOL_FAULT_REVISION the first byte; of
 * SDTOOL_FAULT_NOT_SELF_RELATIVE the control word; of SDTOOL_FAULT_OFFSET the four bytes of the offset in the header;
 * of SDTOOL_FAULT_SID the SID, as long as its count says; of SDTOOL_FAULT_ACL the eight bytes of the ACL's header; of
 * another fault of an ACE its first four bytes; of SDTOOL_FAULT_OVERLAP the whole second part. SDTOOL_FAULT_TOO_LONG
 * has no place. It allocates no memory.
 */
struct sdtool_fault_place sdtool_place(const uint8_t *descriptor, size_t descriptor_size);

/*
 * Says where the first fault of a text of SDDL is, after sdtool_from_sddl has refused it under the same DOMAIN. All
 * places are bytes of TEXT. Of SDTOOL_FAULT_ALIAS to SDTOOL_FAULT_KIND it is the field that does not read, outside
 * parentheses without the blanks around it; of SDTOOL_FAULT_SHAPE the first character that fits no text of SDDL, or at
 * the end of TEXT nothing, with SIZE 0; of SDTOOL_FAULT_PART_TWICE the second head, letter and colon; of
 * SDTOOL_FAULT_ACL_TOO_LARGE the ACE with which the ACL is too large, with its parentheses. SDTOOL_FAULT_TOO_LONG and
 * SDTOOL_ARGUMENT have no place.
 *
 * It reads TEXT again, which may take ten times as long as sdtool_from_sddl. It allocates no memory.
 */
struct sdtool_fault_place sdtool_sddl_place(const uint8_t *text, size_t text_size, const uint8_t *domain,
                                            size_t domain_size);

/*
 * Gives a sentence that says what went wrong and where, such as
 *
 *     error 27 rights: rights that are not in the tables, at byte 17, ACE 3 of the DACL, rights
 *
 * OUTCOME is what a call has answered, or begins with. PLACE is what sdtool_place or sdtool_sddl_place has found, or
 * all zeros; the place of another fault counts as none. Bytes count from 0, and ACEs from 1. With SDTOOL_ARGUMENT the
 * argument is in front: 'domain: '.
 *
 * SDTOOL_MOST_DESCRIPTION bytes always suffice. SDTOOL_ARGUMENT means that the fault of OUTCOME is none of enum
 * sdtool_fault, or SDTOOL_OK. It allocates no memory.
 */
struct sdtool_outcome sdtool_describe(const struct sdtool_outcome *outcome, const struct sdtool_fault_place *place,
                                      uint8_t *text, size_t text_size);

/*
 * An ACE that a walk through an ACL has found, and how far the walk is. A walk begins with a struct of zeros. The
 * places are in the bytes of the ACL.
 */
struct sdtool_ace {
    /* SDTOOL_OK, or the fault that ends the walk. */
    uint32_t fault;
    /* The access mask. */
    uint32_t mask;
    /* How many ACEs the walk has passed, this one included. */
    uint32_t number;
    /* The type byte: 0 allow, 1 deny, 2 audit, 5 to 7 the same with object types, 0x11 mandatory label. */
    uint8_t kind;
    /* The flags of inheritance and audit. */
    uint8_t flags;
    /* The whole ACE. The next one begins behind it. */
    struct sdtool_place place;
    /* 16 bytes each, or not there. */
    struct sdtool_place object_type;
    struct sdtool_place inherited_object_type;
    /* The SID of the trustee. */
    struct sdtool_place sid;
};

/*
 * Goes on to the next ACE of an ACL and says whether there is one. ACL is the bytes of an ACL, such as those at the
 * place that sdtool_parts names. ACE is what the last call left, and all zeros before the first; NUMBER and PLACE say
 * how far the walk is, so a caller changes neither. A whole walk takes time in proportion to the bytes of the ACL.
 *
 * Bytes behind the ACL, as long as its size field says, are not looked at. After the last ACE it returns false with
 * fault SDTOOL_OK, each time that it is called. It returns false with a fault from SDTOOL_FAULT_SID to
 * SDTOOL_FAULT_ACE_FLAGS if the bytes are no ACL or the next ACE can't be read; in an ACL of a descriptor that
 * sdtool_parts has read there is none. It allocates no memory.
 *
 *     struct sdtool_ace ace = {0};
 *     while (sdtool_next_ace(acl, acl_size, &ace)) use(&ace);
 *     if (ace.fault != SDTOOL_OK) the ACL is not whole;
 */
bool sdtool_next_ace(const uint8_t *acl, size_t acl_size, struct sdtool_ace *ace);

/*
 * Says where the parts of the ACE at the front of some bytes are, as sdtool_next_ace does of the first ACE of an ACL:
 * the places are in BYTES, and NUMBER is 1. Bytes behind the ACE, as long as its size field says, are not looked at. If
 * it can't be read, the fault is one from SDTOOL_FAULT_SID to SDTOOL_FAULT_ACE_FLAGS, and all else is 0. It allocates
 * no memory.
 */
struct sdtool_ace sdtool_ace_read(const uint8_t *bytes, size_t bytes_size);

/*
 * Gives the bytes of an ACE from its text in SDDL, such as (A;OICI;FR;;;BU). TEXT begins with its parenthesis; behind
 * it there may be blanks. DOMAIN is as for sdtool_from_sddl. SDTOOL_MOST_ACE bytes always suffice.
 *
 * SDTOOL_ARGUMENT for DOMAIN comes first, then SDTOOL_FAULT_TOO_LONG, then SDTOOL_FAULT_SHAPE if TEXT does not begin
 * with a parenthesis, then SDTOOL_NO_MEMORY: it allocates 131,226 bytes. Then the faults of sdtool_from_sddl for D: and
 * TEXT, and SDTOOL_FAULT_SHAPE if these are not one ACE alone. sdtool_sddl_place says where a fault of D: and TEXT is.
 */
struct sdtool_outcome sdtool_ace_from_text(const uint8_t *text, size_t text_size, const uint8_t *domain,
                                           size_t domain_size, uint8_t *ace, size_t ace_size);

/*
 * Gives the text in SDDL of the bytes of an ACE. DOMAIN and NUMERIC are as for sdtool_sid_to_text.
 * SDTOOL_MOST_ACE_TEXT bytes always suffice. SDTOOL_ARGUMENT means that ACE, looked at first, is not the bytes of one
 * ACE alone, or that DOMAIN is no SID; sdtool_ace_read says what is wrong with an ACE. It allocates no memory.
 */
struct sdtool_outcome sdtool_ace_to_text(const uint8_t *ace, size_t ace_size, const uint8_t *domain, size_t domain_size,
                                         bool numeric, uint8_t *text, size_t text_size);

/* What the text of a number means. */
struct sdtool_number {
    /* SDTOOL_OK, or why the text is none. Its length is 0. */
    struct sdtool_outcome outcome;
    /* The number; 0 after a fault. */
    uint32_t number;
};

/*
 * Gives the access mask that the rights of an ACE mean in SDDL, such as FRWD or 0x1f01ff; the empty text is 0. As in
 * SDDL, digits behind 0x are hex, and behind another 0 octal: 010 is 8. The fault is SDTOOL_FAULT_RIGHTS. It allocates
 * no memory.
 */
struct sdtool_number sdtool_rights_from_text(const uint8_t *text, size_t text_size);

/*
 * Gives the rights of an ACE in SDDL. With LABEL they are those of a mandatory label, such as NW, and else those of any
 * other ACE: SDDL does not know for which kind of object they are. SDTOOL_MOST_ACE_TEXT bytes always suffice. It
 * allocates no memory.
 */
struct sdtool_outcome sdtool_rights_to_text(uint32_t mask, bool label, uint8_t *text, size_t text_size);

/*
 * Gives the flags of an ACE that a text means in SDDL, such as OICI; the empty text is 0. The fault is
 * SDTOOL_FAULT_FLAGS. It allocates no memory.
 */
struct sdtool_number sdtool_flags_from_text(const uint8_t *text, size_t text_size);

/*
 * Gives the flags of an ACE in SDDL; no flags are the empty text. SDTOOL_MOST_ACE_TEXT bytes always suffice.
 * SDTOOL_ARGUMENT means that FLAGS has 0x20 or a bit behind 0x80. It allocates no memory.
 */
struct sdtool_outcome sdtool_flags_to_text(uint32_t flags, uint8_t *text, size_t text_size);

/*
 * Gives the 16 bytes of a GUID, as they stand in an ACE, from its 36 characters. The fault is SDTOOL_FAULT_GUID, also
 * for the empty text and for a GUID in braces. It allocates no memory.
 */
struct sdtool_outcome sdtool_guid_from_text(const uint8_t *text, size_t text_size, uint8_t *guid, size_t guid_size);

/*
 * Gives the 36 characters of a GUID, in lower case. SDTOOL_ARGUMENT means that GUID is not 16 bytes. It allocates no
 * memory.
 */
struct sdtool_outcome sdtool_guid_to_text(const uint8_t *guid, size_t guid_size, uint8_t *text, size_t text_size);

/* Some bytes. BYTES may be null if SIZE is 0. */
struct sdtool_bytes {
    const uint8_t *bytes;
    size_t size;
};

/*
 * Gives the verdicts of sdtool_check on many descriptors, for one token and one request. The token is read once, which
 * pays if it has many SIDs. VERDICTS has room for at least DESCRIPTOR_COUNT verdicts, one for each descriptor in
 * order; a descriptor that is none has its fault in its own verdict. LENGTH is DESCRIPTOR_COUNT.
 *
 * SDTOOL_TOO_SMALL comes first, if there is less room, with LENGTH = DESCRIPTOR_COUNT. Then SDTOOL_ARGUMENT, then
 * SDTOOL_FAULT_EMPTY_REQUEST and SDTOOL_FAULT_RESERVED_BITS. SDTOOL_NO_MEMORY comes last: it allocates less than 128
 * KiB. After any of these no verdict is written.
 */
struct sdtool_outcome sdtool_check_many(const struct sdtool_bytes *descriptors, size_t descriptor_count,
                                        const uint8_t *sids, size_t sids_size, const uint8_t *entries, size_t sid_count,
                                        const uint8_t *object, size_t object_size, const uint8_t *principal_self,
                                        size_t principal_self_size, const struct sdtool_request *request,
                                        struct sdtool_verdict *verdicts, size_t verdict_count);

/* A column of bytes or texts, as Arrow lays it out. */
struct sdtool_column {
    struct sdtool_bytes data;
    /* One more than there are rows. Row I is the bytes of DATA from OFFSETS[I] up to OFFSETS[I + 1]. */
    const uint32_t *offsets;
    size_t offset_count;
};

/* The same with offsets of 64 bits, as a large column has. */
struct sdtool_large_column {
    struct sdtool_bytes data;
    const uint64_t *offsets;
    size_t offset_count;
};

/* Descriptors that are the rows of a column, and what sdtool_check takes beside a descriptor. */
struct sdtool_column_check {
    struct sdtool_column descriptors;
    struct sdtool_bytes sids;
    struct sdtool_bytes entries;
    struct sdtool_bytes object;
    struct sdtool_bytes principal_self;
    struct sdtool_request request;
};

/* The same with offsets of 64 bits. */
struct sdtool_large_column_check {
    struct sdtool_large_column descriptors;
    struct sdtool_bytes sids;
    struct sdtool_bytes entries;
    struct sdtool_bytes object;
    struct sdtool_bytes principal_self;
    struct sdtool_request request;
};

/*
 * Gives the verdicts of sdtool_check_many on the rows of a column. A row whose offsets decrease or pass the end of
 * DATA, as negative ones do, has SDTOOL_ARGUMENT for its offsets in its own verdict, and nothing is read of it. LENGTH
 * is the number of rows. Of DATA it uses at most 2,147,483,647 bytes, since Arrow's offsets of 32 bits have a sign.
 *
 * SDTOOL_ARGUMENT for the offsets comes first, if OFFSETS is empty, and then the faults of sdtool_check_many.
 *
 * It knows nothing of nulls: a null is a row like any other, mostly an empty one, which is no descriptor.
 */
struct sdtool_outcome sdtool_check_column(const struct sdtool_column_check *check, struct sdtool_verdict *verdicts,
                                          size_t verdict_count);

/* The same with offsets of 64 bits. It uses DATA whole. */
struct sdtool_outcome sdtool_check_column_large(const struct sdtool_large_column_check *check,
                                                struct sdtool_verdict *verdicts, size_t verdict_count);

/* What the rows of a column are converted to. */
enum sdtool_conversion_kind {
    /* Descriptors to SDDL, as by sdtool_to_sddl. */
    SDTOOL_CONVERT_TO_SDDL = 0,
    /* SDDL to descriptors, as by sdtool_from_sddl. */
    SDTOOL_CONVERT_FROM_SDDL = 1,
    /* Descriptors to their canonical layout, as by sdtool_normalize. */
    SDTOOL_CONVERT_NORMALIZE = 2
};

/* The options of a conversion. */
enum sdtool_conversion_option {
    /* No aliases are printed. */
    SDTOOL_NUMERIC = 1
};

/* A column of bytes or texts, as Arrow lays it out, and what its rows are converted to. */
struct sdtool_conversion {
    struct sdtool_bytes data;
    /* One more than there are rows. Row I is the bytes of DATA from OFFSETS[I] up to OFFSETS[I + 1]. */
    const uint32_t *offsets;
    size_t offset_count;
    /* Empty or a SID in binary, as for sdtool_to_sddl and sdtool_from_sddl. No other kind uses it. */
    struct sdtool_bytes domain;
    /* Where in OUT the first answer begins: 0, or where the answers of an earlier call end. */
    size_t begin;
    /* One of enum sdtool_conversion_kind. */
    uint32_t kind;
    /* SDTOOL_NUMERIC or 0. */
    uint32_t options;
};

/* The same with offsets of 64 bits, as a large column has. */
struct sdtool_large_conversion {
    struct sdtool_bytes data;
    const uint64_t *offsets;
    size_t offset_count;
    struct sdtool_bytes domain;
    size_t begin;
    uint32_t kind;
    uint32_t options;
};

/*
 * Converts each row of a column by itself. OUT gets the answers, one directly after the other, and OUT_OFFSETS gets
 * BEGIN and the end of each answer, so they are a column again. OUTCOMES gets what the call for a single row tells,
 * with the length of the answer. Where that is a fault, the answer is empty, and no other row changes. A row whose
 * offsets decrease or pass the end of DATA, as negative ones do, has SDTOOL_ARGUMENT for its offsets, and nothing is
 * read of it.
 *
 * With SDTOOL_OK all rows are answered, and LENGTH is where the last answer ends. With SDTOOL_TOO_SMALL the rows before
 * ENTRY are answered, and the answer of this row, of LENGTH bytes, has no room in OUT behind OUT_OFFSETS[ENTRY]. To go
 * on, call again with that offset as BEGIN, with OUT or a larger copy of it, and with OFFSETS, OUT_OFFSETS and OUTCOMES
 * from ENTRY on. Of OUT_OFFSETS and OUTCOMES, what belongs to other rows is left as it was.
 *
 * SDTOOL_ARGUMENT comes first: for KIND, OPTIONS and DOMAIN in this order, and then for the offsets if OFFSETS is
 * empty, OUT_OFFSETS has fewer numbers than OFFSETS, OUTCOMES has fewer than there are rows, or BEGIN passes the end of
 * OUT. Then comes SDTOOL_NO_MEMORY: it allocates 131,226 bytes. After any of these nothing is written.
 *
 * Of DATA and OUT it uses at most 2,147,483,647 bytes, since Arrow's offsets of 32 bits have a sign.
 *
 * It knows nothing of nulls: a null is a row like any other, mostly an empty one. From SDDL an empty row gives a
 * descriptor that grants everything, so a caller has to keep the nulls beside the answers.
 */
struct sdtool_outcome sdtool_convert_many(const struct sdtool_conversion *conversion, uint8_t *out, size_t out_size,
                                          uint32_t *out_offsets, size_t out_offset_count,
                                          struct sdtool_outcome *outcomes, size_t outcome_count);

/* The same with offsets of 64 bits. It uses DATA and OUT whole. */
struct sdtool_outcome sdtool_convert_many_large(const struct sdtool_large_conversion *conversion, uint8_t *out,
                                                size_t out_size, uint64_t *out_offsets, size_t out_offset_count,
                                                struct sdtool_outcome *outcomes, size_t outcome_count);

/* What sdtool_derive takes beside the parent. */
struct sdtool_creation {
    struct sdtool_bytes creator;
    struct sdtool_bytes owner;
    struct sdtool_bytes group;
    uint32_t kind;
    uint32_t mapping;
};

/* Parents, and what all new descriptors have in common. */
struct sdtool_derivation {
    struct sdtool_column parents;
    struct sdtool_creation creation;
    /* Where in OUT the first answer begins: 0, or where the answers of an earlier call end. */
    size_t begin;
};

/* The same with offsets of 64 bits, as a large column has. */
struct sdtool_large_derivation {
    struct sdtool_large_column parents;
    struct sdtool_creation creation;
    size_t begin;
};

/*
 * Gives the descriptor of sdtool_derive for each row of a column of parents. Answers, and how to go on after
 * SDTOOL_TOO_SMALL, are those of sdtool_convert_many, with the offsets of PARENTS.
 *
 * SDTOOL_ARGUMENT comes first: for KIND, MAPPING, OWNER, GROUP and CREATOR in this order, and then for the offsets as
 * by sdtool_convert_many. Then comes SDTOOL_NO_MEMORY: it allocates 131,226 bytes. After any of these nothing is
 * written.
 */
struct sdtool_outcome sdtool_derive_many(const struct sdtool_derivation *derivation, uint8_t *out, size_t out_size,
                                         uint32_t *out_offsets, size_t out_offset_count,
                                         struct sdtool_outcome *outcomes, size_t outcome_count);

/* The same with offsets of 64 bits. It uses the data and OUT whole. */
struct sdtool_outcome sdtool_derive_many_large(const struct sdtool_large_derivation *derivation, uint8_t *out,
                                               size_t out_size, uint64_t *out_offsets, size_t out_offset_count,
                                               struct sdtool_outcome *outcomes, size_t outcome_count);

/* How many numbers of 32 bits a token of so many SIDs takes. */
#define SDTOOL_TOKEN_WORDS(sids) (2 + 20 * (size_t)(sids))

/*
 * Reads a token into memory of the caller, for any number of checks by sdtool_check_with. SIDS and ENTRIES are those of
 * sdtool_check. TOKEN is TOKEN_WORDS numbers, of which SDTOOL_TOKEN_WORDS(SID_COUNT) suffice; LENGTH is how many
 * numbers it takes.
 *
 *     uint32_t token[SDTOOL_TOKEN_WORDS(SDTOOL_MOST_SIDS)];
 *
 * The numbers have no pointers, so they may be moved and copied. What they mean may change with each version of the
 * library: they stay in the process. While a thread is in sdtool_check_with or sdtool_reasons_with with this TOKEN,
 * nothing may write to it, and no other sdtool_token_read either: that may end the process.
 *
 * SDTOOL_ARGUMENT comes first if there are more than SDTOOL_MOST_SIDS, then SDTOOL_TOO_SMALL with the size that is
 * needed in LENGTH, then SDTOOL_ARGUMENT for an entry or a SID. After any of these TOKEN holds no token, not even an
 * earlier one. It allocates no memory.
 */
struct sdtool_outcome sdtool_token_read(const uint8_t *sids, size_t sids_size, const uint8_t *entries, size_t sid_count,
                                        uint32_t *token, size_t token_words);

/*
 * Gives the verdict of sdtool_check for a token that sdtool_token_read has read. TOKEN is only read, so threads may
 * share it without a lock. TOKEN_WORDS may be more than the token takes.
 *
 * SDTOOL_ARGUMENT for TOKEN comes first: if TOKEN is zeros, if its reading failed, or if TOKEN_WORDS cuts it. Numbers
 * that something else wrote before the call are safe too, but they may be taken for a token of other SIDs. Numbers that
 * change during the call are not safe: it may end the process. Else the faults are those of sdtool_check, in the same
 * order. It allocates no memory.
 */
struct sdtool_verdict sdtool_check_with(const uint8_t *descriptor, size_t descriptor_size, const uint32_t *token,
                                        size_t token_words, const uint8_t *object, size_t object_size,
                                        const uint8_t *principal_self, size_t principal_self_size,
                                        const struct sdtool_request *request);

/*
 * Why a right is granted or denied. No other numbers than these are told; a caller takes one that it does not know as a
 * denial.
 */
enum sdtool_reason_kind {
    /* Denied: nothing grants it. */
    SDTOOL_REASON_NOTHING = 0,
    /* Denied by the mandatory label, also if nothing else would grant it. Without a place it is the default label. */
    SDTOOL_REASON_LABEL = 1,
    /* Granted: the DACL is null or absent. */
    SDTOOL_REASON_NO_DACL = 2,
    /* Granted to the owner. */
    SDTOOL_REASON_OWNER = 3,
    /* Granted by SeSecurityPrivilege or SeTakeOwnershipPrivilege. */
    SDTOOL_REASON_PRIVILEGE = 4,
    /* Granted or denied by the first ACE of the DACL that applies and has the right. */
    SDTOOL_REASON_GRANTED = 5,
    SDTOOL_REASON_DENIED = 6
};

enum {
    /* How many rights a mask has, at the places 0 to 24. The other bits are generic rights, reserved, or the maximum.
     */
    SDTOOL_RIGHTS = 25,
    /* No ACE has this place, 0xFFFF. */
    SDTOOL_NO_PLACE = 65535
};

/* Why a right is granted or denied. Zeros are a denial. */
struct sdtool_reason {
    /* One of enum sdtool_reason_kind. */
    uint16_t kind;
    /* The place of the ACE, from 0 among all ACEs of the SACL for a label and else of the DACL, or SDTOOL_NO_PLACE. */
    uint16_t place;
};

/*
 * Says for each right at the places 0 to 24 why a check would grant or deny it. All else is as for sdtool_check.
 * REASONS has a reason for each place, and LENGTH is SDTOOL_RIGHTS. After any fault all 25 are SDTOOL_REASON_NOTHING,
 * without a place. It allocates less than 128 KiB.
 */
struct sdtool_outcome sdtool_reasons(const uint8_t *descriptor, size_t descriptor_size, const uint8_t *sids,
                                     size_t sids_size, const uint8_t *entries, size_t sid_count, const uint8_t *object,
                                     size_t object_size, const uint8_t *principal_self, size_t principal_self_size,
                                     const struct sdtool_asker *asker, struct sdtool_reason reasons[SDTOOL_RIGHTS]);

/* Says the same for a token that sdtool_token_read has read, as sdtool_check_with. It allocates no memory. */
struct sdtool_outcome sdtool_reasons_with(const uint8_t *descriptor, size_t descriptor_size, const uint32_t *token,
                                          size_t token_words, const uint8_t *object, size_t object_size,
                                          const uint8_t *principal_self, size_t principal_self_size,
                                          const struct sdtool_asker *asker,
                                          struct sdtool_reason reasons[SDTOOL_RIGHTS]);

/* An ACE to build. */
struct sdtool_new_ace {
    /* The SID of the trustee in binary. */
    struct sdtool_bytes sid;
    /* The 16 bytes of a GUID, as they stand in an ACE, or empty. Only types 5 to 7 may have one. */
    struct sdtool_bytes object_type;
    struct sdtool_bytes inherited_object_type;
    uint32_t mask;
    /* The type byte: one of those of struct sdtool_ace. */
    uint8_t kind;
    /* The flags, without 0x20. */
    uint8_t flags;
};

/* An ACL to build. */
struct sdtool_new_acl {
    const struct sdtool_new_ace *aces;
    size_t ace_count;
    /* One of enum sdtool_acl_state. Only a list may have ACEs. */
    uint32_t state;
};

/* A descriptor to build. */
struct sdtool_new_descriptor {
    /* SIDs in binary, or empty. */
    struct sdtool_bytes owner;
    struct sdtool_bytes group;
    struct sdtool_new_acl sacl;
    struct sdtool_new_acl dacl;
    /* The control word. The bits 0x8000, 0x10 and 0x4 are set as they have to be, whatever they are here. */
    uint16_t control;
    uint8_t resource_manager;
};

/*
 * Gives a descriptor with these parts, in its canonical layout. SDTOOL_ARGUMENT comes first: for OWNER, GROUP, SACL
 * and DACL in this order, with the index of an ACE that can't be in ENTRY. Then SDTOOL_FAULT_ACL_TOO_LARGE with
 * SDTOOL_SACL or SDTOOL_DACL, if an ACL would exceed 65,535 bytes. It allocates no memory.
 */
struct sdtool_outcome sdtool_build(const struct sdtool_new_descriptor *descriptor, uint8_t *output, size_t output_size);

/* What a change is. */
enum sdtool_change_kind {
    /* An ACE gets a place in an ACL. */
    SDTOOL_PUT = 1,
    /* The ACE at a place goes, or another one stands there. */
    SDTOOL_TAKE = 2,
    SDTOOL_REPLACE = 3,
    /* Each ACE that matches goes, or gets another SID and other bits. */
    SDTOOL_TAKE_EACH = 4,
    SDTOOL_SET_EACH = 5,
    /* The ACEs of an ACL that is a list come into order: those of one rank stay as they stood. */
    SDTOOL_ORDER = 6,
    /* An ACL becomes absent, null, or a list without ACEs. */
    SDTOOL_STATE = 7,
    /* The owner or the group becomes a SID, or none. */
    SDTOOL_SET_OWNER = 8,
    SDTOOL_SET_GROUP = 9,
    /* Bits of the control word are set and cleared: all but 0x8000, 0x10 and 0x4. */
    SDTOOL_CONTROL = 10
};

/* What a match compares. */
enum sdtool_compare {
    SDTOOL_COMPARE_KIND = 1,
    SDTOOL_COMPARE_MASK = 2
};

/* What a change says of an object type. */
enum sdtool_type_use {
    /* A new ACE has none, and a match doesn't compare it. */
    SDTOOL_TYPE_UNUSED = 0,
    /* A match compares it: an ACE must have none. */
    SDTOOL_TYPE_NONE = 1,
    /* It is the GUID beside. */
    SDTOOL_TYPE_GIVEN = 2
};

/* Places of SDTOOL_PUT that are no numbers: behind the last ACE, and behind the last ACE of no higher rank. */
#define SDTOOL_AT_END 0xFFFFFFFFu
#define SDTOOL_BY_ORDER 0xFFFFFFFEu

enum {
    /* No edit has more changes. */
    SDTOOL_MOST_CHANGES = 16384
};

/*
 * A change. Members that its kind doesn't use are 0, else it is none; so zeros are none. It has no pointer and no
 * padding: 208 bytes.
 */
struct sdtool_change {
    /* One of enum sdtool_change_kind. */
    uint32_t kind;
    /* The ACL that is changed: SDTOOL_SACL or SDTOOL_DACL. Kinds 8 to 10 don't use it. */
    uint32_t part;
    /* Of SDTOOL_PUT, SDTOOL_TAKE and SDTOOL_REPLACE the place of the ACE, from 0 on; SDTOOL_PUT may name the end. */
    uint32_t place;
    /*
     * Of SDTOOL_TAKE_EACH and SDTOOL_SET_EACH bits of enum sdtool_compare. An ACE matches if all that is compared
     * agrees: ACE_KIND and MASK if their bits are set, SID if it is not zeros, the object types by their uses, and
     * FLAGS under FLAGS_MASK. A match that compares nothing is none.
     */
    uint32_t compare;
    /* The access mask of a new ACE, or of a match. */
    uint32_t mask;
    /* Of SDTOOL_SET_EACH bits of the mask to set and to clear. No bit is both. */
    uint32_t set_mask;
    uint32_t clear_mask;
    /* Of SDTOOL_CONTROL bits to set and to clear. */
    uint16_t set_control;
    uint16_t clear_control;
    /* The type byte of a new ACE, or of a match. */
    uint8_t ace_kind;
    /* The flags of a new ACE, or those under FLAGS_MASK that a match wants, and no others. */
    uint8_t flags;
    uint8_t flags_mask;
    /* Of SDTOOL_SET_EACH flags to set and to clear. No flag of a change is 0x20. */
    uint8_t set_flags;
    uint8_t clear_flags;
    /* Of SDTOOL_STATE one of enum sdtool_acl_state. */
    uint8_t state;
    /* Of enum sdtool_type_use. With SDTOOL_TYPE_GIVEN the GUID is 16 bytes as in an ACE, else zeros. */
    uint8_t object_type_use;
    uint8_t inherited_object_type_use;
    uint8_t object_type[16];
    uint8_t inherited_object_type[16];
    /* The SID of a new ACE or of a match, or the owner or group, with zeros behind it; zeros are none. */
    uint8_t sid[SDTOOL_MOST_SID];
    /* Of SDTOOL_SET_EACH the SID that the ACEs get, or zeros. */
    uint8_t set_sid[SDTOOL_MOST_SID];
};

/*
 * Gives a descriptor after changes that are made one after the other, each on what those before left, in its canonical
 * layout. An edit by some changes and then by others is the edit by all. Nothing else happens: no ACE is merged or
 * dropped, control bits that no change names stay, and an ACL without its last ACE is an empty list.
 *
 * TOUCHED gets a number for each change, as far as TOUCHED_COUNT goes, which may be 0: how many ACEs it put, took or
 * set; 0 for other kinds. A match that finds nothing is no fault.
 *
 * SDTOOL_ARGUMENT with SDTOOL_ARGUMENT_CHANGES comes first: for more than SDTOOL_MOST_CHANGES with ENTRY 0, then with
 * the index of the first change that is none. Then come the faults of the descriptor, SDTOOL_NO_MEMORY, and the first
 * change that can't be made, with its ACL in PART, SDTOOL_ARGUMENT_CHANGES, and its index in ENTRY: SDTOOL_CHANGE if
 * the ACL is absent or null, has no such place, or is out of order where an ACE is put by order;
 * SDTOOL_FAULT_ACL_TOO_LARGE if the ACL would exceed 65,535 bytes. SDTOOL_TOO_SMALL comes last. After a fault of a
 * change TOUCHED has the numbers of those before. It allocates less than 4 MiB at a time, and takes time in proportion
 * to the number of changes times the bytes.
 */
struct sdtool_outcome sdtool_edit(const uint8_t *descriptor, size_t descriptor_size,
                                  const struct sdtool_change *changes, size_t change_count, uint32_t *touched,
                                  size_t touched_count, uint8_t *output, size_t output_size);

/* Where the order of ACLs ends. */
struct sdtool_acl_order {
    /* SDTOOL_OK, or why the bytes are no descriptor. Then the places are 0. */
    struct sdtool_outcome outcome;
    /* The place of the first ACE whose rank is below that of the one before, or SDTOOL_NO_ACE. */
    uint32_t sacl;
    uint32_t dacl;
};

/*
 * Says whether the ACLs of a descriptor are in order. In a DACL own denies, of type 1 or 6 and without the flag 0x10,
 * have rank 0, other own ACEs 1, and inherited ones 2, in whatever order. In a SACL own ACEs have 0. It allocates no
 * memory.
 */
struct sdtool_acl_order sdtool_order(const uint8_t *descriptor, size_t descriptor_size);

/* How sdtool_run ends: the exit status of the program. */
enum sdtool_status {
    /* Each line was answered, and no answer is an error line. After words that ask for help, help is the output. */
    SDTOOL_STATUS_ANSWERED = 0,
    /* Each line was answered, and at least one answer is an error line. */
    SDTOOL_STATUS_ERRORS = 1,
    /* The words are wrong: nothing was read. */
    SDTOOL_STATUS_USAGE = 2,
    /* The output is too small. It has the answers to the first lines. */
    SDTOOL_STATUS_STOPPED = 3,
    /* malloc failed: nothing was read. */
    SDTOOL_STATUS_NO_MEMORY = 4
};

/* What a run answers. */
struct sdtool_ending {
    /* One of enum sdtool_status. */
    uint32_t status;
    /* The length of the output. */
    size_t length;
    /* The length of the message, 0 with status 0 and 1. */
    size_t message_length;
};

/*
 * Runs the program on INPUT: one descriptor a line, one answer a line. WORDS are those of the command line, without
 * the program's name and each with a NUL behind it, such as "convert\0--to\0sddl\0" of WORDS_SIZE 18. OUTPUT gets what
 * the program prints to standard output, and MESSAGE what it prints to standard error, as "sdtool: usage\n".
 *
 * If the output is too small, the status is 3, the message is "sdtool: error 61 write\n", and the output has the whole
 * answers that fit, those to the first lines. An answer has at most SDTOOL_TEXT_SIZE(bytes) bytes with its LF, where
 * the descriptor that it prints has BYTES, so SDTOOL_MOST_TEXT bytes a line always suffice. For lines of hex, 4 *
 * INPUT_SIZE bytes and 64 a line suffice, but not always for those that derive. Help that does not fit is cut, with
 * status 0, as on a full disk: if LENGTH is OUTPUT_SIZE, try a larger output. A message that does not fit is cut and
 * changes nothing else.
 *
 * Words that are not UTF-8, or of which the last lacks its NUL, are status 2 with the message "sdtool: usage\n". The
 * run allocates less than 2 MiB, and nothing after it has begun to read.
 */
struct sdtool_ending sdtool_run(const uint8_t *words, size_t words_size, const uint8_t *input, size_t input_size,
                                uint8_t *output, size_t output_size, uint8_t *message, size_t message_size);

/*
 * Gives the name of a fault, such as sid-form for SDTOOL_FAULT_SID_FORM or no-memory for SDTOOL_NO_MEMORY. It is
 * SDTOOL_ARGUMENT if no fault has the number, as for SDTOOL_OK. SDTOOL_MOST_FAULT_TEXT bytes always suffice.
 */
struct sdtool_outcome sdtool_fault_text(uint32_t fault, uint8_t *text, size_t text_size);

/*
 * The size of each struct on a 64-bit machine, and the offsets of its members:
 *
 *     sdtool_outcome              32: 0 4 8 12 16 24
 *     sdtool_asker                12: 0 4 8
 *     sdtool_request              20: 0 12 16
 *     sdtool_verdict              40: 0 32 36
 *     sdtool_origin                4: 0 2 3
 *     sdtool_origins              48: 0 32 40
 *     sdtool_place                16: 0 8
 *     sdtool_acl_place            24: 0 4 8
 *     sdtool_contents            120: 0 32 34 40 56 72 96
 *     sdtool_fault_place          32: 0 4 8 12 16
 *     sdtool_ace                  80: 0 4 8 12 13 16 32 48 64
 *     sdtool_number               40: 0 32
 *     sdtool_bytes                16: 0 8
 *     sdtool_column               32: 0 16 24
 *     sdtool_large_column         32: 0 16 24
 *     sdtool_column_check        120: 0 32 48 64 80 96
 *     sdtool_large_column_check  120: 0 32 48 64 80 96
 *     sdtool_conversion           64: 0 16 24 32 48 56 60
 *     sdtool_large_conversion     64: 0 16 24 32 48 56 60
 *     sdtool_creation             56: 0 16 32 48 52
 *     sdtool_derivation           96: 0 32 88
 *     sdtool_large_derivation     96: 0 32 88
 *     sdtool_reason                4: 0 2
 *     sdtool_new_ace              56: 0 16 32 48 52 53
 *     sdtool_new_acl              24: 0 8 16
 *     sdtool_new_descriptor       88: 0 16 32 56 80 82
 *     sdtool_change              208: 0 4 8 12 16 20 24 28 30 32 33 34 35 36 37 38 39 40 56 72 140
 *     sdtool_acl_order            40: 0 32 36
 *     sdtool_ending               24: 0 8 16
 */

#ifdef __cplusplus
}
#endif

#endif
