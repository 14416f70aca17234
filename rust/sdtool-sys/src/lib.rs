//! The calls of `libsdtool` as C has them, which `sdtool.h` describes.
//!
//! `make figures` writes this file from include/sdtool.h.
#![no_std]
#![allow(non_camel_case_types)]

pub const SDTOOL_OK: u32 = 0;
pub const SDTOOL_FAULT_TOO_LONG: u32 = 1;
pub const SDTOOL_FAULT_HEX_DIGIT: u32 = 2;
pub const SDTOOL_FAULT_HEX_ODD: u32 = 3;
pub const SDTOOL_FAULT_BASE64: u32 = 4;
pub const SDTOOL_FAULT_SHORT: u32 = 5;
pub const SDTOOL_FAULT_REVISION: u32 = 6;
pub const SDTOOL_FAULT_NOT_SELF_RELATIVE: u32 = 7;
pub const SDTOOL_FAULT_OFFSET: u32 = 8;
pub const SDTOOL_FAULT_SID: u32 = 9;
pub const SDTOOL_FAULT_ACL: u32 = 10;
pub const SDTOOL_FAULT_ACE_SIZE: u32 = 11;
pub const SDTOOL_FAULT_ACE_TYPE: u32 = 12;
pub const SDTOOL_FAULT_ACE_FLAGS: u32 = 13;
pub const SDTOOL_FAULT_OVERLAP: u32 = 14;
pub const SDTOOL_FAULT_SHAPE: u32 = 20;
pub const SDTOOL_FAULT_PART_TWICE: u32 = 21;
pub const SDTOOL_FAULT_ALIAS: u32 = 22;
pub const SDTOOL_FAULT_NEEDS_DOMAIN: u32 = 23;
pub const SDTOOL_FAULT_NUMBER: u32 = 24;
pub const SDTOOL_FAULT_SID_FORM: u32 = 25;
pub const SDTOOL_FAULT_FLAGS: u32 = 26;
pub const SDTOOL_FAULT_RIGHTS: u32 = 27;
pub const SDTOOL_FAULT_GUID: u32 = 28;
pub const SDTOOL_FAULT_KIND: u32 = 29;
pub const SDTOOL_FAULT_ACL_TOO_LARGE: u32 = 30;
pub const SDTOOL_FAULT_DERIVED_TOO_LARGE: u32 = 40;
pub const SDTOOL_FAULT_EMPTY_REQUEST: u32 = 50;
pub const SDTOOL_FAULT_RESERVED_BITS: u32 = 51;
pub const SDTOOL_FAULT_READ: u32 = 60;
pub const SDTOOL_FAULT_WRITE: u32 = 61;
pub const SDTOOL_FAULT_TOO_MANY_READS: u32 = 62;
pub const SDTOOL_ARGUMENT: u32 = 70;
pub const SDTOOL_TOO_SMALL: u32 = 71;
pub const SDTOOL_NO_MEMORY: u32 = 72;
pub const SDTOOL_CHANGE: u32 = 73;
pub const SDTOOL_NO_ARGUMENT: u32 = 0;
pub const SDTOOL_ARGUMENT_DOMAIN: u32 = 1;
pub const SDTOOL_ARGUMENT_SIDS: u32 = 2;
pub const SDTOOL_ARGUMENT_ENTRIES: u32 = 3;
pub const SDTOOL_ARGUMENT_OBJECT: u32 = 4;
pub const SDTOOL_ARGUMENT_PRINCIPAL_SELF: u32 = 5;
pub const SDTOOL_ARGUMENT_MAPPING: u32 = 6;
pub const SDTOOL_ARGUMENT_CREATOR: u32 = 7;
pub const SDTOOL_ARGUMENT_OWNER: u32 = 8;
pub const SDTOOL_ARGUMENT_GROUP: u32 = 9;
pub const SDTOOL_ARGUMENT_KIND: u32 = 10;
pub const SDTOOL_ARGUMENT_FAULT: u32 = 11;
pub const SDTOOL_ARGUMENT_SID: u32 = 12;
pub const SDTOOL_ARGUMENT_SACL: u32 = 13;
pub const SDTOOL_ARGUMENT_DACL: u32 = 14;
pub const SDTOOL_ARGUMENT_TOKEN: u32 = 15;
pub const SDTOOL_ARGUMENT_CHANGES: u32 = 16;
pub const SDTOOL_ARGUMENT_OPTIONS: u32 = 17;
pub const SDTOOL_ARGUMENT_ACE: u32 = 18;
pub const SDTOOL_ARGUMENT_FLAGS: u32 = 19;
pub const SDTOOL_ARGUMENT_GUID: u32 = 20;
pub const SDTOOL_ARGUMENT_OFFSETS: u32 = 21;
pub const SDTOOL_ARGUMENT_CONVERSION: u32 = 22;
pub const SDTOOL_NO_PART: u32 = 0;
pub const SDTOOL_OWNER: u32 = 1;
pub const SDTOOL_GROUP: u32 = 2;
pub const SDTOOL_SACL: u32 = 3;
pub const SDTOOL_DACL: u32 = 4;
pub const SDTOOL_MAPPING_FILE: u32 = 0;
pub const SDTOOL_MAPPING_KEY: u32 = 1;
pub const SDTOOL_MAPPING_DS: u32 = 2;
pub const SDTOOL_KIND_FILE: u32 = 0;
pub const SDTOOL_KIND_CONTAINER: u32 = 1;
pub const SDTOOL_ENABLED: u32 = 0;
pub const SDTOOL_DENY_ONLY: u32 = 1;
pub const SDTOOL_MOST_BYTES: u32 = 131226;
pub const SDTOOL_MOST_TEXT: u32 = 1049872;
pub const SDTOOL_MOST_SIDS: u32 = 1024;
pub const SDTOOL_MOST_SID: u32 = 68;
pub const SDTOOL_MOST_SID_TEXT: u32 = 183;
pub const SDTOOL_MOST_ACE: u32 = 112;
pub const SDTOOL_MOST_ACE_TEXT: u32 = 312;
pub const SDTOOL_MOST_FAULT_TEXT: u32 = 32;
pub const SDTOOL_MOST_DESCRIPTION: u32 = 512;
pub const SDTOOL_MOST_MESSAGE: u32 = 64;
pub const SDTOOL_HAS_LEVEL: u32 = 1;
pub const SDTOOL_SECURITY: u32 = 2;
pub const SDTOOL_TAKE_OWNERSHIP: u32 = 4;
pub const SDTOOL_MAXIMUM: u32 = 1;
pub const SDTOOL_MOST_DERIVED_ACES: u32 = 4095;
pub const SDTOOL_ACL_ABSENT: u32 = 0;
pub const SDTOOL_ACL_NULL: u32 = 1;
pub const SDTOOL_ACL_LIST: u32 = 2;
pub const SDTOOL_NO_FIELD: u32 = 0;
pub const SDTOOL_FIELD_KIND: u32 = 1;
pub const SDTOOL_FIELD_FLAGS: u32 = 2;
pub const SDTOOL_FIELD_RIGHTS: u32 = 3;
pub const SDTOOL_FIELD_OBJECT_TYPE: u32 = 4;
pub const SDTOOL_FIELD_INHERITED_OBJECT_TYPE: u32 = 5;
pub const SDTOOL_FIELD_SID: u32 = 6;
pub const SDTOOL_FIELD_SIZE: u32 = 7;
pub const SDTOOL_CONVERT_TO_SDDL: u32 = 0;
pub const SDTOOL_CONVERT_FROM_SDDL: u32 = 1;
pub const SDTOOL_CONVERT_NORMALIZE: u32 = 2;
pub const SDTOOL_NUMERIC: u32 = 1;
pub const SDTOOL_REASON_NOTHING: u32 = 0;
pub const SDTOOL_REASON_LABEL: u32 = 1;
pub const SDTOOL_REASON_NO_DACL: u32 = 2;
pub const SDTOOL_REASON_OWNER: u32 = 3;
pub const SDTOOL_REASON_PRIVILEGE: u32 = 4;
pub const SDTOOL_REASON_GRANTED: u32 = 5;
pub const SDTOOL_REASON_DENIED: u32 = 6;
pub const SDTOOL_RIGHTS: u32 = 25;
pub const SDTOOL_NO_PLACE: u32 = 65535;
pub const SDTOOL_PUT: u32 = 1;
pub const SDTOOL_TAKE: u32 = 2;
pub const SDTOOL_REPLACE: u32 = 3;
pub const SDTOOL_TAKE_EACH: u32 = 4;
pub const SDTOOL_SET_EACH: u32 = 5;
pub const SDTOOL_ORDER: u32 = 6;
pub const SDTOOL_STATE: u32 = 7;
pub const SDTOOL_SET_OWNER: u32 = 8;
pub const SDTOOL_SET_GROUP: u32 = 9;
pub const SDTOOL_CONTROL: u32 = 10;
pub const SDTOOL_COMPARE_KIND: u32 = 1;
pub const SDTOOL_COMPARE_MASK: u32 = 2;
pub const SDTOOL_TYPE_UNUSED: u32 = 0;
pub const SDTOOL_TYPE_NONE: u32 = 1;
pub const SDTOOL_TYPE_GIVEN: u32 = 2;
pub const SDTOOL_MOST_CHANGES: u32 = 16384;
pub const SDTOOL_STATUS_ANSWERED: u32 = 0;
pub const SDTOOL_STATUS_ERRORS: u32 = 1;
pub const SDTOOL_STATUS_USAGE: u32 = 2;
pub const SDTOOL_STATUS_STOPPED: u32 = 3;
pub const SDTOOL_STATUS_NO_MEMORY: u32 = 4;
pub const SDTOOL_AT_END: u32 = 4294967295;
pub const SDTOOL_BY_ORDER: u32 = 4294967294;
pub const SDTOOL_NO_ACE: u32 = 4294967295;
pub const SDTOOL_VERSION: u32 = 100;
pub const SDTOOL_TEXT_SIZE_FIRST: u32 = 64;
pub const SDTOOL_TEXT_SIZE_EACH: u32 = 8;
pub const SDTOOL_TOKEN_WORDS_FIRST: u32 = 2;
pub const SDTOOL_TOKEN_WORDS_EACH: u32 = 20;

#[repr(C)]
#[derive(Clone, Copy, Debug)]
pub struct sdtool_outcome {
    pub fault: u32,
    pub part: u32,
    pub other_part: u32,
    pub argument: u32,
    pub entry: usize,
    pub length: usize,
}

#[repr(C)]
#[derive(Clone, Copy, Debug)]
pub struct sdtool_asker {
    pub mapping: u32,
    pub level: u32,
    pub options: u32,
}

#[repr(C)]
#[derive(Clone, Copy, Debug)]
pub struct sdtool_request {
    pub asker: sdtool_asker,
    pub wanted: u32,
    pub options: u32,
}

#[repr(C)]
#[derive(Clone, Copy, Debug)]
pub struct sdtool_verdict {
    pub outcome: sdtool_outcome,
    pub mask: u32,
    pub granted: u8,
}

#[repr(C)]
#[derive(Clone, Copy, Debug)]
pub struct sdtool_origin {
    pub place: u16,
    pub from_creator: u8,
    pub inherit_only: u8,
}

#[repr(C)]
#[derive(Clone, Copy, Debug)]
pub struct sdtool_origins {
    pub outcome: sdtool_outcome,
    pub sacl_count: usize,
    pub dacl_count: usize,
}

#[repr(C)]
#[derive(Clone, Copy, Debug)]
pub struct sdtool_place {
    pub offset: usize,
    pub size: usize,
}

#[repr(C)]
#[derive(Clone, Copy, Debug)]
pub struct sdtool_acl_place {
    pub state: u32,
    pub ace_count: u32,
    pub place: sdtool_place,
}

#[repr(C)]
#[derive(Clone, Copy, Debug)]
pub struct sdtool_contents {
    pub outcome: sdtool_outcome,
    pub control: u16,
    pub resource_manager: u8,
    pub owner: sdtool_place,
    pub group: sdtool_place,
    pub sacl: sdtool_acl_place,
    pub dacl: sdtool_acl_place,
}

#[repr(C)]
#[derive(Clone, Copy, Debug)]
pub struct sdtool_fault_place {
    pub fault: u32,
    pub part: u32,
    pub ace: u32,
    pub field: u32,
    pub place: sdtool_place,
}

#[repr(C)]
#[derive(Clone, Copy, Debug)]
pub struct sdtool_ace {
    pub fault: u32,
    pub mask: u32,
    pub number: u32,
    pub kind: u8,
    pub flags: u8,
    pub place: sdtool_place,
    pub object_type: sdtool_place,
    pub inherited_object_type: sdtool_place,
    pub sid: sdtool_place,
}

#[repr(C)]
#[derive(Clone, Copy, Debug)]
pub struct sdtool_number {
    pub outcome: sdtool_outcome,
    pub number: u32,
}

#[repr(C)]
#[derive(Clone, Copy, Debug)]
pub struct sdtool_bytes {
    pub bytes: *const u8,
    pub size: usize,
}

#[repr(C)]
#[derive(Clone, Copy, Debug)]
pub struct sdtool_column {
    pub data: sdtool_bytes,
    pub offsets: *const u32,
    pub offset_count: usize,
}

#[repr(C)]
#[derive(Clone, Copy, Debug)]
pub struct sdtool_large_column {
    pub data: sdtool_bytes,
    pub offsets: *const u64,
    pub offset_count: usize,
}

#[repr(C)]
#[derive(Clone, Copy, Debug)]
pub struct sdtool_column_check {
    pub descriptors: sdtool_column,
    pub sids: sdtool_bytes,
    pub entries: sdtool_bytes,
    pub object: sdtool_bytes,
    pub principal_self: sdtool_bytes,
    pub request: sdtool_request,
}

#[repr(C)]
#[derive(Clone, Copy, Debug)]
pub struct sdtool_large_column_check {
    pub descriptors: sdtool_large_column,
    pub sids: sdtool_bytes,
    pub entries: sdtool_bytes,
    pub object: sdtool_bytes,
    pub principal_self: sdtool_bytes,
    pub request: sdtool_request,
}

#[repr(C)]
#[derive(Clone, Copy, Debug)]
pub struct sdtool_conversion {
    pub data: sdtool_bytes,
    pub offsets: *const u32,
    pub offset_count: usize,
    pub domain: sdtool_bytes,
    pub begin: usize,
    pub kind: u32,
    pub options: u32,
}

#[repr(C)]
#[derive(Clone, Copy, Debug)]
pub struct sdtool_large_conversion {
    pub data: sdtool_bytes,
    pub offsets: *const u64,
    pub offset_count: usize,
    pub domain: sdtool_bytes,
    pub begin: usize,
    pub kind: u32,
    pub options: u32,
}

#[repr(C)]
#[derive(Clone, Copy, Debug)]
pub struct sdtool_creation {
    pub creator: sdtool_bytes,
    pub owner: sdtool_bytes,
    pub group: sdtool_bytes,
    pub kind: u32,
    pub mapping: u32,
}

#[repr(C)]
#[derive(Clone, Copy, Debug)]
pub struct sdtool_derivation {
    pub parents: sdtool_column,
    pub creation: sdtool_creation,
    pub begin: usize,
}

#[repr(C)]
#[derive(Clone, Copy, Debug)]
pub struct sdtool_large_derivation {
    pub parents: sdtool_large_column,
    pub creation: sdtool_creation,
    pub begin: usize,
}

#[repr(C)]
#[derive(Clone, Copy, Debug)]
pub struct sdtool_reason {
    pub kind: u16,
    pub place: u16,
}

#[repr(C)]
#[derive(Clone, Copy, Debug)]
pub struct sdtool_new_ace {
    pub sid: sdtool_bytes,
    pub object_type: sdtool_bytes,
    pub inherited_object_type: sdtool_bytes,
    pub mask: u32,
    pub kind: u8,
    pub flags: u8,
}

#[repr(C)]
#[derive(Clone, Copy, Debug)]
pub struct sdtool_new_acl {
    pub aces: *const sdtool_new_ace,
    pub ace_count: usize,
    pub state: u32,
}

#[repr(C)]
#[derive(Clone, Copy, Debug)]
pub struct sdtool_new_descriptor {
    pub owner: sdtool_bytes,
    pub group: sdtool_bytes,
    pub sacl: sdtool_new_acl,
    pub dacl: sdtool_new_acl,
    pub control: u16,
    pub resource_manager: u8,
}

#[repr(C)]
#[derive(Clone, Copy, Debug)]
pub struct sdtool_change {
    pub kind: u32,
    pub part: u32,
    pub place: u32,
    pub compare: u32,
    pub mask: u32,
    pub set_mask: u32,
    pub clear_mask: u32,
    pub set_control: u16,
    pub clear_control: u16,
    pub ace_kind: u8,
    pub flags: u8,
    pub flags_mask: u8,
    pub set_flags: u8,
    pub clear_flags: u8,
    pub state: u8,
    pub object_type_use: u8,
    pub inherited_object_type_use: u8,
    pub object_type: [u8; 16],
    pub inherited_object_type: [u8; 16],
    pub sid: [u8; 68],
    pub set_sid: [u8; 68],
}

#[repr(C)]
#[derive(Clone, Copy, Debug)]
pub struct sdtool_acl_order {
    pub outcome: sdtool_outcome,
    pub sacl: u32,
    pub dacl: u32,
}

#[repr(C)]
#[derive(Clone, Copy, Debug)]
pub struct sdtool_ending {
    pub status: u32,
    pub length: usize,
    pub message_length: usize,
}

extern "C" {
    pub fn sdtool_version(text: *mut u8, text_size: usize) -> sdtool_outcome;
    pub fn sdtool_version_number() -> u32;
    pub fn sdtool_to_sddl(
        descriptor: *const u8,
        descriptor_size: usize,
        domain: *const u8,
        domain_size: usize,
        numeric: bool,
        text: *mut u8,
        text_size: usize,
    ) -> sdtool_outcome;
    pub fn sdtool_explain(
        descriptor: *const u8,
        descriptor_size: usize,
        domain: *const u8,
        domain_size: usize,
        numeric: bool,
        text: *mut u8,
        text_size: usize,
    ) -> sdtool_outcome;
    pub fn sdtool_normalize(
        descriptor: *const u8,
        descriptor_size: usize,
        output: *mut u8,
        output_size: usize,
    ) -> sdtool_outcome;
    pub fn sdtool_from_sddl(
        text: *const u8,
        text_size: usize,
        domain: *const u8,
        domain_size: usize,
        output: *mut u8,
        output_size: usize,
    ) -> sdtool_outcome;
    pub fn sdtool_check(
        descriptor: *const u8,
        descriptor_size: usize,
        sids: *const u8,
        sids_size: usize,
        entries: *const u8,
        sid_count: usize,
        object: *const u8,
        object_size: usize,
        principal_self: *const u8,
        principal_self_size: usize,
        request: *const sdtool_request,
    ) -> sdtool_verdict;
    pub fn sdtool_derive(
        parent: *const u8,
        parent_size: usize,
        creator: *const u8,
        creator_size: usize,
        owner: *const u8,
        owner_size: usize,
        group: *const u8,
        group_size: usize,
        kind: u32,
        mapping: u32,
        output: *mut u8,
        output_size: usize,
    ) -> sdtool_outcome;
    pub fn sdtool_derive_origins(
        parent: *const u8,
        parent_size: usize,
        creator: *const u8,
        creator_size: usize,
        owner: *const u8,
        owner_size: usize,
        group: *const u8,
        group_size: usize,
        kind: u32,
        mapping: u32,
        sacl: *mut sdtool_origin,
        sacl_room: usize,
        dacl: *mut sdtool_origin,
        dacl_room: usize,
    ) -> sdtool_origins;
    pub fn sdtool_sid_from_text(
        text: *const u8,
        text_size: usize,
        domain: *const u8,
        domain_size: usize,
        sid: *mut u8,
        sid_size: usize,
    ) -> sdtool_outcome;
    pub fn sdtool_sid_to_text(
        sid: *const u8,
        sid_size: usize,
        domain: *const u8,
        domain_size: usize,
        numeric: bool,
        text: *mut u8,
        text_size: usize,
    ) -> sdtool_outcome;
    pub fn sdtool_sid_size(bytes: *const u8, bytes_size: usize) -> usize;
    pub fn sdtool_parts(descriptor: *const u8, descriptor_size: usize) -> sdtool_contents;
    pub fn sdtool_place(descriptor: *const u8, descriptor_size: usize) -> sdtool_fault_place;
    pub fn sdtool_sddl_place(
        text: *const u8,
        text_size: usize,
        domain: *const u8,
        domain_size: usize,
    ) -> sdtool_fault_place;
    pub fn sdtool_describe(
        outcome: *const sdtool_outcome,
        place: *const sdtool_fault_place,
        text: *mut u8,
        text_size: usize,
    ) -> sdtool_outcome;
    pub fn sdtool_next_ace(acl: *const u8, acl_size: usize, ace: *mut sdtool_ace) -> bool;
    pub fn sdtool_ace_read(bytes: *const u8, bytes_size: usize) -> sdtool_ace;
    pub fn sdtool_ace_from_text(
        text: *const u8,
        text_size: usize,
        domain: *const u8,
        domain_size: usize,
        ace: *mut u8,
        ace_size: usize,
    ) -> sdtool_outcome;
    pub fn sdtool_ace_to_text(
        ace: *const u8,
        ace_size: usize,
        domain: *const u8,
        domain_size: usize,
        numeric: bool,
        text: *mut u8,
        text_size: usize,
    ) -> sdtool_outcome;
    pub fn sdtool_rights_from_text(text: *const u8, text_size: usize) -> sdtool_number;
    pub fn sdtool_rights_to_text(mask: u32, label: bool, text: *mut u8, text_size: usize) -> sdtool_outcome;
    pub fn sdtool_flags_from_text(text: *const u8, text_size: usize) -> sdtool_number;
    pub fn sdtool_flags_to_text(flags: u32, text: *mut u8, text_size: usize) -> sdtool_outcome;
    pub fn sdtool_guid_from_text(text: *const u8, text_size: usize, guid: *mut u8, guid_size: usize) -> sdtool_outcome;
    pub fn sdtool_guid_to_text(guid: *const u8, guid_size: usize, text: *mut u8, text_size: usize) -> sdtool_outcome;
    pub fn sdtool_check_many(
        descriptors: *const sdtool_bytes,
        descriptor_count: usize,
        sids: *const u8,
        sids_size: usize,
        entries: *const u8,
        sid_count: usize,
        object: *const u8,
        object_size: usize,
        principal_self: *const u8,
        principal_self_size: usize,
        request: *const sdtool_request,
        verdicts: *mut sdtool_verdict,
        verdict_count: usize,
    ) -> sdtool_outcome;
    pub fn sdtool_check_column(
        check: *const sdtool_column_check,
        verdicts: *mut sdtool_verdict,
        verdict_count: usize,
    ) -> sdtool_outcome;
    pub fn sdtool_check_column_large(
        check: *const sdtool_large_column_check,
        verdicts: *mut sdtool_verdict,
        verdict_count: usize,
    ) -> sdtool_outcome;
    pub fn sdtool_convert_many(
        conversion: *const sdtool_conversion,
        out: *mut u8,
        out_size: usize,
        out_offsets: *mut u32,
        out_offset_count: usize,
        outcomes: *mut sdtool_outcome,
        outcome_count: usize,
    ) -> sdtool_outcome;
    pub fn sdtool_convert_many_large(
        conversion: *const sdtool_large_conversion,
        out: *mut u8,
        out_size: usize,
        out_offsets: *mut u64,
        out_offset_count: usize,
        outcomes: *mut sdtool_outcome,
        outcome_count: usize,
    ) -> sdtool_outcome;
    pub fn sdtool_derive_many(
        derivation: *const sdtool_derivation,
        out: *mut u8,
        out_size: usize,
        out_offsets: *mut u32,
        out_offset_count: usize,
        outcomes: *mut sdtool_outcome,
        outcome_count: usize,
    ) -> sdtool_outcome;
    pub fn sdtool_derive_many_large(
        derivation: *const sdtool_large_derivation,
        out: *mut u8,
        out_size: usize,
        out_offsets: *mut u64,
        out_offset_count: usize,
        outcomes: *mut sdtool_outcome,
        outcome_count: usize,
    ) -> sdtool_outcome;
    pub fn sdtool_token_read(
        sids: *const u8,
        sids_size: usize,
        entries: *const u8,
        sid_count: usize,
        token: *mut u32,
        token_words: usize,
    ) -> sdtool_outcome;
    pub fn sdtool_check_with(
        descriptor: *const u8,
        descriptor_size: usize,
        token: *const u32,
        token_words: usize,
        object: *const u8,
        object_size: usize,
        principal_self: *const u8,
        principal_self_size: usize,
        request: *const sdtool_request,
    ) -> sdtool_verdict;
    pub fn sdtool_reasons(
        descriptor: *const u8,
        descriptor_size: usize,
        sids: *const u8,
        sids_size: usize,
        entries: *const u8,
        sid_count: usize,
        object: *const u8,
        object_size: usize,
        principal_self: *const u8,
        principal_self_size: usize,
        asker: *const sdtool_asker,
        reasons: *mut sdtool_reason,
    ) -> sdtool_outcome;
    pub fn sdtool_reasons_with(
        descriptor: *const u8,
        descriptor_size: usize,
        token: *const u32,
        token_words: usize,
        object: *const u8,
        object_size: usize,
        principal_self: *const u8,
        principal_self_size: usize,
        asker: *const sdtool_asker,
        reasons: *mut sdtool_reason,
    ) -> sdtool_outcome;
    pub fn sdtool_build(
        descriptor: *const sdtool_new_descriptor,
        output: *mut u8,
        output_size: usize,
    ) -> sdtool_outcome;
    pub fn sdtool_edit(
        descriptor: *const u8,
        descriptor_size: usize,
        changes: *const sdtool_change,
        change_count: usize,
        touched: *mut u32,
        touched_count: usize,
        output: *mut u8,
        output_size: usize,
    ) -> sdtool_outcome;
    pub fn sdtool_order(descriptor: *const u8, descriptor_size: usize) -> sdtool_acl_order;
    pub fn sdtool_run(
        words: *const u8,
        words_size: usize,
        input: *const u8,
        input_size: usize,
        output: *mut u8,
        output_size: usize,
        message: *mut u8,
        message_size: usize,
    ) -> sdtool_ending;
    pub fn sdtool_fault_text(fault: u32, text: *mut u8, text_size: usize) -> sdtool_outcome;
}
