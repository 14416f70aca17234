//! What the benchmark measures `sdtool` against: the same answers, by a plain program that stands on std alone.
//! It takes the same words, but in a check no object type, PRINCIPAL SELF or privileges, reads the standard input and
//! writes the standard output.
use std::collections::HashMap;
use std::env;
use std::fmt;
use std::io::{self, BufRead, BufWriter, Write};
use std::ops::Range;
use std::process::ExitCode;

const HEX_LINE_LIMIT: usize = 262_452;
const BASE64_LINE_LIMIT: usize = 174_968;
const SDDL_LINE_LIMIT: usize = 1_049_872;
const TEXT_LIMIT: usize = 183;

const HEADER_SIZE: usize = 20;
const CONTROL_AT: usize = 2;
const OFFSETS_AT: usize = 4;
const SID_HEADER_SIZE: usize = 8;
const ACL_HEADER_SIZE: usize = 8;
const ACE_HEADER_SIZE: usize = 8;
const MIN_ACE_SIZE: usize = ACE_HEADER_SIZE + SID_HEADER_SIZE;
const GUID_SIZE: usize = 16;
const MAX_SUB_AUTHORITIES: usize = 15;
const MAX_ACL_SIZE: usize = 0xffff;

const SELF_RELATIVE: u16 = 0x8000;
const DACL_PRESENT: u16 = 0x0004;
const SACL_PRESENT: u16 = 0x0010;
const DACL_AUTO_INHERITED: u16 = 0x0400;
const SACL_AUTO_INHERITED: u16 = 0x0800;
const DACL_PROTECTED: u16 = 0x1000;
const SACL_PROTECTED: u16 = 0x2000;
const UNKNOWN_FLAG: u8 = 0x20;
const OBJECT_TYPE_PRESENT: u32 = 0x1;
const INHERITED_OBJECT_TYPE_PRESENT: u32 = 0x2;
const GUIDS_PRESENT: u32 = OBJECT_TYPE_PRESENT | INHERITED_OBJECT_TYPE_PRESENT;

#[derive(Clone, Copy)]
enum Part {
    Owner,
    Group,
    Sacl,
    Dacl,
}

/// In the order of their offsets in the header, in which they are also read and written.
const PARTS: [Part; 4] = [Part::Owner, Part::Group, Part::Sacl, Part::Dacl];

impl Part {
    fn stands(self, offset: usize, control: u16) -> bool {
        offset != 0
            && match self {
                Part::Owner | Part::Group => true,
                Part::Sacl => control & SACL_PRESENT != 0,
                Part::Dacl => control & DACL_PRESENT != 0,
            }
    }
}

impl fmt::Display for Part {
    fn fmt(&self, f: &mut fmt::Formatter) -> fmt::Result {
        f.write_str(match self {
            Part::Owner => "owner",
            Part::Group => "group",
            Part::Sacl => "sacl",
            Part::Dacl => "dacl",
        })
    }
}

enum Fault {
    TooLong,
    HexDigit,
    HexOdd,
    Base64,
    Short,
    Revision,
    NotSelfRelative,
    Offset(Part),
    Sid(Part),
    Acl(Part),
    AceSize(Part),
    AceType(Part),
    AceFlags(Part),
    Overlap(Part, Part),
    Shape,
    PartTwice,
    Alias,
    NeedsDomain,
    Number,
    SidForm,
    Flags,
    Rights,
    Guid,
    Kind,
    AclTooLarge(Part),
    DerivedTooLarge(Part),
}

impl fmt::Display for Fault {
    fn fmt(&self, f: &mut fmt::Formatter) -> fmt::Result {
        match self {
            Fault::TooLong => f.write_str("error 1 too-long"),
            Fault::HexDigit => f.write_str("error 2 hex-digit"),
            Fault::HexOdd => f.write_str("error 3 hex-odd"),
            Fault::Base64 => f.write_str("error 4 base64"),
            Fault::Short => f.write_str("error 5 short"),
            Fault::Revision => f.write_str("error 6 revision"),
            Fault::NotSelfRelative => f.write_str("error 7 not-self-relative"),
            Fault::Offset(part) => write!(f, "error 8 offset {part}"),
            Fault::Sid(part) => write!(f, "error 9 sid {part}"),
            Fault::Acl(part) => write!(f, "error 10 acl {part}"),
            Fault::AceSize(part) => write!(f, "error 11 ace-size {part}"),
            Fault::AceType(part) => write!(f, "error 12 ace-type {part}"),
            Fault::AceFlags(part) => write!(f, "error 13 ace-flags {part}"),
            Fault::Overlap(one, other) => write!(f, "error 14 overlap {one} {other}"),
            Fault::Shape => f.write_str("error 20 shape"),
            Fault::PartTwice => f.write_str("error 21 part-twice"),
            Fault::Alias => f.write_str("error 22 alias"),
            Fault::NeedsDomain => f.write_str("error 23 needs-domain"),
            Fault::Number => f.write_str("error 24 number"),
            Fault::SidForm => f.write_str("error 25 sid-form"),
            Fault::Flags => f.write_str("error 26 flags"),
            Fault::Rights => f.write_str("error 27 rights"),
            Fault::Guid => f.write_str("error 28 guid"),
            Fault::Kind => f.write_str("error 29 kind"),
            Fault::AclTooLarge(part) => write!(f, "error 30 acl-too-large {part}"),
            Fault::DerivedTooLarge(part) => write!(f, "error 40 derived-too-large {part}"),
        }
    }
}

const HEX_DIGITS: &[u8; 16] = b"0123456789abcdef";
const NO_DIGIT: u8 = 0x80;

/// The value of each byte as a hex digit, in either case.
static HEX_VALUES: [u8; 256] = {
    let mut values = [NO_DIGIT; 256];
    let mut value = 0;
    while value < HEX_DIGITS.len() {
        values[HEX_DIGITS[value] as usize] = value as u8;
        values[HEX_DIGITS[value].to_ascii_uppercase() as usize] = value as u8;
        value += 1;
    }
    values
};

/// The two digits of each byte.
static HEX_PAIRS: [[u8; 2]; 256] = {
    let mut pairs = [[0; 2]; 256];
    let mut byte = 0;
    while byte < pairs.len() {
        pairs[byte] = [HEX_DIGITS[byte >> 4], HEX_DIGITS[byte & 15]];
        byte += 1;
    }
    pairs
};

fn digit(byte: u8) -> Option<u8> {
    let value = HEX_VALUES[usize::from(byte)];
    (value != NO_DIGIT).then_some(value)
}

/// Decodes by tables. No branch waits for a digit: whether one is none is asked at the end.
fn decode(line: &[u8], bytes: &mut Vec<u8>) -> Result<(), Fault> {
    bytes.clear();
    if line.len() > HEX_LINE_LIMIT {
        return Err(Fault::TooLong);
    }
    if line.len() % 2 != 0 {
        return Err(Fault::HexOdd);
    }
    let mut seen = 0;
    bytes.extend(line.chunks_exact(2).map(|pair| {
        let (high, low) = (HEX_VALUES[usize::from(pair[0])], HEX_VALUES[usize::from(pair[1])]);
        seen |= high | low;
        high << 4 | low
    }));
    if seen & NO_DIGIT == 0 { Ok(()) } else { Err(Fault::HexDigit) }
}

const BASE64_SYMBOLS: &[u8; 64] = b"ABCDEFGHIJKLMNOPQRSTUVWXYZabcdefghijklmnopqrstuvwxyz0123456789+/";
const NO_SYMBOL: u8 = 64;

/// The place of each byte among the symbols.
static BASE64_VALUES: [u8; 256] = {
    let mut values = [NO_SYMBOL; 256];
    let mut value = 0;
    while value < BASE64_SYMBOLS.len() {
        values[BASE64_SYMBOLS[value] as usize] = value as u8;
        value += 1;
    }
    values
};

fn decode_base64(line: &[u8], bytes: &mut Vec<u8>) -> Result<(), Fault> {
    bytes.clear();
    if line.len() > BASE64_LINE_LIMIT {
        return Err(Fault::TooLong);
    }
    if line.len() % 4 != 0 {
        return Err(Fault::Base64);
    }
    let padding = line.iter().rev().take(2).take_while(|byte| **byte == b'=').count();
    for group in line[..line.len() - padding].chunks(4) {
        let mut bits = 0;
        for place in 0..4 {
            let value = group.get(place).map_or(0, |symbol| BASE64_VALUES[usize::from(*symbol)]);
            if value == NO_SYMBOL {
                return Err(Fault::Base64);
            }
            bits = bits << 6 | u32::from(value);
        }
        let [_, three @ ..] = bits.to_be_bytes();
        let (whole, left_over) = three.split_at(group.len() - 1);
        if left_over.iter().any(|byte| *byte != 0) {
            return Err(Fault::Base64);
        }
        bytes.extend_from_slice(whole);
    }
    Ok(())
}

fn u16_at(bytes: &[u8], at: usize) -> u16 {
    u16::from_le_bytes([bytes[at], bytes[at + 1]])
}

fn u32_at(bytes: &[u8], at: usize) -> u32 {
    u32::from_le_bytes([bytes[at], bytes[at + 1], bytes[at + 2], bytes[at + 3]])
}

fn set_u16(bytes: &mut [u8], at: usize, value: usize) {
    bytes[at..at + 2].copy_from_slice(&(value as u16).to_le_bytes());
}

fn set_u32(bytes: &mut [u8], at: usize, value: u32) {
    bytes[at..at + 4].copy_from_slice(&value.to_le_bytes());
}

/// The size of the SID at the front of the bytes, of which there are at least eight.
fn sid_size(bytes: &[u8], part: Part) -> Result<usize, Fault> {
    let count = usize::from(bytes[1]);
    let size = SID_HEADER_SIZE + 4 * count;
    if bytes[0] != 1 || count > MAX_SUB_AUTHORITIES || size > bytes.len() {
        return Err(Fault::Sid(part));
    }
    Ok(size)
}

/// Takes the ACE at the front of what is left of an ACL, and appends it without its spare bytes. True where it is an
/// object ACE.
fn convert_ace(left: &mut &[u8], part: Part, layout: &mut Vec<u8>) -> Result<bool, Fault> {
    if left.len() < MIN_ACE_SIZE {
        return Err(Fault::AceSize(part));
    }
    let size = usize::from(u16_at(left, 2));
    if size < MIN_ACE_SIZE || size % 4 != 0 || size > left.len() {
        return Err(Fault::AceSize(part));
    }
    let (ace, rest) = left.split_at(size);
    *left = rest;
    let is_object = match ace[0] {
        0x00 | 0x01 | 0x02 | 0x11 => false,
        0x05 | 0x06 | 0x07 => true,
        _ => return Err(Fault::AceType(part)),
    };
    if ace[1] & UNKNOWN_FLAG != 0 {
        return Err(Fault::AceFlags(part));
    }
    let mut sid_at = ACE_HEADER_SIZE;
    let mut guids = 0;
    if is_object {
        guids = u32_at(ace, ACE_HEADER_SIZE) & GUIDS_PRESENT;
        sid_at += 4 + GUID_SIZE * guids.count_ones() as usize;
        if sid_at + SID_HEADER_SIZE > size {
            return Err(Fault::AceSize(part));
        }
    }
    let written = sid_at + sid_size(&ace[sid_at..], part)?;
    let start = layout.len();
    layout.extend_from_slice(&ace[..written]);
    set_u16(layout, start + 2, written);
    if is_object {
        set_u32(layout, start + ACE_HEADER_SIZE, guids);
    }
    Ok(is_object)
}

/// Appends the ACL at the front of the bytes, of which there are at least eight, without its spare bytes; the size
/// that it says.
fn convert_acl(bytes: &[u8], part: Part, layout: &mut Vec<u8>) -> Result<usize, Fault> {
    let size = usize::from(u16_at(bytes, 2));
    if !matches!(bytes[0], 2 | 4) || size < ACL_HEADER_SIZE || size > bytes.len() {
        return Err(Fault::Acl(part));
    }
    let count = u16_at(bytes, 4);
    let start = layout.len();
    layout.extend_from_slice(&[2, 0, 0, 0, bytes[4], bytes[5], 0, 0]);
    let mut left = &bytes[ACL_HEADER_SIZE..size];
    for _ in 0..count {
        if convert_ace(&mut left, part, layout)? {
            layout[start] = 4;
        }
    }
    let written = layout.len() - start;
    set_u16(layout, start + 2, written);
    Ok(size)
}

/// Makes the canonical layout: header, owner, group, SACL, DACL, without gaps. The parts are checked in the order in
/// which they are written, so one pass does both; after a fault the layout is of no use.
fn convert_descriptor(bytes: &[u8], layout: &mut Vec<u8>) -> Result<(), Fault> {
    layout.clear();
    if bytes.len() < HEADER_SIZE {
        return Err(Fault::Short);
    }
    if bytes[0] != 1 {
        return Err(Fault::Revision);
    }
    let control = u16_at(bytes, 2);
    if control & SELF_RELATIVE == 0 {
        return Err(Fault::NotSelfRelative);
    }
    layout.extend_from_slice(&bytes[..HEADER_SIZE]);
    let mut places: [Range<usize>; 4] = [0..0, 0..0, 0..0, 0..0];
    for (index, part) in PARTS.into_iter().enumerate() {
        let offset_at = OFFSETS_AT + 4 * index;
        let offset = u32_at(bytes, offset_at) as usize;
        if !part.stands(offset, control) {
            set_u32(layout, offset_at, 0);
            continue;
        }
        if offset < HEADER_SIZE || offset + SID_HEADER_SIZE > bytes.len() {
            return Err(Fault::Offset(part));
        }
        let written_offset = layout.len() as u32;
        set_u32(layout, offset_at, written_offset);
        let front = &bytes[offset..];
        let size = match part {
            Part::Owner | Part::Group => {
                let size = sid_size(front, part)?;
                layout.extend_from_slice(&front[..size]);
                size
            }
            Part::Sacl | Part::Dacl => convert_acl(front, part, layout)?,
        };
        places[index] = offset..offset + size;
    }
    for (index, place) in places.iter().enumerate() {
        for (other_index, other) in places.iter().enumerate().skip(index + 1) {
            if place.start < other.end && other.start < place.end {
                return Err(Fault::Overlap(PARTS[index], PARTS[other_index]));
            }
        }
    }
    Ok(())
}

fn put_hex(bytes: &[u8], text: &mut Vec<u8>) {
    let start = text.len();
    text.resize(start + 2 * bytes.len(), 0);
    for (pair, byte) in text[start..].chunks_exact_mut(2).zip(bytes) {
        pair.copy_from_slice(&HEX_PAIRS[usize::from(*byte)]);
    }
}

fn put_base64(bytes: &[u8], text: &mut Vec<u8>) {
    for group in bytes.chunks(3) {
        let byte = |at: usize| group.get(at).map_or(0, |byte| u32::from(*byte));
        let bits = byte(0) << 16 | byte(1) << 8 | byte(2);
        let mut symbols = [18, 12, 6, 0].map(|shift| BASE64_SYMBOLS[(bits >> shift & 63) as usize]);
        symbols[group.len() + 1..].fill(b'=');
        text.extend_from_slice(&symbols);
    }
}

struct Sid {
    authority: u64,
    count: usize,
    subs: [u32; MAX_SUB_AUTHORITIES],
}

impl Sid {
    fn new(authority: u64, subs: &[u32]) -> Sid {
        let mut sid = Sid {
            authority,
            count: subs.len(),
            subs: [0; MAX_SUB_AUTHORITIES],
        };
        sid.subs[..subs.len()].copy_from_slice(subs);
        sid
    }

    /// The SID at the front of the bytes, where one is known to be.
    fn at(bytes: &[u8]) -> Sid {
        let mut sid = Sid {
            authority: 0,
            count: usize::from(bytes[1]),
            subs: [0; MAX_SUB_AUTHORITIES],
        };
        for byte in &bytes[2..SID_HEADER_SIZE] {
            sid.authority = sid.authority << 8 | u64::from(*byte);
        }
        for index in 0..sid.count {
            sid.subs[index] = u32_at(bytes, SID_HEADER_SIZE + 4 * index);
        }
        sid
    }

    fn subs(&self) -> &[u32] {
        &self.subs[..self.count]
    }

    fn put_bytes(&self, bytes: &mut Vec<u8>) {
        bytes.extend_from_slice(&[1, self.count as u8]);
        bytes.extend_from_slice(&self.authority.to_be_bytes()[2..]);
        for sub in self.subs() {
            bytes.extend_from_slice(&sub.to_le_bytes());
        }
    }
}

/// How SIDs are named.
#[derive(Default)]
struct Naming {
    domain: Option<Sid>,
    numeric: bool,
}

fn well_known(sid: &Sid) -> Option<&'static str> {
    Some(match (sid.authority, sid.subs()) {
        (1, [0]) => "WD",
        (3, [0]) => "CO",
        (3, [1]) => "CG",
        (3, [4]) => "OW",
        (5, [2]) => "NU",
        (5, [4]) => "IU",
        (5, [6]) => "SU",
        (5, [7]) => "AN",
        (5, [9]) => "ED",
        (5, [10]) => "PS",
        (5, [11]) => "AU",
        (5, [12]) => "RC",
        (5, [18]) => "SY",
        (5, [19]) => "LS",
        (5, [20]) => "NS",
        (5, [33]) => "WR",
        (5, [84, 0, 0, 0, 0, 0]) => "UD",
        (5, [32, last]) => match last {
            544 => "BA",
            545 => "BU",
            546 => "BG",
            547 => "PU",
            548 => "AO",
            549 => "SO",
            550 => "PO",
            551 => "BO",
            552 => "RE",
            554 => "RU",
            555 => "RD",
            556 => "NO",
            558 => "MU",
            559 => "LU",
            568 => "IS",
            569 => "CY",
            573 => "ER",
            574 => "CD",
            575 => "RA",
            576 => "ES",
            577 => "MS",
            578 => "HA",
            579 => "AA",
            580 => "RM",
            _ => return None,
        },
        (15, [2, 1]) => "AC",
        (16, [4096]) => "LW",
        (16, [8192]) => "ME",
        (16, [8448]) => "MP",
        (16, [12288]) => "HI",
        (16, [16384]) => "SI",
        (18, [1]) => "AS",
        (18, [2]) => "SS",
        _ => return None,
    })
}

fn of_the_domain(sid: &Sid, domain: &Sid) -> Option<&'static str> {
    let (last, front) = sid.subs().split_last()?;
    if sid.authority != domain.authority || front != domain.subs() {
        return None;
    }
    Some(match last {
        498 => "RO",
        500 => "LA",
        501 => "LG",
        512 => "DA",
        513 => "DU",
        514 => "DG",
        515 => "DC",
        516 => "DD",
        517 => "CA",
        518 => "SA",
        519 => "EA",
        520 => "PA",
        522 => "CN",
        525 => "AP",
        526 => "KA",
        527 => "EK",
        553 => "RS",
        _ => return None,
    })
}

fn alias(sid: &Sid, naming: &Naming) -> Option<&'static str> {
    if naming.numeric {
        return None;
    }
    well_known(sid).or_else(|| of_the_domain(sid, naming.domain.as_ref()?))
}

fn put_decimal(mut number: u32, text: &mut Vec<u8>) {
    let mut digits = [0; 10];
    let mut at = digits.len();
    loop {
        at -= 1;
        digits[at] = b'0' + (number % 10) as u8;
        number /= 10;
        if number == 0 {
            break;
        }
    }
    text.extend_from_slice(&digits[at..]);
}

fn put_sid(sid: &Sid, naming: &Naming, text: &mut Vec<u8>) {
    match alias(sid, naming) {
        Some(alias) => text.extend_from_slice(alias.as_bytes()),
        None => put_sid_text(sid, text),
    }
}

fn put_sid_text(sid: &Sid, text: &mut Vec<u8>) {
    text.extend_from_slice(b"S-1-");
    match u32::try_from(sid.authority) {
        Ok(authority) => put_decimal(authority, text),
        Err(_) => {
            text.extend_from_slice(b"0x");
            put_hex(&sid.authority.to_be_bytes()[2..], text);
        }
    }
    for sub in sid.subs() {
        text.push(b'-');
        put_decimal(*sub, text);
    }
}

type Names = [(&'static str, u32)];

const FLAGS: &Names = &[
    ("OI", 0x01),
    ("CI", 0x02),
    ("NP", 0x04),
    ("IO", 0x08),
    ("ID", 0x10),
    ("SA", 0x40),
    ("FA", 0x80),
];
const RIGHTS: &Names = &[
    ("CC", 0x1),
    ("DC", 0x2),
    ("LC", 0x4),
    ("SW", 0x8),
    ("RP", 0x10),
    ("WP", 0x20),
    ("DT", 0x40),
    ("LO", 0x80),
    ("CR", 0x100),
    ("SD", 0x1_0000),
    ("RC", 0x2_0000),
    ("WD", 0x4_0000),
    ("WO", 0x8_0000),
    ("GA", 0x1000_0000),
    ("GX", 0x2000_0000),
    ("GW", 0x4000_0000),
    ("GR", 0x8000_0000),
];
const ALL_RIGHTS: u32 = 0xf00f_01ff;
const LABEL_RIGHTS: &Names = &[("NW", 1), ("NR", 2), ("NX", 4)];
const ALL_LABEL_RIGHTS: u32 = 7;
const DACL_FLAGS: &Names = &[("P", 0x1000), ("AR", 0x0100), ("AI", 0x0400)];
const SACL_FLAGS: &Names = &[("P", 0x2000), ("AR", 0x0200), ("AI", 0x0800)];

/// Appends the names of the bits that are set.
fn put_names(bits: u32, names: &Names, text: &mut Vec<u8>) {
    for (name, bit) in names {
        if bits & bit != 0 {
            text.extend_from_slice(name.as_bytes());
        }
    }
}

fn put_hex_number(number: u32, text: &mut Vec<u8>) {
    const DIGITS: &[u8; 16] = b"0123456789abcdef";
    text.extend_from_slice(b"0x");
    let digits = (32 - (number | 1).leading_zeros()).div_ceil(4);
    for place in (0..digits).rev() {
        text.push(DIGITS[(number >> (4 * place) & 15) as usize]);
    }
}

fn put_rights(mask: u32, is_label: bool, text: &mut Vec<u8>) {
    let (names, all) = if is_label {
        (LABEL_RIGHTS, ALL_LABEL_RIGHTS)
    } else {
        (RIGHTS, ALL_RIGHTS)
    };
    let compound: &[u8] = match mask {
        _ if is_label => b"",
        0x1f_01ff => b"FA",
        0x12_0089 => b"FR",
        0x12_0116 => b"FW",
        0x12_00a0 => b"FX",
        0xf_003f => b"KA",
        0x2_0019 => b"KR",
        0x2_0006 => b"KW",
        _ => b"",
    };
    if !compound.is_empty() {
        text.extend_from_slice(compound);
    } else if mask != 0 && mask & !all == 0 {
        put_names(mask, names, text);
    } else {
        put_hex_number(mask, text);
    }
}

fn put_guid(guid: &[u8], text: &mut Vec<u8>) {
    put_hex(&u32_at(guid, 0).to_be_bytes(), text);
    text.push(b'-');
    put_hex(&u16_at(guid, 4).to_be_bytes(), text);
    text.push(b'-');
    put_hex(&u16_at(guid, 6).to_be_bytes(), text);
    text.push(b'-');
    put_hex(&guid[8..10], text);
    text.push(b'-');
    put_hex(&guid[10..GUID_SIZE], text);
}

fn put_ace(ace: &[u8], naming: &Naming, text: &mut Vec<u8>) {
    let (kind, is_object): (&[u8], bool) = match ace[0] {
        0x00 => (b"(A;", false),
        0x01 => (b"(D;", false),
        0x02 => (b"(AU;", false),
        0x05 => (b"(OA;", true),
        0x06 => (b"(OD;", true),
        0x07 => (b"(OU;", true),
        _ => (b"(ML;", false),
    };
    text.extend_from_slice(kind);
    put_names(u32::from(ace[1]), FLAGS, text);
    text.push(b';');
    put_rights(u32_at(ace, 4), ace[0] == 0x11, text);
    let mut left = &ace[ACE_HEADER_SIZE..];
    let mut guids = 0;
    if is_object {
        guids = u32_at(left, 0);
        left = &left[4..];
    }
    for present in [OBJECT_TYPE_PRESENT, INHERITED_OBJECT_TYPE_PRESENT] {
        text.push(b';');
        if guids & present != 0 {
            put_guid(left, text);
            left = &left[GUID_SIZE..];
        }
    }
    text.push(b';');
    put_sid(&Sid::at(left), naming, text);
    text.push(b')');
}

/// Appends the SDDL of a canonical layout.
fn put_sddl(layout: &[u8], naming: &Naming, text: &mut Vec<u8>) {
    let offset = |part: Part| u32_at(layout, OFFSETS_AT + 4 * part as usize) as usize;
    for (letter, part) in [(b'O', Part::Owner), (b'G', Part::Group)] {
        if offset(part) != 0 {
            text.extend_from_slice(&[letter, b':']);
            put_sid(&Sid::at(&layout[offset(part)..]), naming, text);
        }
    }
    let control = u16_at(layout, 2);
    for (letter, part, present, flags) in [
        (b'D', Part::Dacl, DACL_PRESENT, DACL_FLAGS),
        (b'S', Part::Sacl, SACL_PRESENT, SACL_FLAGS),
    ] {
        if control & present == 0 {
            continue;
        }
        text.extend_from_slice(&[letter, b':']);
        put_names(u32::from(control), flags, text);
        if offset(part) == 0 {
            text.extend_from_slice(b"NO_ACCESS_CONTROL");
            continue;
        }
        let acl = &layout[offset(part)..];
        let mut left = &acl[ACL_HEADER_SIZE..];
        for _ in 0..u16_at(acl, 4) {
            let (ace, rest) = left.split_at(usize::from(u16_at(left, 2)));
            put_ace(ace, naming, text);
            left = rest;
        }
    }
}

const CONTROL_CODES: &Names = &[
    (" OD", 0x0001),
    (" GD", 0x0002),
    (" DP", 0x0004),
    (" DD", 0x0008),
    (" SP", 0x0010),
    (" SD", 0x0020),
    (" DC", 0x0100),
    (" SC", 0x0200),
    (" DI", 0x0400),
    (" SI", 0x0800),
    (" PD", 0x1000),
    (" PS", 0x2000),
    (" RM", 0x4000),
    (" SR", 0x8000),
];

/// Appends the text of the SID at the front of the bytes, its alias where it has one, and the end of the line.
fn explain_sid(bytes: &[u8], naming: &Naming, text: &mut Vec<u8>) {
    let sid = Sid::at(bytes);
    put_sid_text(&sid, text);
    if let Some(alias) = alias(&sid, naming) {
        text.push(b' ');
        text.extend_from_slice(alias.as_bytes());
    }
    text.push(b'\n');
}

/// Appends the line of an ACE behind its number.
fn explain_ace(ace: &[u8], naming: &Naming, text: &mut Vec<u8>) {
    let (kind, is_object): (&[u8], bool) = match ace[0] {
        0x00 => (b" A flags ", false),
        0x01 => (b" D flags ", false),
        0x02 => (b" AU flags ", false),
        0x05 => (b" OA flags ", true),
        0x06 => (b" OD flags ", true),
        0x07 => (b" OU flags ", true),
        _ => (b" ML flags ", false),
    };
    text.extend_from_slice(kind);
    if ace[1] == 0 {
        text.extend_from_slice(b"none");
    }
    put_names(u32::from(ace[1]), FLAGS, text);
    let mask = u32_at(ace, 4);
    text.extend_from_slice(b" mask 0x");
    put_hex(&mask.to_be_bytes(), text);
    text.extend_from_slice(b" rights ");
    put_rights(mask, ace[0] == 0x11, text);
    let mut left = &ace[ACE_HEADER_SIZE..];
    let mut guids = 0;
    if is_object {
        guids = u32_at(left, 0);
        left = &left[4..];
    }
    for (present, name) in [
        (OBJECT_TYPE_PRESENT, " object "),
        (INHERITED_OBJECT_TYPE_PRESENT, " inherited "),
    ] {
        if guids & present != 0 {
            text.extend_from_slice(name.as_bytes());
            put_guid(left, text);
            left = &left[GUID_SIZE..];
        }
    }
    text.extend_from_slice(b" sid ");
    explain_sid(left, naming, text);
}

/// Appends the explanation of a canonical layout, without its last LF.
fn explain(layout: &[u8], naming: &Naming, text: &mut Vec<u8>) {
    let offset = |part: Part| u32_at(layout, OFFSETS_AT + 4 * part as usize) as usize;
    let control = u16_at(layout, 2);
    text.extend_from_slice(b"control 0x");
    put_hex(&control.to_be_bytes(), text);
    put_names(u32::from(control), CONTROL_CODES, text);
    text.extend_from_slice(b"\nrm 0x");
    put_hex(&layout[1..2], text);
    text.push(b'\n');
    for (name, part) in [("owner ", Part::Owner), ("group ", Part::Group)] {
        text.extend_from_slice(name.as_bytes());
        match offset(part) {
            0 => text.extend_from_slice(b"none\n"),
            at => explain_sid(&layout[at..], naming, text),
        }
    }
    for (name, part, present) in [("dacl ", Part::Dacl, DACL_PRESENT), ("sacl ", Part::Sacl, SACL_PRESENT)] {
        text.extend_from_slice(name.as_bytes());
        if control & present == 0 {
            text.extend_from_slice(b"absent\n");
            continue;
        }
        if offset(part) == 0 {
            text.extend_from_slice(b"null\n");
            continue;
        }
        let acl = &layout[offset(part)..];
        let count = u32::from(u16_at(acl, 4));
        text.extend_from_slice(b"list ");
        put_decimal(count, text);
        text.push(b'\n');
        let mut left = &acl[ACL_HEADER_SIZE..];
        for number in 1..=count {
            let (ace, rest) = left.split_at(usize::from(u16_at(left, 2)));
            text.extend_from_slice(name.as_bytes());
            put_decimal(number, text);
            explain_ace(ace, naming, text);
            left = rest;
        }
    }
    text.extend_from_slice(b"end");
}

/// A run of names of two letters, in either case.
fn bits_of_text(text: &[u8], bits_of_name: fn(&[u8; 2]) -> Option<u32>) -> Option<u32> {
    if text.len() > TEXT_LIMIT || text.len() % 2 != 0 {
        return None;
    }
    let mut bits = 0;
    for pair in text.chunks_exact(2) {
        bits |= bits_of_name(&[pair[0].to_ascii_uppercase(), pair[1].to_ascii_uppercase()])?;
    }
    Some(bits)
}

fn bits_of_name(name: &[u8; 2], names: &Names) -> Option<u32> {
    let (_, bits) = names.iter().find(|(one, _)| one.as_bytes() == name)?;
    Some(*bits)
}

fn flag(name: &[u8; 2]) -> Option<u32> {
    bits_of_name(name, FLAGS)
}

fn right(name: &[u8; 2]) -> Option<u32> {
    Some(match name {
        b"FA" => 0x1f_01ff,
        b"FR" => 0x12_0089,
        b"FW" => 0x12_0116,
        b"FX" => 0x12_00a0,
        b"KA" => 0xf_003f,
        b"KR" | b"KX" => 0x2_0019,
        b"KW" => 0x2_0006,
        b"NW" => 1,
        b"NR" => 2,
        b"NX" => 4,
        _ => return bits_of_name(name, RIGHTS),
    })
}

fn number(digits: &[u8], radix: u32) -> Option<u32> {
    let mut number: u32 = 0;
    for digit in digits {
        let digit = char::from(*digit).to_digit(radix)?;
        number = number.checked_mul(radix)?.checked_add(digit)?;
    }
    Some(number)
}

/// A number in hex, octal or decimal digits, or names.
fn rights_of_text(text: &[u8]) -> Option<u32> {
    if text.len() > TEXT_LIMIT {
        return None;
    }
    match text {
        [b'0', b'x' | b'X', digits @ ..] if !digits.is_empty() => number(digits, 16),
        [b'0', digits @ ..] => number(digits, 8),
        [b'1'..=b'9', ..] => number(text, 10),
        _ => bits_of_text(text, right),
    }
}

fn well_known_sid(alias: &[u8; 2]) -> Option<Sid> {
    let (authority, subs): (u64, &[u32]) = match alias {
        b"WD" => (1, &[0]),
        b"CO" => (3, &[0]),
        b"CG" => (3, &[1]),
        b"OW" => (3, &[4]),
        b"NU" => (5, &[2]),
        b"IU" => (5, &[4]),
        b"SU" => (5, &[6]),
        b"AN" => (5, &[7]),
        b"ED" => (5, &[9]),
        b"PS" => (5, &[10]),
        b"AU" => (5, &[11]),
        b"RC" => (5, &[12]),
        b"SY" => (5, &[18]),
        b"LS" => (5, &[19]),
        b"NS" => (5, &[20]),
        b"WR" => (5, &[33]),
        b"UD" => (5, &[84, 0, 0, 0, 0, 0]),
        b"BA" => (5, &[32, 544]),
        b"BU" => (5, &[32, 545]),
        b"BG" => (5, &[32, 546]),
        b"PU" => (5, &[32, 547]),
        b"AO" => (5, &[32, 548]),
        b"SO" => (5, &[32, 549]),
        b"PO" => (5, &[32, 550]),
        b"BO" => (5, &[32, 551]),
        b"RE" => (5, &[32, 552]),
        b"RU" => (5, &[32, 554]),
        b"RD" => (5, &[32, 555]),
        b"NO" => (5, &[32, 556]),
        b"MU" => (5, &[32, 558]),
        b"LU" => (5, &[32, 559]),
        b"IS" => (5, &[32, 568]),
        b"CY" => (5, &[32, 569]),
        b"ER" => (5, &[32, 573]),
        b"CD" => (5, &[32, 574]),
        b"RA" => (5, &[32, 575]),
        b"ES" => (5, &[32, 576]),
        b"MS" => (5, &[32, 577]),
        b"HA" => (5, &[32, 578]),
        b"AA" => (5, &[32, 579]),
        b"RM" => (5, &[32, 580]),
        b"AC" => (15, &[2, 1]),
        b"LW" => (16, &[4096]),
        b"ME" => (16, &[8192]),
        b"MP" => (16, &[8448]),
        b"HI" => (16, &[12288]),
        b"SI" => (16, &[16384]),
        b"AS" => (18, &[1]),
        b"SS" => (18, &[2]),
        _ => return None,
    };
    Some(Sid::new(authority, subs))
}

fn last_in_the_domain(alias: &[u8; 2]) -> Option<u32> {
    Some(match alias {
        b"RO" => 498,
        b"LA" => 500,
        b"LG" => 501,
        b"DA" => 512,
        b"DU" => 513,
        b"DG" => 514,
        b"DC" => 515,
        b"DD" => 516,
        b"CA" => 517,
        b"SA" => 518,
        b"EA" => 519,
        b"PA" => 520,
        b"CN" => 522,
        b"AP" => 525,
        b"KA" => 526,
        b"EK" => 527,
        b"RS" => 553,
        _ => return None,
    })
}

fn sid_of_alias(alias: &[u8; 2], domain: Option<&Sid>) -> Result<Sid, Fault> {
    if let Some(sid) = well_known_sid(alias) {
        return Ok(sid);
    }
    let last = last_in_the_domain(alias).ok_or(Fault::Alias)?;
    let domain = domain.filter(|domain| domain.count < MAX_SUB_AUTHORITIES);
    let domain = domain.ok_or(Fault::NeedsDomain)?;
    let mut sid = Sid::new(domain.authority, domain.subs());
    sid.subs[sid.count] = last;
    sid.count += 1;
    Ok(sid)
}

/// A decimal number below 2^32, in at most ten digits. The shape of a SID's whole text comes before the size of its
/// numbers, so a number that is too large is only marked.
fn decimal(text: &[u8], too_large: &mut bool) -> Result<u32, Fault> {
    if text.is_empty() || !text.iter().all(u8::is_ascii_digit) {
        return Err(Fault::SidForm);
    }
    let number = if text.len() > 10 { None } else { number(text, 10) };
    *too_large |= number.is_none();
    Ok(number.unwrap_or_default())
}

fn sid_of_text(text: &[u8], domain: Option<&Sid>) -> Result<Sid, Fault> {
    if let [first, second] = text {
        if first.is_ascii_alphabetic() && second.is_ascii_alphabetic() {
            return sid_of_alias(&[first.to_ascii_uppercase(), second.to_ascii_uppercase()], domain);
        }
    }
    let [b'S' | b's', b'-', b'1', b'-', numbers @ ..] = text else {
        return Err(Fault::SidForm);
    };
    if text.len() > TEXT_LIMIT {
        return Err(Fault::SidForm);
    }
    let mut numbers = numbers.split(|byte| *byte == b'-');
    let mut sid = Sid::new(0, &[]);
    let mut too_large = false;
    match numbers.next().unwrap_or_default() {
        [b'0', b'x' | b'X', digits @ ..] => {
            if digits.len() != 12 {
                return Err(Fault::SidForm);
            }
            for byte in digits {
                sid.authority = sid.authority << 4 | u64::from(digit(*byte).ok_or(Fault::SidForm)?);
            }
        }
        authority => sid.authority = u64::from(decimal(authority, &mut too_large)?),
    }
    for text in numbers {
        *sid.subs.get_mut(sid.count).ok_or(Fault::SidForm)? = decimal(text, &mut too_large)?;
        sid.count += 1;
    }
    if too_large {
        return Err(Fault::Number);
    }
    Ok(sid)
}

/// Where the two digits of each byte stand: of three little-endian numbers, and then in order.
const GUID_PLACES: [usize; GUID_SIZE] = [6, 4, 2, 0, 11, 9, 16, 14, 19, 21, 24, 26, 28, 30, 32, 34];

fn guid_of_text(text: &[u8]) -> Option<[u8; GUID_SIZE]> {
    if text.len() != 36 || [8, 13, 18, 23].iter().any(|at| text[*at] != b'-') {
        return None;
    }
    let mut guid = [0; GUID_SIZE];
    for (byte, at) in guid.iter_mut().zip(GUID_PLACES) {
        *byte = digit(text[at])? << 4 | digit(text[at + 1])?;
    }
    Some(guid)
}

fn is_blank(byte: u8) -> bool {
    matches!(byte, b' ' | b'\t')
}

fn without_blanks_before(text: &[u8]) -> &[u8] {
    let start = text.iter().position(|byte| !is_blank(*byte));
    &text[start.unwrap_or(text.len())..]
}

fn without_blanks(text: &[u8]) -> &[u8] {
    let text = without_blanks_before(text);
    let end = text.iter().rposition(|byte| !is_blank(*byte));
    &text[..end.map_or(0, |last| last + 1)]
}

/// A part of an SDDL line: its letter, its text, and its ACEs with their parentheses and the blanks between them.
struct TextPart<'a> {
    letter: u8,
    text: &'a [u8],
    aces: &'a [u8],
}

/// Splits off the ACEs at the front of a text, of which there may be none.
fn split_aces(text: &[u8]) -> Result<(&[u8], &[u8]), Fault> {
    let mut left = text;
    while let [b'(', inside @ ..] = left {
        let length = inside.iter().position(|byte| matches!(byte, b'(' | b')'));
        let (ace, rest) = inside.split_at(length.ok_or(Fault::Shape)?);
        let semicolons = ace.iter().filter(|byte| **byte == b';').count();
        if rest[0] != b')' || semicolons != 5 {
            return Err(Fault::Shape);
        }
        left = without_blanks_before(&rest[1..]);
    }
    Ok(text.split_at(text.len() - left.len()))
}

/// The parts of a line, where it has the shape of SDDL.
fn text_parts(line: &[u8]) -> Result<Vec<TextPart<'_>>, Fault> {
    let mut parts = Vec::new();
    let mut left = without_blanks_before(line);
    while !left.is_empty() {
        let [letter, b':', body @ ..] = left else {
            return Err(Fault::Shape);
        };
        // The byte before a colon has to be the next part's letter.
        let end = match body.iter().position(|byte| matches!(byte, b'(' | b')' | b':')) {
            Some(at) if body[at] == b':' => at.checked_sub(1).ok_or(Fault::Shape)?,
            Some(at) => at,
            None => body.len(),
        };
        let (text, rest) = body.split_at(end);
        let (aces, rest) = split_aces(rest)?;
        let part = TextPart {
            letter: letter.to_ascii_uppercase(),
            text: without_blanks(text),
            aces,
        };
        match part.letter {
            b'D' | b'S' => (),
            b'O' | b'G' if aces.is_empty() => (),
            _ => return Err(Fault::Shape),
        }
        parts.push(part);
        left = rest;
    }
    Ok(parts)
}

/// Appends the ACE of the text between two parentheses. True where it is an object ACE.
fn read_ace(text: &[u8], domain: Option<&Sid>, bytes: &mut Vec<u8>) -> Result<bool, Fault> {
    let mut fields = text.split(|byte| *byte == b';');
    let mut next_field = || fields.next().unwrap_or_default();
    let (ace_type, is_object) = match next_field() {
        [b'A' | b'a'] => (0x00, false),
        [b'D' | b'd'] => (0x01, false),
        [b'A' | b'a', b'U' | b'u'] => (0x02, false),
        [b'O' | b'o', b'A' | b'a'] => (0x05, true),
        [b'O' | b'o', b'D' | b'd'] => (0x06, true),
        [b'O' | b'o', b'U' | b'u'] => (0x07, true),
        [b'M' | b'm', b'L' | b'l'] => (0x11, false),
        _ => return Err(Fault::Kind),
    };
    let start = bytes.len();
    let flags = bits_of_text(next_field(), flag).ok_or(Fault::Flags)?;
    let mask = rights_of_text(next_field()).ok_or(Fault::Rights)?;
    bytes.extend_from_slice(&[ace_type, flags as u8, 0, 0]);
    bytes.extend_from_slice(&mask.to_le_bytes());
    if is_object {
        bytes.extend_from_slice(&[0; 4]);
    }
    for present in [OBJECT_TYPE_PRESENT, INHERITED_OBJECT_TYPE_PRESENT] {
        let field = next_field();
        if field.is_empty() {
            continue;
        }
        if !is_object {
            return Err(Fault::Guid);
        }
        bytes.extend_from_slice(&guid_of_text(field).ok_or(Fault::Guid)?);
        bytes[start + ACE_HEADER_SIZE] |= present as u8;
    }
    sid_of_text(next_field(), domain)?.put_bytes(bytes);
    let size = bytes.len() - start;
    set_u16(bytes, start + 2, size);
    Ok(is_object)
}

/// Appends the ACL of a part, unless it is null, and gives the flags that stand before it. Its size and its number of
/// ACEs are those of an ACL that is not too large.
fn read_acl(part: &TextPart, domain: Option<&Sid>, bytes: &mut Vec<u8>) -> Result<u32, Fault> {
    if part.text.len() > TEXT_LIMIT {
        return Err(Fault::Flags);
    }
    let names = if part.letter == b'D' { DACL_FLAGS } else { SACL_FLAGS };
    let text = part.text.to_ascii_uppercase();
    let mut left = &text[..];
    let mut flags = 0;
    while let Some((name, bit)) = names.iter().find(|(name, _)| left.starts_with(name.as_bytes())) {
        flags |= bit;
        left = &left[name.len()..];
    }
    if left == b"NO_ACCESS_CONTROL" && part.aces.is_empty() {
        return Ok(flags);
    }
    if !left.is_empty() {
        return Err(Fault::Flags);
    }
    bytes.extend_from_slice(&[2, 0, 0, 0, 0, 0, 0, 0]);
    let mut count = 0;
    // Each piece begins with what follows a parenthesis: an ACE, or the blanks after one.
    for piece in part.aces.split(|byte| matches!(byte, b'(' | b')')).skip(1).step_by(2) {
        if read_ace(piece, domain, bytes)? {
            bytes[0] = 4;
        }
        count += 1;
    }
    let size = bytes.len();
    set_u16(bytes, 2, size);
    set_u16(bytes, 4, count);
    Ok(flags)
}

/// Makes the canonical layout of what an SDDL line says, of the bytes of its parts; after a fault it is of no use.
fn read_sddl(
    line: &[u8],
    domain: Option<&Sid>,
    bytes: &mut [Vec<u8>; PARTS.len()],
    layout: &mut Vec<u8>,
) -> Result<(), Fault> {
    if line.len() > SDDL_LINE_LIMIT {
        return Err(Fault::TooLong);
    }
    let parts = text_parts(line)?;
    for (index, part) in parts.iter().enumerate() {
        if parts[..index].iter().any(|other| other.letter == part.letter) {
            return Err(Fault::PartTwice);
        }
    }
    let mut control = SELF_RELATIVE;
    bytes.iter_mut().for_each(Vec::clear);
    for part in &parts {
        match part.letter {
            b'O' => sid_of_text(part.text, domain)?.put_bytes(&mut bytes[Part::Owner as usize]),
            b'G' => sid_of_text(part.text, domain)?.put_bytes(&mut bytes[Part::Group as usize]),
            b'D' => control |= DACL_PRESENT | read_acl(part, domain, &mut bytes[Part::Dacl as usize])? as u16,
            _ => control |= SACL_PRESENT | read_acl(part, domain, &mut bytes[Part::Sacl as usize])? as u16,
        }
    }
    for part in &parts {
        let acl = if part.letter == b'D' { Part::Dacl } else { Part::Sacl };
        if bytes[acl as usize].len() > MAX_ACL_SIZE && matches!(part.letter, b'D' | b'S') {
            return Err(Fault::AclTooLarge(acl));
        }
    }
    join_parts(control, bytes, layout);
    Ok(())
}

/// Makes the canonical layout of parts, of which those without bytes do not stand.
fn join_parts(control: u16, bytes: &[Vec<u8>; PARTS.len()], layout: &mut Vec<u8>) {
    layout.clear();
    layout.extend_from_slice(&[1, 0]);
    layout.extend_from_slice(&control.to_le_bytes());
    layout.resize(HEADER_SIZE, 0);
    for (index, part) in bytes.iter().enumerate().filter(|(_, part)| !part.is_empty()) {
        let offset = layout.len() as u32;
        set_u32(layout, OFFSETS_AT + 4 * index, offset);
        layout.extend_from_slice(part);
    }
}

/// What the generic rights mean, from the lowest bit on: all, execute, write, read.
type Mapping = [u32; 4];

fn mapping_of_word(word: &str) -> Option<Mapping> {
    match word {
        "file" => Some([0x1f_01ff, 0x12_00a0, 0x12_0116, 0x12_0089]),
        "key" => Some([0xf_003f, 0x2_0019, 0x2_0006, 0x2_0019]),
        "ds" => Some([0xf_01ff, 0x2_0004, 0x2_0028, 0x2_0094]),
        _ => None,
    }
}

const FIRST_GENERIC: u32 = 28;

fn mapped(mask: u32, mapping: &Mapping) -> u32 {
    let mut specific = mask % (1 << FIRST_GENERIC);
    for (place, rights) in (FIRST_GENERIC..).zip(mapping) {
        if mask >> place & 1 != 0 {
            specific |= rights;
        }
    }
    specific
}

const OBJECT_INHERIT: u8 = 0x01;
const CONTAINER_INHERIT: u8 = 0x02;
const NO_PROPAGATE: u8 = 0x04;
const INHERIT_ONLY: u8 = 0x08;
const INHERITED: u8 = 0x10;
const AUDIT_FLAGS: u8 = 0xc0;

const CREATOR_OWNER: &[u8] = &[1, 1, 0, 0, 0, 0, 0, 3, 0, 0, 0, 0];
const CREATOR_GROUP: &[u8] = &[1, 1, 0, 0, 0, 0, 0, 3, 1, 0, 0, 0];
const OWNER_RIGHTS: &[u8] = &[1, 1, 0, 0, 0, 0, 0, 3, 4, 0, 0, 0];

/// The bytes of a part of a canonical layout, where it stands and is not null, and what follows it.
fn part_at(layout: &[u8], part: Part) -> Option<&[u8]> {
    match u32_at(layout, OFFSETS_AT + 4 * part as usize) as usize {
        0 => None,
        at => Some(&layout[at..]),
    }
}

fn sid_at_front(bytes: &[u8]) -> &[u8] {
    &bytes[..SID_HEADER_SIZE + 4 * usize::from(bytes[1])]
}

/// The ACEs of an ACL of a canonical layout, each with the place of its SID.
fn aces(acl: &[u8]) -> impl Iterator<Item = (&[u8], usize)> {
    let mut left = &acl[ACL_HEADER_SIZE..];
    (0..u16_at(acl, 4)).map(move |_| {
        let (ace, rest) = left.split_at(usize::from(u16_at(left, 2)));
        left = rest;
        match ace[0] {
            0x05 | 0x06 | 0x07 => {
                let guids = ace[ACE_HEADER_SIZE].count_ones() as usize;
                (ace, ACE_HEADER_SIZE + 4 + GUID_SIZE * guids)
            }
            _ => (ace, ACE_HEADER_SIZE),
        }
    })
}

const READ_CONTROL_AND_WRITE_DAC: u32 = 0x6_0000;
const SYSTEM_SECURITY: u32 = 1 << 24;
const MAXIMUM_ALLOWED: u32 = 1 << 25;

struct Entry {
    sid: Vec<u8>,
    /// The last four bytes of the SID, which tell most of them apart.
    last: u32,
    only_denies: bool,
}

struct Ask {
    token: Vec<Entry>,
    wanted: u32,
    maximum: bool,
    mapping: Mapping,
    level: Option<u32>,
}

const LABEL_TYPE: u8 = 0x11;
/// The SID of a label up to its one sub-authority.
const LEVEL_SID: &[u8] = &[1, 1, 0, 0, 0, 0, 0, 16];
const MEDIUM: u32 = 0x2000;
const NO_WRITE_UP: u32 = 1;

/// The level and the policy of the label of a canonical layout.
fn label(layout: &[u8]) -> (u32, u32) {
    let is_label = |(ace, at): &(&[u8], usize)| {
        ace[0] == LABEL_TYPE && ace[1] & INHERIT_ONLY == 0 && ace[*at..].starts_with(LEVEL_SID)
    };
    let found = part_at(layout, Part::Sacl).and_then(|sacl| aces(sacl).find(is_label));
    found.map_or((MEDIUM, NO_WRITE_UP), |(ace, at)| (u32_at(ace, at + LEVEL_SID.len()), u32_at(ace, 4) & 7))
}

fn entry_of_text(text: &str, domain: Option<&Sid>) -> Option<Entry> {
    let unmarked = text.strip_prefix('!');
    let mut sid = Vec::new();
    let text = unmarked.unwrap_or(text);
    sid_of_text(text.as_bytes(), domain).ok()?.put_bytes(&mut sid);
    Some(Entry {
        last: u32_at(&sid, sid.len() - 4),
        sid,
        only_denies: unmarked.is_some(),
    })
}

impl Ask {
    fn meets(&self, sid: &[u8], denies: bool) -> bool {
        let last = u32_at(sid, sid.len() - 4);
        let mut entries = self.token.iter();
        entries.any(|entry| entry.last == last && entry.sid == sid && (denies || !entry.only_denies))
    }

    /// The rights among the undecided ones that the descriptor of a canonical layout grants.
    fn granted(&self, layout: &[u8], mut undecided: u32) -> u32 {
        let Some(dacl) = part_at(layout, Part::Dacl) else {
            return undecided;
        };
        let is_for_access = |ace: &[u8]| !matches!(ace[0], 0x02 | 0x07 | 0x11) && ace[1] & INHERIT_ONLY == 0;
        let owner = part_at(layout, Part::Owner).map(sid_at_front);
        let mut granted = 0;
        if owner.is_some_and(|owner| undecided & READ_CONTROL_AND_WRITE_DAC != 0 && self.meets(owner, false)) {
            let is_for_owner = |(ace, at): (&[u8], usize)| is_for_access(ace) && &ace[at..] == OWNER_RIGHTS;
            if !aces(dacl).any(is_for_owner) {
                granted = undecided & READ_CONTROL_AND_WRITE_DAC;
                undecided &= !READ_CONTROL_AND_WRITE_DAC;
            }
        }
        for (ace, at) in aces(dacl) {
            if undecided == 0 {
                break;
            }
            let decided = mapped(u32_at(ace, 4), &self.mapping) & undecided;
            let is_object = matches!(ace[0], 0x05 | 0x06);
            let is_for_a_type = is_object && u32_at(ace, ACE_HEADER_SIZE) & OBJECT_TYPE_PRESENT != 0;
            if decided == 0 || !is_for_access(ace) || is_for_a_type {
                continue;
            }
            let sid = if &ace[at..] == OWNER_RIGHTS { owner } else { Some(&ace[at..]) };
            let denies = matches!(ace[0], 0x01 | 0x06);
            if sid.is_some_and(|sid| self.meets(sid, denies)) {
                granted |= if denies { 0 } else { decided };
                undecided &= !decided;
            }
        }
        granted
    }

    /// The rights that the label of a canonical layout leaves to the token.
    fn left(&self, layout: &[u8]) -> u32 {
        let Some(level) = self.level else {
            return !0;
        };
        let (of_object, policy) = label(layout);
        if level >= of_object {
            return !0;
        }
        let [_, execute, write, read] = self.mapping;
        let ways = [write, read, execute].into_iter().enumerate();
        ways.filter(|(bit, _)| policy >> bit & 1 == 0).fold(0, |left, (_, rights)| left | rights)
    }

    /// Appends the verdict on the descriptor of a canonical layout.
    fn put_verdict(&self, layout: &[u8], text: &mut Vec<u8>) {
        let of_all = if self.maximum { self.mapping[0] } else { 0 };
        let granted = self.granted(layout, (self.wanted | of_all) & self.left(layout) & !SYSTEM_SECURITY);
        let missing = self.wanted & !granted;
        let answered = self.wanted | granted & of_all;
        let is_granted = missing == 0 && answered != 0;
        text.extend_from_slice(if is_granted { b"granted 0x" } else { b"denied 0x" });
        put_hex(&(if is_granted { answered } else { missing }).to_be_bytes(), text);
    }
}

struct Plan {
    is_container: bool,
    owner: Vec<u8>,
    group: Vec<u8>,
    mapping: Mapping,
    /// A canonical layout.
    creator: Option<Vec<u8>>,
}

impl Plan {
    /// Appends the ACE for the object itself.
    fn put_own(&self, ace: &[u8], sid_at: usize, flags: u8, acl: &mut Vec<u8>) {
        let (mask, start) = (u32_at(ace, 4), acl.len());
        acl.extend_from_slice(&ace[..sid_at]);
        acl.extend_from_slice(match &ace[sid_at..] {
            CREATOR_OWNER => &self.owner,
            CREATOR_GROUP => &self.group,
            sid => sid,
        });
        acl[start + 1] = flags;
        let size = acl.len() - start;
        set_u16(acl, start + 2, size);
        set_u32(acl, start + 4, if ace[0] == LABEL_TYPE { mask } else { mapped(mask, &self.mapping) });
    }

    /// Appends what is taken of an ACE of the creator's descriptor; how many ACEs that is.
    fn put_taken(&self, ace: &[u8], sid_at: usize, acl: &mut Vec<u8>) -> u16 {
        let flags = ace[1];
        let goes_on = flags & (OBJECT_INHERIT | CONTAINER_INHERIT) != 0;
        let is_for_heirs = flags & INHERIT_ONLY != 0;
        if flags & INHERITED != 0 || is_for_heirs && !self.is_container {
            return 0;
        }
        let is_generic = ace[0] != LABEL_TYPE && u32_at(ace, 4) >> FIRST_GENERIC != 0;
        let differs = is_generic || matches!(&ace[sid_at..], CREATOR_OWNER | CREATOR_GROUP);
        if self.is_container && (is_for_heirs || goes_on && !differs) {
            acl.extend_from_slice(ace);
            return 1;
        }
        self.put_own(ace, sid_at, flags & AUDIT_FLAGS, acl);
        if !self.is_container || !goes_on {
            return 1;
        }
        let start = acl.len();
        acl.extend_from_slice(ace);
        acl[start + 1] |= INHERIT_ONLY;
        2
    }

    /// Appends the copies of an ACE; how many there are.
    fn put_copies(&self, ace: &[u8], sid_at: usize, acl: &mut Vec<u8>) -> u16 {
        let (flags, mask, sid) = (ace[1], u32_at(ace, 4), &ace[sid_at..]);
        let is_label = ace[0] == LABEL_TYPE;
        let mut put = |flags: u8, mask: u32, sid: &[u8]| {
            let start = acl.len();
            acl.extend_from_slice(&ace[..sid_at]);
            acl.extend_from_slice(sid);
            acl[start + 1] = flags | ace[1] & AUDIT_FLAGS | INHERITED;
            let size = acl.len() - start;
            set_u16(acl, start + 2, size);
            set_u32(acl, start + 4, mask);
        };
        let for_files = flags & OBJECT_INHERIT != 0;
        let for_containers = flags & CONTAINER_INHERIT != 0;
        let for_one_level = flags & NO_PROPAGATE != 0;
        let onward = flags & (OBJECT_INHERIT | CONTAINER_INHERIT);
        let heir = match sid {
            CREATOR_OWNER => &self.owner[..],
            CREATOR_GROUP => &self.group[..],
            sid => sid,
        };
        let own_mask = if is_label { mask } else { mapped(mask, &self.mapping) };
        let differs = matches!(sid, CREATOR_OWNER | CREATOR_GROUP) || !is_label && mask >> FIRST_GENERIC != 0;
        if !self.is_container && for_files || self.is_container && for_containers && for_one_level {
            put(0, own_mask, heir);
            1
        } else if !self.is_container {
            0
        } else if for_containers && differs {
            put(0, own_mask, heir);
            put(onward | INHERIT_ONLY, mask, sid);
            2
        } else if for_containers {
            put(onward, own_mask, heir);
            1
        } else if for_files && !for_one_level {
            put(onward | INHERIT_ONLY, mask, sid);
            1
        } else {
            0
        }
    }

    /// Makes the ACL of what is taken of the creator's ACEs, and of the copies of the parent's.
    fn derive_acl(&self, creator: Option<&[u8]>, parent: Option<&[u8]>, acl: &mut Vec<u8>) {
        acl.clear();
        acl.extend_from_slice(&[2, 0, 0, 0, 0, 0, 0, 0]);
        let mut count = 0;
        let of_creator = creator.into_iter().flat_map(aces).map(|ace| (ace, true));
        let of_parent = parent.into_iter().flat_map(aces).map(|ace| (ace, false));
        for ((ace, sid_at), is_brought) in of_creator.chain(of_parent) {
            let more = if is_brought {
                self.put_taken(ace, sid_at, acl)
            } else {
                self.put_copies(ace, sid_at, acl)
            };
            if more > 0 && matches!(ace[0], 0x05 | 0x06 | 0x07) {
                acl[0] = 4;
            }
            count += more;
        }
        let size = acl.len();
        set_u16(acl, 2, size);
        set_u16(acl, 4, usize::from(count));
    }

    /// Makes the canonical layout of what is made under the descriptor of another.
    fn derive(&self, parent: &[u8], bytes: &mut [Vec<u8>; PARTS.len()], layout: &mut Vec<u8>) -> Result<(), Fault> {
        bytes[Part::Owner as usize].clone_from(&self.owner);
        bytes[Part::Group as usize].clone_from(&self.group);
        let mut control = SELF_RELATIVE;
        for (acl, present, protected, auto_inherited) in [
            (Part::Sacl, SACL_PRESENT, SACL_PROTECTED, SACL_AUTO_INHERITED),
            (Part::Dacl, DACL_PRESENT, DACL_PROTECTED, DACL_AUTO_INHERITED),
        ] {
            let brought = self.creator.as_deref().filter(|creator| u16_at(creator, CONTROL_AT) & present != 0);
            let protected = brought.map_or(0, |creator| u16_at(creator, CONTROL_AT) & protected);
            let list = brought.and_then(|creator| part_at(creator, acl));
            let made = &mut bytes[acl as usize];
            if brought.is_some() && list.is_none() {
                made.clear();
                control |= present | protected;
                continue;
            }
            self.derive_acl(list, part_at(parent, acl).filter(|_| protected == 0), made);
            if made.len() > MAX_ACL_SIZE {
                return Err(Fault::DerivedTooLarge(acl));
            }
            if brought.is_some() || matches!(acl, Part::Dacl) || made.len() > ACL_HEADER_SIZE {
                control |= present | if protected != 0 { protected } else { auto_inherited };
            } else {
                made.clear();
            }
        }
        join_parts(control, bytes, layout);
        Ok(())
    }
}

#[derive(Clone, Copy)]
enum Form {
    Hex,
    Base64,
    Sddl,
}

impl Form {
    fn of_word(word: &str) -> Option<Form> {
        match word {
            "hex" => Some(Form::Hex),
            "base64" => Some(Form::Base64),
            "sddl" => Some(Form::Sddl),
            _ => None,
        }
    }

    fn put(self, layout: &[u8], naming: &Naming, text: &mut Vec<u8>) {
        match self {
            Form::Hex => put_hex(layout, text),
            Form::Base64 => put_base64(layout, text),
            Form::Sddl => put_sddl(layout, naming, text),
        }
    }
}

enum Act {
    Convert(Form),
    Explain,
    Check(Ask),
    Derive(Plan, Form),
}

/// What is asked for, and the buffers that are used again for each line.
struct Converter {
    from: Form,
    act: Act,
    naming: Naming,
    bytes: Vec<u8>,
    parts: [Vec<u8>; PARTS.len()],
    layout: Vec<u8>,
    derived: Vec<u8>,
}

impl Converter {
    /// Appends the answer to one line, without its LF.
    fn answer(&mut self, line: &[u8], text: &mut Vec<u8>) -> Result<(), Fault> {
        if line.is_empty() {
            return Ok(());
        }
        match self.from {
            Form::Hex => {
                decode(line, &mut self.bytes)?;
                convert_descriptor(&self.bytes, &mut self.layout)?;
            }
            Form::Base64 => {
                decode_base64(line, &mut self.bytes)?;
                convert_descriptor(&self.bytes, &mut self.layout)?;
            }
            Form::Sddl => read_sddl(line, self.naming.domain.as_ref(), &mut self.parts, &mut self.layout)?,
        }
        match &self.act {
            Act::Convert(form) => form.put(&self.layout, &self.naming, text),
            Act::Explain => explain(&self.layout, &self.naming, text),
            Act::Check(ask) => ask.put_verdict(&self.layout, text),
            Act::Derive(plan, form) => {
                plan.derive(&self.layout, &mut self.parts, &mut self.derived)?;
                form.put(&self.derived, &self.naming, text);
            }
        }
        Ok(())
    }
}

/// Answers each line; true where none was faulty.
fn convert(mut converter: Converter, mut input: impl BufRead, mut output: impl Write) -> io::Result<bool> {
    let mut line = Vec::new();
    let mut text = Vec::new();
    let mut all_good = true;
    loop {
        line.clear();
        if input.read_until(b'\n', &mut line)? == 0 {
            break;
        }
        let mut content = &line[..];
        if let Some(ended) = content.strip_suffix(b"\n") {
            content = ended.strip_suffix(b"\r").unwrap_or(ended);
        }
        text.clear();
        if let Err(fault) = converter.answer(content, &mut text) {
            all_good = false;
            write!(text, "{fault}")?;
        }
        text.push(b'\n');
        output.write_all(&text)?;
    }
    output.flush()?;
    Ok(all_good)
}

/// The words after a command, each option with its value, and each flag with none.
struct Words(HashMap<String, String>);

impl Words {
    fn of(mut words: impl Iterator<Item = String>) -> Option<Words> {
        let mut values = HashMap::new();
        while let Some(word) = words.next() {
            let name = word.strip_prefix("--")?.to_owned();
            let is_flag = matches!(name.as_str(), "numeric" | "maximum");
            values.insert(name, if is_flag { String::new() } else { words.next()? });
        }
        Some(Words(values))
    }

    fn take_or(&mut self, name: &str, default: &str) -> String {
        self.0.remove(name).unwrap_or_else(|| default.to_owned())
    }

    fn take_sid(&mut self, name: &str, domain: Option<&Sid>) -> Option<Vec<u8>> {
        let mut bytes = Vec::new();
        let text = self.0.remove(name)?;
        sid_of_text(text.as_bytes(), domain).ok()?.put_bytes(&mut bytes);
        Some(bytes)
    }

    fn take_ask(&mut self, domain: Option<&Sid>) -> Option<Ask> {
        let mapping = mapping_of_word(&self.take_or("type", "file"))?;
        let token = self.0.remove("token")?;
        let want = rights_of_text(self.take_or("want", "0").as_bytes())?;
        Some(Ask {
            token: token.split(',').map(|text| entry_of_text(text, domain)).collect::<Option<_>>()?,
            wanted: mapped(want, &mapping) & !MAXIMUM_ALLOWED,
            maximum: self.0.remove("maximum").is_some() || want & MAXIMUM_ALLOWED != 0,
            mapping,
            level: match self.0.remove("level") {
                Some(text) => Some(text.parse().ok()?),
                None => None,
            },
        })
    }

    fn take_plan(&mut self, domain: Option<&Sid>) -> Option<Plan> {
        Some(Plan {
            mapping: mapping_of_word(&self.take_or("type", "file"))?,
            is_container: match self.0.remove("kind")?.as_str() {
                "file" => false,
                "container" => true,
                _ => return None,
            },
            owner: self.take_sid("owner", domain)?,
            group: self.take_sid("group", domain)?,
            creator: match self.0.remove("creator") {
                Some(text) => {
                    let mut layout = Vec::new();
                    read_sddl(text.as_bytes(), domain, &mut Default::default(), &mut layout).ok()?;
                    Some(layout)
                }
                None => None,
            },
        })
    }
}

/// What the words ask for; None where they are not understood.
fn converter_of(mut words: impl Iterator<Item = String>) -> Option<Converter> {
    let command = words.next()?;
    let mut words = Words::of(words)?;
    let domain = match words.0.remove("domain") {
        Some(text) => Some(sid_of_text(text.as_bytes(), None).ok()?),
        None => None,
    };
    let act = match command.as_str() {
        "convert" => Act::Convert(Form::of_word(&words.take_or("to", "sddl"))?),
        "explain" => Act::Explain,
        "check" => Act::Check(words.take_ask(domain.as_ref())?),
        "derive" => {
            let plan = words.take_plan(domain.as_ref())?;
            Act::Derive(plan, Form::of_word(&words.take_or("to", "sddl"))?)
        }
        _ => return None,
    };
    let converter = Converter {
        from: Form::of_word(&words.take_or("from", "hex"))?,
        act,
        naming: Naming {
            domain,
            numeric: words.0.remove("numeric").is_some(),
        },
        bytes: Vec::new(),
        parts: Default::default(),
        layout: Vec::new(),
        derived: Vec::new(),
    };
    words.0.is_empty().then_some(converter)
}

fn main() -> ExitCode {
    let Some(converter) = converter_of(env::args().skip(1)) else {
        eprintln!("baseline: the words are not understood");
        return ExitCode::from(2);
    };
    match convert(converter, io::stdin().lock(), BufWriter::new(io::stdout().lock())) {
        Ok(true) => ExitCode::SUCCESS,
        Ok(false) => ExitCode::from(1),
        Err(_) => ExitCode::from(3),
    }
}
