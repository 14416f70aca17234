//! The calls of the library with slices in place of pointers. No other file has unsafe code.
//!
//! Every call writes at most as many bytes as it is told that an output has, reads no more than the size beside each
//! pointer, and keeps no pointer.
#![allow(unsafe_code)]

use sdtool_sys as sys;
use std::mem;

pub(crate) use sys::sdtool_outcome as Outcome;

/// What a call gives, as bytes. A first size that is too small takes a second call.
fn answer(first: usize, call: impl Fn(*mut u8, usize) -> Outcome) -> Result<Vec<u8>, Outcome> {
    let mut size = first;
    loop {
        let mut output = Vec::with_capacity(size);
        let outcome = call(output.as_mut_ptr(), size);
        match outcome.fault {
            sys::SDTOOL_OK => {
                assert!(outcome.length <= size);
                // SAFETY: the call has written so many bytes.
                unsafe { output.set_len(outcome.length) };
                return Ok(output);
            }
            sys::SDTOOL_TOO_SMALL => size = outcome.length,
            _ => return Err(outcome),
        }
    }
}

fn text(first: usize, call: impl Fn(*mut u8, usize) -> Outcome) -> Result<String, Outcome> {
    answer(first, call).map(|bytes| String::from_utf8_lossy(&bytes).into_owned())
}

/// A struct of zeros, which each struct of the header may be: it has numbers, arrays of them, and pointers.
pub(crate) trait Zeros: Copy {
    fn zeros() -> Self;
}

macro_rules! zeros {
    ($($name:ident),*) => {
        $(impl Zeros for sys::$name {
            fn zeros() -> Self {
                // SAFETY: each member is a number, a pointer, or an array or a struct of these.
                unsafe { mem::zeroed() }
            }
        })*
    };
}

zeros!(sdtool_outcome, sdtool_verdict, sdtool_fault_place, sdtool_ace, sdtool_change, sdtool_reason, sdtool_origin);

/// A change of an edit, as the library reads it.
#[repr(transparent)]
#[derive(Clone, Copy)]
pub(crate) struct RawChange(pub(crate) sys::sdtool_change);

impl RawChange {
    /// The bytes of the struct, which has no padding.
    pub(crate) fn as_bytes(&self) -> &[u8] {
        // SAFETY: all of the struct's bytes are those of its members.
        unsafe { std::slice::from_raw_parts((self as *const Self).cast(), mem::size_of::<Self>()) }
    }
}

/// The fields of an ACE to build.
pub(crate) struct NewAce<'a> {
    pub(crate) kind: u8,
    pub(crate) flags: u8,
    pub(crate) mask: u32,
    pub(crate) sid: &'a [u8],
    pub(crate) object_type: &'a [u8],
    pub(crate) inherited_object_type: &'a [u8],
}

/// The parts of a descriptor to build. An ACL is its state and its ACEs.
pub(crate) struct NewDescriptor<'a> {
    pub(crate) owner: &'a [u8],
    pub(crate) group: &'a [u8],
    pub(crate) sacl: (u32, &'a [NewAce<'a>]),
    pub(crate) dacl: (u32, &'a [NewAce<'a>]),
    pub(crate) control: u16,
    pub(crate) resource_manager: u8,
}

/// What is asked of a check beside the rights that are wanted.
#[derive(Clone, Copy)]
pub(crate) struct Question<'a> {
    pub(crate) object: &'a [u8],
    pub(crate) principal_self: &'a [u8],
    pub(crate) request: &'a sys::sdtool_request,
}

/// What the descriptor of a new object is derived from.
pub(crate) struct Derivation<'a> {
    pub(crate) parent: &'a [u8],
    pub(crate) creator: &'a [u8],
    pub(crate) owner: &'a [u8],
    pub(crate) group: &'a [u8],
    pub(crate) kind: u32,
    pub(crate) mapping: u32,
}

/// The pointer and the size of each slice.
macro_rules! inputs {
    ($call:ident($($slice:expr),*; $($other:expr),*)) => {
        // SAFETY: each pointer is that of a slice, and beside it is the slice's length.
        unsafe { sys::$call($($slice.as_ptr(), $slice.len(),)* $($other),*) }
    };
}

pub(crate) fn version() -> String {
    let first = 32;
    // SAFETY: the output has that size, here and below.
    text(first, |out, size| unsafe { sys::sdtool_version(out, size) }).unwrap_or_default()
}

pub(crate) fn version_number() -> u32 {
    // SAFETY: it takes nothing.
    unsafe { sys::sdtool_version_number() }
}

pub(crate) fn fault_text(fault: u32) -> Result<String, Outcome> {
    let most = sys::SDTOOL_MOST_FAULT_TEXT as usize;
    text(most, |out, size| unsafe { sys::sdtool_fault_text(fault, out, size) })
}

pub(crate) fn describe(outcome: &Outcome, place: &sys::sdtool_fault_place) -> Result<String, Outcome> {
    let most = sys::SDTOOL_MOST_DESCRIPTION as usize;
    text(most, |out, size| unsafe { sys::sdtool_describe(outcome, place, out, size) })
}

pub(crate) fn normalize(descriptor: &[u8]) -> Result<Vec<u8>, Outcome> {
    let first = descriptor.len().min(sys::SDTOOL_MOST_BYTES as usize);
    answer(first, |out, size| inputs!(sdtool_normalize(descriptor; out, size)))
}

pub(crate) fn from_sddl(sddl: &[u8], domain: &[u8]) -> Result<Vec<u8>, Outcome> {
    let first = (64 + 4 * sddl.len()).min(sys::SDTOOL_MOST_BYTES as usize);
    answer(first, |out, size| inputs!(sdtool_from_sddl(sddl, domain; out, size)))
}

/// The size that suffices for the text of a descriptor.
fn text_size(descriptor: &[u8]) -> usize {
    let bytes = descriptor.len().min(sys::SDTOOL_MOST_BYTES as usize);
    let size = sys::SDTOOL_TEXT_SIZE_EACH as usize * bytes + sys::SDTOOL_TEXT_SIZE_FIRST as usize;
    size.min(sys::SDTOOL_MOST_TEXT as usize)
}

pub(crate) fn to_sddl(descriptor: &[u8], domain: &[u8], numeric: bool) -> Result<String, Outcome> {
    text(text_size(descriptor), |out, size| inputs!(sdtool_to_sddl(descriptor, domain; numeric, out, size)))
}

pub(crate) fn explain(descriptor: &[u8], domain: &[u8], numeric: bool) -> Result<String, Outcome> {
    text(text_size(descriptor), |out, size| inputs!(sdtool_explain(descriptor, domain; numeric, out, size)))
}

pub(crate) fn sid_from_text(given: &[u8], domain: &[u8]) -> Result<Vec<u8>, Outcome> {
    answer(sys::SDTOOL_MOST_SID as usize, |out, size| inputs!(sdtool_sid_from_text(given, domain; out, size)))
}

pub(crate) fn sid_to_text(sid: &[u8], domain: &[u8], numeric: bool) -> Result<String, Outcome> {
    let most = sys::SDTOOL_MOST_SID_TEXT as usize;
    text(most, |out, size| inputs!(sdtool_sid_to_text(sid, domain; numeric, out, size)))
}

pub(crate) fn sid_size(bytes: &[u8]) -> usize {
    inputs!(sdtool_sid_size(bytes;))
}

pub(crate) fn guid_from_text(given: &[u8]) -> Result<Vec<u8>, Outcome> {
    answer(16, |out, size| inputs!(sdtool_guid_from_text(given; out, size)))
}

pub(crate) fn guid_to_text(guid: &[u8]) -> Result<String, Outcome> {
    text(36, |out, size| inputs!(sdtool_guid_to_text(guid; out, size)))
}

pub(crate) fn rights_from_text(given: &[u8]) -> sys::sdtool_number {
    inputs!(sdtool_rights_from_text(given;))
}

pub(crate) fn rights_to_text(mask: u32, label: bool) -> Result<String, Outcome> {
    let most = sys::SDTOOL_MOST_ACE_TEXT as usize;
    text(most, |out, size| unsafe { sys::sdtool_rights_to_text(mask, label, out, size) })
}

pub(crate) fn flags_from_text(given: &[u8]) -> sys::sdtool_number {
    inputs!(sdtool_flags_from_text(given;))
}

pub(crate) fn flags_to_text(flags: u32) -> Result<String, Outcome> {
    let most = sys::SDTOOL_MOST_ACE_TEXT as usize;
    text(most, |out, size| unsafe { sys::sdtool_flags_to_text(flags, out, size) })
}

pub(crate) fn ace_from_text(given: &[u8], domain: &[u8]) -> Result<Vec<u8>, Outcome> {
    answer(sys::SDTOOL_MOST_ACE as usize, |out, size| inputs!(sdtool_ace_from_text(given, domain; out, size)))
}

pub(crate) fn ace_to_text(ace: &[u8], domain: &[u8], numeric: bool) -> Result<String, Outcome> {
    let most = sys::SDTOOL_MOST_ACE_TEXT as usize;
    text(most, |out, size| inputs!(sdtool_ace_to_text(ace, domain; numeric, out, size)))
}

pub(crate) fn ace_read(bytes: &[u8]) -> sys::sdtool_ace {
    inputs!(sdtool_ace_read(bytes;))
}

pub(crate) fn next_ace(acl: &[u8], ace: &mut sys::sdtool_ace) -> bool {
    inputs!(sdtool_next_ace(acl; ace))
}

pub(crate) fn parts(descriptor: &[u8]) -> sys::sdtool_contents {
    inputs!(sdtool_parts(descriptor;))
}

pub(crate) fn order(descriptor: &[u8]) -> sys::sdtool_acl_order {
    inputs!(sdtool_order(descriptor;))
}

pub(crate) fn place(descriptor: &[u8]) -> sys::sdtool_fault_place {
    inputs!(sdtool_place(descriptor;))
}

pub(crate) fn sddl_place(sddl: &[u8], domain: &[u8]) -> sys::sdtool_fault_place {
    inputs!(sdtool_sddl_place(sddl, domain;))
}

fn bytes_of(bytes: &[u8]) -> sys::sdtool_bytes {
    sys::sdtool_bytes { bytes: bytes.as_ptr(), size: bytes.len() }
}

fn new_aces(aces: &[NewAce]) -> Vec<sys::sdtool_new_ace> {
    aces.iter()
        .map(|ace| sys::sdtool_new_ace {
            sid: bytes_of(ace.sid),
            object_type: bytes_of(ace.object_type),
            inherited_object_type: bytes_of(ace.inherited_object_type),
            mask: ace.mask,
            kind: ace.kind,
            flags: ace.flags,
        })
        .collect()
}

pub(crate) fn build(new: &NewDescriptor) -> Result<Vec<u8>, Outcome> {
    let (sacl, dacl) = (new_aces(new.sacl.1), new_aces(new.dacl.1));
    let acl =
        |state, aces: &[sys::sdtool_new_ace]| sys::sdtool_new_acl { aces: aces.as_ptr(), ace_count: aces.len(), state };
    let asked = sys::sdtool_new_descriptor {
        owner: bytes_of(new.owner),
        group: bytes_of(new.group),
        sacl: acl(new.sacl.0, &sacl),
        dacl: acl(new.dacl.0, &dacl),
        control: new.control,
        resource_manager: new.resource_manager,
    };
    // SAFETY: what the struct points to lives until the call has returned.
    answer(1024, |out, size| unsafe { sys::sdtool_build(&asked, out, size) })
}

/// The edited descriptor, and how many ACEs each change has touched.
pub(crate) fn edit(descriptor: &[u8], changes: &[RawChange]) -> Result<(Vec<u8>, Vec<u32>), Outcome> {
    let touched = vec![0_u32; changes.len()];
    let counts = std::cell::RefCell::new(touched);
    let given = changes.as_ptr().cast::<sys::sdtool_change>();
    let made = answer(descriptor.len() + 1024, |out, size| {
        let mut counts = counts.borrow_mut();
        // SAFETY: a RawChange is nothing but the struct, and there is a count for each.
        inputs!(sdtool_edit(descriptor; given, changes.len(), counts.as_mut_ptr(), counts.len(), out, size))
    })?;
    Ok((made, counts.into_inner()))
}

/// The numbers that the library has read a token into.
pub(crate) fn token_read(sids: &[u8], entries: &[u8]) -> Result<Vec<u32>, Outcome> {
    let words = sys::SDTOOL_TOKEN_WORDS_EACH as usize * entries.len().min(sys::SDTOOL_MOST_SIDS as usize);
    let mut token = vec![0_u32; sys::SDTOOL_TOKEN_WORDS_FIRST as usize + words];
    let (room, words) = (token.as_mut_ptr(), token.len());
    let outcome = inputs!(sdtool_token_read(sids; entries.as_ptr(), entries.len(), room, words));
    match outcome.fault {
        sys::SDTOOL_OK => Ok(token),
        _ => Err(outcome),
    }
}

#[inline]
pub(crate) fn check_with(descriptor: &[u8], token: &[u32], asked: Question) -> sys::sdtool_verdict {
    inputs!(sdtool_check_with(descriptor, token, asked.object, asked.principal_self; asked.request))
}

pub(crate) fn check_many(
    descriptors: &[&[u8]],
    (sids, entries): (&[u8], &[u8]),
    asked: Question,
) -> Result<Vec<sys::sdtool_verdict>, Outcome> {
    let given: Vec<_> = descriptors.iter().copied().map(bytes_of).collect();
    let (descriptors, count) = (given.as_ptr(), given.len());
    verdicts(count, |room| {
        // SAFETY: each pointer is that of a slice that lives until the call has returned, and beside it is its length.
        unsafe {
            sys::sdtool_check_many(
                descriptors,
                count,
                sids.as_ptr(),
                sids.len(),
                entries.as_ptr(),
                entries.len(),
                asked.object.as_ptr(),
                asked.object.len(),
                asked.principal_self.as_ptr(),
                asked.principal_self.len(),
                asked.request,
                room.as_mut_ptr(),
                room.len(),
            )
        }
    })
}

pub(crate) fn check_column(
    (data, offsets): Rows,
    (sids, entries): (&[u8], &[u8]),
    asked: Question,
) -> Result<Vec<sys::sdtool_verdict>, Outcome> {
    let check = sys::sdtool_large_column_check {
        descriptors: column_of(data, offsets),
        sids: bytes_of(sids),
        entries: bytes_of(entries),
        object: bytes_of(asked.object),
        principal_self: bytes_of(asked.principal_self),
        request: *asked.request,
    };
    verdicts(offsets.len().saturating_sub(1), |room| {
        // SAFETY: as in check_many.
        unsafe { sys::sdtool_check_column_large(&check, room.as_mut_ptr(), room.len()) }
    })
}

fn verdicts(
    count: usize,
    call: impl FnOnce(&mut [sys::sdtool_verdict]) -> Outcome,
) -> Result<Vec<sys::sdtool_verdict>, Outcome> {
    let mut verdicts = vec![sys::sdtool_verdict::zeros(); count];
    let outcome = call(&mut verdicts);
    match outcome.fault {
        sys::SDTOOL_OK => Ok(verdicts),
        _ => Err(outcome),
    }
}

/// The bytes and the offsets of a column.
pub(crate) type Rows<'a> = (&'a [u8], &'a [u64]);

fn column_of(data: &[u8], offsets: &[u64]) -> sys::sdtool_large_column {
    sys::sdtool_large_column { data: bytes_of(data), offsets: offsets.as_ptr(), offset_count: offsets.len() }
}

/// The answers to the rows of a column, their offsets, and what the library says of each row.
pub(crate) type Answers = (Vec<u8>, Vec<u64>, Vec<Outcome>);

/// Where a call writes its answers: they begin at a place of the bytes.
struct Room<'a> {
    begin: usize,
    answers: &'a mut [u8],
    ends: &'a mut [u64],
    outcomes: &'a mut [Outcome],
}

/// The answers of a call that is asked about the rows from an offset on. It goes on where there was too little room.
fn answers(
    (data, offsets): Rows,
    call: impl Fn(sys::sdtool_large_column, Room) -> Outcome,
) -> Result<Answers, Outcome> {
    let mut answers = vec![0; data.len() + 1024];
    let mut ends = vec![0_u64; offsets.len()];
    let mut outcomes = vec![Outcome::zeros(); offsets.len().saturating_sub(1)];
    let (mut row, mut begin) = (0, 0);
    loop {
        let room = Room { begin, answers: &mut answers, ends: &mut ends[row..], outcomes: &mut outcomes[row..] };
        let outcome = call(column_of(data, &offsets[row..]), room);
        match outcome.fault {
            sys::SDTOOL_OK => {
                answers.truncate(outcome.length);
                return Ok((answers, ends, outcomes));
            }
            sys::SDTOOL_TOO_SMALL => {
                row += outcome.entry;
                begin = ends[row] as usize;
                answers.resize((begin + outcome.length).max(2 * answers.len()), 0);
            }
            _ => return Err(outcome),
        }
    }
}

pub(crate) fn convert_many((kind, options): (u32, u32), domain: &[u8], rows: Rows) -> Result<Answers, Outcome> {
    answers(rows, |column, room| {
        let sys::sdtool_large_column { data, offsets, offset_count } = column;
        let (domain, begin) = (bytes_of(domain), room.begin);
        let asked = sys::sdtool_large_conversion { data, offsets, offset_count, domain, begin, kind, options };
        // SAFETY: each pointer is that of a slice that lives until the call has returned, and beside it is its length.
        unsafe {
            sys::sdtool_convert_many_large(
                &asked,
                room.answers.as_mut_ptr(),
                room.answers.len(),
                room.ends.as_mut_ptr(),
                room.ends.len(),
                room.outcomes.as_mut_ptr(),
                room.outcomes.len(),
            )
        }
    })
}

/// The parent of the derivation is not looked at: each row is one.
pub(crate) fn derive_many(given: &Derivation, rows: Rows) -> Result<Answers, Outcome> {
    let (creator, owner, group) = (bytes_of(given.creator), bytes_of(given.owner), bytes_of(given.group));
    let creation = sys::sdtool_creation { creator, owner, group, kind: given.kind, mapping: given.mapping };
    answers(rows, |parents, room| {
        let asked = sys::sdtool_large_derivation { parents, creation, begin: room.begin };
        // SAFETY: as in convert_many.
        unsafe {
            sys::sdtool_derive_many_large(
                &asked,
                room.answers.as_mut_ptr(),
                room.answers.len(),
                room.ends.as_mut_ptr(),
                room.ends.len(),
                room.outcomes.as_mut_ptr(),
                room.outcomes.len(),
            )
        }
    })
}

pub(crate) const RIGHTS: usize = sys::SDTOOL_RIGHTS as usize;

pub(crate) fn reasons_with(
    descriptor: &[u8],
    token: &[u32],
    asked: Question,
) -> Result<[sys::sdtool_reason; RIGHTS], Outcome> {
    let mut reasons = [sys::sdtool_reason::zeros(); RIGHTS];
    let (asker, room) = (&asked.request.asker, reasons.as_mut_ptr());
    let outcome = inputs!(sdtool_reasons_with(descriptor, token, asked.object, asked.principal_self; asker, room));
    match outcome.fault {
        sys::SDTOOL_OK => Ok(reasons),
        _ => Err(outcome),
    }
}

pub(crate) fn derive(given: &Derivation) -> Result<Vec<u8>, Outcome> {
    let Derivation { parent, creator, owner, group, kind, mapping } = *given;
    answer(
        parent.len() + creator.len() + 1024,
        |out, size| inputs!(sdtool_derive(parent, creator, owner, group; kind, mapping, out, size)),
    )
}

/// The origins of the ACEs of the SACL and of the DACL.
pub(crate) type Origins = (Vec<sys::sdtool_origin>, Vec<sys::sdtool_origin>);

pub(crate) fn derive_origins(given: &Derivation) -> Result<Origins, Outcome> {
    let Derivation { parent, creator, owner, group, kind, mapping } = *given;
    let most = sys::SDTOOL_MOST_DERIVED_ACES as usize;
    let mut sacl = vec![sys::sdtool_origin::zeros(); most];
    let mut dacl = sacl.clone();
    let (of_sacl, of_dacl) = (sacl.as_mut_ptr(), dacl.as_mut_ptr());
    let told = inputs!(
        sdtool_derive_origins(parent, creator, owner, group; kind, mapping, of_sacl, most, of_dacl, most)
    );
    if told.outcome.fault != sys::SDTOOL_OK {
        return Err(told.outcome);
    }
    sacl.truncate(told.sacl_count);
    dacl.truncate(told.dacl_count);
    Ok((sacl, dacl))
}

/// The status, the output and the message of a run.
pub(crate) fn run(words: &[u8], input: &[u8]) -> (u32, Vec<u8>, Vec<u8>) {
    let most = sys::SDTOOL_MOST_MESSAGE as usize;
    let mut size = 4096 + 4 * input.len();
    loop {
        let (mut output, mut message) = (Vec::with_capacity(size), Vec::with_capacity(most));
        let (out, said) = (output.as_mut_ptr(), message.as_mut_ptr());
        let ending = inputs!(sdtool_run(words, input; out, size, said, most));
        // Help that was cut ends with status 0.
        let is_cut = ending.status == sys::SDTOOL_STATUS_STOPPED || ending.length >= size;
        if is_cut && ending.status != sys::SDTOOL_STATUS_NO_MEMORY {
            size *= 4;
            continue;
        }
        assert!(ending.length <= size && ending.message_length <= most);
        // SAFETY: the call has written so many bytes.
        unsafe {
            output.set_len(ending.length);
            message.set_len(ending.message_length);
        }
        return (ending.status, output, message);
    }
}
