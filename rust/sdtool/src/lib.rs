//! Windows security descriptors (MS-DTYP 2.4.6) and SDDL (MS-DTYP 2.5.1): reading, writing, changing, access checks and
//! inheritance.
//!
//! Each answer comes from `libsdtool`, whose calls are proved; this crate moves bytes to it and back. No value changes.
//! What has no answer is a [`Fault`], which means unknown: treat it as denied.
#![deny(unsafe_code)]
#![warn(missing_debug_implementations)]

mod ace;
mod calls;
mod change;
mod column;
mod descriptor;
mod fault;
#[cfg(feature = "serde")]
mod serde;
mod sid;
mod token;

pub use ace::{flags_from_text, flags_to_text, rights_from_text, rights_to_text, Ace, Acl};
pub use change::{AclState, Change, Edited, Match, PutAt, Setting, Which};
pub use column::{convert_column, derive_column, Conversion, Converted};
pub use descriptor::{Creation, Kind, Order, Origin, Origins, Parts, SecurityDescriptor};
pub use fault::{Fault, Field, Part, Place};
pub use sdtool_sys as sys;
pub use sid::{Guid, Sid};
pub use token::{Checker, Mapping, Reason, ReasonKind, Request, Token, Verdict};

/// The version of the library.
pub fn version() -> String {
    calls::version()
}

/// The same as a number: 10000 times the first part, 100 times the second, and the third.
pub fn version_number() -> u32 {
    calls::version_number()
}

/// How a run of the program ends.
#[derive(Clone, Debug, PartialEq, Eq, Hash)]
pub struct Ending {
    /// One of the numbers `SDTOOL_STATUS_..` of [`sys`].
    pub status: u32,
    /// What the program prints to standard output.
    pub output: Vec<u8>,
    /// What it prints to standard error.
    pub message: String,
}

/// Runs the program on an input: one descriptor a line, one answer a line. `words` are those of its command line.
pub fn run(words: &[&str], input: &[u8]) -> Ending {
    let mut spelled = Vec::new();
    for word in words {
        // A word with a NUL would be two. It becomes one that is no text, and the program refuses it.
        spelled.extend_from_slice(if word.contains('\0') { &[0xff] } else { word.as_bytes() });
        spelled.push(0);
    }
    let (status, output, message) = calls::run(&spelled, input);
    Ending { status, output, message: String::from_utf8_lossy(&message).into_owned() }
}
