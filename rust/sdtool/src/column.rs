use crate::calls;
use crate::descriptor::Creation;
use crate::fault::Fault;
use crate::sid::Sid;
use sdtool_sys as sys;

/// What the rows of a column are converted to.
#[derive(Clone, Copy, Debug, PartialEq, Eq, Hash)]
#[non_exhaustive]
pub enum Conversion {
    /// Descriptors to SDDL, without aliases if it is numeric.
    ToSddl { numeric: bool },
    /// SDDL to descriptors in their canonical layout.
    FromSddl,
    /// Descriptors to their canonical layout.
    Normalize,
}

/// A column of answers, with offsets of 64 bits as Arrow has it.
#[derive(Clone, Debug, PartialEq, Eq)]
pub struct Converted {
    pub data: Vec<u8>,
    /// One more than there are rows. A row is the bytes from its offset up to the next one.
    pub offsets: Vec<u64>,
    /// The rows that have no answer, and why. Their bytes are empty.
    pub faults: Vec<(usize, Fault)>,
}

/// Converts each row of a column of bytes or texts by itself. Row `I` is the bytes of `data` from `offsets[I]` up to
/// `offsets[I + 1]`.
///
/// Nulls are rows like others, so keep them beside the answers: from SDDL an empty row gives a descriptor that grants
/// everything.
///
/// ```
/// use sdtool::{convert_column, Conversion};
/// let found = convert_column(Conversion::FromSddl, None, b"O:BAO:X:", &[0, 4, 8])?;
/// assert_eq!(found.offsets, [0, 36, 36]);
/// assert_eq!(found.faults[0].0, 1);
/// # Ok::<(), sdtool::Fault>(())
/// ```
pub fn convert_column(
    conversion: Conversion,
    domain: Option<&Sid>,
    data: &[u8],
    offsets: &[u64],
) -> Result<Converted, Fault> {
    let (kind, options) = match conversion {
        Conversion::ToSddl { numeric: false } => (sys::SDTOOL_CONVERT_TO_SDDL, 0),
        Conversion::ToSddl { numeric: true } => (sys::SDTOOL_CONVERT_TO_SDDL, sys::SDTOOL_NUMERIC),
        Conversion::FromSddl => (sys::SDTOOL_CONVERT_FROM_SDDL, 0),
        Conversion::Normalize => (sys::SDTOOL_CONVERT_NORMALIZE, 0),
    };
    let of = domain.map_or(&[][..], Sid::as_bytes);
    let rows = (data, offsets);
    let answers = calls::convert_many((kind, options), of, rows).map_err(Fault::of)?;
    Ok(converted(answers, rows, |outcome, given| match conversion {
        Conversion::FromSddl => Fault::of_sddl(outcome, given, of),
        _ => Fault::of_bytes(outcome, given),
    }))
}

/// The descriptor of a new object for each row of a column of parents, as by
/// [`derive`](crate::SecurityDescriptor::derive).
pub fn derive_column(made: &Creation, data: &[u8], offsets: &[u64]) -> Result<Converted, Fault> {
    let answers = calls::derive_many(&made.derivation(), (data, offsets)).map_err(Fault::of)?;
    Ok(converted(answers, (data, offsets), Fault::of_bytes))
}

fn converted(
    (made, ends, outcomes): calls::Answers,
    rows: calls::Rows,
    of: impl Fn(calls::Outcome, &[u8]) -> Fault,
) -> Converted {
    let fault = |(row, &outcome): (usize, &calls::Outcome)| fault_of(outcome, rows, row, &of).map(|fault| (row, fault));
    let faults = outcomes.iter().enumerate().filter_map(fault).collect();
    Converted { data: made, offsets: ends, faults }
}

/// The fault of a row, if it has one.
pub(crate) fn fault_of(
    outcome: calls::Outcome,
    (data, offsets): calls::Rows,
    row: usize,
    of: impl Fn(calls::Outcome, &[u8]) -> Fault,
) -> Option<Fault> {
    match outcome.fault {
        sys::SDTOOL_OK => None,
        sys::SDTOOL_ARGUMENT => Some(Fault::of(outcome)),
        _ => Some(of(outcome, &data[offsets[row] as usize..offsets[row + 1] as usize])),
    }
}
