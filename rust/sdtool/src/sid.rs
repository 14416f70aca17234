use crate::calls;
use crate::fault::Fault;
use sdtool_sys as sys;
use std::fmt;
use std::str::FromStr;

const MOST_SID: usize = sys::SDTOOL_MOST_SID as usize;

/// A SID.
///
/// ```
/// use sdtool::Sid;
///
/// let admins: Sid = "BA".parse()?;
/// assert_eq!(admins.to_string(), "S-1-5-32-544");
/// assert_eq!(admins.alias(None).as_deref(), Some("BA"));
/// assert_eq!(Sid::parse("DA", Some(&"S-1-5-21-1-2-3".parse()?))?.to_string(), "S-1-5-21-1-2-3-512");
/// # Ok::<(), sdtool::Fault>(())
/// ```
#[derive(Clone, Copy, PartialEq, Eq, PartialOrd, Ord, Hash)]
pub struct Sid {
    bytes: [u8; MOST_SID],
    size: usize,
}

impl Sid {
    /// The SID of bytes that are one SID.
    pub fn from_bytes(bytes: &[u8]) -> Result<Sid, Fault> {
        if bytes.is_empty() || calls::sid_size(bytes) != bytes.len() {
            return Err(Fault::of_argument(sys::SDTOOL_ARGUMENT_SID, 0));
        }
        Ok(Sid::found(bytes))
    }

    /// The SID of bytes in which the library has found one.
    pub(crate) fn found(bytes: &[u8]) -> Sid {
        let mut sid = Sid { bytes: [0; MOST_SID], size: bytes.len() };
        sid.bytes[..bytes.len()].copy_from_slice(bytes);
        sid
    }

    /// The SID of a text: an alias such as `BA`, one of a domain such as `DA`, or `S-1-` and numbers.
    pub fn parse(text: &str, domain: Option<&Sid>) -> Result<Sid, Fault> {
        calls::sid_from_text(text.as_bytes(), bytes_of(domain)).map(|bytes| Sid::found(&bytes)).map_err(Fault::of)
    }

    /// Its binary form.
    pub fn as_bytes(&self) -> &[u8] {
        &self.bytes[..self.size]
    }

    /// The two letters that SDDL has for it, also of a domain, if one is given.
    pub fn alias(&self, domain: Option<&Sid>) -> Option<String> {
        let text = calls::sid_to_text(self.as_bytes(), bytes_of(domain), false).ok()?;
        (text != self.to_string()).then_some(text)
    }
}

/// The bytes of a SID, or none.
pub(crate) fn bytes_of(sid: Option<&Sid>) -> &[u8] {
    sid.map_or(&[], Sid::as_bytes)
}

impl FromStr for Sid {
    type Err = Fault;

    fn from_str(text: &str) -> Result<Sid, Fault> {
        Sid::parse(text, None)
    }
}

impl TryFrom<&[u8]> for Sid {
    type Error = Fault;

    fn try_from(bytes: &[u8]) -> Result<Sid, Fault> {
        Sid::from_bytes(bytes)
    }
}

impl AsRef<[u8]> for Sid {
    fn as_ref(&self) -> &[u8] {
        self.as_bytes()
    }
}

impl fmt::Display for Sid {
    fn fmt(&self, f: &mut fmt::Formatter) -> fmt::Result {
        f.pad(&calls::sid_to_text(self.as_bytes(), &[], true).map_err(|_| fmt::Error)?)
    }
}

impl fmt::Debug for Sid {
    fn fmt(&self, f: &mut fmt::Formatter) -> fmt::Result {
        write!(f, "Sid({self})")
    }
}

/// A GUID, in the order of the bytes in an ACE.
#[derive(Clone, Copy, PartialEq, Eq, PartialOrd, Ord, Hash)]
pub struct Guid(pub [u8; 16]);

impl Guid {
    /// The GUID at a place where the library has found one.
    pub(crate) fn found(bytes: &[u8]) -> Option<Guid> {
        bytes.try_into().ok().map(Guid)
    }
}

impl FromStr for Guid {
    type Err = Fault;

    fn from_str(text: &str) -> Result<Guid, Fault> {
        let bytes = calls::guid_from_text(text.as_bytes()).map_err(Fault::of)?;
        Guid::found(&bytes).ok_or_else(|| Fault::of_argument(sys::SDTOOL_ARGUMENT_GUID, 0))
    }
}

impl fmt::Display for Guid {
    fn fmt(&self, f: &mut fmt::Formatter) -> fmt::Result {
        f.pad(&calls::guid_to_text(&self.0).map_err(|_| fmt::Error)?)
    }
}

impl fmt::Debug for Guid {
    fn fmt(&self, f: &mut fmt::Formatter) -> fmt::Result {
        write!(f, "Guid({self})")
    }
}
