use crate::calls::{self, NewAce, NewDescriptor, Zeros};
use crate::fault::Fault;
use crate::sid::{bytes_of, Guid, Sid};
use sdtool_sys as sys;
use std::fmt;
use std::str::FromStr;

/// An entry of an ACL.
///
/// ```
/// use sdtool::{rights_from_text, Ace};
///
/// let ace = Ace::new(Ace::ALLOW, 0x3, rights_from_text("FR")?, "BU".parse()?)?;
/// assert_eq!(ace.to_string(), "(A;OICI;FR;;;BU)");
/// assert_eq!("(A;OICI;0x120089;;;S-1-5-32-545)".parse::<Ace>()?, ace);
/// # Ok::<(), sdtool::Fault>(())
/// ```
#[derive(Clone, Copy, Debug, PartialEq, Eq, Hash)]
pub struct Ace {
    kind: u8,
    flags: u8,
    mask: u32,
    sid: Sid,
    object_type: Option<Guid>,
    inherited_object_type: Option<Guid>,
}

impl Ace {
    /// The type `A` of SDDL.
    pub const ALLOW: u8 = 0;
    /// `D`.
    pub const DENY: u8 = 1;
    /// `AU`.
    pub const AUDIT: u8 = 2;
    /// `OA`. This one and the next two may have object types.
    pub const OBJECT_ALLOW: u8 = 5;
    /// `OD`.
    pub const OBJECT_DENY: u8 = 6;
    /// `OU`.
    pub const OBJECT_AUDIT: u8 = 7;
    /// `ML`, a mandatory label.
    pub const LABEL: u8 = 0x11;

    /// An ACE without object types.
    pub fn new(kind: u8, flags: u8, mask: u32, sid: Sid) -> Result<Ace, Fault> {
        Ace::with_types(kind, flags, mask, sid, None, None)
    }

    pub fn with_types(
        kind: u8,
        flags: u8,
        mask: u32,
        sid: Sid,
        object_type: Option<Guid>,
        inherited_object_type: Option<Guid>,
    ) -> Result<Ace, Fault> {
        let ace = Ace { kind, flags, mask, sid, object_type, inherited_object_type };
        alone(&ace).map(|_| ace)
    }

    /// The ACE of a text in parentheses, with aliases of a domain, if one is given.
    pub fn parse(text: &str, domain: Option<&Sid>) -> Result<Ace, Fault> {
        let of = bytes_of(domain);
        let bytes =
            calls::ace_from_text(text.as_bytes(), of).map_err(|outcome| Fault::of_ace(outcome, text.as_bytes(), of))?;
        Ok(Ace::found(&bytes, &calls::ace_read(&bytes)))
    }

    /// Its text in SDDL.
    pub fn to_sddl(&self, domain: Option<&Sid>, numeric: bool) -> Result<String, Fault> {
        calls::ace_to_text(&alone(self)?, bytes_of(domain), numeric).map_err(Fault::of)
    }

    /// The ACE that the library has found in some bytes.
    pub(crate) fn found(bytes: &[u8], ace: &sys::sdtool_ace) -> Ace {
        Ace {
            kind: ace.kind,
            flags: ace.flags,
            mask: ace.mask,
            sid: Sid::found(at(bytes, ace.sid)),
            object_type: Guid::found(at(bytes, ace.object_type)),
            inherited_object_type: Guid::found(at(bytes, ace.inherited_object_type)),
        }
    }

    pub(crate) fn fields(&self) -> NewAce<'_> {
        NewAce {
            kind: self.kind,
            flags: self.flags,
            mask: self.mask,
            sid: self.sid.as_bytes(),
            object_type: self.object_type.as_ref().map_or(&[], |guid| &guid.0),
            inherited_object_type: self.inherited_object_type.as_ref().map_or(&[], |guid| &guid.0),
        }
    }

    pub fn kind(&self) -> u8 {
        self.kind
    }

    pub fn flags(&self) -> u8 {
        self.flags
    }

    pub fn mask(&self) -> u32 {
        self.mask
    }

    pub fn sid(&self) -> &Sid {
        &self.sid
    }

    pub fn object_type(&self) -> Option<Guid> {
        self.object_type
    }

    pub fn inherited_object_type(&self) -> Option<Guid> {
        self.inherited_object_type
    }
}

/// The bytes at a place.
pub(crate) fn at(bytes: &[u8], place: sys::sdtool_place) -> &[u8] {
    &bytes[place.offset..place.offset + place.size]
}

/// The bytes of an ACE, which is refused if it can't be.
fn alone(ace: &Ace) -> Result<Vec<u8>, Fault> {
    let aces = [ace.fields()];
    let built = calls::build(&NewDescriptor {
        owner: &[],
        group: &[],
        sacl: (sys::SDTOOL_ACL_ABSENT, &[]),
        dacl: (sys::SDTOOL_ACL_LIST, &aces),
        control: 0,
        resource_manager: 0,
    })
    .map_err(Fault::of)?;
    let acl = at(&built, calls::parts(&built).dacl.place);
    let mut found = sys::sdtool_ace::zeros();
    calls::next_ace(acl, &mut found);
    Ok(at(acl, found.place).to_vec())
}

impl FromStr for Ace {
    type Err = Fault;

    fn from_str(text: &str) -> Result<Ace, Fault> {
        Ace::parse(text, None)
    }
}

impl fmt::Display for Ace {
    fn fmt(&self, f: &mut fmt::Formatter) -> fmt::Result {
        f.pad(&self.to_sddl(None, false).map_err(|_| fmt::Error)?)
    }
}

/// An ACL of a descriptor. A DACL that is absent or null grants everything, and an empty list nothing.
#[derive(Clone, Debug, PartialEq, Eq, Hash)]
pub enum Acl {
    Absent,
    Null,
    List(Vec<Ace>),
}

impl Acl {
    /// The ACEs of a list.
    pub fn aces(&self) -> Option<&[Ace]> {
        match self {
            Acl::List(aces) => Some(aces),
            _ => None,
        }
    }

    pub(crate) fn state(&self) -> u32 {
        match self {
            Acl::Absent => sys::SDTOOL_ACL_ABSENT,
            Acl::Null => sys::SDTOOL_ACL_NULL,
            Acl::List(_) => sys::SDTOOL_ACL_LIST,
        }
    }

    pub(crate) fn fields(&self) -> Vec<NewAce<'_>> {
        self.aces().unwrap_or_default().iter().map(Ace::fields).collect()
    }

    /// The ACL at a place of a descriptor.
    pub(crate) fn found(descriptor: &[u8], acl: &sys::sdtool_acl_place) -> Acl {
        match acl.state {
            sys::SDTOOL_ACL_ABSENT => Acl::Absent,
            sys::SDTOOL_ACL_NULL => Acl::Null,
            _ => {
                let bytes = at(descriptor, acl.place);
                let mut aces = Vec::with_capacity(acl.ace_count as usize);
                let mut ace = sys::sdtool_ace::zeros();
                while calls::next_ace(bytes, &mut ace) {
                    aces.push(Ace::found(bytes, &ace));
                }
                assert!(ace.fault == sys::SDTOOL_OK && aces.len() == acl.ace_count as usize);
                Acl::List(aces)
            }
        }
    }
}

/// The access mask that rights mean in SDDL, such as `FRWD` or `0x1f01ff`.
pub fn rights_from_text(text: &str) -> Result<u32, Fault> {
    number_of(calls::rights_from_text(text.as_bytes()))
}

/// The rights of an ACE in SDDL: those of a mandatory label, or those of any other ACE.
pub fn rights_to_text(mask: u32, label: bool) -> String {
    calls::rights_to_text(mask, label).unwrap_or_default()
}

/// The flags of an ACE that a text means in SDDL, such as `OICI`.
pub fn flags_from_text(text: &str) -> Result<u8, Fault> {
    number_of(calls::flags_from_text(text.as_bytes())).map(|flags| flags as u8)
}

/// The flags of an ACE in SDDL. 0x20 is no flag.
pub fn flags_to_text(flags: u8) -> Result<String, Fault> {
    calls::flags_to_text(flags.into()).map_err(Fault::of)
}

fn number_of(found: sys::sdtool_number) -> Result<u32, Fault> {
    match found.outcome.fault {
        sys::SDTOOL_OK => Ok(found.number),
        _ => Err(Fault::of(found.outcome)),
    }
}
