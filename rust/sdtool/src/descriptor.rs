use crate::ace::{at, Acl};
use crate::calls::{self, NewDescriptor};
use crate::change::{Change, Edited};
use crate::fault::Fault;
use crate::sid::{bytes_of, Sid};
use crate::token::{Checker, Mapping, Reason, Request, Token, Verdict};
use sdtool_sys as sys;
use std::fmt;
use std::str::FromStr;
use std::sync::Arc;

/// A security descriptor. Two are equal exactly if their content is.
///
/// ```
/// use sdtool::{Request, SecurityDescriptor, Token};
///
/// let users: SecurityDescriptor = "O:BAD:(A;OICI;FR;;;BU)".parse()?;
/// assert_eq!(users.owner(), Some("BA".parse()?));
/// let token = Token::new(&["WD".parse()?, "BU".parse()?], &[])?;
/// assert!(users.check(&token, &Request::new(0x120089))?.granted);
/// assert!(!users.check(&token, &Request::new(0x2))?.granted);
/// # Ok::<(), sdtool::Fault>(())
/// ```
///
/// The empty text of SDDL is a descriptor without parts. One whose DACL is absent or null grants everything, so a caller
/// that has no use for those has to ask for the DACL.
#[derive(Clone, PartialEq, Eq, Hash)]
pub struct SecurityDescriptor {
    layout: Arc<[u8]>,
}

/// What a descriptor is made of.
#[derive(Clone, Debug, PartialEq, Eq, Hash)]
pub struct Parts {
    pub owner: Option<Sid>,
    pub group: Option<Sid>,
    pub dacl: Acl,
    pub sacl: Acl,
    /// The bits 0x8000, 0x10 and 0x4 follow from the parts, whatever they are here.
    pub control: u16,
    pub resource_manager: u8,
}

impl Default for Parts {
    fn default() -> Parts {
        Parts { owner: None, group: None, dacl: Acl::Absent, sacl: Acl::Absent, control: 0, resource_manager: 0 }
    }
}

/// Where the order of the ACLs ends: the place of the first ACE whose rank is below that of the one before.
#[derive(Clone, Copy, Debug, PartialEq, Eq, Hash)]
pub struct Order {
    pub sacl: Option<u32>,
    pub dacl: Option<u32>,
}

/// What is made in a folder.
#[derive(Clone, Copy, Debug, PartialEq, Eq, Hash)]
pub enum Kind {
    File,
    Container,
}

/// Who makes a new object, and what it is.
#[derive(Clone, Debug, PartialEq, Eq, Hash)]
pub struct Creation {
    pub owner: Sid,
    pub group: Sid,
    pub kind: Kind,
    /// The descriptor that the creator brings.
    pub creator: Option<SecurityDescriptor>,
    pub mapping: Mapping,
}

impl Creation {
    /// Without a creator's descriptor, and with the rights of files.
    pub fn new(owner: Sid, group: Sid, kind: Kind) -> Creation {
        Creation { owner, group, kind, creator: None, mapping: Mapping::File }
    }

    /// What the library gets of it, without a parent.
    pub(crate) fn derivation(&self) -> calls::Derivation<'_> {
        calls::Derivation {
            parent: &[],
            creator: self.creator.as_ref().map_or(&[], |creator| &creator.layout),
            owner: self.owner.as_bytes(),
            group: self.group.as_bytes(),
            kind: match self.kind {
                Kind::File => sys::SDTOOL_KIND_FILE,
                Kind::Container => sys::SDTOOL_KIND_CONTAINER,
            },
            mapping: self.mapping.number(),
        }
    }
}

/// Where an ACE of a derived descriptor comes from.
#[derive(Clone, Copy, Debug, PartialEq, Eq, Hash)]
pub struct Origin {
    /// The place of the ACE that it was made of, in the ACL of the creator or of the folder.
    pub place: u16,
    pub from_creator: bool,
    /// Whether it is the copy for what is made in the new object.
    pub inherit_only: bool,
}

/// The origins of the ACEs of a derived descriptor, in their order.
#[derive(Clone, Debug, PartialEq, Eq, Hash)]
pub struct Origins {
    pub sacl: Vec<Origin>,
    pub dacl: Vec<Origin>,
}

impl SecurityDescriptor {
    /// The descriptor of bytes, in whatever layout.
    pub fn from_bytes(bytes: &[u8]) -> Result<SecurityDescriptor, Fault> {
        calls::normalize(bytes).map(SecurityDescriptor::laid_out).map_err(|told| Fault::of_bytes(told, bytes))
    }

    /// The descriptor of a text, with aliases of a domain, if one is given.
    pub fn from_sddl(text: &str, domain: Option<&Sid>) -> Result<SecurityDescriptor, Fault> {
        let (text, of) = (text.as_bytes(), bytes_of(domain));
        calls::from_sddl(text, of).map(SecurityDescriptor::laid_out).map_err(|told| Fault::of_sddl(told, text, of))
    }

    /// The descriptor of parts.
    pub fn build(parts: &Parts) -> Result<SecurityDescriptor, Fault> {
        calls::build(&NewDescriptor {
            owner: bytes_of(parts.owner.as_ref()),
            group: bytes_of(parts.group.as_ref()),
            sacl: (parts.sacl.state(), &parts.sacl.fields()),
            dacl: (parts.dacl.state(), &parts.dacl.fields()),
            control: parts.control,
            resource_manager: parts.resource_manager,
        })
        .map(SecurityDescriptor::laid_out)
        .map_err(Fault::of)
    }

    pub(crate) fn laid_out(layout: Vec<u8>) -> SecurityDescriptor {
        SecurityDescriptor { layout: layout.into() }
    }

    /// Its canonical layout.
    pub fn as_bytes(&self) -> &[u8] {
        &self.layout
    }

    /// Its text. SDDL has no text for the resource manager byte and for some control bits, which are lost.
    pub fn to_sddl(&self, domain: Option<&Sid>, numeric: bool) -> String {
        calls::to_sddl(&self.layout, bytes_of(domain), numeric).unwrap_or_default()
    }

    /// Its explanation, as `sdtool explain` prints it.
    pub fn explain(&self, domain: Option<&Sid>, numeric: bool) -> String {
        calls::explain(&self.layout, bytes_of(domain), numeric).unwrap_or_default()
    }

    pub fn parts(&self) -> Parts {
        let found = calls::parts(&self.layout);
        Parts {
            owner: self.sid_at(found.owner),
            group: self.sid_at(found.group),
            dacl: Acl::found(&self.layout, &found.dacl),
            sacl: Acl::found(&self.layout, &found.sacl),
            control: found.control,
            resource_manager: found.resource_manager,
        }
    }

    fn sid_at(&self, place: sys::sdtool_place) -> Option<Sid> {
        (place.size > 0).then(|| Sid::found(at(&self.layout, place)))
    }

    pub fn owner(&self) -> Option<Sid> {
        self.sid_at(calls::parts(&self.layout).owner)
    }

    pub fn group(&self) -> Option<Sid> {
        self.sid_at(calls::parts(&self.layout).group)
    }

    pub fn dacl(&self) -> Acl {
        Acl::found(&self.layout, &calls::parts(&self.layout).dacl)
    }

    pub fn sacl(&self) -> Acl {
        Acl::found(&self.layout, &calls::parts(&self.layout).sacl)
    }

    /// The control word.
    pub fn control(&self) -> u16 {
        calls::parts(&self.layout).control
    }

    pub fn resource_manager(&self) -> u8 {
        calls::parts(&self.layout).resource_manager
    }

    /// Whether it grants a token what is asked. Many checks of one token and one request take a [`Checker`].
    pub fn check(&self, token: &Token, request: &Request) -> Result<Verdict, Fault> {
        Checker::new(token, request).check(self)
    }

    /// Why it grants or denies each of the 25 rights, by its place in a mask.
    pub fn reasons(&self, token: &Token, request: &Request) -> Result<[Reason; 25], Fault> {
        Checker::new(token, request).reasons(self)
    }

    /// The descriptor of a new object in a folder that has this one.
    pub fn derive(&self, made: &Creation) -> Result<SecurityDescriptor, Fault> {
        calls::derive(&self.derivation(made)).map(SecurityDescriptor::laid_out).map_err(Fault::of)
    }

    /// Where each ACE of the descriptor that [`derive`](Self::derive) gives comes from.
    pub fn origins(&self, made: &Creation) -> Result<Origins, Fault> {
        let (sacl, dacl) = calls::derive_origins(&self.derivation(made)).map_err(Fault::of)?;
        let origins = |found: Vec<sys::sdtool_origin>| {
            let one = |origin: &sys::sdtool_origin| Origin {
                place: origin.place,
                from_creator: origin.from_creator == 1,
                inherit_only: origin.inherit_only == 1,
            };
            found.iter().map(one).collect()
        };
        Ok(Origins { sacl: origins(sacl), dacl: origins(dacl) })
    }

    fn derivation<'a>(&'a self, made: &'a Creation) -> calls::Derivation<'a> {
        calls::Derivation { parent: &self.layout, ..made.derivation() }
    }

    /// It after changes, made one after the other. The fault of a change that can't be made has its number in
    /// [`entry`](Fault::entry).
    ///
    /// ```
    /// use sdtool::{Ace, Change, Match, PutAt, SecurityDescriptor, Which};
    ///
    /// let shared: SecurityDescriptor = "D:PAI(A;;FR;;;WD)(A;ID;FA;;;BA)".parse()?;
    /// let deny: Ace = "(D;;0x2;;;BU)".parse()?;
    /// let edited = shared.edit(&[
    ///     Change::take_each(Which::Dacl, &Match::default().sid("WD".parse()?)),
    ///     Change::put(Which::Dacl, PutAt::Order, &deny),
    /// ])?;
    /// assert_eq!(edited.descriptor.to_string(), "D:PAI(D;;DC;;;BU)(A;ID;FA;;;BA)");
    /// assert_eq!(edited.touched, [1, 1]);
    /// # Ok::<(), sdtool::Fault>(())
    /// ```
    pub fn edit(&self, changes: &[Change]) -> Result<Edited, Fault> {
        let given: Vec<_> = changes.iter().map(|change| change.0).collect();
        let (layout, touched) = calls::edit(&self.layout, &given).map_err(Fault::of)?;
        Ok(Edited { descriptor: SecurityDescriptor::laid_out(layout), touched })
    }

    /// Where its ACLs get out of order.
    pub fn order(&self) -> Order {
        let found = calls::order(&self.layout);
        let place = |place| (place != sys::SDTOOL_NO_ACE).then_some(place);
        Order { sacl: place(found.sacl), dacl: place(found.dacl) }
    }
}

impl FromStr for SecurityDescriptor {
    type Err = Fault;

    fn from_str(text: &str) -> Result<SecurityDescriptor, Fault> {
        SecurityDescriptor::from_sddl(text, None)
    }
}

impl TryFrom<&[u8]> for SecurityDescriptor {
    type Error = Fault;

    fn try_from(bytes: &[u8]) -> Result<SecurityDescriptor, Fault> {
        SecurityDescriptor::from_bytes(bytes)
    }
}

impl AsRef<[u8]> for SecurityDescriptor {
    fn as_ref(&self) -> &[u8] {
        &self.layout
    }
}

impl fmt::Display for SecurityDescriptor {
    fn fmt(&self, f: &mut fmt::Formatter) -> fmt::Result {
        f.pad(&self.to_sddl(None, false))
    }
}

impl fmt::Debug for SecurityDescriptor {
    fn fmt(&self, f: &mut fmt::Formatter) -> fmt::Result {
        write!(f, "SecurityDescriptor({self})")
    }
}
