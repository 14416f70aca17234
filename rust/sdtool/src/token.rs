use crate::calls::{self, Question, RIGHTS};
use crate::column::fault_of;
use crate::descriptor::SecurityDescriptor;
use crate::fault::Fault;
use crate::sid::{bytes_of, Guid, Sid};
use sdtool_sys as sys;
use std::sync::Arc;

/// Who asks: exactly the SIDs of the user, of all groups, and of groups such as Everyone (`WD`). Clones share them, and
/// so may threads.
#[derive(Clone, Debug)]
pub struct Token {
    read: Arc<Read>,
    asker: sys::sdtool_asker,
}

#[derive(Debug)]
struct Read {
    sids: Vec<u8>,
    entries: Vec<u8>,
    words: Vec<u32>,
}

impl Token {
    /// A token of SIDs, and of SIDs that count only for ACEs that deny.
    pub fn new(sids: &[Sid], deny_only: &[Sid]) -> Result<Token, Fault> {
        let bytes = sids.iter().chain(deny_only).flat_map(Sid::as_bytes).copied().collect::<Vec<u8>>();
        let mut entries = vec![sys::SDTOOL_ENABLED as u8; sids.len()];
        entries.resize(sids.len() + deny_only.len(), sys::SDTOOL_DENY_ONLY as u8);
        let words = calls::token_read(&bytes, &entries).map_err(Fault::of)?;
        let asker = sys::sdtool_asker { mapping: Mapping::File.number(), level: 0, options: 0 };
        Ok(Token { read: Arc::new(Read { sids: bytes, entries, words }), asker })
    }

    /// The same token with an integrity level, such as 8192 for medium. Without one, no label is looked at.
    pub fn level(mut self, level: u32) -> Token {
        self.asker.level = level;
        self.asker.options |= sys::SDTOOL_HAS_LEVEL;
        self
    }

    /// The same token with SeSecurityPrivilege.
    pub fn security(mut self) -> Token {
        self.asker.options |= sys::SDTOOL_SECURITY;
        self
    }

    /// The same token with SeTakeOwnershipPrivilege.
    pub fn take_ownership(mut self) -> Token {
        self.asker.options |= sys::SDTOOL_TAKE_OWNERSHIP;
        self
    }
}

/// The kind of object whose rights the generic rights stand for.
#[derive(Clone, Copy, Debug, PartialEq, Eq, Hash)]
pub enum Mapping {
    File,
    Key,
    Directory,
}

impl Mapping {
    pub(crate) fn number(self) -> u32 {
        match self {
            Mapping::File => sys::SDTOOL_MAPPING_FILE,
            Mapping::Key => sys::SDTOOL_MAPPING_KEY,
            Mapping::Directory => sys::SDTOOL_MAPPING_DS,
        }
    }
}

/// What an access check asks for.
#[derive(Clone, Copy, Debug, PartialEq, Eq, Hash)]
pub struct Request {
    /// An access mask. It may be 0 with `maximum`.
    pub wanted: u32,
    /// Asks also for each other right that is granted.
    pub maximum: bool,
    pub mapping: Mapping,
    /// The object type of a check in a directory.
    pub object_type: Option<Guid>,
    /// The SID that PRINCIPAL SELF stands for.
    pub principal_self: Option<Sid>,
}

impl Request {
    /// Asks for rights of a file.
    pub fn new(wanted: u32) -> Request {
        Request { wanted, maximum: false, mapping: Mapping::File, object_type: None, principal_self: None }
    }
}

/// The answer of a check.
#[derive(Clone, Copy, Debug, PartialEq, Eq, Hash)]
#[must_use]
pub struct Verdict {
    /// Whether each wanted right is granted.
    pub granted: bool,
    /// With `granted` the rights that are granted, else those of the wanted rights that are missing.
    pub mask: u32,
}

/// Why a right is granted or denied.
#[derive(Clone, Copy, Debug, PartialEq, Eq, Hash)]
#[non_exhaustive]
pub enum ReasonKind {
    /// Denied: nothing grants it.
    Nothing,
    /// Denied by the mandatory label.
    Label,
    /// Granted: the DACL is null or absent.
    NoDacl,
    /// Granted to the owner.
    Owner,
    /// Granted by a privilege.
    Privilege,
    /// Granted by an ACE.
    Granted,
    /// Denied by an ACE.
    Denied,
}

/// Why a right is granted or denied, and the place of the ACE that decides it: in the SACL for a label, and else in the
/// DACL.
#[derive(Clone, Copy, Debug, PartialEq, Eq, Hash)]
pub struct Reason {
    pub kind: ReasonKind,
    pub place: Option<u16>,
}

impl Reason {
    pub fn grants(&self) -> bool {
        use ReasonKind::*;
        matches!(self.kind, NoDacl | Owner | Privilege | Granted)
    }

    /// A number that is not known is a denial.
    fn told(reason: sys::sdtool_reason) -> Reason {
        let kind = match reason.kind.into() {
            sys::SDTOOL_REASON_LABEL => ReasonKind::Label,
            sys::SDTOOL_REASON_NO_DACL => ReasonKind::NoDacl,
            sys::SDTOOL_REASON_OWNER => ReasonKind::Owner,
            sys::SDTOOL_REASON_PRIVILEGE => ReasonKind::Privilege,
            sys::SDTOOL_REASON_GRANTED => ReasonKind::Granted,
            sys::SDTOOL_REASON_DENIED => ReasonKind::Denied,
            _ => ReasonKind::Nothing,
        };
        let place = (u32::from(reason.place) != sys::SDTOOL_NO_PLACE).then_some(reason.place);
        Reason { kind, place }
    }
}

/// Access checks of one token and one request. Threads may share it.
#[derive(Clone, Debug)]
pub struct Checker {
    read: Arc<Read>,
    request: sys::sdtool_request,
    object_type: Option<Guid>,
    principal_self: Option<Sid>,
}

impl Checker {
    pub fn new(token: &Token, request: &Request) -> Checker {
        let asker = sys::sdtool_asker { mapping: request.mapping.number(), ..token.asker };
        let options = if request.maximum { sys::SDTOOL_MAXIMUM } else { 0 };
        Checker {
            read: token.read.clone(),
            request: sys::sdtool_request { asker, wanted: request.wanted, options },
            object_type: request.object_type,
            principal_self: request.principal_self,
        }
    }

    fn question(&self) -> Question<'_> {
        Question {
            object: self.object_type.as_ref().map_or(&[], |guid| &guid.0),
            principal_self: bytes_of(self.principal_self.as_ref()),
            request: &self.request,
        }
    }

    pub fn check(&self, descriptor: &SecurityDescriptor) -> Result<Verdict, Fault> {
        self.check_bytes(descriptor.as_bytes())
    }

    /// The verdict on the bytes of a descriptor, in whatever layout.
    pub fn check_bytes(&self, descriptor: &[u8]) -> Result<Verdict, Fault> {
        verdict_of(&calls::check_with(descriptor, &self.read.words, self.question()), descriptor)
    }

    /// The verdict on each of many descriptors, or its fault. The request may have a fault for all.
    pub fn check_many(&self, descriptors: &[&[u8]]) -> Result<Vec<Result<Verdict, Fault>>, Fault> {
        let token = (&*self.read.sids, &*self.read.entries);
        let verdicts = calls::check_many(descriptors, token, self.question()).map_err(Fault::of)?;
        Ok(verdicts.iter().zip(descriptors).map(|(verdict, bytes)| verdict_of(verdict, bytes)).collect())
    }

    /// The same for the rows of a column. Row `I` is the bytes of `data` from `offsets[I]` up to `offsets[I + 1]`.
    pub fn check_column(&self, data: &[u8], offsets: &[u64]) -> Result<Vec<Result<Verdict, Fault>>, Fault> {
        let (token, rows) = ((&*self.read.sids, &*self.read.entries), (data, offsets));
        let verdicts = calls::check_column(rows, token, self.question()).map_err(Fault::of)?;
        let answer = |(row, verdict): (usize, &sys::sdtool_verdict)| {
            fault_of(verdict.outcome, rows, row, Fault::of_bytes).map_or_else(|| verdict_of(verdict, &[]), Err)
        };
        Ok(verdicts.iter().enumerate().map(answer).collect())
    }

    /// Why the token has each of the 25 rights or not, whatever is wanted.
    pub fn reasons(&self, descriptor: &SecurityDescriptor) -> Result<[Reason; RIGHTS], Fault> {
        calls::reasons_with(descriptor.as_bytes(), &self.read.words, self.question())
            .map(|told| told.map(Reason::told))
            .map_err(Fault::of)
    }
}

#[inline]
fn verdict_of(verdict: &sys::sdtool_verdict, descriptor: &[u8]) -> Result<Verdict, Fault> {
    match verdict.outcome.fault {
        sys::SDTOOL_OK => Ok(Verdict { granted: verdict.granted == 1, mask: verdict.mask }),
        _ => Err(Fault::of_bytes(verdict.outcome, descriptor)),
    }
}
