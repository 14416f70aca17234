use crate::ace::Ace;
use crate::calls::{RawChange, Zeros};
use crate::descriptor::SecurityDescriptor;
use crate::sid::{Guid, Sid};
use sdtool_sys as sys;
use std::fmt;

/// One of the two ACLs.
#[derive(Clone, Copy, Debug, PartialEq, Eq, Hash)]
pub enum Which {
    Sacl,
    Dacl,
}

/// Where a new ACE is put.
#[derive(Clone, Copy, Debug, PartialEq, Eq, Hash)]
pub enum PutAt {
    /// A place from 0 to the number of ACEs.
    Place(u32),
    /// Behind the last ACE.
    End,
    /// Behind the last ACE of no higher rank.
    Order,
}

/// What an ACL becomes.
#[derive(Clone, Copy, Debug, PartialEq, Eq, Hash)]
pub enum AclState {
    Absent,
    Null,
    /// A list without ACEs.
    List,
}

/// What is compared of an ACE: nothing but what is given. A match that compares nothing is no change.
#[derive(Clone, Copy, Debug, Default, PartialEq, Eq, Hash)]
#[must_use]
pub struct Match {
    sid: Option<Sid>,
    kind: Option<u8>,
    mask: Option<u32>,
    flags: u8,
    flags_mask: u8,
    object_type: Option<Option<Guid>>,
    inherited_object_type: Option<Option<Guid>>,
}

impl Match {
    pub fn sid(self, sid: Sid) -> Match {
        Match { sid: Some(sid), ..self }
    }

    pub fn kind(self, kind: u8) -> Match {
        Match { kind: Some(kind), ..self }
    }

    pub fn mask(self, mask: u32) -> Match {
        Match { mask: Some(mask), ..self }
    }

    /// Those of the flags of `flags_mask` that are set have to be `flags`.
    pub fn flags(self, flags: u8, flags_mask: u8) -> Match {
        Match { flags, flags_mask, ..self }
    }

    /// The object type, or that there is none.
    pub fn object_type(self, guid: Option<Guid>) -> Match {
        Match { object_type: Some(guid), ..self }
    }

    /// The inherited object type, or that there is none.
    pub fn inherited_object_type(self, guid: Option<Guid>) -> Match {
        Match { inherited_object_type: Some(guid), ..self }
    }
}

/// What each ACE that matches gets: another SID, and bits that are set and cleared.
#[derive(Clone, Copy, Debug, Default, PartialEq, Eq, Hash)]
pub struct Setting {
    pub sid: Option<Sid>,
    pub set_mask: u32,
    pub clear_mask: u32,
    pub set_flags: u8,
    pub clear_flags: u8,
}

/// A descriptor after changes, and how many ACEs each change put, took or set.
#[derive(Clone, Debug, PartialEq, Eq, Hash)]
pub struct Edited {
    pub descriptor: SecurityDescriptor,
    pub touched: Vec<u32>,
}

/// A change of a descriptor, for [`SecurityDescriptor::edit`]. What is no change is refused there.
#[derive(Clone, Copy)]
pub struct Change(pub(crate) RawChange);

impl Change {
    fn of(kind: u32, which: Option<Which>) -> sys::sdtool_change {
        let part = match which {
            None => sys::SDTOOL_NO_PART,
            Some(Which::Sacl) => sys::SDTOOL_SACL,
            Some(Which::Dacl) => sys::SDTOOL_DACL,
        };
        sys::sdtool_change { kind, part, ..sys::sdtool_change::zeros() }
    }

    /// An ACE gets a place.
    pub fn put(which: Which, place: PutAt, ace: &Ace) -> Change {
        let place = match place {
            // The two words are no places.
            PutAt::Place(place) => place.min(sys::SDTOOL_BY_ORDER - 1),
            PutAt::End => sys::SDTOOL_AT_END,
            PutAt::Order => sys::SDTOOL_BY_ORDER,
        };
        Change::of_ace(sys::sdtool_change { place, ..Change::of(sys::SDTOOL_PUT, Some(which)) }, ace)
    }

    /// The ACE at a place goes.
    pub fn take(which: Which, place: u32) -> Change {
        Change(RawChange(sys::sdtool_change { place, ..Change::of(sys::SDTOOL_TAKE, Some(which)) }))
    }

    /// Another ACE stands at a place.
    pub fn replace(which: Which, place: u32, ace: &Ace) -> Change {
        Change::of_ace(sys::sdtool_change { place, ..Change::of(sys::SDTOOL_REPLACE, Some(which)) }, ace)
    }

    /// Each ACE that matches goes.
    pub fn take_each(which: Which, matching: &Match) -> Change {
        Change(RawChange(Change::matching(Change::of(sys::SDTOOL_TAKE_EACH, Some(which)), matching)))
    }

    /// Each ACE that matches is set.
    pub fn set_each(which: Which, matching: &Match, setting: &Setting) -> Change {
        let mut change = Change::matching(Change::of(sys::SDTOOL_SET_EACH, Some(which)), matching);
        change.set_mask = setting.set_mask;
        change.clear_mask = setting.clear_mask;
        change.set_flags = setting.set_flags;
        change.clear_flags = setting.clear_flags;
        put_sid(&mut change.set_sid, setting.sid.as_ref());
        Change(RawChange(change))
    }

    /// The ACEs come into order.
    pub fn order(which: Which) -> Change {
        Change(RawChange(Change::of(sys::SDTOOL_ORDER, Some(which))))
    }

    /// The ACL becomes absent, null, or a list without ACEs.
    pub fn state(which: Which, state: AclState) -> Change {
        let state = match state {
            AclState::Absent => sys::SDTOOL_ACL_ABSENT,
            AclState::Null => sys::SDTOOL_ACL_NULL,
            AclState::List => sys::SDTOOL_ACL_LIST,
        };
        Change(RawChange(sys::sdtool_change { state: state as u8, ..Change::of(sys::SDTOOL_STATE, Some(which)) }))
    }

    pub fn owner(sid: Option<&Sid>) -> Change {
        Change::of_sid(sys::SDTOOL_SET_OWNER, sid)
    }

    pub fn group(sid: Option<&Sid>) -> Change {
        Change::of_sid(sys::SDTOOL_SET_GROUP, sid)
    }

    /// Bits of the control word are set and cleared: all but 0x8000, 0x10 and 0x4.
    pub fn control(set: u16, clear: u16) -> Change {
        let change = Change::of(sys::SDTOOL_CONTROL, None);
        Change(RawChange(sys::sdtool_change { set_control: set, clear_control: clear, ..change }))
    }

    fn of_sid(kind: u32, sid: Option<&Sid>) -> Change {
        let mut change = Change::of(kind, None);
        put_sid(&mut change.sid, sid);
        Change(RawChange(change))
    }

    fn of_ace(mut change: sys::sdtool_change, ace: &Ace) -> Change {
        change.ace_kind = ace.kind();
        change.flags = ace.flags();
        change.mask = ace.mask();
        put_sid(&mut change.sid, Some(ace.sid()));
        let types = [ace.object_type().map(Some), ace.inherited_object_type().map(Some)];
        put_types(&mut change, types);
        Change(RawChange(change))
    }

    fn matching(mut change: sys::sdtool_change, matching: &Match) -> sys::sdtool_change {
        if let Some(kind) = matching.kind {
            change.compare |= sys::SDTOOL_COMPARE_KIND;
            change.ace_kind = kind;
        }
        if let Some(mask) = matching.mask {
            change.compare |= sys::SDTOOL_COMPARE_MASK;
            change.mask = mask;
        }
        change.flags = matching.flags;
        change.flags_mask = matching.flags_mask;
        put_sid(&mut change.sid, matching.sid.as_ref());
        put_types(&mut change, [matching.object_type, matching.inherited_object_type]);
        change
    }
}

fn put_sid(room: &mut [u8], sid: Option<&Sid>) {
    if let Some(sid) = sid {
        room[..sid.as_bytes().len()].copy_from_slice(sid.as_bytes());
    }
}

/// Writes the object types of an ACE or of a match, where `Some(None)` says that there is none.
fn put_types(change: &mut sys::sdtool_change, types: [Option<Option<Guid>>; 2]) {
    let uses = [&mut change.object_type_use, &mut change.inherited_object_type_use];
    let rooms = [&mut change.object_type, &mut change.inherited_object_type];
    for ((given, what), room) in types.into_iter().zip(uses).zip(rooms) {
        match given {
            None => {}
            Some(None) => *what = sys::SDTOOL_TYPE_NONE as u8,
            Some(Some(guid)) => {
                *what = sys::SDTOOL_TYPE_GIVEN as u8;
                *room = guid.0;
            }
        }
    }
}

impl PartialEq for Change {
    fn eq(&self, other: &Change) -> bool {
        self.0.as_bytes() == other.0.as_bytes()
    }
}

impl Eq for Change {}

impl fmt::Debug for Change {
    fn fmt(&self, f: &mut fmt::Formatter) -> fmt::Result {
        self.0 .0.fmt(f)
    }
}
