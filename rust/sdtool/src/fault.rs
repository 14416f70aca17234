use crate::calls::{self, Outcome, Zeros};
use sdtool_sys as sys;
use std::error::Error;
use std::fmt;

/// A part of a descriptor.
#[derive(Clone, Copy, Debug, PartialEq, Eq, Hash)]
#[non_exhaustive]
pub enum Part {
    Owner,
    Group,
    Sacl,
    Dacl,
}

impl Part {
    fn numbered(number: u32) -> Option<Part> {
        match number {
            sys::SDTOOL_OWNER => Some(Part::Owner),
            sys::SDTOOL_GROUP => Some(Part::Group),
            sys::SDTOOL_SACL => Some(Part::Sacl),
            sys::SDTOOL_DACL => Some(Part::Dacl),
            _ => None,
        }
    }
}

/// A field of an ACE or of a part.
#[derive(Clone, Copy, Debug, PartialEq, Eq, Hash)]
#[non_exhaustive]
pub enum Field {
    Kind,
    Flags,
    Rights,
    ObjectType,
    InheritedObjectType,
    Sid,
    Size,
}

impl Field {
    fn numbered(number: u32) -> Option<Field> {
        match number {
            sys::SDTOOL_FIELD_KIND => Some(Field::Kind),
            sys::SDTOOL_FIELD_FLAGS => Some(Field::Flags),
            sys::SDTOOL_FIELD_RIGHTS => Some(Field::Rights),
            sys::SDTOOL_FIELD_OBJECT_TYPE => Some(Field::ObjectType),
            sys::SDTOOL_FIELD_INHERITED_OBJECT_TYPE => Some(Field::InheritedObjectType),
            sys::SDTOOL_FIELD_SID => Some(Field::Sid),
            sys::SDTOOL_FIELD_SIZE => Some(Field::Size),
            _ => None,
        }
    }
}

/// Where a fault is in the bytes or the text that a call was given.
#[derive(Clone, Copy, Debug, PartialEq, Eq, Hash)]
pub struct Place {
    pub part: Option<Part>,
    /// The ACE of that part, from 0 on.
    pub ace: Option<u32>,
    pub field: Option<Field>,
    /// The first byte.
    pub offset: usize,
    /// How many bytes; 0 where something is missing.
    pub size: usize,
}

/// Why there is no answer: the input has a fault, so what it grants is unknown, or an argument is wrong.
#[derive(Clone, PartialEq, Eq)]
pub struct Fault(Box<Told>);

#[derive(Clone, PartialEq, Eq)]
struct Told {
    number: u32,
    name: String,
    part: Option<Part>,
    other_part: Option<Part>,
    argument: u32,
    entry: usize,
    place: Option<Place>,
    sentence: String,
}

impl Fault {
    /// The fault of a call whose input has no places.
    pub(crate) fn of(outcome: Outcome) -> Fault {
        Fault::at(outcome, sys::sdtool_fault_place::zeros())
    }

    pub(crate) fn of_bytes(outcome: Outcome, bytes: &[u8]) -> Fault {
        Fault::at(outcome, calls::place(bytes))
    }

    pub(crate) fn of_sddl(outcome: Outcome, text: &[u8], domain: &[u8]) -> Fault {
        Fault::at(outcome, calls::sddl_place(text, domain))
    }

    /// The fault of an ACE's text, which the library reads behind `D:`.
    pub(crate) fn of_ace(outcome: Outcome, text: &[u8], domain: &[u8]) -> Fault {
        const HEAD: &[u8] = b"D:";
        let mut found = calls::sddl_place(&[HEAD, text].concat(), domain);
        found.place.offset = found.place.offset.saturating_sub(HEAD.len());
        // A second head is in the text itself.
        if found.part == sys::SDTOOL_DACL && found.fault != sys::SDTOOL_FAULT_PART_TWICE {
            (found.part, found.ace) = (sys::SDTOOL_NO_PART, sys::SDTOOL_NO_ACE);
        }
        Fault::at(outcome, found)
    }

    /// An argument that is wrong, by its number.
    pub(crate) fn of_argument(argument: u32, entry: usize) -> Fault {
        Fault::of(Outcome { fault: sys::SDTOOL_ARGUMENT, argument, entry, ..Outcome::zeros() })
    }

    /// The place of another fault counts as none.
    pub(crate) fn at(outcome: Outcome, found: sys::sdtool_fault_place) -> Fault {
        let is_here = found.fault == outcome.fault;
        let place = is_here.then(|| Place {
            part: Part::numbered(found.part),
            ace: (found.ace != sys::SDTOOL_NO_ACE).then_some(found.ace),
            field: Field::numbered(found.field),
            offset: found.place.offset,
            size: found.place.size,
        });
        Fault(Box::new(Told {
            number: outcome.fault,
            name: calls::fault_text(outcome.fault).unwrap_or_default(),
            part: Part::numbered(outcome.part),
            other_part: Part::numbered(outcome.other_part),
            argument: outcome.argument,
            entry: outcome.entry,
            place,
            sentence: calls::describe(&outcome, &found).unwrap_or_default(),
        }))
    }

    /// One of the numbers `SDTOOL_FAULT_..` of [`sys`](crate::sys). A later library may have more.
    pub fn number(&self) -> u32 {
        self.0.number
    }

    /// Its name, such as `sid-form`.
    pub fn name(&self) -> &str {
        &self.0.name
    }

    /// The part of the descriptor that it is about.
    pub fn part(&self) -> Option<Part> {
        self.0.part
    }

    /// The second one of two parts that share a byte.
    pub fn other_part(&self) -> Option<Part> {
        self.0.other_part
    }

    /// One of the numbers `SDTOOL_ARGUMENT_..` of [`sys`](crate::sys) if an argument beside the descriptor is wrong, or
    /// a change can't be made.
    pub fn argument(&self) -> Option<u32> {
        (self.0.argument != sys::SDTOOL_NO_ARGUMENT).then_some(self.0.argument)
    }

    /// Which one of that argument's entries it is, if the argument is a list.
    pub fn entry(&self) -> usize {
        self.0.entry
    }

    pub fn place(&self) -> Option<&Place> {
        self.0.place.as_ref()
    }
}

impl fmt::Display for Fault {
    fn fmt(&self, f: &mut fmt::Formatter) -> fmt::Result {
        f.write_str(&self.0.sentence)
    }
}

impl fmt::Debug for Fault {
    fn fmt(&self, f: &mut fmt::Formatter) -> fmt::Result {
        write!(f, "Fault({:?})", self.0.sentence)
    }
}

impl Error for Fault {}
