//! Texts for formats that people read, and else bytes.
use crate::{Ace, Fault, Guid, SecurityDescriptor, Sid};
use serde::de::{self, Deserialize, Deserializer, SeqAccess, Visitor};
use serde::ser::{Serialize, Serializer};
use std::fmt;
use std::marker::PhantomData;
use std::str::FromStr;

/// A value that a text or bytes say.
trait Said: FromStr<Err = Fault> {
    const WHAT: &'static str;

    fn of_bytes(bytes: &[u8]) -> Result<Self, Fault>;
}

impl Said for SecurityDescriptor {
    const WHAT: &'static str = "a security descriptor, as SDDL or as bytes";

    fn of_bytes(bytes: &[u8]) -> Result<Self, Fault> {
        SecurityDescriptor::from_bytes(bytes)
    }
}

impl Said for Sid {
    const WHAT: &'static str = "a SID, as a text or as bytes";

    fn of_bytes(bytes: &[u8]) -> Result<Self, Fault> {
        Sid::from_bytes(bytes)
    }
}

impl Said for Guid {
    const WHAT: &'static str = "a GUID, as a text or as 16 bytes";

    fn of_bytes(bytes: &[u8]) -> Result<Self, Fault> {
        Guid::found(bytes).ok_or_else(|| Fault::of_argument(sdtool_sys::SDTOOL_ARGUMENT_GUID, 0))
    }
}

struct Reading<T>(PhantomData<T>);

impl<'de, T: Said> Visitor<'de> for Reading<T> {
    type Value = T;

    fn expecting(&self, f: &mut fmt::Formatter) -> fmt::Result {
        f.write_str(T::WHAT)
    }

    fn visit_str<E: de::Error>(self, text: &str) -> Result<T, E> {
        text.parse().map_err(E::custom)
    }

    fn visit_bytes<E: de::Error>(self, bytes: &[u8]) -> Result<T, E> {
        T::of_bytes(bytes).map_err(E::custom)
    }

    fn visit_seq<A: SeqAccess<'de>>(self, mut items: A) -> Result<T, A::Error> {
        let mut bytes = Vec::new();
        while let Some(byte) = items.next_element()? {
            bytes.push(byte);
        }
        T::of_bytes(&bytes).map_err(de::Error::custom)
    }
}

fn read<'de, T: Said, D: Deserializer<'de>>(from: D) -> Result<T, D::Error> {
    if from.is_human_readable() {
        from.deserialize_any(Reading(PhantomData))
    } else {
        from.deserialize_bytes(Reading(PhantomData))
    }
}

macro_rules! said {
    ($($name:ident),*) => {
        $(impl<'de> Deserialize<'de> for $name {
            fn deserialize<D: Deserializer<'de>>(from: D) -> Result<Self, D::Error> {
                read(from)
            }
        })*
    };
}

said!(SecurityDescriptor, Sid, Guid);

/// As SDDL without aliases where that says all of it, and else as bytes.
impl Serialize for SecurityDescriptor {
    fn serialize<S: Serializer>(&self, to: S) -> Result<S::Ok, S::Error> {
        let text = if to.is_human_readable() { Some(self.to_sddl(None, true)) } else { None };
        match text {
            Some(text) if text.parse().as_ref() == Ok(self) => to.serialize_str(&text),
            Some(_) => to.collect_seq(self.as_bytes()),
            None => to.serialize_bytes(self.as_bytes()),
        }
    }
}

impl Serialize for Sid {
    fn serialize<S: Serializer>(&self, to: S) -> Result<S::Ok, S::Error> {
        if to.is_human_readable() {
            to.collect_str(self)
        } else {
            to.serialize_bytes(self.as_bytes())
        }
    }
}

impl Serialize for Guid {
    fn serialize<S: Serializer>(&self, to: S) -> Result<S::Ok, S::Error> {
        if to.is_human_readable() {
            to.collect_str(self)
        } else {
            to.serialize_bytes(&self.0)
        }
    }
}

/// As SDDL without aliases.
impl Serialize for Ace {
    fn serialize<S: Serializer>(&self, to: S) -> Result<S::Ok, S::Error> {
        to.serialize_str(&self.to_sddl(None, true).map_err(serde::ser::Error::custom)?)
    }
}

impl<'de> Deserialize<'de> for Ace {
    fn deserialize<D: Deserializer<'de>>(from: D) -> Result<Self, D::Error> {
        struct Text;
        impl Visitor<'_> for Text {
            type Value = Ace;

            fn expecting(&self, f: &mut fmt::Formatter) -> fmt::Result {
                f.write_str("an ACE as SDDL")
            }

            fn visit_str<E: de::Error>(self, text: &str) -> Result<Ace, E> {
                text.parse().map_err(E::custom)
            }
        }
        from.deserialize_str(Text)
    }
}
