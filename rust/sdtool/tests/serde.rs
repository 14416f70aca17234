//! Values as serde's own formats have them: a text for people, bytes, and a sequence of bytes.
#![cfg(feature = "serde")]
use sdtool::*;
use serde::de::value::{BytesDeserializer, Error, SeqDeserializer, StrDeserializer};
use serde::{Deserialize, Serialize};
use std::fmt;

/// A formatter is a serializer of texts.
struct Shown<T>(T);

impl<T: Serialize> fmt::Display for Shown<T> {
    fn fmt(&self, f: &mut fmt::Formatter) -> fmt::Result {
        self.0.serialize(f)
    }
}

fn of_text<T: for<'de> Deserialize<'de>>(text: &str) -> Result<T, Error> {
    T::deserialize(StrDeserializer::new(text))
}

#[test]
fn texts_read_back() {
    let descriptor: SecurityDescriptor = "O:BAD:(A;OICI;FR;;;BU)".parse().unwrap();
    let text = Shown(&descriptor).to_string();
    assert_eq!(text, "O:S-1-5-32-544D:(A;OICI;FR;;;S-1-5-32-545)");
    assert_eq!(of_text::<SecurityDescriptor>(&text).unwrap(), descriptor);
    let sid: Sid = "BA".parse().unwrap();
    assert_eq!(Shown(sid).to_string(), "S-1-5-32-544");
    assert_eq!(of_text::<Sid>("S-1-5-32-544").unwrap(), sid);
    let guid = Guid(*b"0123456789abcdef");
    assert_eq!(of_text::<Guid>(&Shown(guid).to_string()).unwrap(), guid);
    let ace: Ace = "(A;;FR;;;BU)".parse().unwrap();
    assert_eq!(of_text::<Ace>(&Shown(ace).to_string()).unwrap(), ace);
}

#[test]
fn bytes_read_back() {
    let parts = Parts { resource_manager: 7, control: 0x4000, ..Parts::default() };
    let descriptor = SecurityDescriptor::build(&parts).unwrap();
    let bytes = descriptor.as_bytes();
    // SDDL has no text for the resource manager byte, and this serializer none for a sequence.
    assert!(fmt::write(&mut String::new(), format_args!("{}", Shown(&descriptor))).is_err());
    let read = SecurityDescriptor::deserialize(BytesDeserializer::<Error>::new(bytes));
    assert_eq!(read.unwrap(), descriptor);
    let read = SecurityDescriptor::deserialize(SeqDeserializer::<_, Error>::new(bytes.iter().copied()));
    assert_eq!(read.unwrap(), descriptor);
}

#[test]
fn what_is_wrong_is_said() {
    let said = of_text::<SecurityDescriptor>("D:(A;;FA;;;Everyone)").unwrap_err().to_string();
    assert!(said.contains("sid-form"), "{said}");
    assert!(of_text::<Sid>("").is_err());
    assert!(Sid::deserialize(BytesDeserializer::<Error>::new(&[1])).is_err());
}
