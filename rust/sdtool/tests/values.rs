//! What the types promise beside their answers, which `tests/library` of the project compares with the library's.
use sdtool::*;
use std::error::Error;

fn shared<T: Send + Sync + Clone + std::fmt::Debug + 'static>() {}

#[test]
fn threads_may_share_all_values() {
    shared::<SecurityDescriptor>();
    shared::<Sid>();
    shared::<Ace>();
    shared::<Acl>();
    shared::<Token>();
    shared::<Checker>();
    shared::<Change>();
    shared::<Fault>();
}

#[test]
fn a_fault_says_where_it_is() {
    let fault = "D:(A;;FA;;;WD)(A;;FA;;;Everyone)".parse::<SecurityDescriptor>().unwrap_err();
    let place = fault.place().unwrap();
    assert_eq!((fault.number(), fault.name()), (sys::SDTOOL_FAULT_SID_FORM, "sid-form"));
    assert_eq!((place.part, place.ace, place.field), (Some(Part::Dacl), Some(1), Some(Field::Sid)));
    assert_eq!((place.offset, place.size), (23, 8));
    let shown = "error 25 sid-form: any other text that is not a SID, at byte 23, ACE 2 of the DACL, SID";
    assert_eq!(fault.to_string(), shown);
    let error: Box<dyn Error + Send + Sync> = fault.into();
    assert!(error.downcast_ref::<Fault>().is_some());
}

#[test]
fn a_change_that_can_not_be_made_has_its_number() {
    let null: SecurityDescriptor = "D:NO_ACCESS_CONTROL".parse().unwrap();
    let fault = null.edit(&[Change::owner(None), Change::take(Which::Dacl, 0)]).unwrap_err();
    assert_eq!((fault.number(), fault.entry()), (sys::SDTOOL_CHANGE, 1));
    assert_eq!(fault.argument(), Some(sys::SDTOOL_ARGUMENT_CHANGES));
    let fault = null.edit(&[Change::take_each(Which::Dacl, &Match::default())]).unwrap_err();
    assert_eq!(fault.number(), sys::SDTOOL_ARGUMENT);
}

#[test]
fn a_place_at_the_end_of_numbers_is_no_word() {
    let list: SecurityDescriptor = "D:".parse().unwrap();
    let ace: Ace = "(A;;FR;;;WD)".parse().unwrap();
    for place in [sys::SDTOOL_AT_END, sys::SDTOOL_BY_ORDER, 1] {
        let fault = list.edit(&[Change::put(Which::Dacl, PutAt::Place(place), &ace)]).unwrap_err();
        assert_eq!(fault.number(), sys::SDTOOL_CHANGE);
    }
    assert_eq!(list.edit(&[Change::put(Which::Dacl, PutAt::End, &ace)]).unwrap().touched, [1]);
}

#[test]
fn a_column_without_offsets_is_refused() {
    let fault = convert_column(Conversion::Normalize, None, b"", &[]).unwrap_err();
    assert_eq!(fault.argument(), Some(sys::SDTOOL_ARGUMENT_OFFSETS));
    assert_eq!(convert_column(Conversion::Normalize, None, b"", &[0]).unwrap().offsets, [0]);
}

#[test]
fn equal_content_is_equal() {
    let one: SecurityDescriptor = "O:BAD:(A;;FR;;;BU)".parse().unwrap();
    let parts = Parts { owner: one.owner(), dacl: one.dacl(), ..Parts::default() };
    assert_eq!(SecurityDescriptor::build(&parts).unwrap(), one);
    assert_eq!(SecurityDescriptor::from_bytes(one.as_bytes()).unwrap(), one);
    assert_ne!("D:".parse::<SecurityDescriptor>().unwrap().dacl(), Acl::Absent);
}
