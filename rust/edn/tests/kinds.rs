//! The kinds of refusal: those of the library, with their numbers, and what can be asked of them.
mod support;

use edn::{Kind, NoSuchKind, Place};
use support::root;

#[test]
fn they_are_those_of_the_library() {
    let source = std::fs::read_to_string(root().join("crates/refusal/src/lib.rt")).unwrap();
    let (_, body) = source.split_once("pub enum RefusalKind {").unwrap();
    let (body, _) = body.split_once('}').unwrap();
    let listed: Vec<&str> = body.split(',').map(str::trim).filter(|name| !name.is_empty()).collect();
    let kinds: Vec<String> = Kind::ALL.iter().map(|k| format!("{k:?}")).collect();
    assert_eq!(kinds, listed);
    for kind in Kind::ALL {
        let arm = format!("RefusalKind::{kind:?} => {},", kind.number());
        assert!(source.contains(&arm), "{arm}");
    }
}

#[test]
fn every_number_has_its_kind_or_none() {
    for number in 0..=u8::MAX {
        let kind = Kind::ALL.iter().copied().find(|k| k.number() == number);
        assert_eq!(Kind::from_number(number), kind);
        assert_eq!(Kind::try_from(number), kind.ok_or(NoSuchKind(number)));
    }
    assert_eq!(size_of::<Kind>(), 1);
    assert_eq!(NoSuchKind(99).to_string(), "99 is the number of no refusal");
}

#[test]
fn they_are_shown_by_name() {
    assert_eq!(Kind::NotUtf8.to_string(), "not UTF-8");
    assert_eq!(format!("{:>8}", Kind::Dots), "    dots");
    let mut names: Vec<&str> = Kind::ALL.iter().map(|k| k.name()).collect();
    names.sort();
    names.dedup();
    assert_eq!(names.len(), Kind::ALL.len(), "no two have the same name");
}

#[test]
fn an_error_has_its_kind() {
    let e = edn::read("[_ 1, ...]").unwrap_err();
    assert_eq!((e.kind(), e.number(), e.name()), (Kind::Dots, Kind::Dots.number(), Kind::Dots.name()));
    // what the place counts hangs on the kind, and the sentence on both
    let text = edn::read([0xff]).unwrap_err();
    let bytes = edn::check(&[0x61, 0xff]).unwrap_err();
    assert_eq!((text.kind(), text.counted()), (Kind::NotUtf8, Place::Text));
    assert_eq!((bytes.kind(), bytes.counted()), (Kind::NotUtf8, Place::Bytes));
    assert_ne!(text.meaning(), bytes.meaning());
    let path = edn::look_up(&[0x01], &[1]).unwrap_err();
    assert_eq!((path.kind(), path.counted()), (Kind::NoSuchPath, Place::Step));
    let room = edn::read_into(b"1", &mut []).unwrap_err();
    assert_eq!((room.kind(), room.counted()), (Kind::NoRoom, Place::Whole));
}
