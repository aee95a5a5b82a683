//! Rust types through their trait bound, in what only a call can show. `cast` casts each type there
//! and back.
use rhai_text::ImmutableString;
use rhai_value::{
    Array, Blob, Dynamic, ExclusiveRange, FnPtr, INT, InclusiveRange, Map, TypeId, Union,
};
use rhai_variant::{CastError, Variant};
use std::alloc::Global;
use std::test::Fail;

/// Whether a type has this name.
fn is_named<T: Variant>(name: &str) -> bool {
    T::type_name() == name
}

#[test]
fn types_have_the_names_of_scripts(rt: HostRuntime) {
    assert!(rt; is_named::<()>("()"));
    assert!(rt; is_named::<bool>("bool"));
    assert!(rt; is_named::<char>("char"));
    assert!(rt; is_named::<INT>("i64"));
    assert!(rt; is_named::<u8>("u8"));
    assert!(rt; is_named::<i128>("i128"));
    assert!(rt; is_named::<String>("string"));
    assert!(rt; is_named::<ImmutableString>("string"));
    assert!(rt; is_named::<Array>("array"));
    assert!(rt; is_named::<Blob>("blob"));
    assert!(rt; is_named::<Map>("map"));
    assert!(rt; is_named::<FnPtr>("Fn"));
    assert!(rt; is_named::<ExclusiveRange>("core::ops::range::Range<i64>"));
    assert!(rt; is_named::<InclusiveRange>("core::ops::range::RangeInclusive<i64>"));
    assert!(rt; is_named::<Dynamic>("Dynamic"));
    assert!(rt; <u8 as Variant>::KIND == TypeId::U8);
}

/// Duplicates a value, through its bound; `None` if the allocation fails.
fn again<T: Variant>(x: &T, alloc: Global) -> Option<T> {
    x.duplicate(alloc).ok()
}

/// Whether a text can be duplicated.
fn is_duplicated(text: &String, alloc: Global) -> bool {
    match again(text, alloc) {
        Some(same) => same.as_str() == text.as_str(),
        None => false,
    }
}

#[test]
fn duplicates_are_the_same(rt: HostRuntime) -> Result<(), Fail> {
    let alloc = rt.alloc();
    let text = String::from_str(alloc, "a")?;
    assert!(rt; again(&5u16, alloc) == Some(5u16));
    assert!(rt; is_duplicated(&text, alloc));
    Ok(())
}

/// Overwrites a value as this type.
fn put<T: Variant>(value: &mut Dynamic, x: T) -> bool {
    match T::view_mut(value) {
        Some(place) => {
            *place = x;
            true
        }
        None => false,
    }
}

/// Whether an int that is written has the tag of the value, and a whole value has its own.
fn is_written(value: &mut Dynamic) -> bool {
    value.set_tag(3);
    put::<INT>(value, 8)
        && !put::<u8>(value, 9)
        && matches!(value.parts(), Union::Int(3, _, 8))
        && put::<Dynamic>(value, Dynamic::UNIT)
        && matches!(value.parts(), Union::Unit(0, _, _))
}

/// Whether a text can be written as the immutable text type, and not as the other.
fn is_written_as_text(value: &mut Dynamic, string: String, text: ImmutableString) -> bool {
    String::view(value).is_none()
        && !put::<String>(value, string)
        && put::<ImmutableString>(value, text)
        && matches!(ImmutableString::view(value), Some(text) if text.len() == 2)
}

#[test]
fn what_is_written_has_the_tag_of_the_value(rt: HostRuntime) -> Result<(), Fail> {
    let alloc = rt.alloc();
    let string = String::from_str(alloc, "bc")?;
    let text = ImmutableString::from_str(alloc, "bc")?;
    assert!(rt; is_written(&mut { Dynamic::ONE }));
    let mut value = Dynamic::from_text(alloc, "a")?;
    assert!(rt; is_written_as_text(&mut value, string, text));
    Ok(())
}

/// Returns the int that comes back if a value can't be read as a byte.
fn int_back(alloc: Global, value: Dynamic) -> Option<INT> {
    match <u8 as Variant>::from_dynamic(alloc, value) {
        Err(CastError::Mismatch(value)) => INT::view(&value).copied(),
        Err(CastError::Memory(_)) => None,
        Ok(_) => None,
    }
}

#[test]
fn another_type_gives_the_value_back(rt: HostRuntime) {
    assert!(rt; int_back(rt.alloc(), Dynamic::ONE) == Some(1));
}
