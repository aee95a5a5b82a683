//! Casts that only a call can show: each type there and back, holders, typed arrays, values made
//! from collections.
use super::readme::cast_or;
use crate::values::{copied, is_named, shared, text_of};
use rhai_cast::{DynamicCast, cast_or_give_back};
use rhai_text::ImmutableString;
use rhai_value::{Array, Blob, Dynamic, ExclusiveRange, FnPtr, INT, InclusiveRange, Map, Store};
use rhai_variant::{CastError, Variant};
use std::alloc::Global;
use std::test::Fail;

/// Converts a value with `of`, and casts the result to its type again.
fn there_and_back<T: Variant>(alloc: Global, store: &Store, x: T) -> Option<T> {
    match Dynamic::of(alloc, x) {
        Ok(value) => value.try_cast::<T>(alloc, store).ok()?,
        Err(_) => None,
    }
}

/// Whether a plain value is unchanged by that.
fn is_back<T: Variant + Copy + PartialEq>(alloc: Global, x: T) -> bool {
    match there_and_back(alloc, &Store::new(alloc), x) {
        Some(back) => back == x,
        None => false,
    }
}

#[test]
fn plain_values_are_cast_there_and_back(rt: HostRuntime) {
    let alloc = rt.alloc();
    assert!(rt; is_back(alloc, ()));
    assert!(rt; is_back(alloc, true));
    assert!(rt; is_back(alloc, 'é'));
    assert!(rt; is_back(alloc, -7i64));
    assert!(rt; is_back(alloc, 200u8));
    assert!(rt; is_back(alloc, 60_000u16));
    assert!(rt; is_back(alloc, 42u32));
    assert!(rt; is_back(alloc, u64::MAX));
    assert!(rt; is_back(alloc, u128::MAX));
    assert!(rt; is_back(alloc, -100i8));
    assert!(rt; is_back(alloc, -30_000i16));
    assert!(rt; is_back(alloc, i32::MIN));
    assert!(rt; is_back(alloc, i128::MIN));
    assert!(rt; is_back(alloc, ExclusiveRange { start: 1, end: 5 }));
    assert!(rt; is_back(alloc, InclusiveRange { start: -1, end: 1 }));
}

/// Whether a `String` is unchanged by that.
fn is_string_back(alloc: Global, store: &Store, text: String) -> bool {
    match there_and_back(alloc, store, text) {
        Some(text) => text.as_str() == "hé",
        None => false,
    }
}

/// Whether a text is unchanged by that.
fn is_text_back(alloc: Global, store: &Store, text: ImmutableString) -> bool {
    match there_and_back(alloc, store, text) {
        Some(text) => text.as_str() == "hé",
        None => false,
    }
}

#[test]
fn texts_are_cast_there_and_back(rt: HostRuntime) -> Result<(), Fail> {
    let string = String::from_str(rt.alloc(), "hé")?;
    let text = ImmutableString::from_str(rt.alloc(), "hé")?;
    let store = Store::new(rt.alloc());
    assert!(rt; is_string_back(rt.alloc(), &store, string));
    assert!(rt; is_text_back(rt.alloc(), &store, text));
    Ok(())
}

/// Returns how many items come back.
fn items_back(alloc: Global, store: &Store, items: Array) -> Option<usize> {
    Some(there_and_back(alloc, store, items)?.len())
}

/// Returns how many bytes come back.
fn bytes_back(alloc: Global, store: &Store, bytes: Blob) -> Option<usize> {
    Some(there_and_back(alloc, store, bytes)?.len())
}

/// Returns how many entries come back.
fn entries_back(alloc: Global, store: &Store, map: Map) -> Option<usize> {
    Some(there_and_back(alloc, store, map)?.len())
}

/// Returns how many curried values come back.
fn curried_back(alloc: Global, store: &Store, function: FnPtr) -> Option<usize> {
    Some(there_and_back(alloc, store, function)?.curry().len())
}

/// Whether a value that is an int comes back.
fn is_int_back(alloc: Global, store: &Store, value: Dynamic) -> bool {
    match there_and_back(alloc, store, value) {
        Some(value) => value.is_int(store),
        None => false,
    }
}

#[test]
fn values_with_values_inside_are_cast_there_and_back(rt: HostRuntime) -> Result<(), Fail> {
    let alloc = rt.alloc();
    let store = Store::new(alloc);
    let name = ImmutableString::from_str(alloc, "f")?;
    let items = vec![in alloc; Dynamic::ONE]?;
    let bytes = Blob::from_slice(alloc, &[7])?;
    assert!(rt; curried_back(alloc, &store, FnPtr::new(name, items)) == Some(1));
    assert!(rt; items_back(alloc, &store, vec![in alloc; Dynamic::ONE]?) == Some(1));
    assert!(rt; bytes_back(alloc, &store, bytes) == Some(1));
    assert!(rt; entries_back(alloc, &store, Map::new(alloc)) == Some(0));
    assert!(rt; is_int_back(alloc, &store, Dynamic::TEN));
    Ok(())
}

/// Makes a number of the host; unit if the allocation fails.
fn byte(alloc: Global) -> Dynamic {
    match Dynamic::of(alloc, 5u8) {
        Ok(value) => value,
        Err(_) => Dynamic::UNIT,
    }
}

/// Whether a value is of one of two types.
fn is_of<T: Variant, U: Variant>(value: &Dynamic, store: &Store) -> bool {
    value.is::<T>(store) && !value.is::<U>(store)
}

/// Whether a value that can't be read as an int comes back.
fn is_no_int(alloc: Global, store: &Store, value: Dynamic) -> bool {
    match value.try_cast_result::<INT>(alloc, store) {
        Err(CastError::Mismatch(back)) => is_named(&back, store, "u8"),
        Err(CastError::Memory(_)) => false,
        Ok(_) => false,
    }
}

#[test]
fn a_number_of_the_host_is_no_int(rt: HostRuntime) {
    let store = Store::new(rt.alloc());
    let value = byte(rt.alloc());
    assert!(rt; is_of::<u8, INT>(&value, &store));
    assert!(rt; is_no_int(rt.alloc(), &store, value));
}

/// Whether a value can only be borrowed as the immutable text type.
fn is_looked_into(value: &Dynamic, store: &Store) -> bool {
    value.read_lock::<String>(store).is_none()
        && value.read_lock::<ImmutableString>(store).is_some()
}

/// Whether a value can be read as a `String`.
fn is_read_as_string(alloc: Global, store: &Store, value: Dynamic) -> bool {
    match value.try_cast::<String>(alloc, store) {
        Ok(Some(text)) => text.as_str() == "a",
        Ok(None) => false,
        Err(_) => false,
    }
}

#[test]
fn a_text_is_both_texts_where_unshared(rt: HostRuntime) {
    let mut store = Store::new(rt.alloc());
    let text = text_of(rt.alloc(), "a");
    assert!(rt; is_of::<String, Dynamic>(&text, &store));
    assert!(rt; is_looked_into(&text, &store));
    let holder = shared(text, &mut store);
    assert!(rt; is_of::<ImmutableString, String>(&holder, &store));
    assert!(rt; is_looked_into(&holder, &store));
    assert!(rt; is_read_as_string(rt.alloc(), &store, holder));
}

/// Whether a caller casts a value to 1.
fn is_cast_to_one(alloc: Global, store: &Store, value: Dynamic) -> bool {
    matches!(cast_or(alloc, value, store, 5i64), Ok(1))
}

/// Whether a caller gets true for a value that isn't a boolean.
fn is_cast_to_true(alloc: Global, store: &Store, value: Dynamic) -> bool {
    matches!(cast_or(alloc, value, store, true), Ok(true))
}

#[test]
fn a_caller_casts_to_any_type(rt: HostRuntime) {
    let mut store = Store::new(rt.alloc());
    let holder = shared(Dynamic::ONE, &mut store);
    assert!(rt; is_cast_to_one(rt.alloc(), &store, copied(rt.alloc(), &holder)));
    assert!(rt; is_cast_to_true(rt.alloc(), &store, holder));
}

/// Returns the int that a value is cast to, if it is one.
fn int_of(alloc: Global, store: &Store, value: Dynamic) -> Option<INT> {
    match cast_or_give_back(alloc, value, store) {
        Ok(found) => found,
        Err(_) => None,
    }
}

/// Whether a value is cast to this text.
fn is_cast_to_text(alloc: Global, store: &Store, value: Dynamic, text: &str) -> bool {
    match cast_or_give_back::<String>(alloc, value, store) {
        Ok(Some(found)) => found.as_str() == text,
        Ok(None) => false,
        Err(_) => false,
    }
}

#[test]
fn a_cast_that_may_give_back_reads_through_holders(rt: HostRuntime) {
    let alloc = rt.alloc();
    let mut store = Store::new(alloc);
    let number = shared(Dynamic::TEN, &mut store);
    let text = shared(text_of(alloc, "hé"), &mut store);
    assert!(rt; int_of(alloc, &store, Dynamic::ONE) == Some(1));
    assert!(rt; int_of(alloc, &store, number) == Some(10));
    assert!(rt; int_of(alloc, &store, copied(alloc, &text)).is_none());
    assert!(rt; is_cast_to_text(alloc, &store, text, "hé"));
}
