//! Arrays of values of one type.
use crate::values::{blob_of, copied, pair_of, shared};
use rhai_cast::DynamicCast;
use rhai_value::{Dynamic, INT, IntoError, Store};
use std::alloc::Global;

/// Whether the ints of an array are 1 and 2.
fn is_one_two(alloc: Global, store: &Store, value: Dynamic) -> bool {
    match value.into_typed_array::<INT>(alloc, store) {
        Ok(numbers) => numbers.as_slice() == [1, 2].as_slice(),
        Err(_) => false,
    }
}

/// Whether the bytes of an array or blob are 1 and 2.
fn is_bytes(alloc: Global, store: &Store, value: Dynamic) -> bool {
    match value.into_typed_array::<u8>(alloc, store) {
        Ok(bytes) => bytes.as_slice() == [1, 2].as_slice(),
        Err(_) => false,
    }
}

/// Whether what isn't an int has this name.
fn is_refused(alloc: Global, store: &Store, value: Dynamic, wanted: &str) -> bool {
    match value.into_typed_array::<INT>(alloc, store) {
        Err(IntoError::Mismatch(name)) => name == wanted,
        Err(IntoError::Memory(_)) => false,
        Ok(_) => false,
    }
}

#[test]
fn the_first_item_that_is_not_cast_is_named(rt: HostRuntime) {
    let alloc = rt.alloc();
    let store = Store::new(alloc);
    let mixed = pair_of(alloc, Dynamic::ONE, Dynamic::from_char('a'));
    assert!(rt; is_refused(alloc, &store, mixed, "char"));
    assert!(rt; is_refused(alloc, &store, blob_of(alloc, &[1, 2]), "blob"));
    assert!(rt; is_refused(alloc, &store, Dynamic::TRUE, "bool"));
}

#[test]
fn items_are_cast_without_their_holders(rt: HostRuntime) {
    let alloc = rt.alloc();
    let mut store = Store::new(alloc);
    let number = shared(Dynamic::ONE, &mut store);
    let numbers = pair_of(alloc, number, Dynamic::TWO);
    let holder = shared(copied(alloc, &numbers), &mut store);
    assert!(rt; is_one_two(alloc, &store, numbers));
    assert!(rt; is_one_two(alloc, &store, holder));
}

#[test]
fn a_holder_that_is_not_cast_is_named_as_one(rt: HostRuntime) {
    let alloc = rt.alloc();
    let mut store = Store::new(alloc);
    let letter = shared(Dynamic::from_char('a'), &mut store);
    let letters = pair_of(alloc, letter, Dynamic::ONE);
    assert!(rt; is_refused(alloc, &store, letters, "<shared>"));
}

#[test]
fn a_blob_is_an_array_of_bytes(rt: HostRuntime) {
    let alloc = rt.alloc();
    let mut store = Store::new(alloc);
    let holder = shared(blob_of(alloc, &[1, 2]), &mut store);
    assert!(rt; is_bytes(alloc, &store, blob_of(alloc, &[1, 2])));
    assert!(rt; is_bytes(alloc, &store, holder));
}
