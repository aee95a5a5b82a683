//! Arrays, maps and function pointers: modes and tags of what is inside, and moving it out.
use crate::values::{blob_of, copied, shared, text_of};
use rhai_text::ImmutableString;
use rhai_value::{AccessMode, Dynamic, FnPtr, IntoError, Map, Store, Union};
use std::alloc::Global;

/// Makes an array of this item; unit if the allocation fails.
fn array_of(alloc: Global, item: Dynamic) -> Dynamic {
    match vec![in alloc; item] {
        Ok(items) => Dynamic::from_array(items),
        Err(_) => Dynamic::UNIT,
    }
}

/// Inserts a value at "a" into a map.
fn put_at_a(alloc: Global, map: &mut Map, value: Dynamic) -> bool {
    match String::from_str(alloc, "a") {
        Ok(key) => map.insert(key, value).is_ok(),
        Err(_) => false,
    }
}

/// Makes a map from "a" to this value; an empty one if the allocation fails.
fn map_of(alloc: Global, value: Dynamic) -> Dynamic {
    let mut map = Map::new(alloc);
    let _ = put_at_a(alloc, &mut map, value);
    Dynamic::from_map(map)
}

/// Makes a function pointer with this curried value; without it if the allocation fails.
fn function_of(name: ImmutableString, alloc: Global, value: Dynamic) -> Dynamic {
    let mut pointer = FnPtr::new(name, Vec::new(alloc));
    let _ = pointer.curry_mut().push(value);
    Dynamic::from(pointer)
}

/// Returns the first value inside another.
fn inside(value: &Dynamic) -> Option<&Dynamic> {
    match value.parts() {
        Union::Array(_, _, items) => items.first(),
        Union::Map(_, _, map) => map.get("a"),
        Union::FnPtr(_, _, pointer) => pointer.curry().first(),
        _ => None,
    }
}

/// Whether the first value inside another has this mode.
fn has_mode_inside(value: &Dynamic, wanted: AccessMode) -> bool {
    match inside(value) {
        Some(item) => item.access_mode() == wanted,
        None => false,
    }
}

/// Whether the value inside a value of a map has this mode.
fn has_mode_in_both(map: &Dynamic, wanted: AccessMode) -> bool {
    match inside(map) {
        Some(array) => has_mode_inside(array, wanted),
        None => false,
    }
}

#[test]
fn a_mode_goes_through_arrays_and_maps(rt: HostRuntime) {
    let array = array_of(rt.alloc(), Dynamic::ONE);
    let constant = map_of(rt.alloc(), array).into_read_only();
    assert!(rt; has_mode_in_both(&constant, AccessMode::ReadOnly));
    let copy = copied(rt.alloc(), &constant);
    assert!(rt; has_mode_in_both(&copy, AccessMode::ReadWrite));
}

/// Whether the value inside the held one, inside a value, has this mode.
fn has_mode_held(value: &Dynamic, store: &Store, wanted: AccessMode) -> bool {
    let Some(holder) = inside(value) else {
        return false;
    };
    match holder.held(store) {
        Some(array) => has_mode_inside(array, wanted),
        None => false,
    }
}

#[test]
fn a_mode_stays_outside_cells(rt: HostRuntime) {
    let mut store = Store::new(rt.alloc());
    let holder = shared(array_of(rt.alloc(), Dynamic::ONE), &mut store);
    let constant = array_of(rt.alloc(), holder).into_read_only();
    assert!(rt; has_mode_inside(&constant, AccessMode::ReadOnly));
    assert!(rt; has_mode_held(&constant, &store, AccessMode::ReadWrite));
}

/// Whether the mode of a function pointer doesn't apply to its curried values.
fn is_constant_outside(alloc: Global, name: ImmutableString) -> bool {
    let constant = function_of(name, alloc, Dynamic::ONE).into_read_only();
    constant.access_mode() == AccessMode::ReadOnly
        && has_mode_inside(&constant, AccessMode::ReadWrite)
}

#[test]
fn a_mode_stays_outside_curried_values(rt: HostRuntime) {
    match ImmutableString::from_str(rt.alloc(), "f") {
        Ok(name) => assert!(rt; is_constant_outside(rt.alloc(), name)),
        Err(_) => assert!(rt; false),
    }
}

/// Whether a copy of an array has the tag of its item.
fn keeps_tag_inside(alloc: Global, mut item: Dynamic) -> bool {
    item.set_tag(4);
    let copy = copied(alloc, &array_of(alloc, item));
    match inside(&copy) {
        Some(item) => item.tag() == 4,
        None => false,
    }
}

#[test]
fn copies_keep_the_tags_inside(rt: HostRuntime) {
    assert!(rt; keeps_tag_inside(rt.alloc(), Dynamic::ONE));
}

/// Whether this text can be moved out of a value.
fn gives_string(alloc: Global, store: &Store, value: Dynamic, wanted: &str) -> bool {
    match value.into_string(alloc, store) {
        Ok(text) => text.as_str() == wanted,
        Err(_) => false,
    }
}

/// The same, with the immutable text type.
fn gives_text(alloc: Global, store: &Store, value: Dynamic, wanted: &str) -> bool {
    match value.into_immutable_string(alloc, store) {
        Ok(text) => text.as_str() == wanted,
        Err(_) => false,
    }
}

#[test]
fn texts_are_moved_out(rt: HostRuntime) {
    let alloc = rt.alloc();
    let mut store = Store::new(alloc);
    let holder = shared(text_of(alloc, "hé"), &mut store);
    assert!(rt; gives_string(alloc, &store, copied(alloc, &holder), "hé"));
    assert!(rt; gives_text(alloc, &store, holder, "hé"));
    assert!(rt; gives_string(alloc, &store, text_of(alloc, "hé"), "hé"));
    assert!(rt; gives_text(alloc, &store, text_of(alloc, "hé"), "hé"));
}

/// Whether the items that are moved out of an array begin with a value of this mode.
fn gives_item(alloc: Global, store: &Store, value: Dynamic, wanted: AccessMode) -> bool {
    match value.into_array(alloc, store) {
        Ok(items) => match items.first() {
            Some(item) => item.access_mode() == wanted,
            None => false,
        },
        Err(_) => false,
    }
}

#[test]
fn own_items_are_moved_out_as_they_are(rt: HostRuntime) {
    let alloc = rt.alloc();
    let mut store = Store::new(alloc);
    let constant = array_of(alloc, Dynamic::ONE).into_read_only();
    let holder = shared(array_of(alloc, Dynamic::ONE).into_read_only(), &mut store);
    assert!(rt; gives_item(alloc, &store, constant, AccessMode::ReadOnly));
    assert!(rt; gives_item(alloc, &store, holder, AccessMode::ReadWrite));
}

/// Whether these bytes can be moved out of a value.
fn gives_bytes(alloc: Global, store: &Store, value: Dynamic, wanted: &[u8]) -> bool {
    match value.into_blob(alloc, store) {
        Ok(bytes) => bytes.as_slice() == wanted,
        Err(_) => false,
    }
}

/// Whether a value that isn't a blob is refused with this type name.
fn is_no_blob(alloc: Global, store: &Store, value: Dynamic, wanted: &str) -> bool {
    match value.into_blob(alloc, store) {
        Err(IntoError::Mismatch(name)) => name == wanted,
        Err(IntoError::Memory(_)) => false,
        Ok(_) => false,
    }
}

#[test]
fn bytes_are_moved_out(rt: HostRuntime) {
    let alloc = rt.alloc();
    let mut store = Store::new(alloc);
    let holder = shared(blob_of(alloc, &[1, 2]), &mut store);
    assert!(rt; gives_bytes(alloc, &store, holder, &[1, 2]));
    assert!(rt; gives_bytes(alloc, &store, blob_of(alloc, &[7]), &[7]));
    let array = shared(array_of(alloc, Dynamic::ONE), &mut store);
    assert!(rt; is_no_blob(alloc, &store, array, "array"));
}

/// Whether a value can be taken apart, changed and put together.
fn is_changed_apart(mut value: Dynamic) -> bool {
    if let Union::Int(_, _, int) = value.parts_mut() {
        *int = 2;
    }
    let again = Dynamic::from_parts(value.into_parts());
    matches!(again.parts(), Union::Int(0, _, 2))
}

#[test]
fn parts_are_taken_and_put_together(rt: HostRuntime) {
    assert!(rt; is_changed_apart(Dynamic::ONE));
}
