//! Mutable references: a borrowed value is written, and if nothing is borrowed everything is
//! unchanged.
use crate::values::{
    blob_of, cell_with, chain, closed, copied, holds, is_named, is_shared, shared, text_of,
};
use rhai_text::ImmutableString;
use rhai_value::{AccessMode, Dynamic, INT, Map, Part, Store, Union};
use std::test::Fail;

/// Returns the name of the held type if no text can be borrowed.
fn name_for_text(value: &mut Dynamic, store: &mut Store) -> &'static str {
    match value.as_immutable_string_mut(store) {
        Ok(_) => "lent",
        Err(name) => name,
    }
}

/// As `name_for_text`, for an array.
fn name_for_array(value: &mut Dynamic, store: &mut Store) -> &'static str {
    match value.as_array_mut(store) {
        Ok(_) => "lent",
        Err(name) => name,
    }
}

/// As `name_for_text`, for a blob.
fn name_for_blob(value: &mut Dynamic, store: &mut Store) -> &'static str {
    match value.as_blob_mut(store) {
        Ok(_) => "lent",
        Err(name) => name,
    }
}

/// As `name_for_text`, for a map.
fn name_for_map(value: &mut Dynamic, store: &mut Store) -> &'static str {
    match value.as_map_mut(store) {
        Ok(_) => "lent",
        Err(name) => name,
    }
}

/// Whether no other kind than the held one can be borrowed, and errors have the held type's name.
fn lends_none(value: &mut Dynamic, store: &mut Store, name: &str) -> bool {
    name_for_text(value, store) == name
        && name_for_array(value, store) == name
        && name_for_blob(value, store) == name
        && name_for_map(value, store) == name
}

/// Whether a value is the constant 7 with tag 3.
fn is_seven(value: &Dynamic) -> bool {
    matches!(value.parts(), Union::Int(3, AccessMode::ReadOnly, 7))
}

/// Whether the cell of a holder with tag 4 contains that constant.
fn has_seven(holder: &Dynamic, store: &Store) -> bool {
    match holder.read_whole(store) {
        Some(content) => holder.tag() == 4 && is_seven(content),
        None => false,
    }
}

#[test]
fn nothing_is_lent_of_another_kind(rt: HostRuntime) {
    let mut store = Store::new(rt.alloc());
    let mut value = Dynamic::from_int(7).into_read_only();
    value.set_tag(3);
    assert!(rt; lends_none(&mut value, &mut store, "i64"));
    assert!(rt; is_seven(&value));
    let mut holder = shared(value, &mut store);
    holder.set_tag(4);
    assert!(rt; lends_none(&mut holder, &mut store, "i64"));
    assert!(rt; has_seven(&holder, &store));
}

/// Whether neither the first content nor the held value can be borrowed.
fn lends_nothing(value: &mut Dynamic, store: &mut Store) -> bool {
    value.write_whole(store).is_none() && value.held_mut(store).is_none()
}

#[test]
fn nothing_is_lent_of_a_stuck_chain(rt: HostRuntime) {
    let mut store = Store::new(rt.alloc());
    let mut other = Store::new(rt.alloc());
    let mut holder = shared(Dynamic::ONE, &mut store);
    let mut outer = cell_with(copied(rt.alloc(), &holder), &mut store);
    assert!(rt; lends_none(&mut holder, &mut other, "<shared>"));
    assert!(rt; lends_nothing(&mut holder, &mut other));
    assert!(rt; lends_none(&mut outer, &mut other, "<shared>"));
    assert!(rt; holds(&outer, &store, 1));
}

/// Whether a value with a closed chain holds nothing, but its first content, a holder, can be
/// borrowed.
fn lends_first(value: &mut Dynamic, store: &mut Store) -> bool {
    if value.held_mut(store).is_some() {
        return false;
    }
    match value.write_whole(store) {
        Some(content) => is_shared(content),
        None => false,
    }
}

#[test]
fn nothing_is_lent_of_a_closed_chain(rt: HostRuntime) {
    let mut store = Store::new(rt.alloc());
    let mut holder = closed(rt.alloc(), &mut store);
    assert!(rt; lends_none(&mut holder, &mut store, "<shared>"));
    assert!(rt; lends_first(&mut holder, &mut store));
}

/// Overwrites the held int.
fn write_int(value: &mut Dynamic, store: &mut Store, wanted: INT) -> bool {
    match value.as_part_mut::<INT>(store) {
        Ok(int) => {
            *int = wanted;
            true
        }
        Err(_) => false,
    }
}

/// Overwrites the held text.
fn write_text(value: &mut Dynamic, store: &mut Store, text: ImmutableString) -> bool {
    match value.as_immutable_string_mut(store) {
        Ok(held) => {
            *held = text;
            true
        }
        Err(_) => false,
    }
}

/// Whether a text of this many bytes is held.
fn has_bytes(value: &Dynamic, store: &Store, wanted: usize) -> bool {
    match value.as_immutable_string_ref(store) {
        Ok(text) => text.len() == wanted,
        Err(_) => false,
    }
}

#[test]
fn what_is_lent_is_written_where_it_is_held(rt: HostRuntime) -> Result<(), Fail> {
    let other = ImmutableString::from_str(rt.alloc(), "bcd")?;
    let mut store = Store::new(rt.alloc());
    let mut int = shared(Dynamic::ONE, &mut store);
    assert!(rt; write_int(&mut int, &mut store, 8));
    assert!(rt; holds(&int, &store, 8));
    let mut text = shared(text_of(rt.alloc(), "a"), &mut store);
    assert!(rt; write_text(&mut text, &mut store, other));
    assert!(rt; has_bytes(&text, &store, 3));
    Ok(())
}

/// Overwrites the held int, borrowed from the value or its store.
fn write_lent(value: &mut Dynamic, store: &mut Store, wanted: INT) -> bool {
    let is_own = INT::own(value).is_some();
    match Dynamic::lent_part_mut::<INT>(is_own, value, store) {
        Ok(int) => {
            *int = wanted;
            true
        }
        Err(_) => false,
    }
}

#[test]
fn a_part_is_lent_of_the_value_or_of_its_store(rt: HostRuntime) {
    let mut store = Store::new(rt.alloc());
    let mut value = Dynamic::from_int(5).into_read_only();
    value.set_tag(3);
    assert!(rt; write_lent(&mut value, &mut store, 7));
    assert!(rt; is_seven(&value));
    let mut outer = chain(&mut store, 2);
    assert!(rt; write_lent(&mut outer, &mut store, 8));
    assert!(rt; holds(&outer, &store, 8));
    let mut text = shared(text_of(rt.alloc(), "a"), &mut store);
    assert!(rt; !write_lent(&mut text, &mut store, 9));
    assert!(rt; has_bytes(&text, &store, 1));
    assert!(rt; holds(&outer, &store, 8));
    assert!(rt; is_seven(&value));
}

/// Clears the bytes, items or entries of the held value.
fn clear(value: &mut Dynamic, store: &mut Store) -> bool {
    if let Ok(bytes) = value.as_blob_mut(store) {
        bytes.clear();
        return true;
    }
    if let Ok(items) = value.as_array_mut(store) {
        items.clear();
        return true;
    }
    match value.as_map_mut(store) {
        Ok(map) => {
            map.clear();
            true
        }
        Err(_) => false,
    }
}

#[test]
fn lists_are_emptied_where_they_are_held(rt: HostRuntime) {
    let mut store = Store::new(rt.alloc());
    let mut blob = shared(blob_of(rt.alloc(), &[1, 2]), &mut store);
    assert!(rt; clear(&mut blob, &mut store));
    assert!(rt; is_named(&blob, &store, "blob"));
    let mut map = shared(Dynamic::from_map(Map::new(rt.alloc())), &mut store);
    assert!(rt; clear(&mut map, &mut store));
    let mut array = shared(Dynamic::from_array(Vec::new(rt.alloc())), &mut store);
    assert!(rt; clear(&mut array, &mut store));
}
