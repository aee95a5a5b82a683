//! Writes of callers to held values.
use super::callers::{
    overwrite, write_bytes, write_fields, write_first, write_held, write_items, write_text,
};
use crate::values::{copied, is_locked, is_named, is_shared, shared, text_of};
use rhai_text::ImmutableString;
use rhai_value::{Dynamic, InStore, Map, Store};
use std::alloc::Global;
use std::test::Fail;

/// Overwrites the held value with an array.
fn put_array(alloc: Global, place: &mut InStore<'_>) -> bool {
    write_held(place, Dynamic::from_array(Vec::new(alloc)))
}

/// Overwrites the held value with a blob.
fn put_blob(alloc: Global, place: &mut InStore<'_>) -> bool {
    write_held(place, Dynamic::from_blob(Vec::new(alloc)))
}

/// Overwrites the held value with a map.
fn put_map(alloc: Global, place: &mut InStore<'_>) -> bool {
    write_held(place, Dynamic::from_map(Map::new(alloc)))
}

/// Whether each kind of content is written if that kind is held, and nothing if another kind is.
fn is_written(alloc: Global, place: &mut InStore<'_>) -> bool {
    put_array(alloc, place)
        && write_items(place, Vec::new(alloc))
        && !write_fields(place, Map::new(alloc))
        && put_blob(alloc, place)
        && !write_items(place, Vec::new(alloc))
        && write_bytes(place, Vec::new(alloc))
        && put_map(alloc, place)
        && !write_bytes(place, Vec::new(alloc))
        && write_fields(place, Map::new(alloc))
}

#[test]
fn contents_are_written_where_they_are_held(rt: HostRuntime) {
    let mut store = Store::new(rt.alloc());
    let mut value = shared(Dynamic::ZERO, &mut store);
    let mut place = InStore {
        value: &mut value,
        store: &mut store,
    };
    assert!(rt; is_written(rt.alloc(), &mut place));
}

/// Whether a text overwrites a text, and not another kind.
fn is_text_written(text: ImmutableString, place: &mut InStore<'_>) -> bool {
    write_text(place, text) && is_named(place.value, place.store, "string")
}

#[test]
fn a_text_is_written_over_a_text(rt: HostRuntime) -> Result<(), Fail> {
    let text = ImmutableString::from_str(rt.alloc(), "b")?;
    let mut store = Store::new(rt.alloc());
    let mut value = shared(text_of(rt.alloc(), "a"), &mut store);
    let mut place = InStore {
        value: &mut value,
        store: &mut store,
    };
    assert!(rt; is_text_written(text, &mut place));
    Ok(())
}

/// Puts a holder into its own cell.
fn close(store: &mut Store, holder: &mut Dynamic, again: Dynamic) -> bool {
    let mut place = InStore {
        value: holder,
        store,
    };
    write_first(&mut place, again)
}

/// Whether a holder of its own cell holds no value, is not locked, and flattens to itself.
fn is_closed(alloc: Global, store: &Store, holder: Dynamic) -> bool {
    if is_locked(&holder, store) || !is_named(&holder, store, "<shared>") {
        return false;
    }
    match holder.flatten(alloc, store) {
        Ok(same) => is_shared(&same),
        Err(_) => false,
    }
}

#[test]
fn a_cell_may_hold_its_own_holder(rt: HostRuntime) {
    let mut store = Store::new(rt.alloc());
    let mut holder = shared(Dynamic::UNIT, &mut store);
    let again = copied(rt.alloc(), &holder);
    assert!(rt; close(&mut store, &mut holder, again));
    assert!(rt; is_closed(rt.alloc(), &store, holder));
}

/// Whether an unshared value was overwritten.
fn is_overwritten(store: &mut Store) -> bool {
    let mut value = Dynamic::ONE;
    overwrite(&mut value, store, Dynamic::TRUE);
    is_named(&value, store, "bool")
}

#[test]
fn a_value_of_its_own_is_written_over(rt: HostRuntime) {
    let mut store = Store::new(rt.alloc());
    assert!(rt; is_overwritten(&mut store));
}
