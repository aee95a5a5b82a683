//! Values that are flattened, shared and written in place.
use crate::values::{chain, closed, holds, is_shared};
use rhai_value::{AccessMode, Dynamic, INT, InStore, Part, Store, Union};
use std::alloc::Global;

/// Whether flattening a value results in this int.
fn flattens_to(alloc: Global, value: &mut Dynamic, store: &Store, wanted: INT) -> bool {
    if value.flatten_in_place(alloc, store).is_err() {
        return false;
    }
    matches!(value.parts(), Union::Int(_, AccessMode::ReadWrite, n) if *n == wanted)
}

#[test]
fn a_holder_is_flattened_where_it_stands(rt: HostRuntime) {
    let mut store = Store::new(rt.alloc());
    for length in 0..3usize {
        let mut value = chain(&mut store, length);
        assert!(rt; flattens_to(rt.alloc(), &mut value, &store, 7));
    }
}

/// Whether a value is the constant 7 with tag 3.
fn is_seven(value: &Dynamic) -> bool {
    matches!(value.parts(), Union::Int(3, AccessMode::ReadOnly, 7))
}

#[test]
fn what_is_no_open_holder_stays(rt: HostRuntime) {
    let alloc = rt.alloc();
    let mut store = Store::new(alloc);
    let mut seven = Dynamic::from_parts(Union::Int(3, AccessMode::ReadOnly, 7));
    assert!(rt; seven.flatten_in_place(alloc, &store).is_ok());
    assert!(rt; is_seven(&seven));
    let mut round = closed(alloc, &mut store);
    assert!(rt; round.flatten_in_place(alloc, &store).is_ok());
    assert!(rt; is_shared(&round));
}

/// Whether sharing a value results in a holder of this int.
fn shares(value: &mut Dynamic, store: &mut Store, wanted: INT) -> bool {
    value.share_in_place(store).is_ok() && is_shared(value) && holds(value, store, wanted)
}

/// Whether the cell of a holder contains a holder itself.
fn is_held_by_a_holder(value: &Dynamic, store: &Store) -> bool {
    match value.read_whole(store) {
        Some(content) => content.is_shared(),
        None => false,
    }
}

#[test]
fn a_value_is_shared_where_it_stands_and_once(rt: HostRuntime) {
    let mut store = Store::new(rt.alloc());
    let mut value = Dynamic::from_int(7);
    assert!(rt; shares(&mut value, &mut store, 7));
    assert!(rt; shares(&mut value, &mut store, 7));
    assert!(rt; !is_held_by_a_holder(&value, &store));
}

/// Adds one to the held int, if there is one.
fn add_one(value: &mut Dynamic, store: &mut Store) {
    if value.as_int(store).is_err() {
        return;
    }
    let mut place = InStore { value, store };
    let held = place.held_part_mut::<INT>();
    *held = held.wrapping_add(1);
}

#[test]
fn what_is_held_is_written(rt: HostRuntime) {
    let mut store = Store::new(rt.alloc());
    for length in 0..3usize {
        let mut value = chain(&mut store, length);
        add_one(&mut value, &mut store);
        assert!(rt; holds(&value, &store, 8));
    }
}

/// Returns the int that a value itself is, and then doubles it in place.
fn doubled(value: &mut Dynamic) -> Option<INT> {
    let own = INT::own_mut(value)?;
    *own = own.wrapping_mul(2);
    Some(*own)
}

#[test]
fn a_part_of_its_own_is_read_and_written(rt: HostRuntime) {
    let mut store = Store::new(rt.alloc());
    let mut seven = Dynamic::from_int(7);
    assert!(rt; doubled(&mut seven) == Some(14));
    assert!(rt; doubled(&mut chain(&mut store, 1)).is_none());
}
