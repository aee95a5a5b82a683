//! Values, in what only a call can show.
use crate::values::{chain, holds, is_locked, is_named, is_shared, ring, shared};
use rhai_value::{AccessMode, Cell, Dynamic, INT, Path, Store, Union};
use std::alloc::Global;
use std::mem::size_of;

#[test]
fn a_value_is_small(rt: HostRuntime) {
    assert!(rt; size_of::<Dynamic>() == 48);
    assert!(rt; size_of::<Cell>() == 64);
}

/// Whether a constant is this int, with neither a tag nor read-only mode of its own.
fn is_int(constant: Dynamic, wanted: INT) -> bool {
    matches!(constant.parts(), Union::Int(0, AccessMode::ReadWrite, n) if *n == wanted)
}

/// Whether a constant is this boolean.
fn is_bool(constant: Dynamic, wanted: bool) -> bool {
    matches!(constant.parts(), Union::Bool(0, AccessMode::ReadWrite, b) if *b == wanted)
}

/// Whether a constant is unit.
fn is_unit(constant: Dynamic) -> bool {
    matches!(constant.parts(), Union::Unit(0, AccessMode::ReadWrite, _))
}

#[test]
fn constants_are_what_they_are_named_for(rt: HostRuntime) {
    assert!(rt; is_unit(Dynamic::UNIT));
    assert!(rt; is_bool(Dynamic::TRUE, true));
    assert!(rt; is_bool(Dynamic::FALSE, false));
    assert!(rt; is_int(Dynamic::ZERO, 0));
    assert!(rt; is_int(Dynamic::ONE, 1));
    assert!(rt; is_int(Dynamic::TWO, 2));
    assert!(rt; is_int(Dynamic::THREE, 3));
    assert!(rt; is_int(Dynamic::TEN, 10));
    assert!(rt; is_int(Dynamic::HUNDRED, 100));
    assert!(rt; is_int(Dynamic::THOUSAND, 1_000));
    assert!(rt; is_int(Dynamic::MILLION, 1_000_000));
    assert!(rt; is_int(Dynamic::NEGATIVE_ONE, -1));
    assert!(rt; is_int(Dynamic::NEGATIVE_TWO, -2));
}

/// Whether a path can enter a cell.
fn opens(path: &mut Path, store: &Store, holder: &Dynamic) -> bool {
    match path.enter(store, holder) {
        Ok(found) => found.is_some(),
        Err(_) => false,
    }
}

/// Whether a path can enter a holder's cell, and again after leaving it.
fn opens_once(path: &mut Path, store: &Store, holder: &Dynamic) -> bool {
    if !matches!(path.enter(store, holder), Ok(Some(_))) {
        return false;
    }
    path.leave();
    opens(path, store, holder) && !opens(path, store, holder)
}

#[test]
fn a_path_opens_a_cell_once(rt: HostRuntime) {
    let mut store = Store::new(rt.alloc());
    let holder = shared(Dynamic::TRUE, &mut store);
    let mut path = Path::new(rt.alloc());
    assert!(rt; opens_once(&mut path, &store, &holder));
}

#[test]
fn a_path_opens_more_cells_than_it_has_room_for(rt: HostRuntime) {
    let mut store = Store::new(rt.alloc());
    let mut path = Path::new(rt.alloc());
    for i in 0..20 {
        let holder = shared(Dynamic::from_int(i), &mut store);
        assert!(rt; opens(&mut path, &store, &holder));
        assert!(rt; !opens(&mut path, &store, &holder));
    }
}

/// Whether a holder can't be read in a store without its cell.
fn is_foreign(holder: &Dynamic, store: &Store) -> bool {
    holder.read_whole(store).is_none()
        && holder.held(store).is_none()
        && is_locked(holder, store)
        && is_named(holder, store, "<shared>")
}

/// Whether a holder can't be used to set a mark.
fn is_not_marked(holder: &Dynamic, store: &mut Store) -> bool {
    match store.mark(holder) {
        None => true,
        Some(token) => {
            store.release(token);
            false
        }
    }
}

/// Whether the held value can't be used to set a mark.
fn is_not_marked_where_held(holder: &Dynamic, store: &mut Store) -> bool {
    match store.mark_held(holder) {
        None => true,
        Some(token) => {
            store.release(token);
            false
        }
    }
}

#[test]
fn a_holder_is_closed_to_another_store(rt: HostRuntime) {
    let mut store = Store::new(rt.alloc());
    let holder = shared(Dynamic::ONE, &mut store);
    let mut other = Store::new(rt.alloc());
    assert!(rt; is_shared(&holder));
    assert!(rt; is_foreign(&holder, &other));
    assert!(rt; is_not_marked(&holder, &mut other));
    assert!(rt; is_not_marked_where_held(&holder, &mut other));
}

#[test]
fn a_long_chain_has_an_end(rt: HostRuntime) {
    for length in [1, 100, 10_000] {
        let mut store = Store::new(rt.alloc());
        let value = chain(&mut store, length);
        assert!(rt; is_shared(&value));
        assert!(rt; holds(&value, &store, 7));
    }
}

/// Whether a holder holds nothing, and has no type except its own.
fn holds_nothing(holder: &Dynamic, store: &Store) -> bool {
    holder.held(store).is_none()
        && holder.as_int(store) == Err("<shared>")
        && is_named(holder, store, "<shared>")
        && !is_locked(holder, store)
}

#[test]
fn a_ring_has_no_end(rt: HostRuntime) {
    for length in [1, 2, 1000] {
        let mut store = Store::new(rt.alloc());
        let holder = ring(rt.alloc(), &mut store, length);
        assert!(rt; holds_nothing(&holder, &store));
    }
}
