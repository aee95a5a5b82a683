//! Marks and their tokens.
use crate::values::{cell_with, copied, holds, is_locked, is_named, shared};
use rhai_value::{Dynamic, Store, laws};
use std::process::Abort;

/// Whether a marked cell can only be read through its token, can only be marked once, and can be
/// read again when the mark is gone.
fn is_read_by_its_token(rt: &impl Abort, store: &mut Store, holder: &Dynamic) -> bool {
    let Some(token) = store.mark(holder) else {
        return false;
    };
    let is_closed = is_named(holder, store, "<shared>") && is_locked(holder, store);
    let is_read = holds(store.through(&token), store, 7);
    match store.mark(holder) {
        None => store.release(token),
        Some(_) => panic!(rt; "a marked cell is marked again"),
    }
    is_closed && is_read && holds(holder, store, 7)
}

#[test]
fn a_marked_cell_is_read_by_its_token_alone(rt: HostRuntime) {
    let mut store = Store::new(rt.alloc());
    let holder = shared(Dynamic::from_int(7), &mut store);
    assert!(rt; is_read_by_its_token(&rt, &mut store, &holder));
}

/// Whether the last cell of a chain can be marked, and what is written through the token is held.
fn is_written_by_its_token(store: &mut Store, inner: &Dynamic, outer: &Dynamic) -> bool {
    laws::marks_stay();
    let Some(token) = store.mark_held(outer) else {
        return false;
    };
    let is_inner = is_locked(inner, store) && !is_locked(outer, store);
    *store.through_mut(&token) = Dynamic::from_int(8);
    store.release(token);
    is_inner && holds(outer, store, 8)
}

#[test]
fn what_is_written_through_a_token_is_held(rt: HostRuntime) {
    let mut store = Store::new(rt.alloc());
    let inner = shared(Dynamic::from_int(7), &mut store);
    let outer = cell_with(copied(rt.alloc(), &inner), &mut store);
    assert!(rt; is_written_by_its_token(&mut store, &inner, &outer));
}
