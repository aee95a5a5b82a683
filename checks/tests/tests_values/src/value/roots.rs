//! A stack of values that keep their cells.
use crate::values::{chain, copied, holds, shared};
use rhai_value::{Dynamic, Roots, Store};
use std::alloc::Global;

/// Makes this many unreachable cells.
fn litter(store: &mut Store, count: usize) {
    for _ in 0..count {
        let _ = shared(Dynamic::ONE, store);
    }
}

/// Whether the value of this number holds this int.
fn root_holds(roots: &Roots, store: &Store, index: usize, wanted: i64) -> bool {
    match roots.get(index) {
        Some(value) => holds(value, store, wanted),
        None => false,
    }
}

/// Whether values on the stack hold the same after a collection, and a copy that isn't on the stack
/// doesn't.
fn is_kept(store: &mut Store, roots: &mut Roots, alloc: Global) -> bool {
    litter(store, 3000);
    let value = chain(store, 3);
    let stale = copied(alloc, &value);
    if roots.push(value).is_err() || roots.push(Dynamic::TWO).is_err() {
        return false;
    }
    let is_done = store.is_collection_due() && roots.collect_if_due(store).is_ok();
    is_done
        && !store.is_collection_due()
        && root_holds(roots, store, 0, 7)
        && root_holds(roots, store, 1, 2)
        && !holds(&stale, store, 7)
}

#[test]
fn roots_keep_their_cells(rt: HostRuntime) {
    let mut store = Store::new(rt.alloc());
    let mut roots = Roots::new(rt.alloc());
    assert!(rt; is_kept(&mut store, &mut roots, rt.alloc()));
}

/// Whether a collection does nothing while a cell is marked.
fn waits(store: &mut Store, roots: &mut Roots) -> bool {
    litter(store, 3000);
    let mut value = chain(store, 1);
    let answer = value.with_held(store, |_, m| roots.collect(m).is_ok());
    answer == Ok(true) && holds(&value, store, 7) && !store.has_marks()
}

#[test]
fn nothing_is_collected_while_a_cell_is_marked(rt: HostRuntime) {
    let mut store = Store::new(rt.alloc());
    let mut roots = Roots::new(rt.alloc());
    assert!(rt; waits(&mut store, &mut roots));
}

/// Whether a value on the stack can be written, and those above it dropped.
fn is_cut(roots: &mut Roots, store: &Store) -> bool {
    let is_full = roots.push(Dynamic::ONE).is_ok()
        && roots.push(Dynamic::TWO).is_ok()
        && roots.push(Dynamic::TEN).is_ok();
    if let Some(value) = roots.get_mut(0) {
        *value = Dynamic::THREE;
    }
    let top = roots.pop().is_some();
    roots.truncate(1);
    is_full && top && roots.len() == 1 && root_holds(roots, store, 0, 3) && roots.get(1).is_none()
}

#[test]
fn roots_are_a_stack(rt: HostRuntime) {
    let store = Store::new(rt.alloc());
    let mut roots = Roots::new(rt.alloc());
    assert!(rt; is_cut(&mut roots, &store));
}
