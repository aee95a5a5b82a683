//! Casts of holders, and of chains that are stuck or closed.
use crate::values::{chain, closed, copied, holds, is_named, is_shared, shared};
use rhai_cast::{DynamicCast, lent_lock, write_lock};
use rhai_value::{Dynamic, INT, InStore, Store};
use std::alloc::Global;

/// Overwrites the first content.
fn put(holder: &mut Dynamic, value: Dynamic, store: &mut Store) -> bool {
    match holder.write_lock::<Dynamic>(store) {
        Some(content) => {
            *content = value;
            true
        }
        None => false,
    }
}

/// Whether the flat copy of a holder is no holder.
fn is_flat(alloc: Global, store: &Store, holder: &Dynamic) -> bool {
    match holder.clone_cast::<Dynamic>(alloc, store) {
        Ok(flat) => !is_shared(&flat),
        Err(_) => false,
    }
}

/// Whether reading a holder as a `Dynamic` returns the holder.
fn is_read_shared(alloc: Global, store: &Store, value: Dynamic) -> bool {
    match value.try_cast_result::<Dynamic>(alloc, store) {
        Ok(read) => is_shared(&read),
        Err(_) => false,
    }
}

/// Whether a holder is cast to itself.
fn is_same(alloc: Global, store: &Store, holder: Dynamic) -> bool {
    match holder.cast::<Dynamic>(alloc, store) {
        Ok(same) => is_shared(&same),
        Err(_) => false,
    }
}

#[test]
fn a_holder_is_itself_or_its_flat_copy(rt: HostRuntime) {
    let alloc = rt.alloc();
    let mut store = Store::new(alloc);
    let holder = shared(Dynamic::ONE, &mut store);
    assert!(rt; is_flat(alloc, &store, &holder));
    assert!(rt; !is_read_shared(alloc, &store, copied(alloc, &holder)));
    assert!(rt; is_same(alloc, &store, holder));
}

/// Whether a value can only be borrowed whole.
fn is_lent_whole(value: &Dynamic) -> bool {
    value.downcast_ref::<INT>().is_none() && value.downcast_ref::<Dynamic>().is_some()
}

/// Whether a value can't be read as an int.
fn is_no_int(alloc: Global, store: &Store, value: Dynamic) -> bool {
    match value.try_cast::<INT>(alloc, store) {
        Ok(found) => found.is_none(),
        Err(_) => false,
    }
}

/// Whether a value contains no int, and none can be borrowed.
fn has_no_int(value: &Dynamic, store: &Store) -> bool {
    !value.is::<INT>(store) && value.read_lock::<INT>(store).is_none()
}

#[test]
fn stuck_chains_are_cast_to_dynamic_alone(rt: HostRuntime) {
    let alloc = rt.alloc();
    let mut store = Store::new(alloc);
    let holder = shared(Dynamic::ONE, &mut store);
    let other = Store::new(alloc);
    assert!(rt; is_lent_whole(&holder));
    assert!(rt; has_no_int(&holder, &other));
    assert!(rt; is_no_int(alloc, &other, copied(alloc, &holder)));
    assert!(rt; is_read_shared(alloc, &other, holder));
}

#[test]
fn closed_chains_are_cast_to_dynamic_alone(rt: HostRuntime) {
    let alloc = rt.alloc();
    let mut store = Store::new(alloc);
    let holder = closed(alloc, &mut store);
    assert!(rt; has_no_int(&holder, &store));
    assert!(rt; is_no_int(alloc, &store, copied(alloc, &holder)));
    assert!(rt; !is_flat(alloc, &store, &holder));
    assert!(rt; is_read_shared(alloc, &store, holder));
}

/// Overwrites the held int.
fn put_int(place: &mut InStore<'_>, int: INT) -> bool {
    match write_lock::<INT>(place) {
        Some(held) => {
            *held = int;
            true
        }
        None => false,
    }
}

/// The same, with the method.
fn write_int(holder: &mut Dynamic, store: &mut Store, int: INT) -> bool {
    match holder.write_lock::<INT>(store) {
        Some(held) => {
            *held = int;
            true
        }
        None => false,
    }
}

/// The same, borrowed from the value or its store.
fn write_lent(value: &mut Dynamic, store: &mut Store, int: INT) -> bool {
    match lent_lock::<INT>(false, value, store) {
        Some(held) => {
            *held = int;
            true
        }
        None => false,
    }
}

/// Overwrites the first content, borrowed from the value or its store.
fn replace_first(value: &mut Dynamic, store: &mut Store, other: Dynamic) -> bool {
    match lent_lock::<Dynamic>(true, value, store) {
        Some(content) => {
            *content = other;
            true
        }
        None => false,
    }
}

#[test]
fn one_of_a_type_is_lent_of_the_value_or_of_its_store(rt: HostRuntime) {
    let mut store = Store::new(rt.alloc());
    let mut value = Dynamic::from_int(5);
    assert!(rt; write_lent(&mut value, &mut store, 6));
    assert!(rt; holds(&value, &store, 6));
    let mut outer = chain(&mut store, 2);
    assert!(rt; write_lent(&mut outer, &mut store, 8));
    assert!(rt; holds(&outer, &store, 8));
    let mut truth = shared(Dynamic::TRUE, &mut store);
    assert!(rt; !write_lent(&mut truth, &mut store, 9));
    assert!(rt; is_named(&truth, &store, "bool"));
    assert!(rt; replace_first(&mut outer, &mut store, Dynamic::TWO));
    assert!(rt; holds(&outer, &store, 2));
    assert!(rt; replace_first(&mut value, &mut store, Dynamic::from_int(1)));
    assert!(rt; holds(&value, &store, 1));
}

/// Overwrites the value itself.
fn replace(value: &mut Dynamic, other: Dynamic) -> bool {
    match value.downcast_mut::<Dynamic>() {
        Some(own) => {
            *own = other;
            true
        }
        None => false,
    }
}

#[test]
fn what_is_lent_is_written_where_it_is_held(rt: HostRuntime) {
    let mut store = Store::new(rt.alloc());
    let inner = shared(Dynamic::ONE, &mut store);
    let mut outer = shared(Dynamic::UNIT, &mut store);
    assert!(rt; put(&mut outer, copied(rt.alloc(), &inner), &mut store));
    assert!(rt; write_int(&mut outer, &mut store, 7));
    assert!(rt; holds(&inner, &store, 7));
    let mut place = InStore {
        value: &mut outer,
        store: &mut store,
    };
    assert!(rt; put_int(&mut place, 8));
    assert!(rt; holds(&inner, &store, 8));
}

#[test]
fn a_holder_is_written_over_as_a_dynamic(rt: HostRuntime) {
    let mut store = Store::new(rt.alloc());
    let mut holder = shared(Dynamic::ONE, &mut store);
    assert!(rt; replace(&mut holder, Dynamic::TWO));
    assert!(rt; !is_shared(&holder));
    assert!(rt; holds(&holder, &store, 2));
}
