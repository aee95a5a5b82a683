//! Targets that are shared values: the mark of the cell, the holder, and every way to consume them.
use super::*;

/// Makes a constant holder with tag 4 of a cell with the constant 7 with tag 3.
fn holder(store: &mut Store) -> Dynamic {
    let mut holder = shared(seven(), store).into_read_only();
    holder.set_tag(4);
    holder
}

/// Whether a value is that holder, and its cell isn't marked.
fn is_kept(holder: &Dynamic, store: &Store) -> bool {
    matches!(holder.parts(), Union::Shared(4, AccessMode::ReadOnly, _))
        && holder.read_whole(store).map(is_seven) == Some(true)
        && !holder.is_locked(store)
}

/// Whether a value is a copy of that holder.
fn is_copied(holder: &Dynamic, store: &Store) -> bool {
    matches!(holder.parts(), Union::Shared(4, AccessMode::ReadWrite, _))
        && holder.as_int(store) == Ok(7)
}

/// Whether the holder is taken.
fn is_cloned(alloc: Global, store: &mut Store, value: &mut Dynamic) -> bool {
    let Ok(target) = Target::try_from(value, store) else {
        return false;
    };
    match target.take_or_clone(alloc, store) {
        Ok(taken) => is_copied(&taken, store),
        Err(target) => {
            target.release(store);
            false
        }
    }
}

/// Whether no reference is returned.
fn gives_no_reference(store: &mut Store, value: &mut Dynamic) -> bool {
    match Target::try_from(value, store) {
        Ok(target) => target.take_ref(store).is_none(),
        Err(_) => false,
    }
}

/// Whether the target is a shared value, and is released.
fn is_released(store: &mut Store, value: &mut Dynamic) -> bool {
    match Target::try_from(value, store) {
        Ok(target) => {
            let is_right = target.is_ref() && target.is_shared() && !target.is_temp_value();
            let is_found = is_seven(target.as_ref(store)) && is_seven(target.source(store));
            target.release(store);
            is_right && is_found
        }
        Err(_) => false,
    }
}

/// Whether an owned target is made from the holder.
fn is_owned(alloc: Global, store: &mut Store, value: &mut Dynamic) -> bool {
    let Ok(target) = Target::try_from(value, store) else {
        return false;
    };
    match target.into_owned(alloc, store) {
        Ok(owned) => {
            let is_right = owned.is_temp_value() && is_copied(owned.as_ref(store), store);
            owned.release(store);
            is_right
        }
        Err(target) => {
            target.release(store);
            false
        }
    }
}

#[test]
fn a_shared_value_stays_on_every_way_out(rt: HostRuntime) {
    let alloc = rt.alloc();
    let mut store = Store::new(alloc);
    let mut value = holder(&mut store);
    assert!(rt; is_cloned(alloc, &mut store, &mut value) && is_kept(&value, &store));
    assert!(rt; gives_no_reference(&mut store, &mut value) && is_kept(&value, &store));
    assert!(rt; is_released(&mut store, &mut value) && is_kept(&value, &store));
    assert!(rt; is_owned(alloc, &mut store, &mut value) && is_kept(&value, &store));
}

/// Whether another holder of a marked cell is refused without a position, and holder and cell are
/// unchanged.
fn is_no_target(
    rt: &impl Abort,
    value: &mut Dynamic,
    other: &mut Dynamic,
    store: &mut Store,
) -> bool {
    let Ok(target) = Target::try_from(value, store) else {
        return false;
    };
    let is_refused = match Target::try_from(other, store) {
        Ok(_) => panic!(rt; "a marked cell is a target"),
        Err(EvalAltResult::ErrorDataRace(pos)) => pos == Position::NONE,
        Err(_) => false,
    };
    let is_closed = other.is_locked(store) && is_seven(target.as_ref(store));
    target.release(store);
    is_refused && is_closed
}

#[test]
fn a_marked_cell_is_no_target(rt: HostRuntime) {
    let mut store = Store::new(rt.alloc());
    let mut value = holder(&mut store);
    let mut other = match value.copy(rt.alloc()) {
        Ok(copy) => copy.into_read_only(),
        Err(_) => Dynamic::UNIT,
    };
    assert!(rt; is_no_target(&rt, &mut value, &mut other, &mut store));
    assert!(rt; is_kept(&value, &store) && is_kept(&other, &store));
}

/// Whether a holder of another store is refused.
fn is_foreign(value: &mut Dynamic, other: &mut Store) -> bool {
    match Target::try_from(value, other) {
        Ok(target) => {
            target.release(other);
            false
        }
        Err(EvalAltResult::ErrorDataRace(pos)) => pos == Position::NONE,
        Err(_) => false,
    }
}

#[test]
fn a_holder_of_another_store_is_no_target(rt: HostRuntime) {
    let mut store = Store::new(rt.alloc());
    let mut value = holder(&mut store);
    assert!(rt; is_foreign(&mut value, &mut Store::new(rt.alloc())));
    assert!(rt; is_kept(&value, &store));
}

/// Whether a holder has the new value after its cell was overwritten through its mark.
fn is_written(alloc: Global, store: &mut Store, value: &mut Dynamic) -> bool {
    let Ok(target) = Target::try_from(value, store) else {
        return false;
    };
    let mut target = target;
    target.put(store, Dynamic::TRUE);
    let is_put = target.as_ref(store).as_bool(store) == Ok(true);
    match target.take_or_clone(alloc, store) {
        Ok(taken) => is_put && taken.is_shared() && taken.is_bool(store),
        Err(target) => {
            target.release(store);
            false
        }
    }
}

#[test]
fn a_shared_value_is_written_through_its_mark(rt: HostRuntime) {
    let mut store = Store::new(rt.alloc());
    let mut value = holder(&mut store);
    assert!(rt; is_written(rt.alloc(), &mut store, &mut value));
    assert!(rt; value.tag() == 4 && value.is_bool(&store) && !value.is_locked(&store));
}
