//! Values in cells.

use crate::given::{holders, ints, sixty_four, slots, sum_of};
use rhai_value::{Dynamic, InStore, Store, Union};
use std::alloc::{AllocError, Global};

#[inline(never)]
pub(crate) fn share_copy_drop(alloc: Global, n: usize) -> Result<u64, AllocError> {
    let mut sum = 0_u64;
    let mut store = Store::new(alloc);
    for i in 0..n {
        if i & 1023 == 0 {
            store = Store::new(alloc);
        }
        match Dynamic::from_int((i as u64).cast_signed()).into_shared(&mut store) {
            Ok(holder) => {
                let other = holder.copy(alloc)?;
                if let Ok(int) = other.as_int(&store) {
                    sum = sum.wrapping_add(int.cast_unsigned());
                }
            }
            Err(_) => return Err(AllocError),
        }
    }
    Ok(sum)
}

#[inline(never)]
pub(crate) fn as_int(alloc: Global, n: usize) -> Result<u64, AllocError> {
    let mut store = Store::new(alloc);
    let values = holders(alloc, &mut store)?;
    let mut sum = 0_u64;
    for i in 0..n {
        if let Some(value) = values.get(i & 63) {
            if let Ok(int) = value.as_int(&store) {
                sum = sum.wrapping_add(int.cast_unsigned());
            }
        }
    }
    Ok(sum)
}

#[inline(never)]
pub(crate) fn set_int(alloc: Global, n: usize) -> Result<u64, AllocError> {
    let mut store = Store::new(alloc);
    let mut values = holders(alloc, &mut store)?;
    for i in 0..n {
        if let Some(value) = values.get_mut(i & 63) {
            let _ = value.set_int(&mut store, (i as u64).cast_signed());
        }
    }
    Ok(sum_of(&values, &store))
}

#[inline(never)]
pub(crate) fn add_one(alloc: Global, n: usize) -> Result<u64, AllocError> {
    let mut store = Store::new(alloc);
    let mut values = holders(alloc, &mut store)?;
    for i in 0..n {
        if let Some(value) = values.get_mut(i & 63) {
            let mut place = InStore {
                value,
                store: &mut store,
            };
            if let Some(held) = place.held_mut() {
                if let Union::Int(_, _, own) = held.parts_mut() {
                    *own = own.wrapping_add(1);
                }
            }
        }
    }
    Ok(sum_of(&values, &store))
}

#[inline(never)]
pub(crate) fn copy_holder(alloc: Global, n: usize) -> Result<u64, AllocError> {
    let mut store = Store::new(alloc);
    let values = holders(alloc, &mut store)?;
    let mut slots = slots(alloc)?;
    for i in 0..n {
        if let Some(value) = values.get(i & 31) {
            let copy = value.copy(alloc)?;
            if let Some(slot) = slots.get_mut(i & 63) {
                *slot = copy;
            }
        }
    }
    Ok(sum_of(&slots, &store))
}

#[inline(never)]
pub(crate) fn flatten_clone_100(alloc: Global, n: usize) -> Result<u64, AllocError> {
    let mut store = Store::new(alloc);
    let Ok(holder) = ints(alloc, 100)?.into_shared(&mut store) else {
        return Err(AllocError);
    };
    let mut sum = 0_u64;
    for _ in 0..n {
        let copy = holder.flatten_clone(alloc, &store)?;
        if let Ok(items) = copy.as_array_ref(&store) {
            sum = sum.wrapping_add(items.len() as u64);
        }
    }
    Ok(sum)
}

fn flattens(alloc: Global, values: &[Dynamic], store: &Store, n: usize) -> Result<u64, AllocError> {
    let mut slots = slots(alloc)?;
    for i in 0..n {
        if let Some(value) = values.get(i & 31) {
            let Ok(flat) = value.copy(alloc)?.flatten(alloc, store) else {
                return Err(AllocError);
            };
            if let Some(slot) = slots.get_mut(i & 63) {
                *slot = flat;
            }
        }
    }
    Ok(sum_of(&slots, store))
}

#[inline(never)]
pub(crate) fn flatten_own(alloc: Global, n: usize) -> Result<u64, AllocError> {
    let store = Store::new(alloc);
    let values = sixty_four(alloc)?;
    flattens(alloc, &values, &store, n)
}

#[inline(never)]
pub(crate) fn flatten_held(alloc: Global, n: usize) -> Result<u64, AllocError> {
    let mut store = Store::new(alloc);
    let values = holders(alloc, &mut store)?;
    flattens(alloc, &values, &store, n)
}

#[inline(never)]
pub(crate) fn push_through(alloc: Global, n: usize) -> Result<u64, AllocError> {
    let mut sum = 0_u64;
    for _ in 0..n {
        let mut store = Store::new(alloc);
        let Ok(mut holder) = Dynamic::from_array(Vec::new(alloc)).into_shared(&mut store) else {
            return Err(AllocError);
        };
        for i in 0..1000 {
            let mut place = InStore {
                value: &mut holder,
                store: &mut store,
            };
            if let Ok(items) = place.array_mut() {
                items.push(Dynamic::from_int(i))?;
            }
        }
        if let Ok(items) = holder.as_array_ref(&store) {
            sum = sum.wrapping_add(items.len() as u64);
        }
    }
    Ok(sum)
}
