//! Single values.

use crate::given::{mixed, sixteen, sixty_four, slots, sum_of};
use rhai_value::{Dynamic, Store, TypeId};
use std::alloc::{AllocError, Global};

#[inline(never)]
pub(crate) fn make_int(alloc: Global, n: usize) -> Result<u64, AllocError> {
    let store = Store::new(alloc);
    let mut slots = slots(alloc)?;
    for i in 0..n {
        if let Some(slot) = slots.get_mut(i & 63) {
            *slot = Dynamic::from_int((i as u64).cast_signed());
        }
    }
    Ok(sum_of(&slots, &store))
}

#[inline(never)]
pub(crate) fn make_bool(alloc: Global, n: usize) -> Result<u64, AllocError> {
    let store = Store::new(alloc);
    let mut slots = slots(alloc)?;
    for i in 0..n {
        if let Some(slot) = slots.get_mut(i & 63) {
            *slot = Dynamic::from_bool(i & 3 == 0);
        }
    }
    let mut sum = 0_u64;
    for slot in &slots {
        if let Ok(true) = slot.as_bool(&store) {
            sum = sum.wrapping_add(1);
        }
    }
    Ok(sum)
}

#[inline(never)]
pub(crate) fn copy_int(alloc: Global, n: usize) -> Result<u64, AllocError> {
    let store = Store::new(alloc);
    let values = sixty_four(alloc)?;
    let mut slots = slots(alloc)?;
    for i in 0..n {
        if let Some(value) = values.get(i & 31) {
            let copy = value.copy(alloc)?;
            if let Some(slot) = slots.get_mut(i & 63) {
                *slot = copy;
            }
        }
    }
    Ok(sum_of(&slots, &store))
}

#[inline(never)]
pub(crate) fn copy_text(alloc: Global, n: usize) -> Result<u64, AllocError> {
    let texts = sixteen(alloc, 5)?;
    let mut values = Vec::with_capacity(alloc, 16)?;
    for text in texts {
        values.push(Dynamic::from(text))?;
    }
    let mut slots = slots(alloc)?;
    for i in 0..n {
        if let Some(value) = values.get(i & 15) {
            let copy = value.copy(alloc)?;
            if let Some(slot) = slots.get_mut(i & 63) {
                *slot = copy;
            }
        }
    }
    let store = Store::new(alloc);
    let mut sum = 0_u64;
    for slot in &slots {
        if slot.is_string(&store) {
            sum = sum.wrapping_add(1);
        }
    }
    Ok(sum)
}

#[inline(never)]
pub(crate) fn as_int_own(alloc: Global, n: usize) -> Result<u64, AllocError> {
    let store = Store::new(alloc);
    let values = sixty_four(alloc)?;
    let mut sum = 0_u64;
    for i in 0..n {
        if let Some(value) = values.get(i & 63) {
            if let Ok(int) = value.as_int(&store) {
                sum = sum.wrapping_add(int.cast_unsigned());
            }
        }
    }
    Ok(sum)
}

#[inline(never)]
pub(crate) fn set_int_own(alloc: Global, n: usize) -> Result<u64, AllocError> {
    let mut store = Store::new(alloc);
    let mut values = sixty_four(alloc)?;
    for i in 0..n {
        if let Some(value) = values.get_mut(i & 63) {
            let _ = value.set_int(&mut store, (i as u64).cast_signed());
        }
    }
    Ok(sum_of(&values, &store))
}

#[inline(never)]
pub(crate) fn type_name_mixed(alloc: Global, n: usize) -> Result<u64, AllocError> {
    let mut store = Store::new(alloc);
    let values = mixed(alloc, &mut store)?;
    let mut sum = 0_u64;
    for i in 0..n {
        if let Some(value) = values.get(i & 63) {
            sum = sum.wrapping_add(value.type_name(&store).len() as u64);
        }
    }
    Ok(sum)
}

#[inline(never)]
pub(crate) fn type_id_mixed(alloc: Global, n: usize) -> Result<u64, AllocError> {
    let mut store = Store::new(alloc);
    let values = mixed(alloc, &mut store)?;
    let mut sum = 0_u64;
    for i in 0..n {
        if let Some(value) = values.get(i & 63) {
            if value.type_id(&store) == TypeId::Int {
                sum = sum.wrapping_add(1);
            }
        }
    }
    Ok(sum)
}

#[inline(never)]
pub(crate) fn is_int_mixed(alloc: Global, n: usize) -> Result<u64, AllocError> {
    let mut store = Store::new(alloc);
    let values = mixed(alloc, &mut store)?;
    let mut sum = 0_u64;
    for i in 0..n {
        if let Some(value) = values.get(i & 63) {
            if value.is_int(&store) {
                sum = sum.wrapping_add(1);
            }
        }
    }
    Ok(sum)
}

#[inline(never)]
pub(crate) fn tag_set_get(alloc: Global, n: usize) -> Result<u64, AllocError> {
    let mut store = Store::new(alloc);
    let mut values = mixed(alloc, &mut store)?;
    let mut sum = 0_u64;
    let mut tag = 0_i32;
    for i in 0..n {
        if let Some(value) = values.get_mut(i & 63) {
            sum = sum.wrapping_add(i64::from(value.tag()).cast_unsigned());
            value.set_tag(tag);
            tag = tag.wrapping_add(1);
        }
    }
    Ok(sum)
}
