//! Arrays, and values that are walked as trees.

use crate::given::{ints, keys, map_of, nested, sixteen};
use rhai_show::{debug_text, display_text};
use rhai_value::{AccessMode, Dynamic, Store};
use std::alloc::{AllocError, Global};

fn copies(alloc: Global, value: &Dynamic, n: usize) -> Result<u64, AllocError> {
    let store = Store::new(alloc);
    let mut sum = 0_u64;
    for _ in 0..n {
        let copy = value.copy(alloc)?;
        if let Ok(items) = copy.as_array_ref(&store) {
            sum = sum.wrapping_add(items.len() as u64);
        }
    }
    Ok(sum)
}

#[inline(never)]
pub(crate) fn copy_ints(alloc: Global, n: usize) -> Result<u64, AllocError> {
    let value = ints(alloc, 1000)?;
    copies(alloc, &value, n)
}

#[inline(never)]
pub(crate) fn copy_nested(alloc: Global, n: usize) -> Result<u64, AllocError> {
    let value = nested(alloc, 4)?;
    copies(alloc, &value, n)
}

fn texts(alloc: Global) -> Result<Dynamic, AllocError> {
    let mut items = Vec::with_capacity(alloc, 96)?;
    for _ in 0..6 {
        for text in sixteen(alloc, 10)? {
            items.push(Dynamic::from(text))?;
        }
    }
    Ok(Dynamic::from_array(items))
}

#[inline(never)]
pub(crate) fn copy_texts(alloc: Global, n: usize) -> Result<u64, AllocError> {
    let value = texts(alloc)?;
    copies(alloc, &value, n)
}

#[inline(never)]
pub(crate) fn push_1000(alloc: Global, n: usize) -> Result<u64, AllocError> {
    let mut store = Store::new(alloc);
    let mut sum = 0_u64;
    for _ in 0..n {
        let mut array = Dynamic::from_array(Vec::new(alloc));
        for i in 0..1000 {
            if let Ok(items) = array.as_array_mut(&mut store) {
                items.push(Dynamic::from_int(i))?;
            }
        }
        if let Ok(items) = array.as_array_ref(&store) {
            sum = sum.wrapping_add(items.len() as u64);
        }
    }
    Ok(sum)
}

#[inline(never)]
pub(crate) fn sum_ints(alloc: Global, n: usize) -> Result<u64, AllocError> {
    let store = Store::new(alloc);
    let value = ints(alloc, 1000)?;
    let mut sum = 0_u64;
    for _ in 0..n {
        if let Ok(items) = value.as_array_ref(&store) {
            for item in items {
                if let Ok(int) = item.as_int(&store) {
                    sum = sum.rotate_left(1) ^ int.cast_unsigned();
                }
            }
        }
    }
    Ok(sum)
}

#[inline(never)]
pub(crate) fn is_locked_nested(alloc: Global, n: usize) -> Result<u64, AllocError> {
    let store = Store::new(alloc);
    let mut value = nested(alloc, 4)?;
    let mut sum = 0_u64;
    let mut tag = 0_i32;
    for _ in 0..n {
        value.set_tag(tag);
        tag = tag.wrapping_add(1);
        if !value.is_locked(&store) {
            sum = sum.wrapping_add(1);
        }
    }
    Ok(sum)
}

#[inline(never)]
pub(crate) fn set_mode_1000(alloc: Global, n: usize) -> Result<u64, AllocError> {
    let mut value = ints(alloc, 1000)?;
    for i in 0..n {
        if i & 1 == 0 {
            value.set_access_mode(AccessMode::ReadOnly);
        } else {
            value.set_access_mode(AccessMode::ReadWrite);
        }
    }
    let store = Store::new(alloc);
    if value.is_read_only(&store) {
        Ok(1)
    } else {
        Ok(0)
    }
}

fn displays(alloc: Global, value: &Dynamic, n: usize) -> Result<u64, AllocError> {
    let store = Store::new(alloc);
    let mut sum = 0_u64;
    for _ in 0..n {
        sum = sum.wrapping_add(display_text(alloc, value, &store)?.len() as u64);
    }
    Ok(sum)
}

fn debugs(alloc: Global, value: &Dynamic, n: usize) -> Result<u64, AllocError> {
    let store = Store::new(alloc);
    let mut sum = 0_u64;
    for _ in 0..n {
        sum = sum.wrapping_add(debug_text(alloc, value, &store)?.len() as u64);
    }
    Ok(sum)
}

#[inline(never)]
pub(crate) fn display_ints(alloc: Global, n: usize) -> Result<u64, AllocError> {
    let value = ints(alloc, 100)?;
    displays(alloc, &value, n)
}

#[inline(never)]
pub(crate) fn debug_nested(alloc: Global, n: usize) -> Result<u64, AllocError> {
    let value = nested(alloc, 4)?;
    debugs(alloc, &value, n)
}

#[inline(never)]
pub(crate) fn debug_texts(alloc: Global, n: usize) -> Result<u64, AllocError> {
    let value = texts(alloc)?;
    debugs(alloc, &value, n)
}

#[inline(never)]
pub(crate) fn display_map(alloc: Global, n: usize) -> Result<u64, AllocError> {
    let keys = keys(alloc, "key", 100)?;
    let map = map_of(alloc, &keys)?;
    displays(alloc, &Dynamic::from_map(map), n)
}

#[inline(never)]
pub(crate) fn hold_ints(alloc: Global, n: usize) -> Result<u64, AllocError> {
    let store = Store::new(alloc);
    let value = ints(alloc, n)?;
    match value.as_array_ref(&store) {
        Ok(items) => Ok(items.len() as u64),
        Err(_) => Ok(0),
    }
}

#[inline(never)]
pub(crate) fn hold_nested(alloc: Global, n: usize) -> Result<u64, AllocError> {
    let store = Store::new(alloc);
    let value = nested(alloc, n)?;
    match value.as_array_ref(&store) {
        Ok(items) => Ok(items.len() as u64),
        Err(_) => Ok(0),
    }
}
