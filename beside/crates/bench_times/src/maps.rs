//! Maps.

use crate::given::{keys, map_of};
use rhai_value::{Dynamic, Key, Map, Store};
use std::alloc::{AllocError, Global};

#[inline(never)]
pub(crate) fn insert(alloc: Global, n: usize, front: &str, count: u32) -> Result<u64, AllocError> {
    let keys = keys(alloc, front, count)?;
    let mut sum = 0_u64;
    for _ in 0..n {
        sum = sum.wrapping_add(map_of(alloc, &keys)?.len() as u64);
    }
    Ok(sum)
}

/// Sets values for texts, from which the map makes keys.
#[inline(never)]
pub(crate) fn set(alloc: Global, n: usize, count: u32) -> Result<u64, AllocError> {
    let keys = keys(alloc, "key", count)?;
    let mut sum = 0_u64;
    for _ in 0..n {
        let mut map = Map::new(alloc);
        let mut i = 0_i64;
        for key in &keys {
            match map.set(key.as_str(), Dynamic::from_int(i)) {
                Ok(_) => {}
                Err(_) => return Err(AllocError),
            }
            i = i.wrapping_add(1);
        }
        sum = sum.wrapping_add(map.len() as u64);
    }
    Ok(sum)
}

#[inline(never)]
pub(crate) fn get(alloc: Global, n: usize, front: &str, count: u32) -> Result<u64, AllocError> {
    let store = Store::new(alloc);
    let keys = keys(alloc, front, count)?;
    let map = map_of(alloc, &keys)?;
    let mut sum = 0_u64;
    for _ in 0..n {
        for key in &keys {
            if let Some(value) = map.get(key.as_str()) {
                if let Ok(int) = value.as_int(&store) {
                    sum = sum.rotate_left(1) ^ int.cast_unsigned();
                }
            }
        }
    }
    Ok(sum)
}

#[inline(never)]
pub(crate) fn get_through(alloc: Global, n: usize, count: u32) -> Result<u64, AllocError> {
    let store = Store::new(alloc);
    let keys = keys(alloc, "key", count)?;
    let value = Dynamic::from_map(map_of(alloc, &keys)?);
    let mut sum = 0_u64;
    for _ in 0..n {
        for key in &keys {
            if let Ok(map) = value.as_map_ref(&store) {
                if let Some(value) = map.get(key.as_str()) {
                    if let Ok(int) = value.as_int(&store) {
                        sum = sum.rotate_left(1) ^ int.cast_unsigned();
                    }
                }
            }
        }
    }
    Ok(sum)
}

#[inline(never)]
pub(crate) fn remove_insert(alloc: Global, n: usize, count: u32) -> Result<u64, AllocError> {
    let keys = keys(alloc, "key", count)?;
    let mut map = map_of(alloc, &keys)?;
    for _ in 0..n {
        for key in &keys {
            if let Some(value) = map.remove(key.as_str()) {
                let key = Key::from_str(alloc, key.as_str())?;
                match map.insert_key(key, value) {
                    Ok(_) => {}
                    Err(_) => return Err(AllocError),
                }
            }
        }
    }
    Ok(map.len() as u64)
}

#[inline(never)]
pub(crate) fn iterate(alloc: Global, n: usize, count: u32) -> Result<u64, AllocError> {
    let store = Store::new(alloc);
    let keys = keys(alloc, "key", count)?;
    let map = map_of(alloc, &keys)?;
    let mut sum = 0_u64;
    for _ in 0..n {
        for (key, value) in map.iter() {
            if let Ok(int) = value.as_int(&store) {
                sum = sum.rotate_left(1) ^ int.cast_unsigned();
                sum = sum.wrapping_add(key.len() as u64);
            }
        }
    }
    Ok(sum)
}

#[inline(never)]
pub(crate) fn copy(alloc: Global, n: usize, count: u32) -> Result<u64, AllocError> {
    let store = Store::new(alloc);
    let keys = keys(alloc, "key", count)?;
    let value = Dynamic::from_map(map_of(alloc, &keys)?);
    let mut sum = 0_u64;
    for _ in 0..n {
        let copy = value.copy(alloc)?;
        if let Ok(map) = copy.as_map_ref(&store) {
            sum = sum.wrapping_add(map.len() as u64);
        }
    }
    Ok(sum)
}
