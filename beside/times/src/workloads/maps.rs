//! Maps.

use super::given::*;
use rhai::*;

#[inline(never)]
pub fn insert(n: usize, front: &str, count: u32) -> u64 {
    let keys = keys(front, count);
    let mut sum = 0_u64;
    for _ in 0..n {
        sum = sum.wrapping_add(map_of(&keys).len() as u64);
    }
    sum
}
#[inline(never)]
pub fn get(n: usize, front: &str, count: u32) -> u64 {
    let keys = keys(front, count);
    let map = map_of(&keys);
    let mut sum = 0_u64;
    for _ in 0..n {
        for key in &keys {
            if let Some(value) = map.get(key.as_str()) {
                if let Ok(int) = value.as_int() {
                    sum = sum.rotate_left(1) ^ (int as u64);
                }
            }
        }
    }
    sum
}
#[inline(never)]
pub fn get_through(n: usize, count: u32) -> u64 {
    let keys = keys("key", count);
    let value = Dynamic::from_map(map_of(&keys));
    let mut sum = 0_u64;
    for _ in 0..n {
        for key in &keys {
            if let Ok(map) = value.as_map_ref() {
                if let Some(value) = map.get(key.as_str()) {
                    if let Ok(int) = value.as_int() {
                        sum = sum.rotate_left(1) ^ (int as u64);
                    }
                }
            }
        }
    }
    sum
}
#[inline(never)]
pub fn remove_insert(n: usize, count: u32) -> u64 {
    let keys = keys("key", count);
    let mut map = map_of(&keys);
    for _ in 0..n {
        for key in &keys {
            if let Some(value) = map.remove(key.as_str()) {
                map.insert(key.as_str().into(), value);
            }
        }
    }
    map.len() as u64
}
#[inline(never)]
pub fn iterate(n: usize, count: u32) -> u64 {
    let keys = keys("key", count);
    let map = map_of(&keys);
    let mut sum = 0_u64;
    for _ in 0..n {
        for (key, value) in map.iter() {
            if let Ok(int) = value.as_int() {
                sum = sum.rotate_left(1) ^ (int as u64);
                sum = sum.wrapping_add(key.len() as u64);
            }
        }
    }
    sum
}
#[inline(never)]
pub fn copy_map(n: usize, count: u32) -> u64 {
    let value = Dynamic::from_map(map_of(&keys("key", count)));
    let mut sum = 0_u64;
    for _ in 0..n {
        let copy = value.clone();
        if let Ok(map) = copy.as_map_ref() {
            sum = sum.wrapping_add(map.len() as u64);
        };
    }
    sum
}

// ---- texts
