//! Hashes, scans, casts and targets.

use super::given::*;
use rhai::*;
use std::collections::hash_map::DefaultHasher;
use std::hash::{Hash, Hasher};

#[inline(never)]
pub fn hashes(value: &Dynamic, n: usize) -> u64 {
    let mut sum = 0_u64;
    for _ in 0..n {
        if hooks::is_hashable(value) {
            let mut hasher = DefaultHasher::new();
            value.hash(&mut hasher);
            if hasher.finish() != 0 {
                sum = sum.wrapping_add(1);
            }
        }
    }
    sum
}
#[inline(never)]
pub fn maps() -> Dynamic {
    let keys = keys("key", 10);
    let mut outer = Map::new();
    for key in &keys {
        outer.insert(key.as_str().into(), Dynamic::from_map(map_of(&keys)));
    }
    Dynamic::from_map(outer)
}
#[inline(never)]
pub fn scan_ints(n: usize) -> u64 {
    let mut value = ints(1000);
    let mut visits = 0_u64;
    for _ in 0..n {
        value.deep_scan(|value| {
            visits = visits.saturating_add(1);
            if let Some(int) = hooks::downcast_mut::<INT>(value) {
                *int = 0;
            }
        });
    }
    visits
}
#[inline(never)]
pub fn clone_cast(n: usize) -> u64 {
    let values = sixty_four();
    let mut sum = 0_u64;
    for i in 0..n {
        if let Some(value) = values.get(i & 63) {
            if value.is_int() {
                sum = sum.wrapping_add(value.clone_cast::<INT>() as u64);
            }
        }
    }
    sum
}
#[inline(never)]
pub fn try_cast_text(n: usize) -> u64 {
    let texts = sixteen(10);
    let mut sum = 0_u64;
    for i in 0..n {
        if let Some(text) = texts.get(i & 15) {
            let value = Dynamic::from(text.clone());
            if let Some(text) = value.try_cast::<ImmutableString>() {
                sum = sum.wrapping_add(text.len() as u64);
            }
        }
    }
    sum
}
#[inline(never)]
pub fn typed_array(n: usize) -> u64 {
    let mut sum = 0_u64;
    for _ in 0..n {
        if let Ok(numbers) = ints(1000).into_typed_array::<INT>() {
            sum = sum.wrapping_add(numbers.len() as u64);
        }
    }
    sum
}
#[inline(never)]
pub fn from_vec(n: usize) -> u64 {
    let mut sum = 0_u64;
    for _ in 0..n {
        let mut numbers: Vec<INT> = Vec::with_capacity(1000);
        for i in 0..1000 {
            numbers.push(i);
        }
        sum = sum.wrapping_add(len_of(&numbers.into()));
    }
    sum
}
#[inline(never)]
pub fn write_char(n: usize) -> u64 {
    let mut sum = 0_u64;
    if let Some(text) = sixteen(1000).pop() {
        let mut source = Dynamic::from(text);
        for i in 0..n {
            if source.is_string() {
                let mut target = Target::StringChar { source: &mut source, value: Dynamic::from_char('b'), index: i & 511 };
                if target.propagate_changed_value(Position::NONE).is_ok() {
                    sum = sum.wrapping_add(1);
                }
            }
        }
    }
    sum
}
#[inline(never)]
pub fn write_byte(n: usize) -> u64 {
    let mut source = blob(1000);
    for i in 0..n {
        let index = i & 511;
        let length = source.as_blob_ref().map_or(0, |bytes| bytes.len());
        if index < length {
            let mut target = Target::BlobByte { source: &mut source, value: Dynamic::from_int(i as INT), index };
            let _ = target.propagate_changed_value(Position::NONE);
        }
    }
    source.as_blob_ref().map_or(0, |bytes| u64::from(bytes[0]))
}
#[inline(never)]
pub fn write_bit(n: usize) -> u64 {
    let mut source = Dynamic::from_int(0);
    for i in 0..n {
        if source.is_int() {
            let mut target = Target::Bit { source: &mut source, value: Dynamic::from_bool(i & 64 == 0), bit: (i & 63) as u8 };
            let _ = target.propagate_changed_value(Position::NONE);
        }
    }
    source.as_int().unwrap_or(0) as u64
}
#[inline(never)]
pub fn write_shared(n: usize) -> u64 {
    let mut values = holders();
    for i in 0..n {
        if let Some(value) = values.get_mut(i & 63) {
            if let Ok(mut target) = Target::try_from(value) {
                *target.as_mut() = Dynamic::from_int(i as INT);
            }
        }
    }
    sum_of(&values)
}
