//! Arrays, and texts of them.

use super::given::*;
use rhai::*;

#[inline(never)]
pub fn copies(value: &Dynamic, n: usize) -> u64 {
    let mut sum = 0_u64;
    for _ in 0..n {
        let copy = value.clone();
        sum = sum.wrapping_add(len_of(&copy));
    }
    sum
}
#[inline(never)]
pub fn texts() -> Dynamic {
    let mut items = Vec::with_capacity(96);
    for _ in 0..6 {
        for text in sixteen(10) {
            items.push(Dynamic::from(text));
        }
    }
    Dynamic::from_array(items)
}
#[inline(never)]
pub fn push_1000(n: usize) -> u64 {
    let mut sum = 0_u64;
    for _ in 0..n {
        let mut array = Dynamic::from_array(Vec::new());
        for i in 0..1000 {
            if let Ok(mut items) = array.as_array_mut() {
                items.push(Dynamic::from_int(i));
            }
        }
        sum = sum.wrapping_add(len_of(&array));
    }
    sum
}
#[inline(never)]
pub fn sum_ints(n: usize) -> u64 {
    let value = ints(1000);
    let mut sum = 0_u64;
    for _ in 0..n {
        if let Ok(items) = value.as_array_ref() {
            for item in items.iter() {
                if let Ok(int) = item.as_int() {
                    sum = sum.rotate_left(1) ^ (int as u64);
                }
            }
        }
    }
    sum
}
#[inline(never)]
pub fn is_locked_nested(n: usize) -> u64 {
    let mut value = nested(4);
    let mut sum = 0_u64;
    let mut tag = 0_i32;
    for _ in 0..n {
        value.set_tag(tag);
        tag = tag.wrapping_add(1);
        if !value.is_locked() {
            sum = sum.wrapping_add(1);
        }
    }
    sum
}
#[inline(never)]
pub fn set_mode_1000(n: usize) -> u64 {
    let mut value = ints(1000);
    for i in 0..n {
        if i & 1 == 0 {
            hooks::set_access_mode(&mut value, AccessMode::ReadOnly);
        } else {
            hooks::set_access_mode(&mut value, AccessMode::ReadWrite);
        }
    }
    u64::from(value.is_read_only())
}
#[inline(never)]
pub fn displays(value: &Dynamic, n: usize) -> u64 {
    let mut sum = 0_u64;
    for _ in 0..n {
        sum = sum.wrapping_add(value.to_string().len() as u64);
    }
    sum
}
#[inline(never)]
pub fn debugs(value: &Dynamic, n: usize) -> u64 {
    let mut sum = 0_u64;
    for _ in 0..n {
        sum = sum.wrapping_add(format!("{value:?}").len() as u64);
    }
    sum
}

// ---- sharing
