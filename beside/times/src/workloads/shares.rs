//! Shared values.

use super::given::*;
use rhai::*;

#[inline(never)]
pub fn share_copy_drop(n: usize) -> u64 {
    let mut sum = 0_u64;
    for i in 0..n {
        let holder = Dynamic::from_int(i as INT).into_shared();
        let other = holder.clone();
        if let Ok(int) = other.as_int() {
            sum = sum.wrapping_add(int as u64);
        }
    }
    sum
}
#[inline(never)]
pub fn as_int(n: usize) -> u64 {
    let values = holders();
    let mut sum = 0_u64;
    for i in 0..n {
        if let Some(value) = values.get(i & 63) {
            if let Ok(int) = value.as_int() {
                sum = sum.wrapping_add(int as u64);
            }
        }
    }
    sum
}
#[inline(never)]
pub fn set_int(n: usize) -> u64 {
    let mut values = holders();
    for i in 0..n {
        if let Some(value) = values.get_mut(i & 63) {
            if let Some(mut held) = value.write_lock::<INT>() {
                *held = i as INT;
            }
        }
    }
    sum_of(&values)
}
#[inline(never)]
pub fn add_one(n: usize) -> u64 {
    let mut values = holders();
    for i in 0..n {
        if let Some(value) = values.get_mut(i & 63) {
            if let Some(mut held) = value.write_lock::<INT>() {
                *held = held.wrapping_add(1);
            }
        }
    }
    sum_of(&values)
}
#[inline(never)]
pub fn copy_holder(n: usize) -> u64 {
    let values = holders();
    let mut slots = slots();
    for i in 0..n {
        if let Some(value) = values.get(i & 31) {
            let copy = value.clone();
            if let Some(slot) = slots.get_mut(i & 63) {
                *slot = copy;
            }
        }
    }
    sum_of(&slots)
}
#[inline(never)]
pub fn flatten_clone_100(n: usize) -> u64 {
    let holder = ints(100).into_shared();
    let mut sum = 0_u64;
    for _ in 0..n {
        let copy = holder.flatten_clone();
        sum = sum.wrapping_add(len_of(&copy));
    }
    sum
}
#[inline(never)]
pub fn flattens(values: &[Dynamic], n: usize) -> u64 {
    let mut slots = slots();
    for i in 0..n {
        if let Some(value) = values.get(i & 31) {
            let flat = value.clone().flatten();
            if let Some(slot) = slots.get_mut(i & 63) {
                *slot = flat;
            }
        }
    }
    sum_of(&slots)
}
#[inline(never)]
pub fn push_through(n: usize) -> u64 {
    let mut sum = 0_u64;
    for _ in 0..n {
        let mut holder = Dynamic::from_array(Vec::new()).into_shared();
        for i in 0..1000 {
            if let Ok(mut items) = holder.as_array_mut() {
                items.push(Dynamic::from_int(i));
            }
        }
        sum = sum.wrapping_add(len_of(&holder));
    }
    sum
}

// ---- maps
