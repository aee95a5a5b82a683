//! Single values.

use super::given::*;
use rhai::*;

#[inline(never)]
pub fn make_int(n: usize) -> u64 {
    let mut slots = slots();
    for i in 0..n {
        if let Some(slot) = slots.get_mut(i & 63) {
            *slot = Dynamic::from_int(i as INT);
        }
    }
    sum_of(&slots)
}
#[inline(never)]
pub fn make_bool(n: usize) -> u64 {
    let mut slots = slots();
    for i in 0..n {
        if let Some(slot) = slots.get_mut(i & 63) {
            *slot = Dynamic::from_bool(i & 3 == 0);
        }
    }
    slots.iter().filter(|s| s.as_bool() == Ok(true)).count() as u64
}
#[inline(never)]
pub fn copy_int(n: usize) -> u64 {
    let values = sixty_four();
    let mut slots = slots();
    for i in 0..n {
        if let Some(value) = values.get(i & 31) {
            let copy = value.clone();
            if let Some(slot) = slots.get_mut(i & 63) {
                *slot = copy;
            }
        }
    }
    sum_of(&slots)
}
#[inline(never)]
pub fn copy_text(n: usize) -> u64 {
    let values: Vec<Dynamic> = sixteen(5).into_iter().map(Dynamic::from).collect();
    let mut slots = slots();
    for i in 0..n {
        if let Some(value) = values.get(i & 15) {
            let copy = value.clone();
            if let Some(slot) = slots.get_mut(i & 63) {
                *slot = copy;
            }
        }
    }
    slots.iter().filter(|s| s.is_string()).count() as u64
}
#[inline(never)]
pub fn as_int_own(n: usize) -> u64 {
    let values = sixty_four();
    let mut sum = 0_u64;
    for i in 0..n {
        if let Some(value) = values.get(i & 63) {
            if let Ok(int) = value.as_int() {
                sum = sum.wrapping_add(int as u64);
            }
        }
    }
    sum
}
#[inline(never)]
pub fn set_int_own(n: usize) -> u64 {
    let mut values = sixty_four();
    for i in 0..n {
        if let Some(value) = values.get_mut(i & 63) {
            if let Some(mut held) = value.write_lock::<INT>() {
                *held = i as INT;
            }
        }
    }
    sum_of(&values)
}
#[inline(never)]
pub fn type_name_mixed(n: usize) -> u64 {
    let values = mixed();
    let mut sum = 0_u64;
    for i in 0..n {
        if let Some(value) = values.get(i & 63) {
            sum = sum.wrapping_add(value.type_name().len() as u64);
        }
    }
    sum
}
#[inline(never)]
pub fn type_id_mixed(n: usize) -> u64 {
    let values = mixed();
    let mut sum = 0_u64;
    for i in 0..n {
        if let Some(value) = values.get(i & 63) {
            if value.type_id() == std::any::TypeId::of::<INT>() {
                sum = sum.wrapping_add(1);
            }
        }
    }
    sum
}
#[inline(never)]
pub fn is_int_mixed(n: usize) -> u64 {
    let values = mixed();
    let mut sum = 0_u64;
    for i in 0..n {
        if let Some(value) = values.get(i & 63) {
            if value.is_int() {
                sum = sum.wrapping_add(1);
            }
        }
    }
    sum
}
#[inline(never)]
pub fn tag_set_get(n: usize) -> u64 {
    let mut values = mixed();
    let mut sum = 0_u64;
    let mut tag = 0_i32;
    for i in 0..n {
        if let Some(value) = values.get_mut(i & 63) {
            sum = sum.wrapping_add(i64::from(value.tag()) as u64);
            value.set_tag(tag);
            tag = tag.wrapping_add(1);
        }
    }
    sum
}

// ---- arrays
