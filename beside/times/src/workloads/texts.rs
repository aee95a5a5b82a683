//! Texts.

use super::given::*;
use rhai::*;
use std::collections::hash_map::DefaultHasher;
use std::hash::{Hash, Hasher};

#[inline(never)]
pub fn makes(text: &str, n: usize) -> u64 {
    let mut slots = slots();
    for i in 0..n {
        if let Some(slot) = slots.get_mut(i & 63) {
            *slot = Dynamic::from(ImmutableString::from(text));
        }
    }
    let mut sum = 0_u64;
    for slot in &slots {
        if let Union::Str(text, ..) = slot
            .as_immutable_string_ref()
            .map(|s| Union::Str(s.clone(), 0, AccessMode::ReadWrite))
            .unwrap_or(Union::Unit((), 0, AccessMode::ReadWrite))
        {
            sum = sum.wrapping_add(text.len() as u64);
        }
    }
    sum
}
#[inline(never)]
pub fn text_copy(n: usize) -> u64 {
    let texts = sixteen(100);
    let mut slots = sixteen(10);
    for i in 0..n {
        if let Some(text) = texts.get(i & 7) {
            let copy = text.clone();
            if let Some(slot) = slots.get_mut(i & 15) {
                *slot = copy;
            }
        }
    }
    slots.iter().map(|s| s.len() as u64).sum()
}
#[inline(never)]
pub fn equal(n: usize) -> u64 {
    let texts = sixteen(100);
    let others = sixteen(100);
    let mut sum = 0_u64;
    for i in 0..n {
        if let (Some(text), Some(other)) = (texts.get(i & 15), others.get(i & 7)) {
            if text.as_str() == other.as_str() {
                sum = sum.wrapping_add(1);
            }
        }
    }
    sum
}
#[inline(never)]
pub fn order(n: usize) -> u64 {
    let texts = sixteen(100);
    let others = sixteen(100);
    let mut sum = 0_u64;
    for i in 0..n {
        if let (Some(text), Some(other)) = (texts.get(i & 15), others.get(i & 7)) {
            if text.cmp(other).is_gt() {
                sum = sum.wrapping_add(1);
            }
        }
    }
    sum
}
#[inline(never)]
pub fn hash(n: usize) -> u64 {
    let texts = sixteen(100);
    let mut sum = 0_u64;
    for i in 0..n {
        if let Some(text) = texts.get(i & 15) {
            let mut hasher = DefaultHasher::new();
            text.hash(&mut hasher);
            sum ^= hasher.finish();
        }
    }
    sum
}
#[inline(never)]
pub fn concats(texts: &[ImmutableString], n: usize) -> u64 {
    let mut slots = sixteen(10);
    for i in 0..n {
        if let (Some(text), Some(other)) = (texts.get(i & 15), texts.get(i & 7)) {
            let joined = text + other;
            if let Some(slot) = slots.get_mut(i & 15) {
                *slot = joined;
            }
        }
    }
    slots.iter().map(|s| s.len() as u64).sum()
}
#[inline(never)]
pub fn minus(n: usize) -> u64 {
    let texts = sixteen(100);
    let pattern = ImmutableString::from("a1");
    let mut sum = 0_u64;
    for i in 0..n {
        if let Some(text) = texts.get(i & 15) {
            sum = sum.wrapping_add((text - &pattern).len() as u64);
        }
    }
    sum
}
#[inline(never)]
pub fn minus_char(n: usize) -> u64 {
    let texts = sixteen(100);
    let mut sum = 0_u64;
    for i in 0..n {
        if let Some(text) = texts.get(i & 15) {
            sum = sum.wrapping_add((text - '1').len() as u64);
        }
    }
    sum
}
/// rhai has no call for this: the write through an index, on a copy of the text.
#[inline(never)]
pub fn with_char(n: usize) -> u64 {
    let texts = sixteen(1000);
    let mut sum = 0_u64;
    for i in 0..n {
        if let Some(text) = texts.get(i & 15) {
            let mut value = Dynamic::from(text.clone());
            {
                let mut t = Target::StringChar { source: &mut value, value: Dynamic::from_char('b'), index: 500 };
                t.propagate_changed_value(Position::NONE).unwrap();
            }
            sum = sum.wrapping_add(value.as_immutable_string_ref().map_or(0, |t| t.len() as u64));
        }
    }
    sum
}
#[inline(never)]
pub fn char_count(n: usize) -> u64 {
    let texts = sixteen(1000);
    (0..n).filter_map(|i| texts.get(i & 15)).map(|text| text.chars().count() as u64).sum()
}
#[inline(never)]
pub fn char_at(n: usize) -> u64 {
    let texts = sixteen(1000);
    (0..n).filter_map(|i| texts.get(i & 15)?.chars().nth(500)).map(|c| u64::from(u32::from(c))).sum()
}

// ---- operators
