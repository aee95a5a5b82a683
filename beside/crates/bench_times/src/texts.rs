//! Texts.

use crate::given::{sixteen, slots};
use rhai_text::ImmutableString;
use rhai_value::{Dynamic, Store};
use std::alloc::{AllocError, Global};
use std::hash::{DefaultHasher, Hash, Hasher};

fn makes(alloc: Global, text: &str, n: usize) -> Result<u64, AllocError> {
    let mut slots = slots(alloc)?;
    for i in 0..n {
        if let Some(slot) = slots.get_mut(i & 63) {
            *slot = Dynamic::from_text(alloc, text)?;
        }
    }
    let store = Store::new(alloc);
    let mut sum = 0_u64;
    for slot in &slots {
        if let Ok(text) = slot.as_immutable_string_ref(&store) {
            sum = sum.wrapping_add(text.len() as u64);
        }
    }
    Ok(sum)
}

#[inline(never)]
pub(crate) fn make_short(alloc: Global, n: usize) -> Result<u64, AllocError> {
    let texts = sixteen(alloc, 5)?;
    match texts.first() {
        Some(text) => makes(alloc, text.as_str(), n),
        None => Ok(0),
    }
}

#[inline(never)]
pub(crate) fn make_long(alloc: Global, n: usize) -> Result<u64, AllocError> {
    let texts = sixteen(alloc, 100)?;
    match texts.first() {
        Some(text) => makes(alloc, text.as_str(), n),
        None => Ok(0),
    }
}

#[inline(never)]
pub(crate) fn copy(alloc: Global, n: usize) -> Result<u64, AllocError> {
    let texts = sixteen(alloc, 100)?;
    let mut slots = sixteen(alloc, 10)?;
    for i in 0..n {
        if let Some(text) = texts.get(i & 7) {
            let copy = text.copy(alloc)?;
            if let Some(slot) = slots.get_mut(i & 15) {
                *slot = copy;
            }
        }
    }
    let mut sum = 0_u64;
    for slot in &slots {
        sum = sum.wrapping_add(slot.len() as u64);
    }
    Ok(sum)
}

#[inline(never)]
pub(crate) fn equal(alloc: Global, n: usize) -> Result<u64, AllocError> {
    let texts = sixteen(alloc, 100)?;
    let others = sixteen(alloc, 100)?;
    let mut sum = 0_u64;
    for i in 0..n {
        if let (Some(text), Some(other)) = (texts.get(i & 15), others.get(i & 7)) {
            if *text == *other {
                sum = sum.wrapping_add(1);
            }
        }
    }
    Ok(sum)
}

#[inline(never)]
pub(crate) fn order(alloc: Global, n: usize) -> Result<u64, AllocError> {
    let texts = sixteen(alloc, 100)?;
    let others = sixteen(alloc, 100)?;
    let mut sum = 0_u64;
    for i in 0..n {
        if let (Some(text), Some(other)) = (texts.get(i & 15), others.get(i & 7)) {
            if text.cmp(other).is_gt() {
                sum = sum.wrapping_add(1);
            }
        }
    }
    Ok(sum)
}

#[inline(never)]
pub(crate) fn hash(alloc: Global, n: usize) -> Result<u64, AllocError> {
    let texts = sixteen(alloc, 100)?;
    let mut sum = 0_u64;
    for i in 0..n {
        if let Some(text) = texts.get(i & 15) {
            let mut hasher = DefaultHasher::new();
            text.hash(&mut hasher);
            sum ^= hasher.finish();
        }
    }
    Ok(sum)
}

fn concats(alloc: Global, texts: &[ImmutableString], n: usize) -> Result<u64, AllocError> {
    let mut slots = sixteen(alloc, 10)?;
    for i in 0..n {
        if let (Some(text), Some(other)) = (texts.get(i & 15), texts.get(i & 7)) {
            let joined = text.concat(alloc, other.as_str())?;
            if let Some(slot) = slots.get_mut(i & 15) {
                *slot = joined;
            }
        }
    }
    let mut sum = 0_u64;
    for slot in &slots {
        sum = sum.wrapping_add(slot.len() as u64);
    }
    Ok(sum)
}

#[inline(never)]
pub(crate) fn concat_short(alloc: Global, n: usize) -> Result<u64, AllocError> {
    let texts = sixteen(alloc, 5)?;
    concats(alloc, &texts, n)
}

#[inline(never)]
pub(crate) fn concat_long(alloc: Global, n: usize) -> Result<u64, AllocError> {
    let texts = sixteen(alloc, 100)?;
    concats(alloc, &texts, n)
}

#[inline(never)]
pub(crate) fn minus(alloc: Global, n: usize) -> Result<u64, AllocError> {
    let texts = sixteen(alloc, 100)?;
    let mut sum = 0_u64;
    for i in 0..n {
        if let Some(text) = texts.get(i & 15) {
            sum = sum.wrapping_add(text.minus(alloc, "a1")?.len() as u64);
        }
    }
    Ok(sum)
}

#[inline(never)]
pub(crate) fn minus_char(alloc: Global, n: usize) -> Result<u64, AllocError> {
    let texts = sixteen(alloc, 100)?;
    let mut sum = 0_u64;
    for i in 0..n {
        if let Some(text) = texts.get(i & 15) {
            sum = sum.wrapping_add(text.minus_char(alloc, '1')?.len() as u64);
        }
    }
    Ok(sum)
}

#[inline(never)]
pub(crate) fn with_char(alloc: Global, n: usize) -> Result<u64, AllocError> {
    let texts = sixteen(alloc, 1000)?;
    let mut sum = 0_u64;
    for i in 0..n {
        if let Some(text) = texts.get(i & 15) {
            sum = sum.wrapping_add(text.with_char(alloc, 500, 'b')?.len() as u64);
        }
    }
    Ok(sum)
}

/// Counts the characters of a text of a thousand.
#[inline(never)]
pub(crate) fn char_count(alloc: Global, n: usize) -> Result<u64, AllocError> {
    let texts = sixteen(alloc, 1000)?;
    let mut sum = 0_u64;
    for i in 0..n {
        if let Some(text) = texts.get(i & 15) {
            sum = sum.wrapping_add(text.char_count() as u64);
        }
    }
    Ok(sum)
}

/// Reads the character in the middle of a text of a thousand.
#[inline(never)]
pub(crate) fn char_at(alloc: Global, n: usize) -> Result<u64, AllocError> {
    let texts = sixteen(alloc, 1000)?;
    let mut sum = 0_u64;
    for i in 0..n {
        if let Some(text) = texts.get(i & 15) {
            if let Some(character) = text.char_at(500) {
                sum = sum.wrapping_add(u64::from(u32::from(character)));
            }
        }
    }
    Ok(sum)
}
