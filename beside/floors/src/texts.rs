//! Texts: compared without the C library's `memcmp`.

use crate::given::sixteen;
use crate::value::{Text, Value};
use std::cmp::Ordering;
use std::hint::black_box;
use std::rc::Rc;

/// An order of bytes.
pub type Order = fn(&[u8], &[u8]) -> Ordering;

#[inline(always)]
fn word_at(bytes: &[u8], at: usize) -> u64 {
    bytes.get(at..).and_then(|rest| rest.first_chunk()).map_or(0, |word| u64::from_be_bytes(*word))
}

/// By words of eight bytes, of which the last one overlaps the one before.
#[inline(always)]
pub fn by_words(a: &[u8], b: &[u8]) -> Ordering {
    let both = a.len().min(b.len());
    if both < 8 {
        return a[..both].iter().cmp(&b[..both]).then(a.len().cmp(&b.len()));
    }
    for (x, y) in a[..both].chunks_exact(8).zip(b[..both].chunks_exact(8)) {
        let (x, y) = (word_at(x, 0), word_at(y, 0));
        if x != y {
            return x.cmp(&y);
        }
    }
    word_at(a, both - 8).cmp(&word_at(b, both - 8)).then(a.len().cmp(&b.len()))
}

/// Bytes that are as many on both sides.
#[inline(always)]
fn order_of<const N: usize>(a: &[u8; N], b: &[u8; N]) -> Ordering {
    for (x, y) in a.chunks_exact(8).zip(b.chunks_exact(8)) {
        let (x, y) = (word_at(x, 0), word_at(y, 0));
        if x != y {
            return x.cmp(&y);
        }
    }
    Ordering::Equal
}

/// By `N` bytes, which registers of 128 bits compare at once; the last of them overlap those before.
#[inline(always)]
pub fn by_lanes<const N: usize>(a: &[u8], b: &[u8]) -> Ordering {
    let both = a.len().min(b.len());
    let (Some(last), Some(other)) = (a[..both].last_chunk::<N>(), b[..both].last_chunk::<N>()) else {
        return by_words(a, b);
    };
    for (x, y) in a[..both].chunks_exact(N).zip(b[..both].chunks_exact(N)) {
        if let (Some(x), Some(y)) = (x.first_chunk::<N>(), y.first_chunk::<N>()) {
            if x != y {
                return order_of(x, y);
            }
        }
    }
    order_of(last, other).then(a.len().cmp(&b.len()))
}

/// Whether bytes are the same, by `N` at once; the last of them overlap those before.
#[inline(always)]
pub fn same_by<const N: usize>(a: &[u8], b: &[u8]) -> bool {
    if a.len() != b.len() {
        return false;
    }
    let (Some(last), Some(other)) = (a.last_chunk::<N>(), b.last_chunk::<N>()) else {
        return by_words(a, b).is_eq();
    };
    let mut pairs = a.chunks_exact(N).zip(b.chunks_exact(N));
    last == other && pairs.all(|(x, y)| x.first_chunk::<N>() == y.first_chunk::<N>())
}

/// Row 83.
#[inline(always)]
pub fn equal(n: usize, same: impl Fn(&[u8], &[u8]) -> bool) -> u64 {
    let (texts, others) = (sixteen(100), sixteen(100));
    let mut sum = 0_u64;
    for i in 0..n {
        if let (Some(text), Some(other)) = (texts.get(i & 15), others.get(i & 7)) {
            if same(text.bytes(), other.bytes()) {
                sum = sum.wrapping_add(1);
            }
        }
    }
    sum
}

/// By the C library's `memcmp`, which the port can't call.
#[inline(always)]
pub fn by_library(a: &[u8], b: &[u8]) -> Ordering {
    a.cmp(b)
}

/// Row 84.
#[inline(always)]
pub fn order(n: usize, order: impl Fn(&[u8], &[u8]) -> Ordering) -> u64 {
    let (texts, others) = (sixteen(100), sixteen(100));
    let mut sum = 0_u64;
    for i in 0..n {
        if let (Some(text), Some(other)) = (texts.get(i & 15), others.get(i & 7)) {
            if order(text.bytes(), other.bytes()).is_gt() {
                sum = sum.wrapping_add(1);
            }
        }
    }
    sum
}

/// Rows 80 and 81: a text of a hundred bytes takes a block for its count and one for its bytes.
#[inline(always)]
pub fn make(n: usize, length: usize, make: impl Fn(&str) -> Option<Text>) -> u64 {
    let given = "a".repeat(length - 2) + "00";
    let mut slots: Vec<Value> = (0..64).map(|_| Value::UNIT).collect();
    for i in 0..n {
        if let (Some(slot), Some(text)) = (slots.get_mut(i & 63), make(black_box(&given))) {
            *slot = Value::text(text);
        }
    }
    slots.iter().map(|slot| if let Value::Text(_, _, text) = slot { text.bytes().len() as u64 } else { 0 }).sum()
}

/// Row 81 with texts of two words: one block has count and bytes.
pub fn make_in_one_block(n: usize) -> u64 {
    let given = "a".repeat(98) + "00";
    let mut slots: Vec<Option<Rc<str>>> = vec![None; 64];
    for i in 0..n {
        if let Some(slot) = slots.get_mut(i & 63) {
            *slot = Some(black_box(&given).as_str().into());
        }
    }
    slots.iter().flatten().map(|text| text.len() as u64).sum()
}

/// Row 82 by how a copy is put into a slot.
#[inline(always)]
pub fn copy(n: usize, put: impl Fn(&mut Text, &Text)) -> u64 {
    let texts = sixteen(100);
    let mut slots = sixteen(10);
    for i in 0..n {
        if let (Some(text), Some(slot)) = (texts.get(i & 7), slots.get_mut(i & 15)) {
            put(slot, text);
        }
    }
    slots.iter().map(|text| text.bytes().len() as u64).sum()
}

/// Row 86: texts of five bytes, joined two by two.
#[inline(always)]
pub fn joined(n: usize, join: impl Fn(&Text, &Text) -> Option<Text>) -> u64 {
    let (texts, mut slots) = (sixteen(5), sixteen(10));
    for i in 0..n {
        if let (Some(text), Some(other)) = (texts.get(i & 15), texts.get(i & 7)) {
            if let (Some(joined), Some(slot)) = (join(text, other), slots.get_mut(i & 15)) {
                *slot = joined;
            }
        }
    }
    slots.iter().map(|slot| slot.bytes().len() as u64).sum()
}
