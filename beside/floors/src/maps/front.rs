//! Keys with a copy of their first eight bytes, which distinguish most keys without reading their blocks.

use std::cmp::Ordering;

/// The first eight bytes as a number, ordered like the bytes.
#[inline(always)]
pub fn front_of(text: &[u8]) -> u64 {
    if let Some(first) = text.first_chunk::<8>() {
        return u64::from_be_bytes(*first);
    }
    let mut front = 0;
    for (i, byte) in text.iter().enumerate() {
        front |= u64::from(*byte) << (56 - 8 * i);
    }
    front
}

pub struct Key {
    pub front: u64,
    pub text: String,
}

impl Key {
    #[inline(always)]
    pub fn order(&self, front: u64, text: &str) -> Ordering {
        match self.front.cmp(&front) {
            Ordering::Equal => self.text.as_bytes().cmp(text.as_bytes()),
            found => found,
        }
    }
}

/// The index of a key in a sorted list, or where it would be.
#[inline(always)]
pub fn place_in(keys: &[Key], front: u64, text: &str) -> Result<usize, usize> {
    let mut place = keys.partition_point(|key| key.front < front);
    while let Some(key) = keys.get(place) {
        match key.order(front, text) {
            Ordering::Less => place += 1,
            Ordering::Equal => return Ok(place),
            Ordering::Greater => break,
        }
    }
    Err(place)
}
