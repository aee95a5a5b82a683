//! SipHash-1-3 with both keys 0, as the standard library's `DefaultHasher::new()`; whole words are read at once, and so is what is left.

use std::hash::Hasher;
use std::marker::PhantomData;

/// How the bytes after the last whole word are read, the first of them lowest.
pub trait Tail {
    fn word(all: &[u8], rest: &[u8]) -> u64;
}

/// Four of them, two and one.
pub struct Parts;

/// One by one.
pub struct Bytewise;

/// In the last word of all, which is shifted.
pub struct LastWord;

impl Tail for Parts {
    #[inline(always)]
    fn word(_: &[u8], rest: &[u8]) -> u64 {
        short_word(rest)
    }
}

impl Tail for Bytewise {
    #[inline(always)]
    fn word(_: &[u8], rest: &[u8]) -> u64 {
        rest.iter().rev().fold(0, |word, byte| word << 8 | u64::from(*byte))
    }
}

impl Tail for LastWord {
    #[inline(always)]
    fn word(all: &[u8], rest: &[u8]) -> u64 {
        match all.last_chunk() {
            Some(last) => u64::from_le_bytes(*last).checked_shr(64 - 8 * rest.len() as u32).unwrap_or(0),
            None => short_word(rest),
        }
    }
}

/// The bytes of less than a word, the first of them lowest.
#[inline(always)]
pub fn short_word(bytes: &[u8]) -> u64 {
    let (len, mut word, mut at) = (bytes.len(), 0, 0);
    if let Some(four) = bytes.first_chunk::<4>() {
        word = u64::from(u32::from_le_bytes(*four));
        at = 4;
    }
    if let Some(two) = bytes[at..].first_chunk::<2>() {
        word |= u64::from(u16::from_le_bytes(*two)) << (8 * at);
        at += 2;
    }
    if at < len {
        word |= u64::from(bytes[at]) << (8 * at);
    }
    word
}

#[derive(Clone, Copy)]
struct State {
    v0: u64,
    v1: u64,
    v2: u64,
    v3: u64,
}

impl State {
    const NEW: State =
        State { v0: 0x736f_6d65_7073_6575, v1: 0x646f_7261_6e64_6f6d, v2: 0x6c79_6765_6e65_7261, v3: 0x7465_6462_7974_6573 };

    #[inline(always)]
    fn round(&mut self) {
        self.v0 = self.v0.wrapping_add(self.v1);
        self.v2 = self.v2.wrapping_add(self.v3);
        self.v1 = self.v1.rotate_left(13) ^ self.v0;
        self.v3 = self.v3.rotate_left(16) ^ self.v2;
        self.v0 = self.v0.rotate_left(32);
        self.v2 = self.v2.wrapping_add(self.v1);
        self.v0 = self.v0.wrapping_add(self.v3);
        self.v1 = self.v1.rotate_left(17) ^ self.v2;
        self.v3 = self.v3.rotate_left(21) ^ self.v0;
        self.v2 = self.v2.rotate_left(32);
    }

    #[inline(always)]
    fn word(&mut self, word: u64) {
        self.v3 ^= word;
        self.round();
        self.v0 ^= word;
    }

    /// The hash, once the last word of the bytes is known.
    #[inline(always)]
    fn hash(mut self, tail: u64, length: usize) -> u64 {
        self.word((length as u64 & 0xff) << 56 | tail);
        self.v2 ^= 0xff;
        self.round();
        self.round();
        self.round();
        self.v0 ^ self.v1 ^ self.v2 ^ self.v3
    }
}

pub struct Sip<T = Parts> {
    state: State,
    /// The bytes since the last whole word, the first of them lowest, and above them zeros.
    tail: u64,
    length: usize,
    how: PhantomData<T>,
}

impl<T> Sip<T> {
    #[must_use]
    #[inline(always)]
    pub fn new() -> Sip<T> {
        Sip { state: State::NEW, tail: 0, length: 0, how: PhantomData }
    }
}

impl<T> Default for Sip<T> {
    fn default() -> Self {
        Sip::new()
    }
}

impl<T: Tail> Hasher for Sip<T> {
    /// Words are put together of the tail and of what comes, by a shift.
    #[inline(always)]
    fn write(&mut self, bytes: &[u8]) {
        let shift = 8 * (self.length as u32 % 8);
        self.length = self.length.wrapping_add(bytes.len());
        let mut words = bytes.chunks_exact(8);
        for word in &mut words {
            let word = word.first_chunk().map_or(0, |word| u64::from_le_bytes(*word));
            self.state.word(self.tail | word << shift);
            self.tail = if shift == 0 { 0 } else { word >> (64 - shift) };
        }
        let (rest, left) = (words.remainder(), T::word(bytes, words.remainder()));
        self.tail |= left << shift;
        if shift as usize + 8 * rest.len() >= 64 {
            self.state.word(self.tail);
            self.tail = if shift == 0 { 0 } else { left >> (64 - shift) };
        }
    }

    #[inline(always)]
    fn finish(&self) -> u64 {
        self.state.hash(self.tail, self.length)
    }
}

/// The hash of bytes that are there all at once.
#[must_use]
#[inline(always)]
pub fn hash_of(bytes: &[u8]) -> u64 {
    let mut state = State::NEW;
    let mut words = bytes.chunks_exact(8);
    for word in &mut words {
        state.word(word.first_chunk().map_or(0, |word| u64::from_le_bytes(*word)));
    }
    state.hash(LastWord::word(bytes, words.remainder()), bytes.len())
}

/// The hash of a text: of its bytes, and of one that ends it.
#[must_use]
#[inline(always)]
pub fn hash_of_text(bytes: &[u8]) -> u64 {
    let mut state = State::NEW;
    let mut words = bytes.chunks_exact(8);
    for word in &mut words {
        state.word(word.first_chunk().map_or(0, |word| u64::from_le_bytes(*word)));
    }
    let rest = words.remainder();
    let tail = LastWord::word(bytes, rest) | 0xff << (8 * rest.len());
    match rest.len() {
        7 => {
            state.word(tail);
            state.hash(0, bytes.len() + 1)
        }
        _ => state.hash(tail, bytes.len() + 1),
    }
}
