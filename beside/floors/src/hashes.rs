//! Hashes of texts and of values by SipHash-1-3. The hash bytes of a value are its kind, and then an int's eight or a text's length and bytes;
//! they are made, and then hashed.

use crate::given::sixteen;
use crate::sip::{hash_of, hash_of_text, short_word, Bytewise, LastWord, Parts, Sip};
use crate::value::Value;
use std::hash::{DefaultHasher, Hash, Hasher};
use std::hint::black_box;

/// The kinds of an int and of a text.
const INT: u8 = 4;
const TEXT: u8 = 2;

/// Row 85 by the hash of a text.
#[inline(always)]
fn texts(n: usize, hash: impl Fn(&[u8]) -> u64) -> u64 {
    let texts = sixteen(100);
    let mut sum = 0_u64;
    for i in 0..n {
        if let Some(text) = texts.get(i & 15) {
            sum ^= hash(text.bytes());
        }
    }
    sum
}

/// Row 85 by a hasher.
#[inline(always)]
pub fn hash<H: Hasher>(n: usize, new: impl Fn() -> H) -> u64 {
    texts(n, |text| {
        let mut hasher = new();
        hasher.write(text);
        hasher.write_u8(0xff);
        hasher.finish()
    })
}

/// Row 85 without a hasher: all bytes at once.
pub fn hash_at_once(n: usize) -> u64 {
    texts(n, hash_of_text)
}

/// Row 150 by the bytes of an int, which are first written to memory.
#[inline(always)]
fn ints<B>(n: usize, made: impl Fn(&Value) -> Option<B>, hash: impl Fn(&B) -> u64) -> u64 {
    let value = Value::int(7);
    let mut sum = 0_u64;
    for _ in 0..n {
        if let Some(bytes) = made(black_box(&value)) {
            if hash(black_box(&bytes)) != 0 {
                sum = sum.wrapping_add(1);
            }
        }
    }
    sum
}

#[inline(always)]
fn hash_by<H: Hasher>(mut hasher: H, bytes: &[u8]) -> u64 {
    hasher.write(bytes);
    hasher.finish()
}

#[inline(always)]
fn nine(value: &Value) -> Option<[u8; 9]> {
    let mut bytes = [INT; 9];
    bytes[1..].copy_from_slice(&value.own_int()?.to_le_bytes());
    Some(bytes)
}

pub fn int_of_nine<H: Hasher>(n: usize, new: impl Fn() -> H) -> u64 {
    ints(n, nine, |bytes| hash_by(new(), bytes))
}

/// The bytes in a number of 128 bits.
pub fn int_of_number(n: usize) -> u64 {
    let made = |value: &Value| Some((u128::from(value.own_int()? as u64) << 8 | u128::from(INT)).to_le_bytes());
    ints(n, made, |bytes| hash_by(sip(), &bytes[..9]))
}

/// Two words, of which the kind ends the first.
pub fn int_of_two_words(n: usize) -> u64 {
    let made = |value: &Value| Some([[INT; 8], value.own_int()?.to_le_bytes()]);
    ints(n, made, |words| hash_by(sip(), &words.as_flattened()[7..]))
}

/// Hash bytes: up to 16 in place, others in a block.
enum Hashed {
    Short(u8, [u8; 16]),
    Long(Vec<u8>),
}

impl Hashed {
    #[inline(always)]
    fn bytes(&self) -> &[u8] {
        match self {
            Hashed::Short(len, bytes) => bytes.get(..usize::from(*len)).unwrap_or(&[]),
            Hashed::Long(bytes) => bytes,
        }
    }
}

#[inline(always)]
fn hashed(value: &Value) -> Option<Hashed> {
    match value {
        Value::Int(_, _, n) => {
            let number = u128::from(*n as u64) << 8 | u128::from(INT);
            Some(Hashed::Short(9, number.to_le_bytes()))
        }
        _ => text_in_turn(value).map(Hashed::Long),
    }
}

/// The bytes in place or in a block.
pub fn int_in_place(n: usize) -> u64 {
    ints(n, hashed, |bytes| hash_by(sip(), bytes.bytes()))
}

#[inline(never)]
fn hashed_called(value: &Value) -> Option<Hashed> {
    hashed(value)
}

/// The same, returned by a call.
pub fn int_of_call(n: usize) -> u64 {
    ints(n, hashed_called, |bytes| hash_by(sip(), bytes.bytes()))
}

/// Nine bytes, hashed at once.
pub fn int_at_once(n: usize) -> u64 {
    ints(n, nine, |bytes| hash_of(bytes))
}

/// The bytes of a text in a block that is reserved: kind, length and bytes in turn.
#[inline(always)]
fn text_in_turn(value: &Value) -> Option<Vec<u8>> {
    let Value::Text(_, _, text) = value else {
        return None;
    };
    let text = text.bytes();
    let mut bytes = Vec::new();
    bytes.try_reserve_exact(text.len() + 9).ok()?;
    bytes.push(TEXT);
    bytes.extend_from_slice(&text.len().to_le_bytes());
    bytes.extend_from_slice(text);
    Some(bytes)
}

/// The same, kind and length at once.
#[inline(always)]
fn text_behind_nine(value: &Value) -> Option<Vec<u8>> {
    let Value::Text(_, _, text) = value else {
        return None;
    };
    let text = text.bytes();
    let mut front = [TEXT; 9];
    front[1..].copy_from_slice(&text.len().to_le_bytes());
    let mut bytes = Vec::new();
    bytes.try_reserve_exact(text.len() + 9).ok()?;
    bytes.extend_from_slice(&front);
    bytes.extend_from_slice(text);
    Some(bytes)
}

/// Zeros, which are then written over.
#[inline(always)]
fn text_over_zeros(value: &Value) -> Option<Vec<u8>> {
    let Value::Text(_, _, text) = value else {
        return None;
    };
    let text = text.bytes();
    let mut bytes = Vec::new();
    bytes.try_reserve_exact(text.len() + 9).ok()?;
    bytes.resize(text.len() + 9, 0);
    let (front, behind) = bytes.split_first_chunk_mut::<9>()?;
    front[0] = TEXT;
    front[1..].copy_from_slice(&text.len().to_le_bytes());
    behind.copy_from_slice(text);
    Some(bytes)
}

/// By words of eight bytes, as they are read later: a word that was written in two parts is waited for.
#[inline(always)]
fn text_by_words(value: &Value) -> Option<Vec<u8>> {
    let Value::Text(_, _, text) = value else {
        return None;
    };
    let (text, len) = (text.bytes(), text.bytes().len() as u64);
    let Some((seven, behind)) = text.split_first_chunk::<7>() else {
        return text_in_turn(value);
    };
    let mut bytes = Vec::new();
    bytes.try_reserve_exact(text.len() + 9).ok()?;
    bytes.extend_from_slice(&(len << 8 | u64::from(TEXT)).to_le_bytes());
    bytes.extend_from_slice(&(short_word(seven) << 8 | len >> 56).to_le_bytes());
    let (words, rest) = behind.as_chunks::<8>();
    for word in words {
        bytes.extend_from_slice(word);
    }
    let (fours, rest) = rest.as_chunks::<4>();
    bytes.extend_from_slice(fours.as_flattened());
    bytes.extend_from_slice(rest);
    Some(bytes)
}

/// Row 151 by the hash of a value.
#[inline(always)]
fn values(n: usize, hash: impl Fn(&Value) -> Option<u64>) -> u64 {
    let value = sixteen(100).pop().map_or(Value::UNIT, Value::text);
    let mut sum = 0_u64;
    for _ in 0..n {
        if hash(black_box(&value)).is_some_and(|hash| hash != 0) {
            sum = sum.wrapping_add(1);
        }
    }
    sum
}

pub fn value_in_turn<H: Hasher>(n: usize, new: impl Fn() -> H) -> u64 {
    values(n, |value| text_in_turn(value).map(|bytes| hash_by(new(), &bytes)))
}

pub fn value_behind_nine<H: Hasher>(n: usize, new: impl Fn() -> H) -> u64 {
    values(n, |value| text_behind_nine(value).map(|bytes| hash_by(new(), &bytes)))
}

pub fn value_by_words(n: usize) -> u64 {
    values(n, |value| text_by_words(value).map(|bytes| hash_by(sip(), &bytes)))
}

pub fn value_over_zeros(n: usize) -> u64 {
    values(n, |value| text_over_zeros(value).map(|bytes| hash_by(sip(), &bytes)))
}

/// The bytes are hashed in place, not written first.
pub fn value_not_made(n: usize) -> u64 {
    values(n, |value| {
        let Value::Text(_, _, text) = value else {
            return None;
        };
        let mut hasher = sip();
        hasher.write_u8(TEXT);
        hasher.write(&text.bytes().len().to_le_bytes());
        hasher.write(text.bytes());
        Some(hasher.finish())
    })
}

#[must_use]
pub fn sip() -> Sip<Parts> {
    Sip::new()
}

#[must_use]
pub fn bytewise() -> Sip<Bytewise> {
    Sip::new()
}

#[must_use]
pub fn last_word() -> Sip<LastWord> {
    Sip::new()
}

#[must_use]
pub fn library() -> DefaultHasher {
    DefaultHasher::new()
}

/// Whether a text hashes as a `&str` does, by each way.
#[must_use]
pub fn hashes_alike(text: &str) -> bool {
    let mut library = library();
    text.hash(&mut library);
    let expected = library.finish();
    let by = |hasher: &mut dyn Hasher| {
        hasher.write(text.as_bytes());
        hasher.write_u8(0xff);
        hasher.finish() == expected
    };
    let ended: Vec<u8> = text.bytes().chain([0xff]).collect();
    by(&mut sip())
        && by(&mut bytewise())
        && by(&mut last_word())
        && [hash_of_text(text.as_bytes()), hash_of(&ended)] == [expected; 2]
}
