//! Assignments: a row is looked up by the operator and both operands, and then called; a result has 64 bytes.

use crate::operators::{is_number, number, Token, NO_PLACE};
use crate::value::{Fault, Mode, Value};
use std::hint::black_box;

/// The result of a look-up.
#[derive(Clone, Copy)]
pub enum Row {
    Int(Token),
    Push,
    ArrayAppend,
    BlobAppend,
}

type Told = Result<Value, Fault>;

/// How an item is appended to an array, or a blob to a blob.
type Way = fn(&mut Value, &mut Value) -> Told;

#[inline(always)]
pub fn row_of(op: Token, x: &Value, y: &Value) -> Option<Row> {
    match (x, y) {
        (Value::Int(..), Value::Int(..)) if is_number(op) => Some(Row::Int(op)),
        (Value::Blob(..), Value::Blob(..)) if op == Token::Plus => Some(Row::BlobAppend),
        (Value::Array(..), Value::Array(..)) if op == Token::Plus => Some(Row::ArrayAppend),
        (Value::Array(..), _) if op == Token::Plus => Some(Row::Push),
        _ => None,
    }
}

#[inline(always)]
pub fn on_ints(op: Token, x: &mut Value, y: &Value) -> Told {
    let (Value::Int(_, _, x), Value::Int(_, _, y)) = (x, y) else {
        return Err(Fault::Mismatch("i64", "()", NO_PLACE));
    };
    *x = number(op, *x, *y).ok_or(Fault::Arithmetic(0, NO_PLACE))?;
    Ok(Value::UNIT)
}

#[inline(never)]
fn append_items(x: &mut Value, y: &mut Value) -> Told {
    let (Value::Array(_, _, items), Value::Array(_, _, more)) = (x, y) else {
        return Err(Fault::Mismatch("array", "()", NO_PLACE));
    };
    items.try_reserve(more.len()).map_err(|_| Fault::Memory)?;
    items.append(more);
    Ok(Value::UNIT)
}

impl Row {
    #[inline(always)]
    fn call(self, push: Way, append: Way, x: &mut Value, y: &mut Value) -> Told {
        match self {
            Row::Int(op) => on_ints(op, x, y),
            Row::Push => push(x, y),
            Row::ArrayAppend => append_items(x, y),
            Row::BlobAppend => append(x, y),
        }
    }
}

/// Reserves room for one more item, if the limit allows it.
#[inline(always)]
fn room_for_one(x: &mut Value) -> Result<&mut Vec<Value>, Fault> {
    let Value::Array(_, _, items) = x else {
        return Err(Fault::Mismatch("array", "()", NO_PLACE));
    };
    let limit = black_box(0);
    if limit > 0 && items.len() >= limit {
        return Err(Fault::TooLarge(1, NO_PLACE));
    }
    items.try_reserve(1).map_err(|_| Fault::Memory)?;
    Ok(items)
}

/// The whole value, and unit where it was.
#[inline(always)]
pub fn push_whole(x: &mut Value, y: &mut Value) -> Told {
    room_for_one(x)?.push(std::mem::replace(y, Value::UNIT));
    Ok(Value::UNIT)
}

#[inline(never)]
pub fn push_whole_called(x: &mut Value, y: &mut Value) -> Told {
    push_whole(x, y)
}

/// An int by its parts, others whole.
#[inline(always)]
pub fn push_by_parts(x: &mut Value, y: &mut Value) -> Told {
    let items = room_for_one(x)?;
    match y {
        Value::Int(tag, mode, n) => {
            items.push(Value::Int(*tag, *mode, *n));
            *y = Value::UNIT;
        }
        _ => items.push(std::mem::replace(y, Value::UNIT)),
    }
    Ok(Value::UNIT)
}

#[inline(never)]
pub fn push_by_parts_called(x: &mut Value, y: &mut Value) -> Told {
    push_by_parts(x, y)
}

/// A unit, which changes places with the value.
#[inline(never)]
pub fn push_by_swap(x: &mut Value, y: &mut Value) -> Told {
    let items = room_for_one(x)?;
    items.push(Value::UNIT);
    if let Some(slot) = items.last_mut() {
        std::mem::swap(slot, y);
    }
    Ok(Value::UNIT)
}

/// Both lists of bytes, with room reserved in the first for the second, if the limit allows it.
#[inline(always)]
fn room_for_bytes<'a>(x: &'a mut Value, y: &'a mut Value) -> Result<(&'a mut Vec<u8>, &'a mut Vec<u8>), Fault> {
    let (Value::Blob(_, _, bytes), Value::Blob(_, _, more)) = (x, y) else {
        return Err(Fault::Mismatch("blob", "()", NO_PLACE));
    };
    let limit = black_box(0);
    if limit > 0 && bytes.len() + more.len() > limit {
        return Err(Fault::TooLarge(1, NO_PLACE));
    }
    bytes.try_reserve(more.len()).map_err(|_| Fault::Memory)?;
    Ok((bytes, more))
}

/// By `Vec::append`.
#[inline(never)]
pub fn append_moved(x: &mut Value, y: &mut Value) -> Told {
    let (bytes, more) = room_for_bytes(x, y)?;
    bytes.append(more);
    Ok(Value::UNIT)
}

/// By `Vec::extend_from_slice`.
#[inline(always)]
pub fn append_copied(x: &mut Value, y: &mut Value) -> Told {
    let (bytes, more) = room_for_bytes(x, y)?;
    bytes.extend_from_slice(more);
    more.clear();
    Ok(Value::UNIT)
}

#[inline(never)]
pub fn append_copied_called(x: &mut Value, y: &mut Value) -> Told {
    append_copied(x, y)
}

/// Byte by byte.
#[inline(never)]
pub fn append_bytewise(x: &mut Value, y: &mut Value) -> Told {
    let (bytes, more) = room_for_bytes(x, y)?;
    for byte in more.iter() {
        bytes.push(*byte);
    }
    more.clear();
    Ok(Value::UNIT)
}

/// Eight bytes at once, and the rest byte by byte.
#[inline(never)]
pub fn append_by_words(x: &mut Value, y: &mut Value) -> Told {
    let (bytes, more) = room_for_bytes(x, y)?;
    let (words, rest) = more.as_chunks::<8>();
    for word in words {
        bytes.extend_from_slice(word);
    }
    for byte in rest {
        bytes.push(*byte);
    }
    more.clear();
    Ok(Value::UNIT)
}

#[inline(always)]
fn assigned(op: Token, push: Way, append: Way, x: &mut Value, y: &mut Value) -> bool {
    row_of(op, x, y).is_some_and(|row| row.call(push, append, x, y).is_ok())
}

/// Row 110.
#[inline(always)]
pub fn array_push(n: usize, push: Way) -> u64 {
    let plus = black_box(Token::Plus);
    let mut sum = 0_u64;
    for _ in 0..n {
        let mut x = Value::Array(0, Mode::ReadWrite, Vec::new());
        for i in 0..1000 {
            sum = sum.wrapping_add(u64::from(assigned(plus, push, append_moved, black_box(&mut x), &mut Value::int(i))));
        }
    }
    sum
}

/// Row 113: the blob that is appended is copied each time.
#[inline(always)]
pub fn blob_append(n: usize, append: Way) -> u64 {
    let plus = black_box(Token::Plus);
    let more = Value::Blob(0, Mode::ReadWrite, vec![0; 10]);
    let mut sum = 0_u64;
    for _ in 0..n {
        let mut x = Value::Blob(0, Mode::ReadWrite, Vec::new());
        for _ in 0..100 {
            if let Some(mut more) = black_box(&more).copy() {
                sum = sum.wrapping_add(u64::from(assigned(plus, push_whole, append, black_box(&mut x), &mut more)));
            }
        }
    }
    sum
}
