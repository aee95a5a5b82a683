//! Ints in values themselves, with code that would also look into a holder's cell.

use crate::given::ints;
use crate::value::{Mode, Value};
use std::hint::black_box;

fn sum_of(values: &[Value]) -> u64 {
    values.iter().filter_map(Value::own_int).fold(0, |sum, n| sum.wrapping_add(n as u64))
}

/// The cells of a store that the compiler knows nothing of.
fn cells() -> Vec<Value> {
    black_box(Vec::new())
}

/// What is read if a value isn't an int itself.
#[inline(never)]
fn int_in_cell(value: &Value, cells: &[Value]) -> Result<i64, &'static str> {
    let Value::Shared(_, _, cell) = value else {
        return Err(value.type_name());
    };
    let content = cells.get(*cell).ok_or("<shared>")?;
    content.own_int().ok_or(content.type_name())
}

#[inline(always)]
pub fn own_first(value: &Value, cells: &[Value]) -> Result<i64, &'static str> {
    match value {
        Value::Int(_, _, n) => Ok(*n),
        _ => int_in_cell(value, cells),
    }
}

/// The value or the content of its cell, and then its int.
#[inline(always)]
pub fn holder_first(value: &Value, cells: &[Value]) -> Result<i64, &'static str> {
    let content = match value {
        Value::Shared(_, _, cell) => cells.get(*cell).ok_or("<shared>")?,
        own => own,
    };
    content.own_int().ok_or(content.type_name())
}

#[inline(always)]
pub fn one_match(value: &Value, cells: &[Value]) -> Result<i64, &'static str> {
    match value {
        Value::Int(_, _, n) => Ok(*n),
        Value::Shared(_, _, cell) => cells.get(*cell).and_then(Value::own_int).ok_or("<shared>"),
        other => Err(other.type_name()),
    }
}

/// How an int is read.
type Read = fn(&Value, &[Value]) -> Result<i64, &'static str>;

/// Row 4.
#[inline(always)]
pub fn as_int(n: usize, read: Read) -> u64 {
    let (cells, values) = (cells(), ints(64));
    let mut sum = 0_u64;
    for i in 0..n {
        if let Some(value) = values.get(i & 63) {
            if let Ok(int) = read(value, &cells) {
                sum = sum.wrapping_add(int as u64);
            }
        }
    }
    sum
}

/// Row 30.
#[inline(always)]
pub fn array_sum(n: usize, read: Read) -> u64 {
    let (cells, value) = (cells(), Value::Array(0, Mode::ReadWrite, ints(1000)));
    let mut sum = 0_u64;
    for _ in 0..n {
        if let Value::Array(_, _, items) = black_box(&value) {
            for item in items {
                if let Ok(int) = read(item, &cells) {
                    sum = sum.rotate_left(1) ^ int as u64;
                }
            }
        }
    }
    sum
}

/// The place of the int that is held.
#[inline(always)]
fn place<'a>(value: &'a mut Value, cells: &'a mut [Value]) -> Option<&'a mut i64> {
    let content = match value {
        Value::Shared(_, _, cell) => cells.get_mut(*cell)?,
        own => own,
    };
    match content {
        Value::Int(_, _, n) => Some(n),
        _ => None,
    }
}

#[inline(never)]
fn written_in_cell(value: &mut Value, cells: &mut [Value], n: i64) -> bool {
    place(value, cells).map(|place| *place = n).is_some()
}

#[inline(always)]
pub fn write_own_first(value: &mut Value, cells: &mut [Value], n: i64) -> bool {
    match value {
        Value::Int(_, _, own) => {
            *own = n;
            true
        }
        _ => written_in_cell(value, cells, n),
    }
}

#[inline(always)]
pub fn write_holder_first(value: &mut Value, cells: &mut [Value], n: i64) -> bool {
    place(value, cells).map(|place| *place = n).is_some()
}

#[inline(always)]
pub fn write_by_one_match(value: &mut Value, cells: &mut [Value], n: i64) -> bool {
    match value {
        Value::Int(_, _, own) => *own = n,
        Value::Shared(_, _, cell) => match cells.get_mut(*cell) {
            Some(Value::Int(_, _, own)) => *own = n,
            _ => return false,
        },
        _ => return false,
    }
    true
}

/// Returns the previous int, as `std::mem::replace` does.
#[inline(always)]
pub fn exchange(value: &mut Value, cells: &mut [Value], n: i64) -> bool {
    black_box(place(value, cells).map(|place| std::mem::replace(place, n))).is_some()
}

/// How an int is written; returns whether one was there.
type Write = fn(&mut Value, &mut [Value], i64) -> bool;

/// Row 5.
#[inline(always)]
pub fn set_int(n: usize, write: Write) -> u64 {
    let (mut cells, mut values) = (cells(), ints(64));
    for i in 0..n {
        if let Some(value) = values.get_mut(i & 63) {
            write(value, &mut cells, i as i64);
        }
    }
    sum_of(&values)
}
