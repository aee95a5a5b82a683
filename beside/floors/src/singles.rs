//! Single values, and arrays of them.

use crate::given::{ints, sixteen};
use crate::value::{Mode, Tag, Text, Value};
use std::hint::black_box;

fn mixed() -> Vec<Value> {
    let mixed = |i| match i % 4 {
        0 | 2 => Value::int(i),
        1 => Value::text(Text::new("mixed")),
        _ => Value::Shared(0, Mode::ReadWrite, i as usize / 4),
    };
    (0..64).map(mixed).collect()
}

impl Value {
    #[inline(always)]
    fn tag_mut(&mut self) -> &mut Tag {
        match self {
            Value::Unit(tag, _)
            | Value::Bool(tag, ..)
            | Value::Text(tag, ..)
            | Value::Char(tag, ..)
            | Value::Int(tag, ..)
            | Value::Array(tag, ..)
            | Value::Blob(tag, ..)
            | Value::Host(tag, ..)
            | Value::Shared(tag, ..) => tag,
        }
    }
}

/// Row 9 by how a tag is exchanged for another.
#[inline(always)]
pub fn tag_get_set(n: usize, exchange: impl Fn(&mut Value, Tag) -> Tag) -> u64 {
    let mut values = mixed();
    let (mut sum, mut tag) = (0_u64, 0_i32);
    for i in 0..n {
        if let Some(value) = values.get_mut(i & 63) {
            sum = sum.wrapping_add(i64::from(exchange(value, tag)) as u64);
            tag = tag.wrapping_add(1);
        }
    }
    sum
}

pub fn tag_by_one_match(n: usize) -> u64 {
    tag_get_set(n, |value, tag| std::mem::replace(value.tag_mut(), tag))
}

/// The tag's place is found by a call.
pub fn tag_by_call(n: usize) -> u64 {
    tag_get_set(n, |value, tag| std::mem::replace(tag_called(value), tag))
}

#[inline(never)]
fn tag_called(value: &mut Value) -> &mut Tag {
    value.tag_mut()
}

/// One call reads the tag, another sets it.
pub fn tag_by_two_calls(n: usize) -> u64 {
    tag_get_set(n, |value, tag| {
        let old = *tag_called(value);
        set_tag(value, tag);
        old
    })
}

#[inline(never)]
fn set_tag(value: &mut Value, tag: Tag) {
    *value.tag_mut() = tag;
}

/// Row 46 by how a copy is flattened: a holder would be replaced by its cell's content.
#[inline(always)]
pub fn flattened(n: usize, flat: impl Fn(&Value, &[Value]) -> Option<Value>) -> u64 {
    let (cells, values) = (black_box(Vec::new()), ints(64));
    let mut slots: Vec<Value> = (0..64).map(|_| Value::UNIT).collect();
    for i in 0..n {
        if let Some(flat) = values.get(i & 31).and_then(|value| flat(value, &cells)) {
            if let Some(slot) = slots.get_mut(i & 63) {
                *slot = flat;
            }
        }
    }
    slots.iter().filter_map(Value::own_int).fold(0, |sum, n| sum.wrapping_add(n as u64))
}

#[inline(always)]
fn flatten(value: Value, cells: &[Value]) -> Option<Value> {
    match value {
        Value::Shared(_, _, cell) => cells.get(cell)?.copy(),
        own => Some(own),
    }
}

#[inline(never)]
fn flatten_called(value: Value, cells: &[Value]) -> Option<Value> {
    flatten(value, cells)
}

#[inline(always)]
pub fn copy_and_flatten(value: &Value, cells: &[Value]) -> Option<Value> {
    flatten(value.copy()?, cells)
}

#[inline(always)]
pub fn copy_and_flatten_by_call(value: &Value, cells: &[Value]) -> Option<Value> {
    flatten_called(value.copy()?, cells)
}

/// One copy, of what is held.
#[inline(always)]
pub fn copy_flat(value: &Value, cells: &[Value]) -> Option<Value> {
    match value {
        Value::Shared(_, _, cell) => cells.get(*cell)?.copy(),
        own => own.copy(),
    }
}

/// A cell, and whether it is marked for a write.
struct Cell {
    content: Value,
    is_marked: bool,
}

/// Row 41: ints in cells of their own, read through their holders.
#[inline(always)]
fn held_ints(n: usize, held: impl Fn(&Value) -> Option<i64>) -> u64 {
    let values: Vec<Value> = (0..64).map(|i| Value::Shared(0, Mode::ReadWrite, i)).collect();
    let mut sum = 0_u64;
    for i in 0..n {
        if let Some(int) = values.get(i & 63).and_then(&held) {
            sum = sum.wrapping_add(int as u64);
        }
    }
    sum
}

fn cells() -> Vec<Cell> {
    ints(64).into_iter().map(|content| Cell { content, is_marked: false }).collect()
}

#[inline(always)]
fn in_cell(cells: &[Cell], cell: usize) -> Option<i64> {
    cells.get(cell).filter(|cell| !cell.is_marked).and_then(|cell| cell.content.own_int())
}

pub fn held_own_first(n: usize) -> u64 {
    let cells = black_box(cells());
    held_ints(n, |value| match value {
        Value::Int(_, _, n) => Some(*n),
        Value::Shared(_, _, cell) => in_cell(&cells, *cell),
        _ => None,
    })
}

pub fn held_cell_first(n: usize) -> u64 {
    let cells = black_box(cells());
    held_ints(n, |value| match value {
        Value::Shared(_, _, cell) => in_cell(&cells, *cell),
        value => value.own_int(),
    })
}

/// Cells of 48 bytes, and their marks in words of 64.
pub fn held_marks_apart(n: usize) -> u64 {
    let (cells, marks) = black_box((ints(64), vec![0_u64; 1]));
    held_ints(n, |value| match value {
        Value::Int(_, _, n) => Some(*n),
        Value::Shared(_, _, cell) => {
            let content = cells.get(*cell)?;
            let is_marked = marks.get(*cell / 64)? >> (*cell % 64) & 1 == 1;
            if is_marked {
                None
            } else {
                content.own_int()
            }
        }
        _ => None,
    })
}

fn thousand() -> Vec<i64> {
    let mut numbers = Vec::with_capacity(1000);
    for i in 0..1000 {
        numbers.push(i);
    }
    black_box(numbers)
}

/// Row 163: an array of a thousand numbers.
#[inline(always)]
fn arrays(n: usize, array: impl Fn(Vec<i64>) -> Option<Vec<Value>>) -> u64 {
    let mut sum = 0_u64;
    for _ in 0..n {
        if let Some(items) = array(thousand()) {
            sum = sum.wrapping_add(black_box(items).len() as u64);
        }
    }
    sum
}

pub fn array_one_by_one(n: usize) -> u64 {
    arrays(n, |numbers| {
        let mut items = Vec::new();
        items.try_reserve_exact(numbers.len()).ok()?;
        for n in numbers {
            items.push(Value::int(n));
        }
        Some(items)
    })
}

pub fn array_extended(n: usize) -> u64 {
    arrays(n, |numbers| {
        let mut items = Vec::new();
        items.try_reserve_exact(numbers.len()).ok()?;
        items.extend(numbers.into_iter().map(Value::int));
        Some(items)
    })
}

/// Units first, which are then written over.
pub fn array_written_over(n: usize) -> u64 {
    arrays(n, |numbers| {
        let mut items = Vec::new();
        items.try_reserve_exact(numbers.len()).ok()?;
        items.resize_with(numbers.len(), || Value::UNIT);
        for (item, n) in items.iter_mut().zip(numbers) {
            *item = Value::int(n);
        }
        Some(items)
    })
}

/// Row 162: the array is made, and each int moved out of it.
pub fn typed_array(n: usize) -> u64 {
    let mut sum = 0_u64;
    for _ in 0..n {
        let mut numbers = Vec::new();
        let items = black_box(ints(1000));
        if numbers.try_reserve_exact(items.len()).is_ok() {
            numbers.extend(items.iter().filter_map(Value::own_int));
            sum = sum.wrapping_add(black_box(numbers).len() as u64);
        }
    }
    sum
}

/// Row 3: copies of texts in values.
pub fn copy_text(n: usize) -> u64 {
    let values: Vec<Value> = sixteen(5).into_iter().map(Value::text).collect();
    let mut slots: Vec<Value> = (0..64).map(|_| Value::UNIT).collect();
    for i in 0..n {
        if let Some(copy) = values.get(i & 15).and_then(Value::copy) {
            if let Some(slot) = slots.get_mut(i & 63) {
                *slot = copy;
            }
        }
    }
    slots.iter().filter(|slot| matches!(slot, Value::Text(..))).count() as u64
}

/// Row 8: how a value or the content of its cell is tested for an int.
#[inline(always)]
fn ints_among(n: usize, is_int: impl Fn(&Value, &[Value]) -> bool) -> u64 {
    let values = mixed();
    let cells: Vec<Value> = (0..16).map(|_| Value::text(Text::new("mixed"))).collect();
    let cells = black_box(cells);
    let mut sum = 0_u64;
    for i in 0..n {
        if values.get(i & 63).is_some_and(|value| is_int(value, &cells)) {
            sum = sum.wrapping_add(1);
        }
    }
    sum
}

fn is_int_in(cells: &[Value], cell: usize) -> bool {
    cells.get(cell).is_some_and(|content| content.own_int().is_some())
}

pub fn is_int_own_first(n: usize) -> u64 {
    ints_among(n, |value, cells| match value {
        Value::Int(..) => true,
        Value::Shared(_, _, cell) => is_int_in(cells, *cell),
        _ => false,
    })
}

pub fn is_int_content_first(n: usize) -> u64 {
    ints_among(n, |value, cells| {
        let content = match value {
            Value::Shared(_, _, cell) => cells.get(*cell),
            own => Some(own),
        };
        content.is_some_and(|content| content.own_int().is_some())
    })
}

#[inline(never)]
fn is_held_int(value: &Value, cells: &[Value]) -> bool {
    matches!(value, Value::Shared(_, _, cell) if is_int_in(cells, *cell))
}

pub fn is_int_by_call(n: usize) -> u64 {
    ints_among(n, |value, cells| matches!(value, Value::Int(..)) || is_held_int(value, cells))
}
