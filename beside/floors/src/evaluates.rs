//! Row 114: `x += y * 2` on a scope of eight names, as a tree walker does it.

use crate::assigns;
use crate::operators::{called, inlined, row_of, Token, Way};
use crate::scopes::{Get, Scope};
use crate::singles::copy_flat;
use crate::value::{Fault, Mode, Text, Value};
use std::hint::black_box;

/// How a name is looked up, to write its value.
type GetMut = for<'a> fn(&'a mut Scope, &[u8]) -> Option<&'a mut Value>;

/// By bytes.
const BYTES: (Get, GetMut) = (Scope::get, Scope::get_mut);

/// By numbers of up to eight bytes.
const NUMBERS: (Get, GetMut) = (Scope::get_by_number, Scope::get_mut_by_number);

/// The result of an assignment of ints.
type Assign = fn(Token, &mut Value, &Value) -> Result<Value, Fault>;

#[inline(always)]
fn assign_inlined(op: Token, place: &mut Value, y: &Value) -> Result<Value, Fault> {
    match assigns::row_of(op, place, y) {
        Some(assigns::Row::Int(op)) => assigns::on_ints(op, place, y),
        _ => Err(Fault::Memory),
    }
}

#[inline(never)]
fn on_ints_called(op: Token, place: &mut Value, y: &Value) -> Result<Value, Fault> {
    assigns::on_ints(op, place, y)
}

#[inline(always)]
fn assign_called(op: Token, place: &mut Value, y: &Value) -> Result<Value, Fault> {
    match assigns::row_of(op, place, y) {
        Some(assigns::Row::Int(op)) => on_ints_called(op, place, y),
        _ => Err(Fault::Memory),
    }
}

/// The result of a call, written where the caller needs it.
#[inline(never)]
fn call_into(op: Token, x: &Value, y: &Value, product: &mut Value) {
    if let Some(row) = row_of(op, x, y) {
        *product = row.call(x, y).unwrap_or(Value::UNIT);
    }
}

#[inline(always)]
fn into_place(op: Token, x: &mut Value, y: &mut Value) -> Value {
    let mut product = Value::UNIT;
    call_into(op, x, y, &mut product);
    product
}

/// The product of a flat copy of the left operand and of a copy of the right one.
#[inline(always)]
fn of_copies(way: Way) -> impl Fn(Token, &[Value], &Value, &Value) -> Option<Value> {
    move |op, cells, x, y| {
        let (mut left, mut right) = (copy_flat(x, cells)?, y.copy()?);
        Some(way(op, &mut left, &mut right))
    }
}

/// The same, where copies of two ints are made by their parts.
#[inline(always)]
fn of_ints_or_copies(way: Way) -> impl Fn(Token, &[Value], &Value, &Value) -> Option<Value> {
    move |op, cells, x, y| match (x, y) {
        (Value::Int(a, _, m), Value::Int(b, _, n)) => {
            let (mut left, mut right) = (Value::Int(*a, Mode::ReadWrite, *m), Value::Int(*b, Mode::ReadWrite, *n));
            Some(way(op, &mut left, &mut right))
        }
        _ => of_copies(way)(op, cells, x, y),
    }
}

#[inline(always)]
fn evaluated(
    n: usize,
    names: (Get, GetMut),
    operate: impl Fn(Token, &[Value], &Value, &Value) -> Option<Value>,
    assign: Assign,
) -> Option<u64> {
    let (plus, times) = (black_box(Token::Plus), black_box(Token::Multiply));
    let mut scope = Scope::default();
    for name in ["index", "total", "x", "limit", "y", "flag", "step", "name"] {
        scope.push(name, Value::int(3))?;
    }
    let (x, y, cells) = (Text::new("x"), Text::new("y"), black_box(Vec::new()));
    let two = Value::int(2);
    for _ in 0..n {
        if let Some(value) = names.0(&scope, y.bytes()) {
            let product = operate(times, &cells, value, &two)?;
            if let Some(place) = names.1(&mut scope, x.bytes()) {
                black_box(assign(plus, place, &product)).ok();
            }
        }
    }
    scope.get(x.bytes()).and_then(Value::own_int).map(|n| n as u64)
}

pub fn results_inlined(n: usize) -> u64 {
    evaluated(n, BYTES, of_copies(inlined), assign_inlined).unwrap_or(u64::MAX)
}

pub fn results_of_calls(n: usize) -> u64 {
    evaluated(n, BYTES, of_copies(called), assign_called).unwrap_or(u64::MAX)
}

pub fn results_in_place(n: usize) -> u64 {
    evaluated(n, BYTES, of_copies(into_place), assign_called).unwrap_or(u64::MAX)
}

pub fn names_as_numbers(n: usize) -> u64 {
    evaluated(n, NUMBERS, of_copies(inlined), assign_inlined).unwrap_or(u64::MAX)
}

pub fn names_as_numbers_by_calls(n: usize) -> u64 {
    evaluated(n, NUMBERS, of_copies(called), assign_called).unwrap_or(u64::MAX)
}

pub fn ints_by_parts(n: usize) -> u64 {
    evaluated(n, NUMBERS, of_ints_or_copies(inlined), assign_inlined).unwrap_or(u64::MAX)
}

/// The product of the operands where they are.
pub fn operands_not_copied(n: usize) -> u64 {
    let product = |op, _: &[Value], x: &Value, y: &Value| row_of(op, x, y)?.call(x, y).ok();
    evaluated(n, BYTES, product, assign_inlined).unwrap_or(u64::MAX)
}
