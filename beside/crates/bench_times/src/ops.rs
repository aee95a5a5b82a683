//! Operators, assignments, and a loop of a tree walker.

use crate::given::{blob, ints, sixteen, sixty_four, sum_of};
use rhai_ops::laws::rows_suit;
use rhai_ops::{get_builtin_binary_op_fn, get_builtin_op_assignment_fn};
use rhai_scope::Scope;
use rhai_text::{ImmutableString, Limits, Token};
use rhai_value::{Dynamic, Store};
use std::alloc::{AllocError, Global};

const UNLIMITED: Limits = Limits { text: 0, items: 0 };

/// Applies an operator; returns unit if it has no row or fails.
#[inline(always)]
fn operate(op: Token, alloc: Global, m: &mut Store, x: &mut Dynamic, y: &mut Dynamic) -> Dynamic {
    let Some(row) = get_builtin_binary_op_fn(&op, x, y, m) else {
        return Dynamic::UNIT;
    };
    rows_suit();
    match row.call(alloc, m, &UNLIMITED, x, y) {
        Ok(answer) => answer,
        Err(_) => Dynamic::UNIT,
    }
}

/// Does an assignment, and returns whether it was done.
#[inline(always)]
fn assign(op: Token, alloc: Global, m: &mut Store, x: &mut Dynamic, y: &mut Dynamic) -> bool {
    let Some(row) = get_builtin_op_assignment_fn(&op, x, y) else {
        return false;
    };
    rows_suit();
    row.call(alloc, m, &UNLIMITED, x, y).is_ok()
}

/// Looks up four operators in rotation for these values, each with the next one.
#[inline(never)]
pub(crate) fn lookups(store: &Store, values: &[Dynamic], n: usize) -> u64 {
    let ops = [
        Token::Plus,
        Token::LessThan,
        Token::Multiply,
        Token::EqualsTo,
    ];
    let mut sum = 0_u64;
    for i in 0..n {
        if let (Some(op), Some(x), Some(y)) = (
            ops.get(i & 3),
            values.get(i & 63),
            values.get(i & 31),
        ) {
            if let Some(row) = get_builtin_binary_op_fn(op, x, y, store) {
                sum = sum.wrapping_add(if row.uses_limits() { 3 } else { 1 });
            }
        }
    }
    sum
}

/// Applies an operator to the values of two lists.
fn on_all(op: Token, alloc: Global, xs: &mut Vec<Dynamic>, ys: &mut Vec<Dynamic>, n: usize) -> u64 {
    let mut store = Store::new(alloc);
    let mut sum = 0_u64;
    for i in 0..n {
        if let (Some(x), Some(y)) = (xs.get_mut(i & 15), ys.get_mut(i & 7)) {
            let answer = operate(op, alloc, &mut store, x, y);
            if let Ok(int) = answer.as_int(&store) {
                sum = sum.wrapping_add(int.cast_unsigned());
            } else if let Ok(text) = answer.as_immutable_string_ref(&store) {
                sum = sum.wrapping_add(text.len() as u64);
            } else if let Ok(true) = answer.as_bool(&store) {
                sum = sum.wrapping_add(1);
            }
        }
    }
    sum
}

#[inline(never)]
pub(crate) fn on_ints(op: Token, alloc: Global, n: usize) -> Result<u64, AllocError> {
    Ok(on_all(
        op,
        alloc,
        &mut sixty_four(alloc)?,
        &mut sixty_four(alloc)?,
        n,
    ))
}

fn text_values(alloc: Global, length: usize) -> Result<Vec<Dynamic>, AllocError> {
    let mut values = Vec::with_capacity(alloc, 16)?;
    for text in sixteen(alloc, length)? {
        values.push(Dynamic::from(text))?;
    }
    Ok(values)
}

#[inline(never)]
pub(crate) fn on_texts(
    op: Token,
    alloc: Global,
    length: usize,
    n: usize,
) -> Result<u64, AllocError> {
    let mut xs = text_values(alloc, length)?;
    let mut ys = text_values(alloc, length)?;
    Ok(on_all(op, alloc, &mut xs, &mut ys, n))
}

/// A sum in which each addition takes the previous result.
#[inline(never)]
pub(crate) fn add_chain(alloc: Global, n: usize) -> Result<u64, AllocError> {
    let mut store = Store::new(alloc);
    let mut values = sixty_four(alloc)?;
    let mut sum = Dynamic::ZERO;
    for i in 0..n {
        if let Some(y) = values.get_mut(i & 63) {
            sum = operate(Token::Plus, alloc, &mut store, &mut sum, y);
        }
    }
    Ok(sum_of(&[sum], &store))
}

#[inline(never)]
pub(crate) fn assign_ints(alloc: Global, n: usize) -> Result<u64, AllocError> {
    let mut store = Store::new(alloc);
    let mut sums = sixty_four(alloc)?;
    for i in 0..n {
        if let Some(x) = sums.get_mut(i & 63) {
            assign(
                Token::PlusAssign,
                alloc,
                &mut store,
                x,
                &mut Dynamic::from_int(3),
            );
        }
    }
    Ok(sum_of(&sums, &store))
}

/// Appends the same value a hundred thousand times to a text that starts empty.
fn append(alloc: Global, more: &Dynamic, n: usize) -> Result<u64, AllocError> {
    let mut store = Store::new(alloc);
    let mut sum = 0_u64;
    for _ in 0..n {
        let mut x = Dynamic::from_text(alloc, "")?;
        for _ in 0..100_000 {
            let mut more = more.copy(alloc)?;
            assign(Token::PlusAssign, alloc, &mut store, &mut x, &mut more);
        }
        if let Ok(text) = x.as_immutable_string_ref(&store) {
            sum = sum.wrapping_add(text.len() as u64);
        }
    }
    Ok(sum)
}

/// Appends five characters, a hundred thousand times.
#[inline(never)]
pub(crate) fn append_text(alloc: Global, n: usize) -> Result<u64, AllocError> {
    append(alloc, &Dynamic::from_text(alloc, "abcde")?, n)
}

/// Appends a character, a hundred thousand times.
#[inline(never)]
pub(crate) fn append_char(alloc: Global, n: usize) -> Result<u64, AllocError> {
    append(alloc, &Dynamic::from_char('a'), n)
}

/// Pushes a thousand ints onto an array or a blob that starts empty.
#[inline(never)]
pub(crate) fn push_1000(alloc: Global, to_blob: bool, n: usize) -> Result<u64, AllocError> {
    let mut store = Store::new(alloc);
    let mut sum = 0_u64;
    for _ in 0..n {
        let mut x = if to_blob {
            Dynamic::from_blob(Vec::new(alloc))
        } else {
            Dynamic::from_array(Vec::new(alloc))
        };
        for i in 0..1000 {
            if assign(
                Token::PlusAssign,
                alloc,
                &mut store,
                &mut x,
                &mut Dynamic::from_int(i),
            ) {
                sum = sum.wrapping_add(1);
            }
        }
    }
    Ok(sum)
}

/// Appends ten items to an array or a blob that starts empty, a hundred times.
#[inline(never)]
pub(crate) fn append_1000(alloc: Global, to_blob: bool, n: usize) -> Result<u64, AllocError> {
    let mut store = Store::new(alloc);
    let more = if to_blob {
        blob(alloc, 10)?
    } else {
        ints(alloc, 10)?
    };
    let mut sum = 0_u64;
    for _ in 0..n {
        let mut x = if to_blob {
            Dynamic::from_blob(Vec::new(alloc))
        } else {
            Dynamic::from_array(Vec::new(alloc))
        };
        for _ in 0..100 {
            if assign(
                Token::PlusAssign,
                alloc,
                &mut store,
                &mut x,
                &mut more.copy(alloc)?,
            ) {
                sum = sum.wrapping_add(1);
            }
        }
    }
    Ok(sum)
}

/// A scope of eight names.
fn eight(alloc: Global) -> Result<Scope, AllocError> {
    let mut scope = Scope::new(alloc);
    for name in ["index", "total", "x", "limit", "y", "flag", "step", "name"] {
        scope.push_dynamic(name, Dynamic::from_int(3))?;
    }
    Ok(scope)
}

/// `x += y * 2`, as a tree walker does it.
#[inline(never)]
pub(crate) fn evaluate(alloc: Global, n: usize) -> Result<u64, AllocError> {
    let mut store = Store::new(alloc);
    let mut scope = eight(alloc)?;
    let (x, y) = (
        ImmutableString::from_str(alloc, "x")?,
        ImmutableString::from_str(alloc, "y")?,
    );
    let two = Dynamic::TWO;
    for _ in 0..n {
        if let Some(value) = scope.get(y.as_str()) {
            let mut left = value.flatten_clone(alloc, &store)?;
            let mut right = two.copy(alloc)?;
            let mut product = operate(Token::Multiply, alloc, &mut store, &mut left, &mut right);
            if let Some(place) = scope.get_mut(x.as_str()) {
                assign(Token::PlusAssign, alloc, &mut store, place, &mut product);
            }
        }
    }
    match scope.get("x") {
        Some(value) => Ok(value.as_int(&store).unwrap_or(0).cast_unsigned()),
        None => Ok(0),
    }
}
