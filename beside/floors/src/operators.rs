//! Operators: a row is looked up by the operator and both operands, and then called; a result has 64 bytes.

use crate::given::{ints, sixteen};
use crate::texts::by_lanes;
use crate::value::{Fault, Value};
use std::cmp::Ordering;
use std::hint::black_box;

#[derive(Clone, Copy, PartialEq, Eq)]
pub enum Token {
    Plus,
    Minus,
    Multiply,
    Divide,
    Modulo,
    Power,
    ShiftLeft,
    ShiftRight,
    And,
    Or,
    Xor,
    Equal,
    NotEqual,
    Less,
    LessOrEqual,
    Greater,
    GreaterOrEqual,
    Range,
}

/// The result of a look-up.
#[derive(Clone, Copy)]
pub enum Row {
    Ints(Token),
    IntCompare(Token),
    TextCompare(Token),
    TextJoin,
}

pub const NO_PLACE: (u32, u32) = (0, 0);

pub const fn is_number(op: Token) -> bool {
    (op as u8) <= Token::Xor as u8
}

const fn is_comparison(op: Token) -> bool {
    Token::Equal as u8 <= op as u8 && op as u8 <= Token::GreaterOrEqual as u8
}

#[inline(always)]
pub fn row_of(op: Token, x: &Value, y: &Value) -> Option<Row> {
    match (x, y) {
        (Value::Int(..), Value::Int(..)) if is_number(op) => Some(Row::Ints(op)),
        (Value::Int(..), Value::Int(..)) if is_comparison(op) => Some(Row::IntCompare(op)),
        (Value::Text(..), Value::Text(..)) if op == Token::Plus => Some(Row::TextJoin),
        (Value::Text(..), Value::Text(..)) if is_comparison(op) => Some(Row::TextCompare(op)),
        _ => None,
    }
}

#[inline(always)]
pub fn number(op: Token, x: i64, y: i64) -> Option<i64> {
    match op {
        Token::Plus => x.checked_add(y),
        Token::Minus => x.checked_sub(y),
        Token::Multiply => x.checked_mul(y),
        Token::Divide => x.checked_div(y),
        Token::Modulo => x.checked_rem(y),
        Token::Power => u32::try_from(y).ok().and_then(|y| x.checked_pow(y)),
        Token::ShiftLeft => u32::try_from(y).ok().and_then(|y| x.checked_shl(y)),
        Token::ShiftRight => u32::try_from(y).ok().and_then(|y| x.checked_shr(y)),
        Token::And => Some(x & y),
        Token::Or => Some(x | y),
        Token::Xor => Some(x ^ y),
        Token::Equal
        | Token::NotEqual
        | Token::Less
        | Token::LessOrEqual
        | Token::Greater
        | Token::GreaterOrEqual
        | Token::Range => None,
    }
}

#[inline(always)]
fn compared(op: Token, found: Ordering) -> bool {
    match op {
        Token::Equal => found.is_eq(),
        Token::NotEqual => found.is_ne(),
        Token::Less => found.is_lt(),
        Token::LessOrEqual => found.is_le(),
        Token::Greater => found.is_gt(),
        _ => found.is_ge(),
    }
}

#[inline(never)]
fn on_others(row: Row, x: &Value, y: &Value) -> Result<Value, Fault> {
    match (row, x, y) {
        (Row::TextJoin, Value::Text(_, _, x), Value::Text(_, _, y)) => Ok(Value::text(x.joined(y))),
        (Row::Ints(_) | Row::IntCompare(_), ..) => Err(Fault::Mismatch("i64", "()", NO_PLACE)),
        (Row::TextCompare(_) | Row::TextJoin, ..) => Err(Fault::TooLarge(0, NO_PLACE)),
    }
}

impl Row {
    #[inline(always)]
    pub fn call(self, x: &Value, y: &Value) -> Result<Value, Fault> {
        match (self, x, y) {
            (Row::Ints(op), Value::Int(_, _, x), Value::Int(_, _, y)) => {
                number(op, *x, *y).map(Value::int).ok_or(Fault::Arithmetic(0, NO_PLACE))
            }
            (Row::IntCompare(op), Value::Int(_, _, x), Value::Int(_, _, y)) => Ok(Value::bool(compared(op, x.cmp(y)))),
            (Row::TextCompare(op), Value::Text(_, _, x), Value::Text(_, _, y)) => {
                Ok(Value::bool(compared(op, by_lanes::<32>(x.bytes(), y.bytes()))))
            }
            _ => on_others(self, x, y),
        }
    }
}

/// The result is written where the caller needs it.
#[inline(always)]
pub fn inlined(op: Token, x: &mut Value, y: &mut Value) -> Value {
    let Some(row) = row_of(op, x, y) else {
        return Value::UNIT;
    };
    row.call(x, y).unwrap_or(Value::UNIT)
}

/// The result is returned by a function that isn't inlined, as rhai's rows are.
#[inline(never)]
fn row_called(row: Row, x: &Value, y: &Value) -> Result<Value, Fault> {
    row.call(x, y)
}

#[inline(always)]
pub fn called(op: Token, x: &mut Value, y: &mut Value) -> Value {
    let Some(row) = row_of(op, x, y) else {
        return Value::UNIT;
    };
    row_called(row, x, y).unwrap_or(Value::UNIT)
}

/// How an operator is executed.
pub type Way = fn(Token, &mut Value, &mut Value) -> Value;

fn on_all(mut xs: Vec<Value>, mut ys: Vec<Value>, n: usize, operate: impl Fn(&mut Value, &mut Value) -> Value) -> u64 {
    let cells = Vec::new();
    let mut sum = 0_u64;
    for i in 0..n {
        if let (Some(x), Some(y)) = (xs.get_mut(i & 15), ys.get_mut(i & 7)) {
            let answer = operate(x, y);
            if let Ok(int) = answer.held_int(&cells) {
                sum = sum.wrapping_add(int as u64);
            } else if let Value::Text(_, _, text) = &answer {
                sum = sum.wrapping_add(text.bytes().len() as u64);
            } else if let Value::Bool(_, _, true) = &answer {
                sum = sum.wrapping_add(1);
            }
        }
    }
    sum
}

/// Rows 102 to 104; the operator is known at the look-up, as in `times`.
#[inline(always)]
pub fn ints_inlined(op: Token, n: usize) -> u64 {
    let op = black_box(op);
    on_all(ints(64), ints(64), n, |x, y| inlined(op, x, y))
}

/// The same by calls.
#[inline(always)]
pub fn ints_called(op: Token, n: usize) -> u64 {
    let op = black_box(op);
    on_all(ints(64), ints(64), n, |x, y| called(op, x, y))
}

/// Rows 105 and 107.
pub fn texts_inlined(op: Token, length: usize, n: usize) -> u64 {
    let op = black_box(op);
    let values = || sixteen(length).into_iter().map(Value::text).collect();
    on_all(values(), values(), n, |x, y| inlined(op, x, y))
}

/// The same by calls.
pub fn texts_called(op: Token, length: usize, n: usize) -> u64 {
    let op = black_box(op);
    let values = || sixteen(length).into_iter().map(Value::text).collect();
    on_all(values(), values(), n, |x, y| called(op, x, y))
}

/// Row 108: each addition uses the previous result.
#[inline(always)]
pub fn chain(n: usize, way: Way) -> u64 {
    let op = black_box(Token::Plus);
    let mut values = ints(64);
    let mut sum = Value::int(0);
    for i in 0..n {
        if let Some(y) = values.get_mut(i & 63) {
            sum = way(op, &mut sum, y);
        }
    }
    sum.own_int().unwrap_or(0) as u64
}

pub fn chain_inlined(n: usize) -> u64 {
    chain(n, inlined)
}

pub fn chain_called(n: usize) -> u64 {
    chain(n, called)
}
