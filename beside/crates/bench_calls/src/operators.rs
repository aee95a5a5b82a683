//! Built-in operators and assignments.
ghost use Rattle.std.specs.Prelude.{IfSome};
ghost use Rattle.rhai_ops.specs.Results.{Suits};

use crate::desk::Desk;
use rhai_ops::laws::rows_suit;
use rhai_ops::{FnBuiltin, get_builtin_binary_op_fn, get_builtin_op_assignment_fn};
use rhai_text::{Limits, Token};
use rhai_value::{Dynamic, Store};
use std::alloc::AllocError;

fn token(number: u8) -> Token {
    match number {
        0 => Token::Plus,
        1 => Token::Minus,
        2 => Token::Multiply,
        3 => Token::Divide,
        4 => Token::Modulo,
        5 => Token::PowerOf,
        6 => Token::RightShift,
        7 => Token::LeftShift,
        8 => Token::Ampersand,
        9 => Token::Pipe,
        10 => Token::XOr,
        11 => Token::EqualsTo,
        12 => Token::NotEqualsTo,
        13 => Token::GreaterThan,
        14 => Token::GreaterThanEqualsTo,
        15 => Token::LessThan,
        16 => Token::LessThanEqualsTo,
        17 => Token::ExclusiveRange,
        18 => Token::InclusiveRange,
        19 => Token::Equals,
        20 => Token::PlusAssign,
        21 => Token::MinusAssign,
        22 => Token::MultiplyAssign,
        23 => Token::DivideAssign,
        24 => Token::ModuloAssign,
        25 => Token::PowerOfAssign,
        26 => Token::RightShiftAssign,
        27 => Token::LeftShiftAssign,
        28 => Token::AndAssign,
        29 => Token::OrAssign,
        _ => Token::XOrAssign,
    }
}

fn limits(desk: &mut Desk) -> Limits {
    let text = desk.recipe.count();
    let items = desk.recipe.count();
    Limits { text, items }
}

fn call(
    desk: &mut Desk,
    row: Option<FnBuiltin>,
    limits: &Limits,
    x: &mut Dynamic,
    y: &mut Dynamic,
) -> Result<(), AllocError>
    requires { IfSome row (λ row. Suits row desk.old.store x.old y.old) }
{
    let Some(row) = row else {
        return desk.answers.say("row", "none");
    };
    desk.answers.say_flag("row", row.uses_limits())?;
    match row.call(desk.alloc, &mut desk.store, limits, x, y) {
        Ok(value) => desk.answers.say_kept("value", &desk.store, value),
        Err(error) => desk.answers.say_fault(&error),
    }
}

/// Applies an operator to two values.
pub fn operate(desk: &mut Desk, x: &mut Dynamic, y: &mut Dynamic) -> Result<(), AllocError> {
    let op = token(desk.recipe.byte());
    let _by_content = desk.recipe.byte();
    let limits = limits(desk);
    rows_suit();
    let row = get_builtin_binary_op_fn(&op, x, y, &desk.store);
    call(desk, row, &limits, x, y)
}

/// Looks up the row of an assignment, for the first content of the first value or for the value
/// itself.
fn assignment(s: &Store, op: Token, by_content: bool, x: &Dynamic, y: &Dynamic) -> Option<FnBuiltin>
    ensures { IfSome result (λ row. Suits row s.now x.now y.now) }
{
    rows_suit();
    if !by_content {
        return get_builtin_op_assignment_fn(&op, x, y);
    }
    match x.read_whole(s) {
        Some(first) => get_builtin_op_assignment_fn(&op, first, y),
        None => None,
    }
}

/// Looks up the row of an assignment for two held texts.
fn of_texts(s: &Store, op: Token, x: &Dynamic, y: &Dynamic) -> Option<FnBuiltin>
    ensures { IfSome result (λ row. Suits row s.now x.now y.now) }
{
    if !x.is_string(s) || !y.is_string(s) {
        return None;
    }
    if op == Token::MinusAssign {
        Some(FnBuiltin::TextMinusAssign)
    } else {
        Some(FnBuiltin::TextJoinAssign)
    }
}

/// Does an assignment.
pub fn assign(desk: &mut Desk, x: &mut Dynamic, y: &mut Dynamic) -> Result<(), AllocError> {
    let op = token(desk.recipe.byte());
    let way = desk.recipe.byte();
    let limits = limits(desk);
    let row = if way == 2 {
        of_texts(&desk.store, op, x, y)
    } else {
        assignment(&desk.store, op, way == 1, x, y)
    };
    call(desk, row, &limits, x, y)
}
