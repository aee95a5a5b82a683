//! The row of each assignment for each pair of kinds, compared with a handwritten table.
use super::holders::shared;
use super::pairs::{OPERATORS, kind};
use rhai_ops::{FnBuiltin, get_builtin_op_assignment_fn};
use rhai_text::Token;
use rhai_value::{Dynamic, Store};
use std::alloc::Global;

/// The assignments in the order of the lines below.
pub(super) const ASSIGNMENTS: [Token; 11] = [
    Token::PlusAssign,
    Token::MinusAssign,
    Token::MultiplyAssign,
    Token::DivideAssign,
    Token::ModuloAssign,
    Token::PowerOfAssign,
    Token::RightShiftAssign,
    Token::LeftShiftAssign,
    Token::AndAssign,
    Token::OrAssign,
    Token::XOrAssign,
];

/// For each kind of the first operand, in the order of `kind`, the line of each kind of the second
/// one; `-` has no row.
const PAIRS: [&str; 20] = [
    "--------------------",
    "-B------------------",
    "--C-h---------------",
    "---I----------------",
    "--s-T---------------",
    "pppppApppppppppppppp",
    "--bnt-O-------------",
    "--------------------",
    "--------------------",
    "--------------------",
    "--------------------",
    "--------------------",
    "--------------------",
    "--------------------",
    "--------------------",
    "--------------------",
    "--------------------",
    "--------------------",
    "--------------------",
    "--------------------",
];

/// The line of a pair: `+` and `m` are rows of their own, `n` and `b` rows with their assignment,
/// `-` is none.
fn line(pair: char) -> &'static str {
    match pair {
        'I' => "nnnnnnnnnnn",
        'B' => "--------bbb",
        'T' => "+m---------",
        's' => "+m---------",
        '-' => "-----------",
        _ => "+----------",
    }
}

/// The row of a letter in the line of a pair.
fn row(pair: char, letter: char, op: Token) -> Option<FnBuiltin> {
    match (pair, letter) {
        ('I', 'n') => Some(FnBuiltin::IntAssign(op)),
        ('B', 'b') => Some(FnBuiltin::BoolAssign(op)),
        ('C', '+') => Some(FnBuiltin::CharJoinAssign),
        ('T', '+') => Some(FnBuiltin::TextJoinAssign),
        ('T', 'm') => Some(FnBuiltin::TextMinusAssign),
        ('A', '+') => Some(FnBuiltin::ArrayAppend),
        ('O', '+') => Some(FnBuiltin::BlobAppend),
        ('s', '+') => Some(FnBuiltin::TextCharAssign),
        ('s', 'm') => Some(FnBuiltin::TextMinusCharAssign),
        ('h', '+') => Some(FnBuiltin::CharTextAssign),
        ('p', '+') => Some(FnBuiltin::ArrayPush),
        ('n', '+') => Some(FnBuiltin::BlobPush),
        ('b', '+') => Some(FnBuiltin::BlobCharAssign),
        ('t', '+') => Some(FnBuiltin::BlobTextAssign),
        _ => None,
    }
}

/// Whether each assignment has the row of its letter.
fn has_line(pair: char, x: &Dynamic, y: &Dynamic) -> bool {
    for (op, letter) in ASSIGNMENTS.iter().zip(line(pair).chars()) {
        if get_builtin_op_assignment_fn(op, x, y) != row(pair, letter, *op) {
            return false;
        }
    }
    true
}

/// Whether each assignment has its row for a value and one of each kind.
fn has_lines(alloc: Global, x: &Dynamic, pairs: &str) -> bool {
    for (which, pair) in pairs.chars().enumerate() {
        if !has_line(pair, x, &kind(alloc, which)) {
            return false;
        }
    }
    true
}

#[test]
fn each_assignment_on_each_pair_of_kinds(rt: HostRuntime) {
    let alloc = rt.alloc();
    for (which, pairs) in PAIRS.iter().enumerate() {
        assert!(rt; has_lines(alloc, &kind(alloc, which), pairs), "{which}");
    }
}

/// Whether a holder has no row except for being pushed.
fn is_pushed_alone(array: &Dynamic, holder: &Dynamic) -> bool {
    has_line('-', holder, &Dynamic::ONE)
        && has_line('-', &Dynamic::ONE, holder)
        && has_line('p', array, holder)
}

#[test]
fn holders_are_pushed_and_nothing_else(rt: HostRuntime) {
    let mut store = Store::new(rt.alloc());
    let one = shared(Dynamic::ONE, &mut store);
    assert!(rt; is_pushed_alone(&kind(rt.alloc(), 5), &one));
}

/// Whether an operator has no row as an assignment for any pair of kinds.
fn has_none(alloc: Global, op: Token) -> bool {
    for x in 0..20 {
        for y in 0..20 {
            let (x, y) = (kind(alloc, x), kind(alloc, y));
            if get_builtin_op_assignment_fn(&op, &x, &y).is_some() {
                return false;
            }
        }
    }
    true
}

#[test]
fn operators_have_no_row_of_an_assignment(rt: HostRuntime) {
    for op in &OPERATORS {
        assert!(rt; has_none(rt.alloc(), *op), "{op:?}");
    }
}
