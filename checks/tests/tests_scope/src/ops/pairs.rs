//! The row of each operator for each pair of kinds, compared with a handwritten table.
use super::assigned_pairs::ASSIGNMENTS;
use super::holders::shared;
use rhai_ops::{FnBuiltin, get_builtin_binary_op_fn};
use rhai_text::{ImmutableString, Token};
use rhai_value::{Dynamic, ExclusiveRange, FnPtr, Host, InclusiveRange, Map, Store};
use std::alloc::Global;

/// The operators in the order of the lines below.
pub(super) const OPERATORS: [Token; 20] = [
    Token::Plus,
    Token::Minus,
    Token::Multiply,
    Token::Divide,
    Token::Modulo,
    Token::PowerOf,
    Token::RightShift,
    Token::LeftShift,
    Token::Ampersand,
    Token::Pipe,
    Token::XOr,
    Token::EqualsTo,
    Token::NotEqualsTo,
    Token::GreaterThan,
    Token::GreaterThanEqualsTo,
    Token::LessThan,
    Token::LessThanEqualsTo,
    Token::ExclusiveRange,
    Token::InclusiveRange,
    Token::Equals,
];

/// For each kind of the first operand, in the order of `kind`, the line for each kind of the second
/// one. `d` is the line of two types that differ, `-` that without rows.
const PAIRS: [&str; 20] = [
    "Uddtuddddddddddddddd",
    "dBdddddddddddddddddd",
    "ddCdhddddddddddddddd",
    "fddIddddd---------dd",
    "vdsdTddddddddddddddd",
    "ddddd-dddddddddddddd",
    "ddbdddOddddddddddddd",
    "ddddddd-dddddddddddd",
    "dddddddd-ddddddddddd",
    "ddd-ddddd---------dd",
    "ddd-ddddd---------dd",
    "ddd-ddddd---------dd",
    "ddd-ddddd---------dd",
    "ddd-ddddd---------dd",
    "ddd-ddddd---------dd",
    "ddd-ddddd---------dd",
    "ddd-ddddd---------dd",
    "ddd-ddddd---------dd",
    "ddddddddddddddddddem",
    "ddddddddddddddddddmE",
];

/// A value of each kind: unit, bool, char, int, text, array, blob, map, function pointer, u8 to
/// u128, i8 to i128, both ranges.
pub(super) fn kind(alloc: Global, which: usize) -> Dynamic {
    match which {
        0 => Dynamic::UNIT,
        1 => Dynamic::TRUE,
        2 => Dynamic::from_char('c'),
        3 => Dynamic::ONE,
        4 => text(alloc),
        5 => Dynamic::from_array(Vec::new(alloc)),
        6 => blob(alloc),
        7 => Dynamic::from_map(Map::new(alloc)),
        8 => function(alloc),
        9 => Dynamic::from(Host::U8(1)),
        10 => Dynamic::from(Host::U16(1)),
        11 => Dynamic::from(Host::U32(1)),
        12 => Dynamic::from(Host::U64(1)),
        13 => Dynamic::from(Host::U128(1)),
        14 => Dynamic::from(Host::I8(1)),
        15 => Dynamic::from(Host::I16(1)),
        16 => Dynamic::from(Host::I32(1)),
        17 => Dynamic::from(Host::I128(1)),
        18 => Dynamic::from(ExclusiveRange { start: 0, end: 3 }),
        _ => Dynamic::from(InclusiveRange { start: 0, end: 3 }),
    }
}

/// Makes a text; unit if the allocation fails.
fn text(alloc: Global) -> Dynamic {
    match Dynamic::from_text(alloc, "a") {
        Ok(value) => value,
        Err(_) => Dynamic::UNIT,
    }
}

/// Makes a blob; unit if the allocation fails.
fn blob(alloc: Global) -> Dynamic {
    match Vec::from_slice(alloc, &[1]) {
        Ok(bytes) => Dynamic::from_blob(bytes),
        Err(_) => Dynamic::UNIT,
    }
}

/// Makes a function pointer; unit if the allocation fails.
fn function(alloc: Global) -> Dynamic {
    match ImmutableString::from_str(alloc, "f") {
        Ok(name) => Dynamic::from(FnPtr::new(name, Vec::new(alloc))),
        Err(_) => Dynamic::UNIT,
    }
}

/// The line of a pair, a letter for each operator: `t` and `f` are the constants, `r` and `R` the
/// ranges with their end excluded and included, `x` and `X` an equality and its opposite, `c` a
/// comparison, `-` is none, and any other letter the row itself.
fn line(pair: char) -> &'static str {
    match pair {
        'I' => "nnnnnnnnnnnccccccrR-",
        'B' => "--------bbbcccccc---",
        'T' => "jm---------cccccc---",
        'C' => "j----------cccccc---",
        'O' => "j----------xX-------",
        'U' => "-----------tfffff---",
        'f' => "-----------ftffffrR-",
        't' => "-----------ftffffrR-",
        'h' => "j----------cccccc---",
        's' => "jm---------cccccc---",
        'u' => "2----------ftffff---",
        'v' => "1----------ftffff---",
        'b' => "j-------------------",
        'd' => "-----------ftffff---",
        'e' => "-----------xX-------",
        'E' => "-----------xX-------",
        'm' => "-----------ft-------",
        _ => "--------------------",
    }
}

/// The row of a letter in the line of a pair.
fn row(pair: char, letter: char, op: Token) -> Option<FnBuiltin> {
    match (pair, letter) {
        (_, 't') => Some(FnBuiltin::ConstTrue),
        (_, 'f') => Some(FnBuiltin::ConstFalse),
        ('I', 'n') => Some(FnBuiltin::Int(op)),
        ('I', 'c') => Some(FnBuiltin::IntCompare(op)),
        ('I', 'r') => Some(FnBuiltin::IntRange(false)),
        ('I', 'R') => Some(FnBuiltin::IntRange(true)),
        ('B', 'c') => Some(FnBuiltin::BoolCompare(op)),
        ('B', 'b') => Some(FnBuiltin::Bool(op)),
        ('T', 'j') => Some(FnBuiltin::TextJoin),
        ('T', 'm') => Some(FnBuiltin::TextMinus),
        ('T', 'c') => Some(FnBuiltin::TextCompare(op)),
        ('C', 'j') => Some(FnBuiltin::CharJoin),
        ('C', 'c') => Some(FnBuiltin::CharCompare(op)),
        ('O', 'j') => Some(FnBuiltin::BlobJoin),
        ('O', 'x') => Some(FnBuiltin::BlobEqual(false)),
        ('O', 'X') => Some(FnBuiltin::BlobEqual(true)),
        ('f', 'r') => Some(FnBuiltin::RangeFrom(false)),
        ('f', 'R') => Some(FnBuiltin::RangeFrom(true)),
        ('t', 'r') => Some(FnBuiltin::RangeTo(false)),
        ('t', 'R') => Some(FnBuiltin::RangeTo(true)),
        ('h', 'j') => Some(FnBuiltin::CharText),
        ('h', 'c') => Some(FnBuiltin::CharTextCompare(op)),
        ('s', 'j') => Some(FnBuiltin::TextChar),
        ('s', 'm') => Some(FnBuiltin::TextMinusChar),
        ('s', 'c') => Some(FnBuiltin::TextCharCompare(op)),
        ('u', '2') => Some(FnBuiltin::SecondCopy),
        ('v', '1') => Some(FnBuiltin::FirstCopy),
        ('b', 'j') => Some(FnBuiltin::BlobChar),
        ('e', 'x') => Some(FnBuiltin::RangeEqual(false, false)),
        ('e', 'X') => Some(FnBuiltin::RangeEqual(false, true)),
        ('E', 'x') => Some(FnBuiltin::RangeEqual(true, false)),
        ('E', 'X') => Some(FnBuiltin::RangeEqual(true, true)),
        _ => None,
    }
}

/// Whether each operator has the row of its letter.
fn has_line(pair: char, x: &Dynamic, y: &Dynamic, store: &Store) -> bool {
    for (op, letter) in OPERATORS.iter().zip(line(pair).chars()) {
        if get_builtin_binary_op_fn(op, x, y, store) != row(pair, letter, *op) {
            return false;
        }
    }
    true
}

/// Whether each operator has its row for a value and one of each kind.
fn has_lines(alloc: Global, x: &Dynamic, pairs: &str, store: &Store) -> bool {
    for (which, pair) in pairs.chars().enumerate() {
        if !has_line(pair, x, &kind(alloc, which), store) {
            return false;
        }
    }
    true
}

#[test]
fn each_operator_on_each_pair_of_kinds(rt: HostRuntime) {
    let alloc = rt.alloc();
    let store = Store::new(alloc);
    for (which, pairs) in PAIRS.iter().enumerate() {
        assert!(rt;
            has_lines(alloc, &kind(alloc, which), pairs, &store),
            "{which}"
        );
    }
}

/// Whether a value and unit have no row, in either order.
fn has_no_row(x: &Dynamic, store: &Store) -> bool {
    has_line('-', x, &Dynamic::UNIT, store) && has_line('-', &Dynamic::UNIT, x, store)
}

/// Makes a holder of its own cell; unit if the allocation fails.
fn closed(alloc: Global, store: &mut Store) -> Dynamic {
    let mut holder = shared(Dynamic::UNIT, store);
    let Ok(again) = holder.copy(alloc) else {
        return Dynamic::UNIT;
    };
    match holder.write_whole(store) {
        Some(content) => {
            *content = again;
            holder
        }
        None => Dynamic::UNIT,
    }
}

#[test]
fn what_holds_nothing_has_no_row(rt: HostRuntime) {
    let alloc = rt.alloc();
    let mut store = Store::new(alloc);
    let one = shared(Dynamic::ONE, &mut store);
    let closed = closed(alloc, &mut store);
    assert!(rt; closed.is_shared() && has_no_row(&closed, &store));
    assert!(rt; has_no_row(&one, &Store::new(alloc)));
    assert!(rt; has_line('d', &one, &Dynamic::UNIT, &store));
}

/// Whether an operator has no row for any pair of kinds.
fn has_none(alloc: Global, op: Token, store: &Store) -> bool {
    for x in 0..20 {
        for y in 0..20 {
            let (x, y) = (kind(alloc, x), kind(alloc, y));
            if get_builtin_binary_op_fn(&op, &x, &y, store).is_some() {
                return false;
            }
        }
    }
    true
}

#[test]
fn assignments_have_no_binary_row(rt: HostRuntime) {
    let store = Store::new(rt.alloc());
    for op in &ASSIGNMENTS {
        assert!(rt; has_none(rt.alloc(), *op, &store), "{op:?}");
    }
}
