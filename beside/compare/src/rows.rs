//! The rows of the operators: the kinds of operands that have one, and operands for each, often at an edge case.

use crate::dice::{blob, int, Dice, CHARS};
use crate::make::of_kind;
use crate::numbers::numbers;
use crate::recipe::{Call, LookUp, Recipe, V};
use crate::release::token;
use crate::values::{Maker, Taste};

/// A kind of operand.
#[derive(Clone, Copy, Debug, PartialEq, Eq)]
pub enum Side {
    Unit,
    Bool,
    Int,
    Char,
    Text,
    Blob,
    Array,
    Range,
    RangeEq,
    /// Anything but an array.
    Item,
    /// Another type than the first operand's, and not both are numbers.
    Another,
    /// Any.
    Any,
}

/// The row of an operator: its token by number, and the kinds of its operands.
#[derive(Clone, Copy, Debug)]
pub struct Row {
    pub token: u8,
    pub first: Side,
    pub second: Side,
}

const COMPARISONS: [u8; 6] = [11, 12, 13, 14, 15, 16];

/// For each pair of kinds the numbers of the tokens for which there is a row.
fn tables() -> Vec<(Side, Side, Vec<u8>)> {
    use Side::{Another, Any, Array, Blob, Bool, Char, Int, Item, Range, RangeEq, Text, Unit};
    let with = |tokens: &[u8]| tokens.iter().chain(&COMPARISONS).copied().collect::<Vec<u8>>();
    vec![
        (Int, Int, (0..=18).chain(20..=30).collect()),
        (Bool, Bool, with(&[8, 9, 10, 28, 29, 30])),
        (Text, Text, with(&[0, 1, 20, 21])),
        (Char, Char, with(&[0, 20])),
        (Blob, Blob, vec![0, 11, 12, 20]),
        (Unit, Unit, with(&[])),
        (Int, Unit, vec![17, 18]),
        (Unit, Int, vec![17, 18]),
        (Char, Text, with(&[0, 20])),
        (Text, Char, with(&[0, 1, 20, 21])),
        (Unit, Text, with(&[0])),
        (Text, Unit, with(&[0])),
        (Blob, Char, vec![0, 20]),
        (Blob, Int, vec![20]),
        (Blob, Text, vec![20]),
        (Array, Array, vec![20]),
        (Array, Item, vec![20]),
        (Range, Range, vec![11, 12]),
        (RangeEq, RangeEq, vec![11, 12]),
        (Range, RangeEq, vec![11, 12]),
        (RangeEq, Range, vec![11, 12]),
        (Any, Another, with(&[])),
    ]
}

/// All rows.
#[must_use]
pub fn rows() -> Vec<Row> {
    let of_pair =
        |(first, second, tokens): (Side, Side, Vec<u8>)| tokens.into_iter().map(move |token| Row { token, first, second });
    tables().into_iter().flat_map(of_pair).collect()
}

impl Row {
    #[must_use]
    pub fn name(&self) -> String {
        format!("{:?} {} {:?}", self.first, token(self.token).text(), self.second).to_lowercase()
    }
}

fn ends(d: &mut Dice) -> (i64, i64) {
    (d.below(2) as i64, d.pick(&[0, 1, 2, i64::MAX]))
}

/// Two values of any different types of which not both are numbers.
fn of_two_types(m: &mut Maker) -> (V, V) {
    loop {
        let (a, b) = (m.d.below(11), m.d.below(11));
        let numbers = [2, 9];
        if a != b && !(numbers.contains(&a) && numbers.contains(&b)) {
            return (of_kind(m, a), of_kind(m, b));
        }
    }
}

fn side(m: &mut Maker, side: Side) -> V {
    match side {
        Side::Unit => V::Unit,
        Side::Bool => V::Bool(m.d.one_in(2)),
        Side::Int => V::Int(int(m.d)),
        Side::Char => V::Char(m.d.pick(&CHARS)),
        Side::Text => of_kind(m, 4),
        Side::Blob => V::Blob(blob(m.d)),
        Side::Array => V::Array(m.items(2)),
        Side::Range => {
            let (start, end) = ends(m.d);
            V::Range(start, end)
        }
        Side::RangeEq => {
            let (start, end) = ends(m.d);
            V::RangeEq(start, end)
        }
        Side::Item => loop {
            let kind = m.d.below(11);
            if kind != 6 {
                return of_kind(m, kind);
            }
        },
        Side::Another | Side::Any => m.value(1),
    }
}

fn operands(m: &mut Maker, row: &Row) -> (V, V) {
    match (row.first, row.second) {
        (Side::Int, Side::Int) => {
            let (a, b) = numbers(m.d, row.token);
            (V::Int(a), V::Int(b))
        }
        (Side::Any, Side::Another) => of_two_types(m),
        (Side::Text, Side::Text) => {
            let V::Text(first) = side(m, Side::Text) else { unreachable!("a text") };
            let second = m.like_text(&first);
            (V::Text(first), V::Text(second))
        }
        (Side::Text, Side::Char) => {
            let V::Text(first) = side(m, Side::Text) else { unreachable!("a text") };
            let own = first.chars().next();
            let second = own.filter(|_| m.d.one_in(2)).unwrap_or_else(|| m.d.pick(&CHARS));
            (V::Text(first), V::Char(second))
        }
        (Side::Char, Side::Text) => {
            let first = m.d.pick(&CHARS);
            let second = if m.d.one_in(4) { V::Text(first.to_string()) } else { side(m, Side::Text) };
            (V::Char(first), second)
        }
        (Side::Blob, Side::Blob) => {
            let V::Blob(first) = side(m, Side::Blob) else { unreachable!("a blob") };
            let second = m.like_blob(&first);
            (V::Blob(first), V::Blob(second))
        }
        (first, second) => (side(m, first), side(m, second)),
    }
}

/// How much a value adds to what a limit counts.
fn size(v: &V) -> usize {
    match v {
        V::Text(s) => s.len(),
        V::Char(c) => c.len_utf8(),
        V::Blob(bytes) => bytes.len(),
        V::Array(items) => items.len(),
        _ => 1,
    }
}

/// A limit, mostly none or one at the size of the answer.
fn limit(d: &mut Dice, both: usize) -> u8 {
    match d.below(5) {
        0 | 1 => 0,
        2 => d.below(8) as u8,
        _ => (both + d.below(3) as usize).saturating_sub(1).min(255) as u8,
    }
}

/// A recipe that meets a row: the operands with tags and modes, and where the row allows it in cells.
pub fn recipe(d: &mut Dice, row: &Row) -> Recipe {
    let is_assignment = row.token >= 20;
    let by_type = matches!(row.first, Side::Any | Side::Range | Side::RangeEq);
    let mut m = Maker { d, cells: 0, taste: Taste { holders: false, chains: false } };
    let (x, y) = operands(&mut m, row);
    let both = size(&x) + size(&y);
    let (x, y) = (m.dressed(x), m.dressed(y));
    let held = if is_assignment { m.d.one_in(3) } else { by_type && m.d.one_in(4) };
    let x = if held { m.holder(x) } else { x };
    let y = if by_type && m.d.one_in(4) { m.holder(y) } else { y };
    let (text, items) = (limit(m.d, both), limit(m.d, both));
    let look_up = if held || m.d.one_in(2) { LookUp::FirstContent } else { LookUp::Own };
    let call = if is_assignment { Call::Assign(row.token, look_up, text, items) } else { Call::Operate(row.token, text, items) };
    Recipe { keep: m.d.one_in(2), x, y, writes: Vec::new(), mark: 255, call }
}
