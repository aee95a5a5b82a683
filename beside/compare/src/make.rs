//! Random recipes.

use crate::dice::{blob, int, key, small, tag, text, Dice, CHARS};
use crate::recipe::{Call, Kind, LookUp, Recipe, V};
use crate::scripts::{step, wide_script};
use crate::values::{host, Maker, Taste};

/// Any of the kinds below.
const ANY: u64 = 11;

/// A map, mostly of few entries.
pub fn map(m: &mut Maker) -> V {
    let count = if m.d.one_in(8) { m.d.below(40) } else { m.d.below(4) };
    let depth = if count > 3 { 0 } else { 1 };
    V::Map((0..count).map(|_| (key(m.d), m.value(depth))).collect())
}

/// A value of a kind: the first eleven are those of an operand that is no holder.
pub fn of_kind(m: &mut Maker, kind: u64) -> V {
    match kind {
        0 => V::Unit,
        1 => V::Bool(m.d.one_in(2)),
        2 => V::Int(int(m.d)),
        3 => V::Char(m.d.pick(&CHARS)),
        4 => V::Text(text(m.d)),
        5 => V::Blob(blob(m.d)),
        6 => V::Array(m.items(2)),
        7 => map(m),
        8 => V::Fn(text(m.d), m.items(2)),
        9 => host(m.d),
        10 => {
            let (a, b) = (m.d.below(2) as i64, m.d.pick(&[0, 1, i64::MAX]));
            if m.d.one_in(2) {
                V::Range(a, b)
            } else {
                V::RangeEq(a, b)
            }
        }
        _ => m.value(2),
    }
}

/// Two values of kinds for which the tables of operators have a row.
fn paired(m: &mut Maker) -> (V, V) {
    const PAIRS: [(u64, u64); 22] = [
        (2, 2),
        (2, 2),
        (2, 2),
        (2, 2),
        (1, 1),
        (4, 4),
        (4, 4),
        (3, 3),
        (5, 5),
        (0, 0),
        (2, 0),
        (0, 2),
        (3, 4),
        (4, 3),
        (0, 4),
        (4, 0),
        (5, 3),
        (5, 2),
        (5, 4),
        (6, 6),
        (6, ANY),
        (10, 10),
    ];
    let (a, b) = m.d.pick(&PAIRS);
    let b = if b == ANY { m.d.below(ANY) } else { b };
    let x = of_kind(m, a);
    let y = if a == b && m.d.one_in(2) { m.like(&x) } else { of_kind(m, b) };
    (x, y)
}

/// Two values: nine times in ten of any two kinds, so that no operator's row is met seldom.
fn pair(m: &mut Maker) -> (V, V) {
    if m.d.one_in(10) {
        return paired(m);
    }
    let (a, b) = (m.d.below(ANY), m.d.below(ANY));
    (of_kind(m, a), of_kind(m, b))
}

/// The types whose values this is, as a kind of cast.
pub fn kind_of(v: &V) -> u8 {
    match v {
        V::Unit => 0,
        V::Bool(_) => 1,
        V::Char(_) => 2,
        V::Int(_) => 3,
        V::Host(kind, _) => 4 + kind,
        V::Text(_) => 14,
        V::Array(_) => 15,
        V::Blob(_) => 16,
        V::Map(_) => 17,
        V::Fn(..) => 18,
        V::Range(..) => 19,
        V::RangeEq(..) => 20,
        V::Tag(_, v) | V::Ro(v) | V::Holder(v) => kind_of(v),
        V::Again(_) => 3,
    }
}

fn offsets(d: &mut Dice) -> Call {
    if d.one_in(2) {
        return Call::Offsets(d.below(8), small(d), small(d), d.one_in(2));
    }
    Call::Offsets(d.pick(&[0, 1, 5, u64::MAX, u64::MAX - 1, 1 << 63, (1 << 63) - 1]), int(d), int(d), d.one_in(2))
}

/// A recipe whose call needs no operands.
fn alone(call: Call, keep: bool) -> Recipe {
    Recipe { keep, x: V::Unit, y: V::Unit, writes: vec![], mark: 255, call }
}

/// A value in a cell, or in a chain of two, where the taste allows it.
fn in_cells(m: &mut Maker, v: V, one_in: u64) -> V {
    let v = m.dressed(v);
    if !m.taste.holders || !m.d.one_in(one_in) {
        return v;
    }
    let holder = m.holder(v);
    if m.taste.chains && m.d.one_in(one_in) {
        m.holder(holder)
    } else {
        holder
    }
}

/// A text, a blob or an int, which has parts.
fn with_parts(m: &mut Maker) -> V {
    match m.d.below(4) {
        0 | 1 => V::Text(text(m.d)),
        2 => V::Blob(blob(m.d)),
        _ => V::Int(int(m.d)),
    }
}

fn first(m: &mut Maker, kind: Kind) -> V {
    if kind == Kind::Make {
        return if m.d.one_in(2) { map(m) } else { V::Array((0..m.d.below(8)).map(|_| m.value(1)).collect()) };
    }
    let sought = match kind {
        Kind::WriteBack => true,
        Kind::Target => m.d.one_in(3),
        Kind::Write => m.d.one_in(2),
        _ => false,
    };
    if sought {
        let v = with_parts(m);
        return in_cells(m, v, 2);
    }
    m.value(if kind == Kind::Show { 3 } else { 2 })
}

/// Two operands. Cells are numbered as they are made, so a value's own cells must not come before a holder of the other: only whole
/// operands are held.
fn operands(m: &mut Maker, kind: Kind) -> (V, V) {
    let is_held = kind == Kind::Assign && m.taste.holders && m.d.below(5) < 2;
    let holders = std::mem::replace(&mut m.taste.holders, false);
    let (a, b) = if is_held { paired(m) } else { pair(m) };
    m.taste.holders = holders;
    let x = if is_held {
        let v = m.dressed(a);
        m.holder(v)
    } else {
        in_cells(m, a, 8)
    };
    let y = if m.cells > 0 && m.d.one_in(8) { V::Again(0) } else { in_cells(m, b, 8) };
    (x, y)
}

fn both(m: &mut Maker, kind: Kind) -> (V, V) {
    let is_operator = matches!(kind, Kind::Operate | Kind::Assign);
    if is_operator && !m.d.one_in(10) {
        return operands(m, kind);
    }
    let x = first(m, kind);
    if (is_operator || kind == Kind::Show) && m.d.one_in(2) {
        let y = m.like(&x);
        let y = m.dressed(y);
        return (x, y);
    }
    let y = m.value(2);
    (x, y)
}

fn limits(d: &mut Dice) -> (u8, u8) {
    if d.one_in(2) {
        (0, 0)
    } else {
        (d.below(7) as u8, d.below(5) as u8)
    }
}

fn cast(d: &mut Dice, x: &V) -> Call {
    let kind = if d.one_in(2) { kind_of(x) } else { d.below(22) as u8 };
    Call::Cast(if kind == 14 && d.one_in(3) { 13 } else { kind }, d.below(5) as u8)
}

fn movement(d: &mut Dice, x: &V) -> Call {
    let any = d.below(15) as u8;
    let fitting = match kind_of(x) {
        14 => d.below(2) as u8,
        15 => 2,
        16 => 3,
        _ => any,
    };
    Call::Move(if d.one_in(3) { fitting } else { any }, tag(d))
}

/// The kind of a part of a value, and two numbers that say where it is.
fn place(d: &mut Dice, x: &V) -> (u8, i64, u64) {
    let part = match kind_of(x) {
        3 => d.below(2) as u8,
        14 => 3 + d.below(2) as u8,
        16 => 2,
        _ => d.below(5) as u8,
    };
    let first = match part {
        0 => d.below(66) as i64,
        1 => int(d),
        _ => d.below(6) as i64,
    };
    let second = if part == 1 { d.below(65) } else { d.pick(&[0, 1, 2, 3, 4, 5, u64::MAX, 1 << 63]) };
    (part, first, second)
}

fn write(d: &mut Dice, x: &V) -> Call {
    let way = match kind_of(x) {
        14 => 1,
        15 => 2,
        16 => 3,
        17 => 4,
        _ => d.below(6) as u8,
    };
    Call::Write(way, text(d))
}

/// A type of which an item of an array or a value of a map is.
fn held_kind(d: &mut Dice, x: &V) -> u8 {
    let items = x.children();
    if items.is_empty() || d.one_in(4) {
        return d.below(22) as u8;
    }
    let kind = kind_of(d.pick(&items));
    if kind == 14 && d.one_in(2) {
        13
    } else {
        kind
    }
}

/// A collection of which the value can be made.
fn made_by(d: &mut Dice, x: &V) -> u8 {
    match x {
        V::Array(_) => d.below(2) as u8,
        _ => 2 + d.below(5) as u8,
    }
}

/// The call of a recipe on two operands; for a part that is written back, a second operand that fits it half of the time.
fn call(d: &mut Dice, kind: Kind, x: &V, y: &mut V) -> Call {
    match kind {
        Kind::Operate => {
            let (token, (text, items)) = (d.below(20) as u8, limits(d));
            Call::Operate(token, text, items)
        }
        Kind::Assign => {
            let (token, (text, items)) = (if d.one_in(3) { 20 } else { 20 + d.below(11) as u8 }, limits(d));
            let look_up = if d.one_in(2) { LookUp::FirstContent } else { LookUp::Own };
            Call::Assign(token, look_up, text, items)
        }
        Kind::Show => Call::Show,
        Kind::Ask => Call::Ask,
        Kind::Cast => cast(d, x),
        Kind::Move => movement(d, x),
        Kind::Target => {
            let (part, first, second) = place(d, x);
            Call::Target(d.below(3) as u8, d.below(8) as u8, part, first, second, d.one_in(2))
        }
        Kind::WriteBack => {
            let (part, first, second) = place(d, x);
            match part {
                0 if d.one_in(2) => *y = V::Bool(d.one_in(2)),
                1 | 2 if d.one_in(2) => *y = V::Int(int(d)),
                3 if d.one_in(2) => *y = V::Char(d.pick(&CHARS)),
                _ => (),
            }
            Call::WriteBack(part, first, second, d.one_in(2))
        }
        Kind::Write => write(d, x),
        Kind::Make => Call::Make(if d.one_in(3) { 21 } else { held_kind(d, x) }, made_by(d, x)),
        Kind::Hold => Call::Hold(d.below(4) as u8, int(d)),
        Kind::Offsets | Kind::Scope | Kind::WideScope => unreachable!("these need no operands"),
    }
}

/// A recipe of a call on two values, whose cells may have been written over, and one of them marked.
fn on_two(d: &mut Dice, kind: Kind) -> Recipe {
    let taste = Taste { holders: !d.one_in(4), chains: d.one_in(4) };
    let keep = d.one_in(2) || (kind == Kind::WriteBack && d.one_in(2));
    let mut m = Maker { d, cells: 0, taste };
    let (x, mut y) = both(&mut m, kind);
    let mut writes = Vec::new();
    if m.cells > 0 && m.d.one_in(12) {
        let cell = m.d.below(m.cells.into()) as u8;
        let v = m.content(2);
        writes.push((cell, m.dressed(v)));
    }
    let mark = if m.cells > 0 && m.d.one_in(16) { m.d.below(m.cells.into()) as u8 } else { 255 };
    let call = call(m.d, kind, &x, &mut y);
    Recipe { keep, x, y, writes, mark, call }
}

/// A recipe for this kind of call.
pub fn recipe(d: &mut Dice, kind: Kind) -> Recipe {
    match kind {
        Kind::Offsets => alone(offsets(d), false),
        Kind::Scope => {
            let taste = Taste { holders: !d.one_in(4), chains: false };
            let (count, keep) = (d.below(14) + 1, !d.one_in(4));
            let mut m = Maker { d, cells: 0, taste };
            alone(Call::Scope((0..count).map(|_| step(&mut m)).collect()), keep)
        }
        Kind::WideScope => {
            let taste = Taste { holders: !d.one_in(4), chains: false };
            alone(Call::Scope(wide_script(&mut Maker { d, cells: 0, taste })), true)
        }
        Kind::Operate
        | Kind::Assign
        | Kind::Show
        | Kind::Ask
        | Kind::Cast
        | Kind::Move
        | Kind::WriteBack
        | Kind::Target
        | Kind::Write
        | Kind::Make
        | Kind::Hold => on_two(d, kind),
    }
}
