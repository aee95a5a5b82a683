//! Recipes on which the release departs from the port, for each departure.

use crate::departures::Departure;
use crate::dice::{blob, int, tag, text, Dice};
use crate::make::{kind_of, of_kind};
use crate::recipe::{Call, LookUp, Recipe, V};
use crate::values::{Maker, Taste};

fn on(x: V, y: V, call: Call) -> Recipe {
    Recipe { keep: true, x, y, writes: Vec::new(), mark: 255, call }
}

/// A recipe whose first operand is a holder of a marked cell.
fn marked(m: &mut Maker, y: V, call: Call) -> Recipe {
    let content = m.content(1);
    let x = m.holder(content);
    Recipe { mark: 0, ..on(x, y, call) }
}

/// A holder of two holders of one cell, in which there is a holder: the release finds that one twice.
fn twice(m: &mut Maker) -> V {
    let content = m.content(1);
    let inner = m.holder(content);
    let held = if m.d.one_in(2) { V::Array(vec![inner]) } else { inner };
    let first = m.holder(held);
    m.holder(V::Array(vec![first, V::Again(1)]))
}

/// Two host numbers of the same bytes, of types of one width.
fn of_same_bytes(d: &mut Dice) -> (V, V) {
    let (first, second) = d.pick(&[(0, 5), (1, 6), (2, 7), (4, 8)]);
    let n = u128::from(d.below(100));
    (V::Host(first, n), V::Host(second, n))
}

fn escaped(d: &mut Dice) -> V {
    let text = format!("{}{}", text(d), d.pick(&['\u{80}', '\u{85}', '\u{ad}', '\u{200b}', '\u{feff}', '\u{e000}']));
    V::Array(vec![V::Text(text)])
}

fn blob_and_character(d: &mut Dice) -> Recipe {
    let mut bytes = blob(d);
    bytes.truncate(20);
    let limit = bytes.len() as u8 + 1;
    let c = d.pick(&['é', '漢', '😀']);
    on(V::Blob(bytes), V::Char(c), Call::Assign(20, LookUp::Own, 0, limit))
}

/// An array that may not grow, and an item.
fn too_many(m: &mut Maker) -> Recipe {
    let items: Vec<V> = (0..=m.d.below(4)).map(|i| V::Int(i as i64)).collect();
    let limit = items.len() as u8;
    let item = V::Int(int(m.d));
    on(V::Array(items), item, Call::Assign(20, LookUp::Own, 0, limit))
}

fn chain(m: &mut Maker) -> Recipe {
    let content = m.content(1);
    let kind = kind_of(&content);
    let inner = m.holder(content);
    on(m.holder(inner), V::Unit, Call::Cast(kind, m.d.below(4) as u8))
}

/// The last holder of a content with constants inside.
fn last(m: &mut Maker) -> Recipe {
    let content = m.content(1);
    let constant = V::Ro(Box::new(content));
    let content = if m.d.one_in(2) { V::Array(vec![constant]) } else { constant };
    Recipe { keep: false, ..on(V::Holder(Box::new(content)), V::Unit, Call::Move(6, 0)) }
}

/// A recipe on which the departure shows.
pub fn recipe(d: &mut Dice, departure: Departure) -> Recipe {
    let mut m = Maker { d, cells: 0, taste: Taste { holders: false, chains: false } };
    let m = &mut m;
    match departure {
        Departure::BorrowedQuestion => marked(m, V::Unit, Call::Ask),
        Departure::BorrowedIs => {
            let call = Call::Cast(m.d.below(21) as u8, m.d.below(2) as u8);
            marked(m, V::Unit, call)
        }
        Departure::BorrowedLookUp => {
            let (y, call) = (m.content(1), Call::Operate(m.d.below(20) as u8, 0, 0));
            marked(m, y, call)
        }
        Departure::OneCell => {
            let content = V::Text(text(m.d));
            on(m.holder(content), V::Again(0), Call::Assign(20 + m.d.below(2) as u8, LookUp::HeldTexts, 0, 0))
        }
        Departure::FirstCell => chain(m),
        Departure::LastHolder => last(m),
        Departure::TypedArray => {
            let items = V::Array((0..=m.d.below(3)).map(|_| V::Text(text(m.d))).collect());
            on(m.holder(items), V::Unit, Call::Cast(13, 3))
        }
        Departure::SharedBlob => {
            let bytes = V::Blob(blob(m.d));
            on(m.holder(bytes), V::Unit, Call::Cast(4, 3))
        }
        Departure::PrintedTwice => on(twice(m), V::Unit, Call::Show),
        Departure::HashableTwice => on(V::Int(1), twice(m), Call::Show),
        Departure::Escapes => on(escaped(m.d), V::Unit, Call::Show),
        Departure::RangeEquality => on(V::Range(0, 1), V::RangeEq(0, 1), Call::Operate(m.d.pick(&[11, 19]), 0, 0)),
        Departure::BlobCharacter => blob_and_character(m.d),
        Departure::WholeValue => {
            let x = V::Tag(tag(m.d) | 1, Box::new(V::Int(int(m.d))));
            on(x, V::Int(int(m.d)), Call::Assign(26 + m.d.below(5) as u8, LookUp::Own, 0, 0))
        }
        Departure::RcName => {
            let kind = m.d.below(9);
            let content = of_kind(m, kind);
            on(m.holder(content), V::Unit, Call::Ask)
        }
        Departure::TakenOperand => too_many(m),
        Departure::HashBytes => {
            let (x, y) = of_same_bytes(m.d);
            on(x, y, Call::Show)
        }
    }
}
