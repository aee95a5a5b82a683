//! Random scripts of calls on a scope.

use crate::dice::Dice;
use crate::recipe::{Step, V};
use crate::values::Maker;

fn name(d: &mut Dice) -> String {
    d.pick(&["a", "a", "b", "b", "c", "é", "", "long name of a variable"]).to_string()
}

pub fn step(m: &mut Maker) -> Step {
    let n = name(m.d);
    match m.d.below(20) {
        0..=6 => Step::Value(m.d.below(7) as u8, n, m.value(2)),
        7 | 8 => Step::Value(m.d.pick(&[0, 1, 2, 3]), n, m.value(1)),
        9 | 10 => Step::Plain(10, n),
        11 | 12 => {
            let kind = m.d.pick(&[0, 1, 2, 3, 3, 14, 14, 13, 15, 15, 16, 17, 18, 19, 20, 21, 21, 4, 7, 12]);
            Step::Typed(m.d.pick(&[11, 11, 12, 13, 14]), n, kind)
        }
        13 | 14 => Step::Alias(n, name(m.d)),
        15 => Step::Plain(m.d.pick(&[7, 7, 7, 16, 17, 17]), n),
        16 => Step::Rewind(m.d.below(9) as u8),
        17 => Step::Plain(m.d.pick(&[16, 16, 9]), n),
        18 => {
            let k = m.d.below(3);
            Step::Extend((0..k).map(|_| (name(m.d), m.value(1))).collect())
        }
        _ => {
            let k = m.d.below(3);
            Step::Flagged((0..k).map(|_| (name(m.d), m.d.one_in(2), m.value(1))).collect())
        }
    }
}

fn wide_name(d: &mut Dice) -> String {
    if d.one_in(3) {
        name(d)
    } else {
        format!("n{}", d.below(60))
    }
}

/// A script over more entries than a scope walks through without its index.
pub fn wide_script(m: &mut Maker) -> Vec<Step> {
    let mut steps = Vec::new();
    for _ in 0..m.d.below(12) + 3 {
        let n = wide_name(m.d);
        steps.push(match m.d.below(12) {
            0..=3 => {
                let k = m.d.below(60);
                Step::Extend((0..k).map(|_| (wide_name(m.d), V::Int(m.d.below(1000) as i64))).collect())
            }
            4 => {
                let k = m.d.below(60);
                Step::Flagged((0..k).map(|_| (wide_name(m.d), m.d.one_in(4), V::Int(m.d.below(1000) as i64))).collect())
            }
            5 => Step::Rewind(m.d.below(200) as u8),
            6 => Step::Typed(14, n, m.d.pick(&[3, 3, 21, 2])),
            7 => Step::Value(m.d.below(7) as u8, n, m.value(1)),
            8 => Step::Alias(n, name(m.d)),
            9 => Step::Plain(m.d.pick(&[7, 7, 7, 16, 17, 9]), n),
            10 => Step::Typed(m.d.pick(&[11, 12, 13]), n, 3),
            _ => Step::Plain(10, n),
        });
    }
    for _ in 0..4 {
        steps.push(Step::Plain(10, wide_name(m.d)));
    }
    steps
}
