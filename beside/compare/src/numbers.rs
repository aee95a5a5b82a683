//! Two integers for an operator, mostly at an edge of what it answers.

use crate::dice::{int, Dice};

/// The numbers by which a shift goes: all around the width, and far beyond it.
fn places(d: &mut Dice) -> i64 {
    match d.below(8) {
        0 => d.pick(&[i64::MIN, i64::MIN + 1, i64::MAX, i64::MAX - 1, 1 << 32, -(1 << 32), 255, 256, 257, -256]),
        1 => int(d),
        2..=4 => d.pick(&[60, 61, 62, 63, 64, 65, 66]) * d.pick(&[1, -1]),
        _ => d.below(133) as i64 - 66,
    }
}

fn shifted(d: &mut Dice) -> i64 {
    match d.below(4) {
        0 => d.pick(&[1, -1, 2, -2, 3, i64::MAX, i64::MIN, i64::MIN + 1, 5, 0x5555_5555_5555_5555]),
        1 => int(d),
        _ => d.roll().cast_signed(),
    }
}

/// A base, and an exponent near the last one that fits.
fn power(d: &mut Dice) -> (i64, i64) {
    let base = match d.below(8) {
        0 => int(d),
        1 => d.pick(&[i64::MIN, i64::MAX, 3_037_000_499, 3_037_000_500, -3_037_000_499, 1 << 31, 1 << 32, -(1 << 31)]),
        2 => d.below(4000) as i64 - 2000,
        _ => d.below(33) as i64 - 16,
    };
    let exponent = match d.below(8) {
        0 => d.pick(&[0, 1, 2, 62, 63, 64, -1, i64::MIN, i64::MAX, (1 << 32) - 2, (1 << 32) - 1, 1 << 32, (1 << 32) + 1]),
        1 => int(d),
        2 => d.below(70) as i64,
        _ => {
            let bits = (base.unsigned_abs().max(2) as f64).log2();
            (63.0 / bits) as i64 + d.below(4) as i64 - 2
        }
    };
    (base, exponent)
}

fn division(d: &mut Dice) -> (i64, i64) {
    const DIVISORS: [i64; 14] = [0, 1, -1, 2, -2, 3, -3, 7, 10, 64, i64::MIN, i64::MAX, i64::MIN + 1, 1 << 32];
    let divisor = if d.one_in(4) { int(d) } else { d.pick(&DIVISORS) };
    let number = match d.below(4) {
        0 => d.pick(&[i64::MIN, i64::MIN + 1, i64::MAX, -1, 0, 1]),
        1 => int(d),
        2 => d.below(20) as i64 - 10,
        _ => divisor.wrapping_mul(d.below(9) as i64 - 4).wrapping_add(d.below(5) as i64 - 2),
    };
    (number, divisor)
}

/// Two factors, often just at the greatest product.
fn factors(d: &mut Dice) -> (i64, i64) {
    let first = int(d);
    if d.one_in(2) || first == 0 {
        return (first, int(d));
    }
    let greatest = d.pick(&[i64::MAX, i64::MIN, i64::MAX - 1, i64::MIN + 1]);
    (first, greatest.wrapping_div(first).wrapping_add(d.below(3) as i64 - 1))
}

/// Two terms, often just at the greatest sum or difference.
fn terms(d: &mut Dice) -> (i64, i64) {
    let first = int(d);
    if d.one_in(2) {
        return (first, int(d));
    }
    let end = d.pick(&[i64::MAX, i64::MIN]);
    let rest = if d.one_in(2) { end.wrapping_sub(first) } else { first.wrapping_sub(end) };
    (first, rest.wrapping_add(d.below(3) as i64 - 1))
}

fn equals(d: &mut Dice) -> (i64, i64) {
    let first = int(d);
    let second = if d.one_in(3) { first.wrapping_add(d.below(3) as i64 - 1) } else { int(d) };
    (first, second)
}

/// Two integers for the operator or the assignment of a number.
pub fn numbers(d: &mut Dice, token: u8) -> (i64, i64) {
    match if token >= 20 { token - 20 } else { token } {
        0 | 1 => terms(d),
        2 => factors(d),
        3 | 4 => division(d),
        5 => power(d),
        6 | 7 => (shifted(d), places(d)),
        _ => equals(d),
    }
}
