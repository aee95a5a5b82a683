//! Texts of arrays: how digits get into a text that grows, and how texts in quotation marks do.

use crate::given::{ints, sixteen};
use crate::value::{Mode, Text, Value};
use std::fmt::Write as _;
use std::hint::black_box;

/// How a number is added.
type Number = fn(&mut String, i64);

/// How a text between quotation marks is added.
type Quoted = fn(&mut String, &str);

pub fn by_library(out: &mut String, n: i64) {
    let _ = write!(out, "{n}");
}

/// Adds digits that were written from the end of a buffer.
fn add_digits(out: &mut String, digits: &[u8], negative: bool) {
    if negative {
        out.push('-');
    }
    out.push_str(std::str::from_utf8(digits).unwrap_or_default());
}

pub fn digit_by_digit(out: &mut String, n: i64) {
    let (mut buffer, mut at, mut left) = ([0_u8; 20], 20, n.unsigned_abs());
    loop {
        at -= 1;
        buffer[at] = b'0' + (left % 10) as u8;
        left /= 10;
        if left == 0 {
            break;
        }
    }
    add_digits(out, &buffer[at..], n < 0);
}

pub fn two_at_a_time(out: &mut String, n: i64) {
    let (mut buffer, mut at, mut left) = ([0_u8; 20], 20, n.unsigned_abs());
    while left >= 10 {
        let two = (left % 100) as u8;
        left /= 100;
        at -= 2;
        buffer[at..at + 2].copy_from_slice(&[b'0' + two / 10, b'0' + two % 10]);
    }
    if left > 0 || at == 20 {
        at -= 1;
        buffer[at] = b'0' + left as u8;
    }
    add_digits(out, &buffer[at..], n < 0);
}

/// One digit or two as characters, and others as they come.
pub fn short_by_characters(out: &mut String, n: i64) {
    match n {
        0..=9 => out.push((b'0' + n as u8) as char),
        10..=99 => {
            out.push((b'0' + (n / 10) as u8) as char);
            out.push((b'0' + (n % 10) as u8) as char);
        }
        _ => two_at_a_time(out, n),
    }
}

const fn is_plain(byte: u8) -> bool {
    byte >= 0x20 && byte != b'"' && byte != b'\\' && byte != 0x7f
}

fn add_character(out: &mut String, c: char) {
    match c {
        '"' | '\\' => out.extend(['\\', c]),
        c if (c as u32) < 0x80 && is_plain(c as u8) => out.push(c),
        c => out.extend(c.escape_debug()),
    }
}

pub fn by_characters(out: &mut String, text: &str) {
    text.chars().for_each(|c| add_character(out, c));
}

pub fn by_runs(out: &mut String, text: &str) {
    let mut left = text;
    while let Some(at) = left.bytes().position(|byte| !is_plain(byte)) {
        let (run, rest) = left.split_at(at);
        out.push_str(run);
        let mut rest = rest.chars();
        if let Some(c) = rest.next() {
            add_character(out, c);
        }
        left = rest.as_str();
    }
    out.push_str(left);
}

/// All bytes are tested first, without an early exit.
pub fn plain_at_once(out: &mut String, text: &str) {
    match text.bytes().fold(true, |plain, byte| plain & is_plain(byte)) {
        true => out.push_str(text),
        false => by_runs(out, text),
    }
}

fn add(out: &mut String, value: &Value, number: Number, quoted: Quoted) {
    match value {
        Value::Int(_, _, n) => number(out, *n),
        Value::Text(_, _, text) => {
            out.push('"');
            quoted(out, std::str::from_utf8(text.bytes()).unwrap_or_default());
            out.push('"');
        }
        Value::Array(_, _, items) => {
            out.push('[');
            for (at, item) in items.iter().enumerate() {
                if at > 0 {
                    out.push_str(", ");
                }
                add(out, item, number, quoted);
            }
            out.push(']');
        }
        _ => out.push_str("()"),
    }
}

fn lengths(value: &Value, n: usize, number: Number, quoted: Quoted) -> u64 {
    let mut sum = 0_u64;
    for _ in 0..n {
        let mut out = String::new();
        add(&mut out, black_box(value), number, quoted);
        sum = sum.wrapping_add(black_box(out).len() as u64);
    }
    sum
}

fn array(items: Vec<Value>) -> Value {
    Value::Array(0, Mode::ReadWrite, items)
}

/// Row 25.
pub fn hundred_ints(n: usize, number: Number) -> u64 {
    lengths(&array(ints(100)), n, number, by_runs)
}

/// Row 26: arrays of ten in four levels.
pub fn nested(n: usize, number: Number) -> u64 {
    let deeper = |value: Value, _| array((0..10).map(|_| value.clone()).collect());
    lengths(&(0..4).fold(Value::int(7), deeper), n, number, by_runs)
}

/// Row 32.
pub fn texts(n: usize, quoted: Quoted) -> u64 {
    let all: Vec<Text> = (0..6).flat_map(|_| sixteen(10)).collect();
    lengths(&array(all.into_iter().map(Value::text).collect()), n, digit_by_digit, quoted)
}
