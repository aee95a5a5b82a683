//! Scopes: records of a name, a value and a list of aliases, in order. The newest record of a name is the one that is found.

use crate::given::names;
use crate::sip::short_word;
use crate::texts::same_by;
use crate::value::{Mode, Text, Value};
use std::hint::black_box;

pub struct Record {
    pub name: Text,
    pub value: Value,
    pub aliases: Vec<Text>,
}

const _: () = assert!(size_of::<Record>() == 80);

#[derive(Default)]
pub struct Scope {
    pub records: Vec<Record>,
}

/// How many records there is room for at first.
const FIRST_ROOM: usize = 8;

impl Scope {
    #[inline(always)]
    pub fn push(&mut self, name: &str, value: Value) -> Option<()> {
        let more = if self.records.is_empty() { FIRST_ROOM } else { 1 };
        self.records.try_reserve(more).ok()?;
        self.records.push(Record { name: Text::new(name), value, aliases: Vec::new() });
        Some(())
    }

    #[inline(always)]
    pub fn get(&self, name: &[u8]) -> Option<&Value> {
        self.records.iter().rev().find(|record| same(record.name.bytes(), name)).map(|record| &record.value)
    }

    /// By numbers, where the name has up to eight bytes.
    #[inline(always)]
    pub fn get_by_number(&self, name: &[u8]) -> Option<&Value> {
        let Some(numbers) = numbers(name) else {
            return self.get(name);
        };
        self.records.iter().rev().find(|record| record.name.is(numbers)).map(|record| &record.value)
    }

    #[inline(always)]
    pub fn get_bytewise(&self, name: &[u8]) -> Option<&Value> {
        let is_named = |record: &&Record| record.name.bytes().len() == name.len() && record.name.bytes().iter().eq(name);
        self.records.iter().rev().find(is_named).map(|record| &record.value)
    }

    #[inline(always)]
    pub fn get_mut_by_number(&mut self, name: &[u8]) -> Option<&mut Value> {
        let Some(numbers) = numbers(name) else {
            return self.get_mut(name);
        };
        self.records.iter_mut().rev().find(|record| record.name.is(numbers)).map(|record| &mut record.value)
    }

    #[inline(always)]
    pub fn get_mut(&mut self, name: &[u8]) -> Option<&mut Value> {
        self.records.iter_mut().rev().find(|record| same(record.name.bytes(), name)).map(|record| &mut record.value)
    }
}

/// Length and bytes of a name of up to eight bytes.
#[inline(always)]
fn numbers(name: &[u8]) -> Option<(u8, u64)> {
    let word = match name.len() {
        0..=7 => short_word(name),
        8 => u64::from_le_bytes(*name.first_chunk()?),
        _ => return None,
    };
    Some((name.len() as u8, word))
}

#[inline(always)]
fn front(bytes: &[u8]) -> Option<u32> {
    bytes.first_chunk().map(|four| u32::from_le_bytes(*four))
}

#[inline(always)]
fn back(bytes: &[u8]) -> Option<u32> {
    bytes.last_chunk().map(|four| u32::from_le_bytes(*four))
}

/// Whether names are the same: four to eight bytes are two words that may overlap.
#[inline(always)]
pub fn same(a: &[u8], b: &[u8]) -> bool {
    if a.len() != b.len() {
        return false;
    }
    match a.len() {
        0..=3 => short_word(a) == short_word(b),
        4..=8 => front(a) == front(b) && back(a) == back(b),
        _ => same_by::<16>(a, b),
    }
}

fn told(sum: u64, value: &Value) -> u64 {
    value.own_int().map_or(sum, |n| sum.rotate_left(1) ^ n as u64)
}

fn strings(count: u32) -> Vec<String> {
    (0..count).map(|i| format!("var{i:04}")).collect()
}

pub fn scope_of(count: u32) -> Option<Scope> {
    let mut scope = Scope::default();
    for (i, name) in strings(count).iter().enumerate() {
        scope.push(name, Value::int(i as i64))?;
    }
    Some(scope)
}

fn pushed(n: usize, mut back: impl FnMut(&mut Scope) -> u64) -> Option<u64> {
    let names = strings(10);
    let mut scope = Scope::default();
    let mut sum = 0_u64;
    for i in 0..n {
        for name in &names {
            scope.push(black_box(name), Value::int(i as i64))?;
        }
        sum = sum.wrapping_add(back(&mut scope));
    }
    Some(sum)
}

/// Row 130.
pub fn push_rewind(n: usize) -> u64 {
    let rewind = |scope: &mut Scope| {
        let len = scope.records.len() as u64;
        scope.records.truncate(black_box(0));
        len
    };
    pushed(n, rewind).unwrap_or(u64::MAX)
}

/// Row 132.
pub fn push_pop(n: usize) -> u64 {
    let pop_ten = |scope: &mut Scope| (0..10).map(|_| u64::from(scope.records.pop().is_some())).sum();
    pushed(n, pop_ten).unwrap_or(u64::MAX)
}

/// How a name is looked up.
pub type Get = for<'a> fn(&'a Scope, &[u8]) -> Option<&'a Value>;

/// Rows 133 to 135: of the last two names in turn.
#[inline(always)]
pub fn get_last(n: usize, count: u32, get: Get) -> u64 {
    let (names, place) = (names(count), count as usize - 1);
    let Some(scope) = scope_of(count) else {
        return u64::MAX;
    };
    let mut sum = 0_u64;
    for i in 0..n {
        if let Some(value) = names.get(place ^ (i & 1)).and_then(|name| get(&scope, name.bytes())) {
            sum = told(sum, value);
        }
    }
    sum
}

/// What a walk returns of a record: its flat value is a copy.
type Item<'a> = Result<(&'a [u8], bool, Value), ()>;

#[inline(always)]
fn item(record: &Record) -> Item<'_> {
    let is_constant = matches!(record.value, Value::Int(_, Mode::ReadOnly, _));
    match &record.value {
        Value::Int(tag, _, n) => Ok((record.name.bytes(), is_constant, Value::Int(*tag, Mode::ReadWrite, *n))),
        value => value.copy().map(|copy| (record.name.bytes(), is_constant, copy)).ok_or(()),
    }
}

/// Row 142.
pub fn iterate(n: usize) -> u64 {
    let Some(scope) = scope_of(100) else {
        return u64::MAX;
    };
    let mut sum = 0_u64;
    for _ in 0..n {
        for item in black_box(&scope).records.iter().map(item) {
            let Ok((name, is_constant, value)) = item else {
                return u64::MAX;
            };
            sum = sum.wrapping_add(value.own_int().unwrap_or(0) as u64);
            if !is_constant {
                sum = sum.rotate_left(1).wrapping_add(name.len() as u64);
            }
        }
    }
    sum
}
