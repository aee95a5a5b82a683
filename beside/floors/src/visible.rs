//! Row 141: a copy of the last record of each name, the newest first. Only the copies allocate.

use crate::scopes::{same, scope_of, Record, Scope};
use std::collections::HashSet;

fn copied(record: &Record) -> Option<Record> {
    Some(Record { name: record.name.clone(), value: record.value.copy()?, aliases: record.aliases.clone() })
}

/// Records are visited from the last to the first.
#[inline(always)]
fn copy_of(scope: &Scope, mut is_last: impl FnMut(usize, &Record) -> bool) -> Option<Scope> {
    let mut records = Vec::new();
    records.try_reserve_exact(scope.records.len()).ok()?;
    for (place, record) in scope.records.iter().enumerate().rev() {
        if is_last(place, record) {
            records.push(copied(record)?);
        }
    }
    Some(Scope { records })
}

/// Whether none of these records has the name.
#[inline(always)]
fn is_none(records: &[Record], record: &Record) -> bool {
    !records.iter().any(|other| same(other.name.bytes(), record.name.bytes()))
}

/// The bits of a filter.
const BITS: usize = 1024;

/// A number below `BITS` of a name, which differs for most names.
#[inline(always)]
fn mixed(record: &Record) -> usize {
    let word = match record.name.numbers() {
        Some((_, word)) => word,
        None => record.name.bytes().iter().fold(0_u64, |word, byte| word.rotate_left(8) ^ u64::from(*byte)),
    };
    (word.wrapping_mul(0x9e37_79b9_7f4a_7c15) >> 54) as usize
}

/// How many names a list on the stack has room for.
const LISTED: usize = 256;

fn sought(scope: &Scope) -> Option<Scope> {
    copy_of(scope, |place, record| is_none(&scope.records[place + 1..], record))
}

/// A name whose bit isn't set is new; others are looked up.
fn filtered(scope: &Scope) -> Option<Scope> {
    let mut bits = [0_u64; BITS / 64];
    copy_of(scope, |place, record| {
        let (bit, word) = (mixed(record), &mut bits[mixed(record) / 64]);
        let is_new = *word >> (bit % 64) & 1 == 0;
        *word |= 1 << (bit % 64);
        is_new || is_none(&scope.records[place + 1..], record)
    })
}

/// Names of up to eight bytes are listed as numbers, while there is room; others are looked up.
fn listed(scope: &Scope) -> Option<Scope> {
    let (mut lengths, mut words, mut count) = ([0_u8; LISTED], [0_u64; LISTED], 0);
    copy_of(scope, |place, record| {
        let Some((length, word)) = record.name.numbers().filter(|_| scope.records.len() <= LISTED) else {
            return is_none(&scope.records[place + 1..], record);
        };
        let is_new = !words[..count].iter().zip(&lengths[..count]).any(|other| other == (&word, &length));
        (words[count], lengths[count]) = (word, length);
        count += 1;
        is_new
    })
}

/// A hash table on the stack with linear probing; it is never full.
fn tabled(scope: &Scope) -> Option<Scope> {
    let mut places = [u16::MAX; BITS];
    copy_of(scope, |place, record| {
        if scope.records.len() > BITS / 2 {
            return is_none(&scope.records[place + 1..], record);
        }
        let mut at = mixed(record);
        while let Some(other) = scope.records.get(usize::from(places[at])) {
            if same(other.name.bytes(), record.name.bytes()) {
                return false;
            }
            at = (at + 1) % BITS;
        }
        places[at] = place as u16;
        true
    })
}

/// A hash set of the names, which allocates.
fn hashed(scope: &Scope) -> Option<Scope> {
    let mut seen = HashSet::new();
    seen.try_reserve(scope.records.len()).ok()?;
    copy_of(scope, |place, _| seen.insert(scope.records[place].name.bytes()))
}

#[inline(always)]
fn copies(n: usize, copy: impl Fn(&Scope) -> Option<Scope>) -> u64 {
    let Some(scope) = scope_of(100) else {
        return u64::MAX;
    };
    (0..n).filter_map(|_| copy(&scope)).fold(0, |sum, copy| sum.wrapping_add(copy.records.len() as u64))
}

pub fn by_search(n: usize) -> u64 {
    copies(n, sought)
}

pub fn by_filter(n: usize) -> u64 {
    copies(n, filtered)
}

pub fn by_list(n: usize) -> u64 {
    copies(n, listed)
}

pub fn by_table(n: usize) -> u64 {
    copies(n, tabled)
}

pub fn by_set(n: usize) -> u64 {
    copies(n, hashed)
}
