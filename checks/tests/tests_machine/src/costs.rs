//! The cost in operations of walks over values: how much more a script takes with a long value than
//! with an empty one. An operation pays for four values, or for 64 bytes.

use crate::runs::{LIMITS, compiled};
use script_run::{Outcome, Run};
use std::alloc::Global;

/// The operations that a statement has to count for a value of this length.
#[derive(Clone, Copy)]
struct Row {
    /// Makes the value; `N` is its length.
    front: &'static str,
    statement: &'static str,
    length: &'static str,
    wanted: u64,
}

const ITEMS: &str = "let a = []; a.pad(N, 1); ";

const BYTES: &str = "let s = \"\"; s.pad(N, 'x'); ";

const BLOB: &str = "let b = blob(N, 0); ";

const ENTRIES: &str = "let m = #{}; for i in 0..N { m[\"k\" + i] = i; } ";

fn to_count(
    front: &'static str,
    length: &'static str,
    statement: &'static str,
    wanted: u64,
) -> Row {
    Row {
        front,
        statement,
        length,
        wanted,
    }
}

/// 400 items are 100 operations, 200 items are 50.
fn rows_of_arrays() -> [Row; 20] {
    [
        to_count(ITEMS, "400", "a.len();", 0),
        to_count(ITEMS, "400", "a.push(2);", 0),
        to_count(ITEMS, "400", "a.pop();", 0),
        to_count(ITEMS, "400", "a.contains(2);", 100),
        to_count(ITEMS, "400", "a.index_of(2);", 100),
        to_count(ITEMS, "400", "a.insert(0, 2);", 100),
        to_count(ITEMS, "400", "a.shift();", 100),
        to_count(ITEMS, "400", "a.reverse();", 100),
        to_count(ITEMS, "400", "a.dedup();", 100),
        // 400 has nine bits
        to_count(ITEMS, "400", "a.sort();", 900),
        to_count(ITEMS, "400", "let c = a; c.len(); a.len();", 100),
        to_count(ITEMS, "400", "let c = [a, a]; a.len();", 200),
        to_count(ITEMS, "400", "let c = a == a;", 200),
        // both are visited, and 800 items are made
        to_count(ITEMS, "400", "let c = a + a;", 400),
        // the right side is copied and moved
        to_count(ITEMS, "400", "a += a;", 200),
        // two items are copied, which cost less than one operation
        to_count(ITEMS, "400", "let c = a.extract(0, 2);", 0),
        // 200 items are copied, and made
        to_count(ITEMS, "400", "let c = a.extract(0, 200);", 100),
        // each printed item counts three times, and "[1, 1, .. 1]" has 600 bytes
        to_count(ITEMS, "200", "let t = a.to_string();", 159),
        // and with the end of the line 601
        to_count(ITEMS, "200", "print(a);", 159),
        to_count(ITEMS, "200", "try { throw a; } catch { }", 100),
    ]
}

/// 640 bytes are 10 operations, 320 bytes are 5.
fn rows_of_texts() -> [Row; 18] {
    [
        to_count(BYTES, "640", "s.len();", 10),
        to_count(BYTES, "640", "s.is_empty();", 0),
        to_count(BYTES, "640", "s.contains(\"y\");", 10),
        to_count(BYTES, "640", "s.starts_with(\"y\");", 0),
        // the result counts, too, and four characters are an operation
        to_count(BYTES, "640", "s.to_upper();", 180),
        // and so do 640 characters
        to_count(BYTES, "640", "s.chars();", 170),
        to_count(BYTES, "640", "let t = s; t.is_empty(); s.is_empty();", 10),
        to_count(BYTES, "640", "let t = s == s;", 10),
        to_count(BYTES, "640", "let t = s == \"\";", 0),
        to_count(BYTES, "640", "let t = s[0..1];", 10),
        to_count(BYTES, "640", "s[0..1] = \"yy\";", 10),
        // what is copied, and appended
        to_count(BYTES, "320", "s += s;", 10),
        // it is walked twice, and 640 bytes are made for 320 parts
        to_count(BYTES, "320", "s.replace(\"x\", \"yy\");", 340),
        // it is walked twice, each part is an operation, and 321 values are made
        to_count(BYTES, "320", "let p = s.split('x');", 410),
        to_count(BYTES, "640", "print(s);", 20),
        to_count(BLOB, "640", "b.reverse();", 10),
        to_count(BLOB, "640", "let c = b.to_array();", 320),
        to_count(BLOB, "640", "let c = b == b;", 10),
    ]
}

/// 80 entries are 40 operations, since each counts as two values.
fn rows_of_maps() -> [Row; 6] {
    [
        to_count(ENTRIES, "80", "m.len();", 0),
        // copies, the result, and an operation for each key
        to_count(ENTRIES, "80", "let k = m.keys();", 140),
        to_count(ENTRIES, "80", "let n = m; n.len(); m.len();", 40),
        // the argument is copied twice, and each entry is three operations
        to_count(ENTRIES, "80", "m.mixin(m);", 320),
        to_count(ENTRIES, "80", "m += m;", 320),
        to_count(ENTRIES, "80", "let n = m == m;", 80),
    ]
}

/// Returns the operations of a script that is done.
fn taken(alloc: Global, row: &Row, length: &str, statement: &str) -> Option<u64> {
    let front = row.front.replace(alloc, "N", length).ok()?;
    let text = format!(in alloc; "{front}{statement}").ok()?;
    let program = compiled(alloc, text.as_str())?;
    let mut run = Run::new(alloc, &program, &LIMITS).ok()?;
    match run.go(&program, 1_000_000) {
        Outcome::Done(_) => Some(run.operations()),
        Outcome::Paused
        | Outcome::Statement
        | Outcome::Calls(_)
        | Outcome::Memory
        | Outcome::Fault(_)
        | Outcome::Answered(_)
        | Outcome::Refused(_) => None,
    }
}

/// Returns how many more operations a statement counts for a long value than for an empty one.
fn counted(alloc: Global, row: &Row) -> Option<u64> {
    let with = taken(alloc, row, row.length, row.statement)?;
    let without = taken(alloc, row, row.length, "")?;
    let short = taken(alloc, row, "0", row.statement)?;
    let shorter = taken(alloc, row, "0", "")?;
    let long = with.checked_sub(without)?;
    long.checked_sub(short.checked_sub(shorter)?)
}

/// Whether each statement counts as expected; reports those that don't.
fn are_counted(rt: &impl Print, alloc: Global, rows: &[Row]) -> bool {
    let mut is_right = true;
    for row in rows {
        let found = counted(alloc, row);
        if found != Some(row.wanted) {
            is_right = false;
            let (statement, found) = (row.statement, found.unwrap_or(u64::MAX));
            let _told = println!(rt; "{statement} counts {found}");
        }
    }
    is_right
}

#[test]
fn arrays_are_counted(rt: HostRuntime) {
    let rows = rows_of_arrays();
    let is_right = are_counted(&rt, rt.alloc(), &rows);
    assert!(rt; is_right);
}

#[test]
fn texts_and_blobs_are_counted(rt: HostRuntime) {
    let rows = rows_of_texts();
    let is_right = are_counted(&rt, rt.alloc(), &rows);
    assert!(rt; is_right);
}

#[test]
fn maps_are_counted(rt: HostRuntime) {
    let rows = rows_of_maps();
    let is_right = are_counted(&rt, rt.alloc(), &rows);
    assert!(rt; is_right);
}
