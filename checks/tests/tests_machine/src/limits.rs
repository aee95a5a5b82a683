//! Limits of runs: on operations, however few are executed at once, on entries and on output.

use crate::runs::{LIMITS, compiled, driven, is_told, value_of};
use rhai_value::INT;
use script_faults::FaultKind;
use script_run::{Outcome, Run};
use script_slots::RunLimits;
use std::alloc::Global;

/// Makes the limits of a run: operations, and bytes of output.
fn limited(operations: u64, output: u64) -> RunLimits {
    RunLimits {
        sizes: LIMITS.sizes,
        entries: LIMITS.entries,
        output,
        memory: 0,
        operations,
        calls: LIMITS.calls,
    }
}

/// How a run ended that executed this many operations at a time.
#[derive(Drop)]
struct Ended {
    /// Whether it ended with the expected fault.
    is_told: bool,
    operations: u64,
    printed: String,
}

fn run_to_end(
    alloc: Global,
    text: &str,
    limits: &RunLimits,
    at_once: u64,
    wanted: &str,
) -> Option<Ended> {
    let program = compiled(alloc, text)?;
    let mut run = Run::new(alloc, &program, limits).ok()?;
    let outcome = driven(&mut run, &program, at_once);
    Some(Ended {
        is_told: is_told(alloc, &run, &outcome, wanted),
        operations: run.operations(),
        printed: run.take_output(),
    })
}

const SEARCHES: &str = "
let a = [];
a.pad(1000, 1);
loop { a.contains(2); }
";

/// A search visits 1,000 items, which are 250 operations: the last ones aren't enough for another.
fn is_bounded(alloc: Global) -> Option<bool> {
    let told = "too many operations at 4:10";
    let whole = run_to_end(alloc, SEARCHES, &limited(10_000, 0), u64::MAX, told)?;
    let is_near = whole.operations <= 10_000 && whole.operations > 9_700;
    for at_once in [1, 2, 7, 100, 1_000] {
        let other = run_to_end(alloc, SEARCHES, &limited(10_000, 0), at_once, told)?;
        if !other.is_told || other.operations != whole.operations {
            return Some(false);
        }
    }
    Some(whole.is_told && is_near)
}

#[test]
fn searches_end_within_their_operations(rt: HostRuntime) {
    let is_bounded = is_bounded(rt.alloc());
    assert!(rt; is_bounded == Some(true));
}

const CAUGHT: &str = "
let a = [];
a.pad(1000, 1);
try { a.contains(2); a.contains(2); } catch { print(1); }
print(2);
";

/// The copies of `pad` and one search are 500 operations; the second search is past 700, and no
/// `try` catches it.
fn is_not_caught(alloc: Global) -> Option<bool> {
    let told = "too many operations at 4:24";
    let ended = run_to_end(alloc, CAUGHT, &limited(700, 0), 50, told)?;
    Some(ended.is_told && ended.printed.is_empty() && ended.operations <= 700)
}

#[test]
fn the_limit_is_not_caught(rt: HostRuntime) {
    let is_not_caught = is_not_caught(rt.alloc());
    assert!(rt; is_not_caught == Some(true));
}

/// Work that is too expensive isn't begun: `pad` would copy 900 items, which are 225 operations.
fn is_refused_before(alloc: Global) -> Option<bool> {
    let text = "let a = [];\na.pad(900, 1);";
    let told = "too many operations at 2:3";
    let ended = run_to_end(alloc, text, &limited(100, 0), u64::MAX, told)?;
    Some(ended.is_told && ended.operations < 100)
}

#[test]
fn what_is_refused_is_not_begun(rt: HostRuntime) {
    let is_refused = is_refused_before(rt.alloc());
    assert!(rt; is_refused == Some(true));
}

const WALKS: &str = "
let a = [];
a.pad(300, 7);
let s = \"\";
s.pad(300, 'x');
let m = #{};
for i in 0..50 { m[\"k\" + i] = [i, s]; }
let total = 0;
for x in a { total += x; }
let b = a.map(|x| x + 1);
b.sort(|x, y| y - x);
b.dedup();
let f = |x| { x + a.len() };
total += f.call(1);
if a == a + [] { total += 1; }
s[0..1] = \"yz\";
s.replace(\"x\", \"\");
print(m.keys().len());
print(s);
total + b.len()
";

/// 300 times 7, 301 of the function, 1 for the comparison, and the one item that is left.
const WALKED: INT = 2_403;

/// Returns the total operations of a script that walks values in many ways, executed this many
/// operations at a time.
fn taken(alloc: Global, at_once: u64) -> Option<u64> {
    let program = compiled(alloc, WALKS)?;
    let mut run = Run::new(alloc, &program, &LIMITS).ok()?;
    let outcome = driven(&mut run, &program, at_once);
    if value_of(&run, &outcome) != Some(WALKED) {
        return None;
    }
    if run.take_output().as_str() == "50\nyz\n" {
        Some(run.operations())
    } else {
        None
    }
}

fn is_counted_alike(alloc: Global) -> Option<bool> {
    let whole = taken(alloc, 1_000_000)?;
    for at_once in [1, 3, 64] {
        if taken(alloc, at_once)? != whole {
            return Some(false);
        }
    }
    Some(true)
}

#[test]
fn pauses_change_no_count(rt: HostRuntime) {
    let is_alike = is_counted_alike(rt.alloc());
    assert!(rt; is_alike == Some(true));
}

/// Two lines have five bytes each; the third would be the twelfth byte.
fn is_output_limited(alloc: Global) -> Option<bool> {
    let text = "print(\"1234\");\nprint(\"1234\");\ntry { print(1); } catch { }";
    let told = "too much output at 3:7";
    let ended = run_to_end(alloc, text, &limited(u64::MAX, 11), u64::MAX, told)?;
    Some(ended.is_told && ended.printed.as_str() == "1234\n1234\n")
}

#[test]
fn output_is_limited(rt: HostRuntime) {
    let is_limited = is_output_limited(rt.alloc());
    assert!(rt; is_limited == Some(true));
}

/// Whether a run ends because a map would have more than 100 entries.
fn has_too_many_entries(alloc: Global, text: &str) -> Option<bool> {
    let program = compiled(alloc, text)?;
    let mut run = Run::new(alloc, &program, &LIMITS).ok()?;
    match run.go(&program, 1_000_000) {
        Outcome::Fault(fault) => Some(matches!(&fault.kind, FaultKind::TooManyEntries)),
        Outcome::Done(_)
        | Outcome::Paused
        | Outcome::Statement
        | Outcome::Calls(_)
        | Outcome::Memory
        | Outcome::Answered(_)
        | Outcome::Refused(_) => Some(false),
    }
}

#[test]
fn entries_are_limited(rt: HostRuntime) {
    let alloc = rt.alloc();
    let made = "let m = #{}; for i in 0..60 { m[\"k\" + i] = i; } ";
    let more = "let n = #{}; for i in 50..101 { n[\"k\" + i] = i; } ";
    let fits = "for i in 60..100 { m[\"k\" + i] = i; m.k0 = i; }";
    for rest in [
        "for i in 60..101 { m[\"k\" + i] = i; }",
        "for i in 60..101 { m.set(\"k\" + i, i); }",
        "try { m += n; } catch { }",
        "try { m.mixin(n); } catch { }",
        "m.fill_with(n);",
        "let o = m + n;",
    ] {
        let text = format!(in alloc; "{made}{more}{rest}").ok();
        let is_refused = match text {
            Some(text) => has_too_many_entries(alloc, text.as_str()),
            None => None,
        };
        assert!(rt; is_refused == Some(true));
    }
    let text = format!(in alloc; "{made}{more}{fits}").ok();
    let is_refused = match text {
        Some(text) => has_too_many_entries(alloc, text.as_str()),
        None => None,
    };
    assert!(rt; is_refused == Some(false));
}
