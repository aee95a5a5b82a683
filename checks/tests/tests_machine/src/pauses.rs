//! Pauses: a run that is paused after some operations does the same as one that isn't.

use crate::runs::{begun, compiled, driven, is_told, value_of};
use rhai_value::INT;
use script_code::Program;
use script_run::{Outcome, Run};
use std::alloc::Global;
use std::mem::size_of;

const SCRIPT: &str = "
fn fib(n) { if n < 2 { n } else { fib(n - 1) + fib(n - 2) } }
let a = [3, 1, 2];
a.sort(|x, y| x - y);
let total = 0;
for (x, i) in a.map(|x| x * 10) { total += x + i; }
let text = \"\";
let n = 0;
while n < 3 { text += n; n += 1; }
try { throw text; } catch (e) { print(e); }
print(a);
total + fib(7)
";

/// 10 + 20 + 30, the numbers 0 to 2, and the seventh of Fibonacci's, 13.
const VALUE: INT = 76;

/// Checks the output and the value of a run that executes this many operations at a time, and
/// returns its number of operations.
fn done_by(alloc: Global, program: &Program, at_once: u64) -> Option<u64> {
    let mut run = begun(alloc, program)?;
    let outcome = driven(&mut run, program, at_once);
    let is_right = value_of(&run, &outcome) == Some(VALUE)
        && run.take_output().as_str() == "012\n[1, 2, 3]\n";
    if is_right {
        Some(run.operations())
    } else {
        None
    }
}

/// Whether a run has the same value and the same number of operations, however often it pauses.
fn is_same_with_pauses(alloc: Global) -> Option<bool> {
    let program = compiled(alloc, SCRIPT)?;
    let whole = done_by(alloc, &program, 1_000_000)?;
    for at_once in 1..6 {
        if done_by(alloc, &program, at_once)? != whole {
            return Some(false);
        }
    }
    Some(true)
}

#[test]
fn a_run_that_pauses_is_a_run(rt: HostRuntime) {
    let is_same = is_same_with_pauses(rt.alloc());
    assert!(rt; is_same == Some(true));
}

fn is_placed(alloc: Global) -> Option<bool> {
    let program = compiled(alloc, "let a = [1];\nprint(a[0]);\na[1];")?;
    let mut run = begun(alloc, &program)?;
    let outcome = driven(&mut run, &program, 1);
    let is_right = is_told(alloc, &run, &outcome, "index 1 out of range of 1 at 3:3");
    Some(is_right && run.take_output().as_str() == "1\n")
}

#[test]
fn a_fault_has_its_place(rt: HostRuntime) {
    let is_placed = is_placed(rt.alloc());
    assert!(rt; is_placed == Some(true));
}

fn is_shared_by_runs(alloc: Global) -> Option<bool> {
    let text = "let n = 0; let f = || { n += 1; n }; f.call(); f.call() + 10";
    let program = compiled(alloc, text)?;
    let mut first = begun(alloc, &program)?;
    let mut second = begun(alloc, &program)?;
    let _paused = first.go(&program, 3);
    let other = driven(&mut second, &program, 2);
    let one = driven(&mut first, &program, 2);
    Some(value_of(&first, &one) == Some(12) && value_of(&second, &other) == Some(12))
}

#[test]
fn one_program_serves_many_runs(rt: HostRuntime) {
    let is_shared = is_shared_by_runs(rt.alloc());
    assert!(rt; is_shared == Some(true));
}

fn stands(alloc: Global) -> Option<bool> {
    let program = compiled(
        alloc,
        "let a = [[1], [2]]; loop { a.push([a.len()]); a.pop(); }",
    )?;
    let mut run = begun(alloc, &program)?;
    let outcome = run.go(&program, 1_000);
    Some(matches!(&outcome, Outcome::Paused) && run.operations() >= 1_000)
}

#[test]
fn a_run_may_be_dropped_where_it_stands(rt: HostRuntime) {
    let stands = stands(rt.alloc());
    assert!(rt; stands == Some(true));
}

/// The lists of a run that hasn't started are empty; each text of the program takes a value and a
/// block.
#[test]
fn a_run_is_small(rt: HostRuntime) {
    assert!(rt; size_of::<Run>() <= 1_024);
}
