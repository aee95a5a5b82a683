//! Host functions.

use crate::runs::{begun, compiled, driven, is_told, value_of};
use rhai_value::{Array, Dynamic, INT};
use script_code::Program;
use script_run::{Outcome, Run};
use std::alloc::Global;

/// Returns twice the argument for each call, until the run ends.
fn answered(run: &mut Run, program: &Program) -> Outcome {
    for _ in 0..1_000 {
        let outcome = driven(run, program, 7);
        if !matches!(&outcome, Outcome::Calls(0)) {
            return outcome;
        }
        let given = match run.argument(0) {
            Some(given) => given.as_int(run.store()).unwrap_or(0),
            None => 0,
        };
        let _taken = run.answer(program, Dynamic::from_int(given.saturating_mul(2)));
    }
    Outcome::Paused
}

/// The script calls the host in a loop, deep within calls and in a callback: first 0 + 2 + 4 + 6,
/// then 2 + 5, and then 4.
fn is_answered(alloc: Global) -> Option<bool> {
    let text = "
fn deep(n) { if n == 0 { ask(1) } else { deep(n - 1) + 1 } }
let total = 0;
for i in 0..4 { total += ask(i); }
let doubled = [1, 2].map(|x| ask(x));
total + deep(5) + doubled[1]
";
    let program = compiled(alloc, text)?;
    let mut run = begun(alloc, &program)?;
    let outcome = answered(&mut run, &program);
    Some(value_of(&run, &outcome) == Some(23))
}

#[test]
fn the_host_answers_in_loops_calls_and_callbacks(rt: HostRuntime) {
    let is_answered = is_answered(rt.alloc());
    assert!(rt; is_answered == Some(true));
}

fn is_caught(alloc: Global) -> Option<bool> {
    let program = compiled(alloc, "try { ask(1) } catch (e) { print(e); 5 }")?;
    let mut run = begun(alloc, &program)?;
    let called = driven(&mut run, &program, 100);
    let goes_on = run.refuse(&program, "no").is_none();
    let outcome = driven(&mut run, &program, 100);
    let is_right = value_of(&run, &outcome) == Some(5) && run.take_output().as_str() == "no\n";
    Some(matches!(&called, Outcome::Calls(0)) && goes_on && is_right)
}

#[test]
fn a_refused_call_is_caught(rt: HostRuntime) {
    let is_caught = is_caught(rt.alloc());
    assert!(rt; is_caught == Some(true));
}

fn is_ended(alloc: Global) -> Option<bool> {
    let program = compiled(alloc, "let x = 1;\nask(x);")?;
    let mut run = begun(alloc, &program)?;
    let _called = driven(&mut run, &program, 100);
    let outcome = run.refuse(&program, "no")?;
    Some(is_told(alloc, &run, &outcome, "no at 2:1"))
}

#[test]
fn a_refused_call_that_nothing_catches_ends_the_run(rt: HostRuntime) {
    let is_ended = is_ended(rt.alloc());
    assert!(rt; is_ended == Some(true));
}

fn waits(alloc: Global) -> Option<bool> {
    let program = compiled(alloc, "ask(4)")?;
    let mut run = begun(alloc, &program)?;
    let _called = driven(&mut run, &program, 100);
    let again = run.go(&program, 100);
    let is_taken = run.answer(&program, Dynamic::from_int(9)).ok()?;
    let is_taken_twice = run.answer(&program, Dynamic::from_int(8)).ok()?;
    let outcome = driven(&mut run, &program, 100);
    let is_right = is_taken && !is_taken_twice && value_of(&run, &outcome) == Some(9);
    Some(matches!(&again, Outcome::Calls(0)) && is_right)
}

#[test]
fn a_run_that_waits_goes_on_only_with_an_answer(rt: HostRuntime) {
    let waits = waits(rt.alloc());
    assert!(rt; waits == Some(true));
}

/// Makes arguments of ints.
pub(crate) fn ints(alloc: Global, numbers: &[INT]) -> Option<Array> {
    let mut arguments = Vec::new(alloc);
    for number in numbers {
        arguments.push(Dynamic::from_int(*number)).ok()?;
    }
    Some(arguments)
}

/// The value of the statements is 1 + 1, that of a call 3 + 4, another call fails, and the run can
/// be called again.
fn is_called_again(alloc: Global) -> Option<bool> {
    let text =
        "fn sum(a, b) { a + b }\nfn fails() { 1 / 0 }\nlet n = 1; let f = || n; n += 1; f.call()";
    let program = compiled(alloc, text)?;
    let mut run = begun(alloc, &program)?;
    let early = run.call(&program, "fails", &mut Vec::new(alloc)).ok()?;
    let first = driven(&mut run, &program, 100);
    let unknown = run.call(&program, "sum", &mut Vec::new(alloc)).ok()?;
    let begins = run.call(&program, "sum", &mut ints(alloc, &[3, 4])?).ok()?;
    let second = driven(&mut run, &program, 1);
    let is_right = value_of(&run, &first) == Some(2) && value_of(&run, &second) == Some(7);
    let fails = run.call(&program, "fails", &mut Vec::new(alloc)).ok()?;
    let third = driven(&mut run, &program, 100);
    let is_failed = matches!(&third, Outcome::Fault(_));
    let again = run.call(&program, "sum", &mut ints(alloc, &[3, 4])?).ok()?;
    let fourth = driven(&mut run, &program, 100);
    Some(
        !early
            && !unknown
            && begins
            && fails
            && again
            && is_right
            && is_failed
            && value_of(&run, &fourth) == Some(7),
    )
}

#[test]
fn functions_are_called_by_a_run_that_has_ended(rt: HostRuntime) {
    let is_called = is_called_again(rt.alloc());
    assert!(rt; is_called == Some(true));
}
