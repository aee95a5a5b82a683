//! Views of a stopped run: calls, variables, and stops at statements.

use crate::runs::{begun, compiled, driven, value_of};
use script_code::Program;
use script_run::{Outcome, Run};
use std::alloc::{AllocError, Global};

/// Lists the open calls, with where they are.
fn calls(alloc: Global, run: &Run, program: &Program) -> Result<String, AllocError> {
    let mut told = String::new(alloc);
    for number in 0..run.depth() {
        if let Some(frame) = run.frame(program, number) {
            let (line, column) = (frame.position.line(), frame.position.position());
            let name = frame.name;
            write!(&mut told, "{name} {line}:{column}, ")?;
        }
    }
    Ok(told)
}

/// Lists the variables in scope of an open call, with their ints.
fn variables(
    alloc: Global,
    run: &Run,
    program: &Program,
    frame: usize,
) -> Result<String, AllocError> {
    let mut told = String::new(alloc);
    let mut before = usize::MAX;
    for _ in 0..100 {
        let Some(variable) = run.variable(program, frame, before) else {
            break;
        };
        before = variable.number;
        let name = variable.name;
        match variable.value.as_int(run.store()) {
            Ok(int) => write!(&mut told, "{name}={int} ")?,
            Err(_) => write!(&mut told, "{name} ")?,
        }
    }
    Ok(told)
}

const FAILS: &str = "fn inner(n) { n / 0 }
fn outer(n) {
  inner(n) + 1
}
let f = |x| outer(x);
f.call(3);
";

fn is_told_with_calls(alloc: Global) -> Option<bool> {
    let program = compiled(alloc, FAILS)?;
    let mut run = begun(alloc, &program)?;
    let outcome = driven(&mut run, &program, 1);
    let told = calls(alloc, &run, &program).ok()?;
    let again = run.go(&program, 100);
    let told = told.as_str();
    let is_right = told.starts_with("inner 1:17, outer 3:3, anon$")
        && told.ends_with("$2 5:13,  6:3, ");
    Some(is_right && matches!(&outcome, Outcome::Fault(_)) && matches!(&again, Outcome::Done(_)))
}

#[test]
fn a_fault_has_the_calls_under_way(rt: HostRuntime) {
    let is_told = is_told_with_calls(rt.alloc());
    assert!(rt; is_told == Some(true));
}

const HIDES: &str = "fn f(a, b) {
  let x = a + b;
  { let gone = 1; x += gone; }
  let x = x * 2;
  ask(x)
}
let top = 5;
let g = |k| f(top, k);
g.call(2)
";

/// 5 + 2 + 1 is 8, and twice that 16.
fn are_seen(alloc: Global) -> Option<bool> {
    let program = compiled(alloc, HIDES)?;
    let mut run = begun(alloc, &program)?;
    let called = driven(&mut run, &program, 1);
    let inner = variables(alloc, &run, &program, 0).ok()?;
    let closure = variables(alloc, &run, &program, 1).ok()?;
    let body = variables(alloc, &run, &program, 2).ok()?;
    let none = variables(alloc, &run, &program, 3).ok()?;
    let is_right = inner.as_str() == "x=16 x=8 b=2 a=5 "
        && closure.as_str() == "top=5 k=2 "
        && body.as_str() == "g top=5 "
        && none.as_str() == "";
    Some(is_right && matches!(&called, Outcome::Calls(0)) && run.depth() == 3)
}

#[test]
fn variables_in_sight_are_seen(rt: HostRuntime) {
    let are_seen = are_seen(rt.alloc());
    assert!(rt; are_seen == Some(true));
}

/// Whether these variables are in scope where a script first calls the host.
fn sees(alloc: Global, text: &str, wanted: &str) -> Option<bool> {
    let program = compiled(alloc, text)?;
    let mut run = begun(alloc, &program)?;
    let _called = driven(&mut run, &program, 100);
    let seen = variables(alloc, &run, &program, 0).ok()?;
    Some(seen.as_str() == wanted)
}

#[test]
fn variables_of_loops_and_handlers_are_seen(rt: HostRuntime) {
    let rounds = sees(
        rt.alloc(),
        "for (item, index) in [7, 8] { if index == 1 { ask(item) } }",
        "index=1 item=8 ",
    );
    let caught = sees(
        rt.alloc(),
        "try { let x = 1; throw 4 } catch (e) { ask(e) }",
        "e=4 ",
    );
    let ended = sees(
        rt.alloc(),
        "let a = 1; for i in 0..3 { let b = i; } ask(a); let c = 2;",
        "a=1 ",
    );
    assert!(rt; rounds == Some(true));
    assert!(rt; caught == Some(true));
    assert!(rt; ended == Some(true));
}

const STATEMENTS: &str = "let a = 1;
let b = 0;
while b < 2 {
  b += a;
}
fn twice(n) { n * 2 }
twice(b)
";

/// Lists where a run stops that stops at statements, and executes this many operations at a time;
/// with its number of operations.
fn stops(alloc: Global, program: &Program, at_once: u64) -> Option<(String, u64)> {
    let mut run = begun(alloc, program)?;
    run.stop_at_statements(true);
    let mut told = String::new(alloc);
    for _ in 0..1_000 {
        let outcome = driven(&mut run, program, at_once);
        if !matches!(&outcome, Outcome::Statement) {
            if value_of(&run, &outcome) != Some(4) {
                return None;
            }
            return Some((told, run.operations()));
        }
        let position = run.position(program);
        let (line, column) = (position.line(), position.position());
        write!(&mut told, "{line}:{column} ").ok()?;
    }
    None
}

fn is_stopped(alloc: Global) -> Option<bool> {
    let program = compiled(alloc, STATEMENTS)?;
    let mut whole = begun(alloc, &program)?;
    let _done = driven(&mut whole, &program, 1_000);
    for at_once in 1..5 {
        let (told, operations) = stops(alloc, &program, at_once)?;
        let is_right = told.as_str() == "1:1 2:1 3:1 4:3 4:3 7:1 6:15 ";
        if !is_right || operations != whole.operations() {
            return Some(false);
        }
    }
    Some(true)
}

#[test]
fn a_run_stops_at_statements(rt: HostRuntime) {
    let is_stopped = is_stopped(rt.alloc());
    assert!(rt; is_stopped == Some(true));
}
