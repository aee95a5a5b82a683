//! Variables that outlive a run, and calls from outside.

use crate::host::ints;
use crate::runs::{LIMITS, driven, value_of};
use rhai_value::{Dynamic, INT};
use script_code::{Program, compile};
use script_run::{Outcome, Run, Scope};
use script_syntax::parse_with;
use std::alloc::Global;

/// Compiles a script for the variables of a scope.
fn compiled_for(alloc: Global, scope: &Scope, text: &str) -> Option<Program> {
    let script = parse_with(alloc, text, scope.names()).ok()?;
    compile(alloc, &script, &[]).ok()
}

/// Runs a script over a scope, and returns its value, an int.
fn run_over(alloc: Global, scope: &mut Scope, text: &str) -> Option<INT> {
    let program = compiled_for(alloc, scope, text)?;
    let mut run = Run::over(alloc, &program, &LIMITS, scope).ok()??;
    let outcome = driven(&mut run, &program, 1_000);
    let value = value_of(&run, &outcome);
    *scope = run.into_scope(&program);
    value
}

/// Returns the int of the newest variable with a name.
fn int_of(scope: &Scope, name: &str) -> Option<INT> {
    let number = scope.find(name)?;
    scope.get(number)?.as_int(scope.store()).ok()
}

fn variables_live_on(alloc: Global) -> Option<bool> {
    let mut scope = Scope::new(alloc);
    scope.push("x", Dynamic::from_int(40)).ok()?;
    let first = run_over(
        alloc,
        &mut scope,
        "x += 1; let y = x * 2; { let z = 7; } y + 1",
    )?;
    let second = run_over(alloc, &mut scope, "y += 1; let x = y; x + 1")?;
    let are_three = scope.len() == 3;
    let x = int_of(&scope, "x")?;
    let y = int_of(&scope, "y")?;
    scope.rewind(2);
    let hidden = int_of(&scope, "x")?;
    Some(first == 83 && second == 84 && are_three && x == 83 && y == 83 && hidden == 41)
}

#[test]
fn variables_outlive_their_run(rt: HostRuntime) {
    let live_on = variables_live_on(rt.alloc());
    assert!(rt; live_on == Some(true));
}

/// What comes after the `return` was never declared, and a fault leaves what was declared.
fn only_what_was_declared(alloc: Global) -> Option<bool> {
    let mut scope = Scope::new(alloc);
    let first = run_over(
        alloc,
        &mut scope,
        "let a = 1; if a == 1 { return 7; } let b = 2; b",
    )?;
    let one = scope.len() == 1;
    let failed = run_over(alloc, &mut scope, "let c = 3; c += nowhere; let d = 4;");
    let two = scope.len() == 2 && int_of(&scope, "c") == Some(3);
    Some(first == 7 && one && failed.is_none() && two)
}

#[test]
fn variables_that_were_not_declared_are_not_there(rt: HostRuntime) {
    let is_right = only_what_was_declared(rt.alloc());
    assert!(rt; is_right == Some(true));
}

/// A closure and a variable share a cell, also in the next run.
fn cells_live_on(alloc: Global) -> Option<bool> {
    let mut scope = Scope::new(alloc);
    let first = run_over(
        alloc,
        &mut scope,
        "let n = 1; let f = || { n += 1; n }; f.call()",
    )?;
    let second = run_over(alloc, &mut scope, "n += 5; n")?;
    let is_shared = scope.get(0)?.is_shared();
    Some(first == 2 && second == 7 && is_shared)
}

#[test]
fn shared_cells_outlive_their_run(rt: HostRuntime) {
    let live_on = cells_live_on(rt.alloc());
    assert!(rt; live_on == Some(true));
}

/// Runs a script over a scope, and returns whether it succeeded.
fn ends(alloc: Global, scope: &mut Scope, text: &str) -> Option<bool> {
    let program = compiled_for(alloc, scope, text)?;
    let mut run = Run::over(alloc, &program, &LIMITS, scope).ok()??;
    let outcome = driven(&mut run, &program, 1_000);
    let is_done = matches!(&outcome, Outcome::Done(_));
    *scope = run.into_scope(&program);
    Some(is_done)
}

/// A closure that a scope keeps belongs to the script that made it, although another script has a
/// function with its number, too.
fn closures_know_their_script(alloc: Global) -> Option<bool> {
    let mut scope = Scope::new(alloc);
    scope.push("f", Dynamic::from_int(0)).ok()?;
    let keeps = "if f == 0 { f = |x| x + 1; 1 } else { f.call(41) }";
    let kept = run_over(alloc, &mut scope, keeps)?;
    let own = run_over(alloc, &mut scope, "let g = |x| x * 2; g.call(21)")?;
    scope.rewind(1);
    let is_other = !ends(alloc, &mut scope, "let g = |x| x * 2; f.call(41)")?;
    scope.rewind(1);
    Some(kept == 1 && own == 42 && is_other)
}

#[test]
fn a_closure_is_called_by_its_script_alone(rt: HostRuntime) {
    let is_right = closures_know_their_script(rt.alloc());
    assert!(rt; is_right == Some(true));
}

/// Runs a compiled script over a scope, and returns its value, an int.
fn run_again(scope: &mut Scope, alloc: Global, program: &Program) -> Option<INT> {
    let mut run = Run::over(alloc, program, &LIMITS, scope).ok()??;
    let outcome = driven(&mut run, program, 1_000);
    let value = value_of(&run, &outcome);
    *scope = run.into_scope(program);
    value
}

/// Each run reads the texts of its own script, also where another with as many texts ran before.
fn texts_are_their_own(alloc: Global) -> Option<bool> {
    let mut scope = Scope::new(alloc);
    scope.push("n", Dynamic::from_int(2)).ok()?;
    let short = compiled_for(alloc, &scope, "(\"abc\" + n).len()")?;
    let long = compiled_for(alloc, &scope, "(\"abcdef\" + n).len()")?;
    let none = compiled_for(alloc, &scope, "n")?;
    let mut found = Vec::new(alloc);
    for program in [&short, &short, &long, &none, &long, &short] {
        found.push(run_again(&mut scope, alloc, program)?).ok()?;
    }
    Some(found.as_slice() == [4, 4, 7, 2, 7, 4].as_slice() && int_of(&scope, "n") == Some(2))
}

#[test]
fn a_run_has_the_texts_of_its_script(rt: HostRuntime) {
    let are_own = texts_are_their_own(rt.alloc());
    assert!(rt; are_own == Some(true));
}

/// A scope with other names than those of the program is unchanged.
fn other_names_are_refused(alloc: Global) -> Option<bool> {
    let mut scope = Scope::new(alloc);
    scope.push("x", Dynamic::from_int(1)).ok()?;
    let program = compiled_for(alloc, &scope, "x + 1")?;
    scope.push("y", Dynamic::from_int(2)).ok()?;
    let refused = Run::over(alloc, &program, &LIMITS, &mut scope).ok()?;
    Some(refused.is_none() && int_of(&scope, "y") == Some(2))
}

#[test]
fn a_scope_of_other_names_is_refused(rt: HostRuntime) {
    let are_refused = other_names_are_refused(rt.alloc());
    assert!(rt; are_refused == Some(true));
}

/// Calls a function of two ints.
fn called(
    alloc: Global,
    run: &mut Run,
    program: &Program,
    name: &str,
    x: INT,
    y: INT,
) -> Option<INT> {
    if !run.call(program, name, &mut ints(alloc, &[x, y])?).ok()? {
        return None;
    }
    let outcome = driven(run, program, 3);
    value_of(run, &outcome)
}

const FUNCTIONS: &str = "
fn add(x, y) { x + y }
fn power(x, n) { if n == 0 { 1 } else { x * power(x, n - 1) } }
fn fail(x, y) { x / (y - y) }
let kept = 5;
kept
";

fn functions_are_called(alloc: Global) -> Option<bool> {
    let mut scope = Scope::new(alloc);
    let program = compiled_for(alloc, &scope, FUNCTIONS)?;
    let mut run = Run::over(alloc, &program, &LIMITS, &mut scope).ok()??;
    let early = called(alloc, &mut run, &program, "add", 1, 2);
    let outcome = driven(&mut run, &program, 1_000);
    let kept = value_of(&run, &outcome)?;
    let sum = called(alloc, &mut run, &program, "add", 40, 2)?;
    let failed = called(alloc, &mut run, &program, "fail", 1, 2);
    let power = called(alloc, &mut run, &program, "power", 2, 10)?;
    let missing = called(alloc, &mut run, &program, "nowhere", 2, 10);
    let ended = run_on(&mut run, &program);
    let nothing = value_of(&run, &ended);
    let scope = run.into_scope(&program);
    let is_right = kept == 5 && sum == 42 && power == 1024 && int_of(&scope, "kept") == Some(5);
    Some(is_right && early.is_none() && failed.is_none() && missing.is_none() && nothing.is_none())
}

/// Continues a run that has ended.
fn run_on(run: &mut Run, program: &Program) -> Outcome {
    run.go(program, 10)
}

#[test]
fn functions_are_called_from_outside(rt: HostRuntime) {
    let are_called = functions_are_called(rt.alloc());
    assert!(rt; are_called == Some(true));
}

fn the_body_is_left_out(alloc: Global) -> Option<bool> {
    let mut scope = Scope::new(alloc);
    let program = compiled_for(alloc, &scope, FUNCTIONS)?;
    let mut run = Run::over(alloc, &program, &LIMITS, &mut scope).ok()??;
    run.skip_body();
    let sum = called(alloc, &mut run, &program, "add", 40, 2)?;
    let scope = run.into_scope(&program);
    Some(sum == 42 && scope.is_empty())
}

#[test]
fn functions_are_called_without_the_body(rt: HostRuntime) {
    let is_left_out = the_body_is_left_out(rt.alloc());
    assert!(rt; is_left_out == Some(true));
}
