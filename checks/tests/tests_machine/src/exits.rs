//! `exit`: it ends a run from anywhere, with its value.

use crate::host::ints;
use crate::runs::{LIMITS, begun, compiled, driven, value_of};
use rhai_value::{Dynamic, INT};
use script_code::{HostName, Program, compile};
use script_run::{Outcome, Run, Scope};
use script_syntax::parse_with;
use std::alloc::Global;

/// Each ends with 42, and prints `yes` alone.
const SCRIPTS: [&str; 12] = [
    "print(\"yes\"); exit(42); print(\"no\");",
    "fn f(n) { if n == 0 { exit(42); } f(n - 1); print(\"no\") } print(\"yes\"); f(5); print(\"no\");",
    "print(\"yes\"); [1, 2].map(|x| exit(x + 41)); print(\"no\");",
    "print(\"yes\"); try { exit(42) } catch (e) { print(e) } print(\"no\");",
    "print(\"yes\"); [2, 1].sort(|x, y| exit(42)); print(\"no\");",
    "print(\"yes\"); for i in range(0, 9, 3) { switch i { 3 => exit(i + 39), _ => () } } print(\"no\");",
    "fn m() { this += 1; exit(this) } let x = 41; print(\"yes\"); x.m(); print(\"no\");",
    "let x = 42; let f = || x; print(\"yes\"); exit(x); print(\"no\");",
    "print(\"yes\"); Fn(\"exit\").call(42); print(\"no\");",
    "print(\"yes\"); Fn(\"exit\").curry(42).call(); print(\"no\");",
    "print(\"yes\"); 42.exit(); print(\"no\");",
    "print(\"yes\"); call(Fn(\"exit\"), 42); print(\"no\");",
];

/// Checks a run that executes this many operations at a time; returns its number of operations.
fn done_by(alloc: Global, program: &Program, at_once: u64) -> Option<u64> {
    let mut run = begun(alloc, program)?;
    let outcome = driven(&mut run, program, at_once);
    let is_right = value_of(&run, &outcome) == Some(42)
        && run.take_output().as_str() == "yes\n"
        && run.depth() == 0;
    let behind = run.go(program, at_once);
    if is_right && matches!(&behind, Outcome::Done(_)) && value_of(&run, &behind).is_none() {
        Some(run.operations())
    } else {
        None
    }
}

/// Whether a script ends with 42 after the same operations, however often it pauses.
fn exits(alloc: Global, text: &str) -> Option<bool> {
    let program = compiled(alloc, text)?;
    let whole = done_by(alloc, &program, 1_000_000)?;
    for at_once in 1..4 {
        if done_by(alloc, &program, at_once)? != whole {
            return Some(false);
        }
    }
    Some(true)
}

#[test]
fn a_script_exits_from_anywhere(rt: HostRuntime) {
    for text in SCRIPTS {
        let exits = exits(rt.alloc(), text);
        assert!(rt; exits == Some(true), "{text}");
    }
}

/// Compiles a script for the variables of a scope; it may call `ask(x)` of the host.
fn compiled_for(alloc: Global, scope: &Scope, text: &str) -> Option<Program> {
    let script = parse_with(alloc, text, scope.names()).ok()?;
    let mut host = Vec::new(alloc);
    let name = String::from_str(alloc, "ask").ok()?;
    host.push(HostName {
        name,
        arguments: 1,
        changes: false,
    })
    .ok()?;
    compile(alloc, &script, host.as_slice()).ok()
}

/// Returns the int of the newest variable with a name.
fn int_of(scope: &Scope, name: &str) -> Option<INT> {
    let number = scope.find(name)?;
    scope.get(number)?.as_int(scope.store()).ok()
}

/// The variables of the statements that were done are there, as methods left them.
fn scope_is_whole(alloc: Global) -> Option<bool> {
    let mut scope = Scope::new(alloc);
    scope.push("x", Dynamic::from_int(1)).ok()?;
    let text = "fn inner(n) { this *= n; exit(7) } fn add(n) { this += n; this.inner(10) } \
                let y = 2; { let z = 3; x.add(4); } let w = 5;";
    let program = compiled_for(alloc, &scope, text)?;
    let mut run = Run::over(alloc, &program, &LIMITS, &mut scope).ok()??;
    let outcome = driven(&mut run, &program, 1);
    let value = value_of(&run, &outcome);
    let scope = run.into_scope(&program);
    Some(
        value == Some(7)
            && scope.len() == 2
            && int_of(&scope, "x") == Some(50)
            && int_of(&scope, "y") == Some(2),
    )
}

#[test]
fn the_scope_is_whole_behind_an_exit(rt: HostRuntime) {
    let is_whole = scope_is_whole(rt.alloc());
    assert!(rt; is_whole == Some(true));
}

/// A function exits that the host calls while its own function is called: the run is done.
fn ends_within(alloc: Global, at_once: u64) -> Option<bool> {
    let mut scope = Scope::new(alloc);
    let text = "fn twice(x) { x * 2 } let n = 1; \
                try { ask(|x| { n += x; exit(n) }) } catch (e) { print(e) } let m = 2;";
    let program = compiled_for(alloc, &scope, text)?;
    let mut run = Run::over(alloc, &program, &LIMITS, &mut scope).ok()??;
    let asked = driven(&mut run, &program, at_once);
    let is_asked = matches!(&asked, Outcome::Calls(0));
    let number = run.keep_argument(0).ok()??;
    let is_called = run
        .call_kept(&program, number, &mut ints(alloc, &[4])?)
        .ok()?;
    let outcome = driven(&mut run, &program, at_once);
    let value = value_of(&run, &outcome);
    let waits = run.arguments() > 0 || run.answer(&program, Dynamic::from_int(0)).ok()?;
    let is_free = run.depth() == 0 && !waits;
    let may_call = run.call(&program, "twice", &mut ints(alloc, &[21])?).ok()?;
    let called = driven(&mut run, &program, at_once);
    let second = value_of(&run, &called);
    let scope = run.into_scope(&program);
    let is_right = value == Some(5) && second == Some(42) && int_of(&scope, "n") == Some(5);
    Some(is_asked && is_called && is_free && may_call && is_right && scope.len() == 1)
}

#[test]
fn an_exit_ends_what_waits(rt: HostRuntime) {
    for at_once in [1, 1_000] {
        let ends = ends_within(rt.alloc(), at_once);
        assert!(rt; ends == Some(true));
    }
}

/// A call from outside ends with the value, and another may follow.
fn calls_end(alloc: Global) -> Option<bool> {
    let mut scope = Scope::new(alloc);
    let text = "fn f(x) { [x].map(|y| exit(y + 1)); 0 } let kept = 5;";
    let program = compiled_for(alloc, &scope, text)?;
    let mut run = Run::over(alloc, &program, &LIMITS, &mut scope).ok()??;
    let _unit = driven(&mut run, &program, 1_000);
    for x in 0..3 {
        if !run.call(&program, "f", &mut ints(alloc, &[x])?).ok()? {
            return Some(false);
        }
        let outcome = driven(&mut run, &program, 2);
        if value_of(&run, &outcome) != Some(x + 1) {
            return Some(false);
        }
    }
    let scope = run.into_scope(&program);
    Some(int_of(&scope, "kept") == Some(5))
}

#[test]
fn a_call_from_outside_exits(rt: HostRuntime) {
    let ends = calls_end(rt.alloc());
    assert!(rt; ends == Some(true));
}
