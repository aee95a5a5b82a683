//! Variables as receivers of calls that don't complete.

use crate::runs::LIMITS;
use rhai_value::{Dynamic, INT};
use script_code::{Program, compile};
use script_run::{Run, Scope};
use script_syntax::parse_with;
use std::alloc::Global;

/// Compiles a script for the variables of a scope.
fn compiled_for(alloc: Global, scope: &Scope, text: &str) -> Option<Program> {
    let script = parse_with(alloc, text, scope.names()).ok()?;
    compile(alloc, &script, &[]).ok()
}

/// Returns the variable `x`, which begins with 1, after this many operations of a script.
fn x_behind(alloc: Global, text: &str, operations: u64) -> Option<INT> {
    let mut scope = Scope::new(alloc);
    scope.push("x", Dynamic::from_int(1)).ok()?;
    let program = compiled_for(alloc, &scope, text)?;
    let mut run = Run::over(alloc, &program, &LIMITS, &mut scope).ok()??;
    let _outcome = run.go(&program, operations);
    let scope = run.into_scope(&program);
    scope.get(scope.find("x")?)?.as_int(scope.store()).ok()
}

#[test]
fn a_variable_has_its_value_behind_a_call_that_was_left(rt: HostRuntime) {
    let left = x_behind(
        rt.alloc(),
        "fn add(n) { this += n; loop { } } x.add(4)",
        200,
    );
    assert!(rt; left == Some(5));
}

#[test]
fn a_variable_has_its_value_behind_a_call_that_failed(rt: HostRuntime) {
    let failed = x_behind(
        rt.alloc(),
        "fn inner(n) { this *= n; throw 1 } fn add(n) { this += n; this.inner(10) } x.add(4)",
        200,
    );
    assert!(rt; failed == Some(50));
}

#[test]
fn a_variable_has_its_value_at_each_operation(rt: HostRuntime) {
    let text = "fn add(n) { this += n; this } let y = x.add(4); y";
    for operations in 0..20 {
        let x = x_behind(rt.alloc(), text, operations);
        assert!(rt; x == Some(1) || x == Some(5));
    }
}
