//! Limits on the bytes that a run may hold.

use crate::runs::{LIMITS, compiled, driven, is_told, value_of};
use rhai_value::INT;
use script_faults::FaultKind;
use script_run::{Outcome, Run};
use script_slots::RunLimits;
use std::alloc::Global;

/// Makes the limits of a run that may hold this many bytes.
fn limited(memory: u64) -> RunLimits {
    RunLimits {
        sizes: LIMITS.sizes,
        entries: LIMITS.entries,
        output: 0,
        memory,
        operations: 1_000_000,
        calls: 10_000,
    }
}

/// Returns the int that a script ends with if it may hold this many bytes, or `None` if it ends
/// with a fault.
fn value_within(alloc: Global, text: &str, memory: u64, at_once: u64) -> Option<INT> {
    let program = compiled(alloc, text)?;
    let mut run = Run::new(alloc, &program, &limited(memory)).ok()?;
    let outcome = driven(&mut run, &program, at_once);
    value_of(&run, &outcome)
}

/// Whether a script ends because it would hold more than this many bytes.
fn holds_too_much(alloc: Global, text: &str, memory: u64) -> Option<bool> {
    let program = compiled(alloc, text)?;
    let mut run = Run::new(alloc, &program, &limited(memory)).ok()?;
    let outcome = driven(&mut run, &program, 100);
    let is_ended = match &outcome {
        Outcome::Fault(fault) => matches!(&fault.kind, FaultKind::TooMuchMemory),
        Outcome::Done(_)
        | Outcome::Paused
        | Outcome::Statement
        | Outcome::Calls(_)
        | Outcome::Memory
        | Outcome::Answered(_)
        | Outcome::Refused(_) => false,
    };
    let is_over = matches!(run.go(&program, 100), Outcome::Done(_));
    Some(is_ended && is_over)
}

/// The text doubles until it may not: that is told at the operator, however few operations are done
/// at a time, and after as many operations.
fn is_told_at_its_place(alloc: Global) -> Option<bool> {
    let text = "let s = \"x\";\nloop { s += s; }";
    let program = compiled(alloc, text)?;
    let mut counts = Vec::new(alloc);
    for at_once in [1, 2, 7, 100, u64::MAX] {
        let mut limits = limited(10_000);
        limits.sizes.text = 0;
        let mut run = Run::new(alloc, &program, &limits).ok()?;
        let outcome = driven(&mut run, &program, at_once);
        if !is_told(alloc, &run, &outcome, "too much memory at 2:10") {
            return Some(false);
        }
        counts.push(run.operations()).ok()?;
    }
    let first = counts.first().copied()?;
    Some(counts.iter().all(|count| *count == first))
}

#[test]
fn a_run_that_would_hold_too_much_ends_at_its_operation(rt: HostRuntime) {
    assert!(rt; is_told_at_its_place(rt.alloc()) == Some(true));
}

#[test]
fn what_is_given_up_does_not_count(rt: HostRuntime) {
    let text = "let n = 0; for i in 0..2000 { let a = [i, i]; n += a.len(); } n";
    for at_once in [1, 100, u64::MAX] {
        assert!(rt; value_within(rt.alloc(), text, 50_000, at_once) == Some(4_000));
    }
}

#[test]
fn unreachable_cycles_do_not_count(rt: HostRuntime) {
    let text = "let n = 0; for i in 0..500 { let a = []; let f = || a; a.push(f); n += 1; } n";
    assert!(rt; value_within(rt.alloc(), text, 50_000, 100) == Some(500));
}

#[test]
fn a_run_may_hold_half(rt: HostRuntime) {
    // 100 items of 48 bytes, with free room for as many
    let text = "let a = []; for i in 0..100 { a.push(i); } for i in 0..2000 { a.len(); } a.len()";
    assert!(rt; value_within(rt.alloc(), text, 50_000, 100) == Some(100));
    assert!(rt; holds_too_much(rt.alloc(), text, 5_000) == Some(true));
}

#[test]
fn each_way_to_hold_more_ends(rt: HostRuntime) {
    let texts = [
        "let a = []; loop { a.push(1); }",
        "let a = []; loop { a = [a]; }",
        "let a = []; a.pad(1000, 1);",
        "let m = #{}; let i = 0; loop { m[i.to_string()] = i; i += 1; if i > 90 { m = #{m: m}; i = 0; } }",
        "let a = [1]; let b = []; loop { let f = || a; b.push(f); let a = [b.len()]; }",
        "fn f(n) { let a = [n]; f(n + 1) } f(0);",
        "let a = []; try { loop { a.push([1]); } } catch (e) { 1 }",
        "let a = [1, 2]; loop { a.append(a); }",
    ];
    for text in texts {
        assert!(rt; holds_too_much(rt.alloc(), text, 40_000) == Some(true));
    }
}
