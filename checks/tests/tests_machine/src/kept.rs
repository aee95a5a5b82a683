//! Functions that a host keeps, and calls while the run waits for it, or once it is done.

use crate::host::ints;
use crate::runs::LIMITS;
use rhai_value::{Dynamic, INT};
use script_code::HostName;
use script_engine::{Engine, Step};
use std::alloc::Global;

/// The host functions: `apply` calls its first argument with the second, and `bump` adds one to its
/// argument.
fn names(alloc: Global) -> Option<Vec<HostName>> {
    let mut host = Vec::new(alloc);
    let name = String::from_str(alloc, "apply").ok()?;
    host.push(HostName {
        name,
        arguments: 2,
        changes: false,
    })
    .ok()?;
    let name = String::from_str(alloc, "bump").ok()?;
    host.push(HostName {
        name,
        arguments: 1,
        changes: true,
    })
    .ok()?;
    Some(host)
}

/// Starts a call of the function that `apply` receives.
fn applies(alloc: Global, engine: &mut Engine) -> Option<()> {
    let number = engine.keep_argument(0).ok()??;
    let given = engine.run()?.argument(1)?.as_int(engine.store()).ok()?;
    let called = engine.call_kept(number, &mut ints(alloc, &[given])?).ok()?;
    if called && engine.let_go(number) && !engine.let_go(number) {
        Some(())
    } else {
        None
    }
}

/// Returns from `bump`.
fn bumps(engine: &mut Engine) -> Option<()> {
    let given = engine.run()?.argument(0)?.as_int(engine.store()).ok()?;
    let changed = engine.change(Dynamic::from_int(given.saturating_add(1)));
    let answered = engine
        .answer(Dynamic::from_int(given.saturating_mul(10)))
        .ok()?;
    if changed && answered { Some(()) } else { None }
}

/// Continues by this many operations at a time until the run is done.
fn driven(alloc: Global, engine: &mut Engine, at_once: u64) -> Option<INT> {
    for _ in 0..100_000 {
        match engine.go(at_once) {
            Step::Done => return engine.value().as_int(engine.store()).ok(),
            Step::Paused | Step::Statement => {}
            Step::Calls(0) => applies(alloc, engine)?,
            Step::Calls(_) => bumps(engine)?,
            Step::Answered => {
                let value = engine.value().as_int(engine.store()).ok()?;
                if !engine.answer(Dynamic::from_int(value)).ok()? {
                    return None;
                }
            }
            Step::Refused(_) => {
                let value = engine.value().as_int(engine.store()).ok()?;
                if engine.throw(Dynamic::from_int(value)).is_some() {
                    return None;
                }
            }
            Step::Memory | Step::Fault(_) => return None,
        }
    }
    None
}

/// The value of a script.
fn value_of(alloc: Global, text: &str, at_once: u64) -> Option<INT> {
    let host = names(alloc)?;
    let mut engine = Engine::new(alloc);
    engine.compile(text, &host).ok()?;
    engine.begin(&LIMITS, true).ok()?;
    driven(alloc, &mut engine, at_once)
}

#[test]
fn hosts_call_back(rt: HostRuntime) {
    let alloc = rt.alloc();
    for at_once in [1, 2, 3, 1_000] {
        let text = "let n = 1; let r = apply(|x| { n += x; n * 2 }, 4); r + n";
        assert!(rt; value_of(alloc, text, at_once) == Some(15));
        let text = "fn down(n) { if n == 0 { 0 } else { 1 + apply(Fn(\"down\"), n - 1) } } down(9)";
        assert!(rt; value_of(alloc, text, at_once) == Some(9));
    }
}

#[test]
fn what_is_thrown_within_is_caught_outside(rt: HostRuntime) {
    let alloc = rt.alloc();
    let text = "let n = 0; try { apply(|x| { n += 1; throw x }, 5) } catch (e) { n + e }";
    assert!(rt; value_of(alloc, text, 1) == Some(6));
    let text =
        "let n = 0; try { n += apply(|x| { try { throw x } catch (e) { e * 2 } }, 5); } catch (e) { n = 100 } n";
    assert!(rt; value_of(alloc, text, 1_000) == Some(10));
}

#[test]
fn first_arguments_are_put_back(rt: HostRuntime) {
    let alloc = rt.alloc();
    let text = "let n = 4; let m = n.bump(); m + n + bump(n) + n";
    assert!(rt; value_of(alloc, text, 1) == Some(40 + 5 + 50 + 6));
    let text = "let a = [1, [2]]; a[1][0].bump(); a[1][0] + 3.bump()";
    assert!(rt; value_of(alloc, text, 1_000) == Some(33));
    let text = "const N = 4; bump(N) + N";
    assert!(rt; value_of(alloc, text, 1_000) == Some(44));
    let text = "let n = 4; let f = || n; bump(n) + n";
    assert!(rt; value_of(alloc, text, 1_000) == Some(44));
}

fn a_function_is_kept(alloc: Global) -> Option<bool> {
    let host = names(alloc)?;
    let mut engine = Engine::new(alloc);
    engine.compile("let n = 1; |x| { n += x; n }", &host).ok()?;
    engine.begin(&LIMITS, true).ok()?;
    let mut is_done = false;
    for _ in 0..100 {
        if matches!(engine.go(1_000), Step::Done) {
            is_done = true;
            break;
        }
    }
    let number = engine.keep_value().ok()??;
    engine.end();
    let text = "for i in 0..5000 { let x = i; let f = || x; }";
    engine.compile("let n = 1; |x| { n += x; n }", &host).ok()?;
    engine.begin(&LIMITS, false).ok()?;
    let called = engine.call_kept(number, &mut ints(alloc, &[4])?).ok()?;
    let first = driven(alloc, &mut engine, 1)?;
    let wrong = engine.call_kept(number, &mut []).ok()?;
    engine.end();
    engine.compile(text, &host).ok()?;
    engine.begin(&LIMITS, true).ok()?;
    let _unit = driven(alloc, &mut engine, 1_000_000);
    engine.end();
    let left = engine.scope().get(0)?.as_int(engine.store()).ok()?;
    let is_kept = engine.kept(number).is_some() && engine.let_go(number);
    Some(
        is_done
            && called
            && !wrong
            && first == 5
            && left == 5
            && is_kept
            && engine.kept(number).is_none(),
    )
}

#[test]
fn functions_are_kept(rt: HostRuntime) {
    let is_kept = a_function_is_kept(rt.alloc());
    assert!(rt; is_kept == Some(true));
}
