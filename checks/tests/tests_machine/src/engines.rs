//! Engines: variables, scripts and runs as a host keeps them, and values from bytes.

use crate::host::ints;
use crate::runs::LIMITS;
use rhai_value::{Dynamic, INT};
use script_code::HostName;
use script_engine::{Engine, Step, Unread, read_value};
use std::alloc::Global;

/// The host function `ask`, with one argument.
fn asked(alloc: Global) -> Option<Vec<HostName>> {
    let mut host = Vec::new(alloc);
    let name = String::from_str(alloc, "ask").ok()?;
    host.push(HostName {
        name,
        arguments: 1,
        changes: false,
    })
    .ok()?;
    Some(host)
}

/// Continues the run; returns twice the argument for each call.
fn driven(engine: &mut Engine) -> Option<INT> {
    for _ in 0..1_000 {
        match engine.go(10) {
            Step::Done => return engine.value().as_int(engine.store()).ok(),
            Step::Paused | Step::Statement => {}
            Step::Calls(_) => {
                let given = engine.run()?.argument(0)?.as_int(engine.store()).ok()?;
                let _taken = engine
                    .answer(Dynamic::from_int(given.saturating_mul(2)))
                    .ok()?;
            }
            Step::Memory | Step::Fault(_) | Step::Answered | Step::Refused(_) => return None,
        }
    }
    None
}

fn an_engine_is_used(alloc: Global) -> Option<bool> {
    let host = asked(alloc)?;
    let mut engine = Engine::new(alloc);
    engine
        .scope_mut()
        .push("stock", Dynamic::from_int(20))
        .ok()?;
    engine
        .compile(
            "fn twice(x) { ask(x) } stock += 1; let y = twice(stock); y",
            &host,
        )
        .ok()?;
    let begun = engine.begin(&LIMITS, true).ok()?;
    let first = driven(&mut engine)?;
    let called = engine.call("twice", &mut ints(alloc, &[4])?).ok()?;
    let second = driven(&mut engine)?;
    engine.end();
    let left = engine.scope().get(0)?.as_int(engine.store()).ok()?;
    let is_right = begun && called && first == 42 && second == 8 && left == 21;
    let again = engine.begin(&LIMITS, true).ok()?;
    Some(is_right && !again && engine.scope().len() == 2)
}

#[test]
fn variables_functions_and_answers(rt: HostRuntime) {
    let is_used = an_engine_is_used(rt.alloc());
    assert!(rt; is_used == Some(true));
}

/// `[7, #{"k": "t"}]` as bytes: the kind of a value first, then its number of parts.
const BYTES: [u8; 47] = [
    5, 2, 0, 0, 0, 0, 0, 0, 0, 4, 7, 0, 0, 0, 0, 0, 0, 0, 7, 1, 0, 0, 0, 0, 0, 0, 0, 1, 0, 0, 0, 0,
    0, 0, 0, b'k', 2, 1, 0, 0, 0, 0, 0, 0, 0, b't', 0,
];

fn a_value_is_read(alloc: Global) -> Option<bool> {
    let value = read_value(alloc, &BYTES[..46]).ok()?;
    let engine = Engine::new(alloc);
    let items = value.as_array_ref(engine.store()).ok()?;
    let seven = items.get(0)?.as_int(engine.store()).ok()?;
    let field = items.get(1)?.as_map_ref(engine.store()).ok()?.get("k")?;
    let text = field.as_immutable_string_ref(engine.store()).ok()?;
    Some(items.len() == 2 && seven == 7 && text.as_str() == "t")
}

#[test]
fn values_are_read_of_bytes(rt: HostRuntime) {
    let is_read = a_value_is_read(rt.alloc());
    assert!(rt; is_read == Some(true));
}

/// Bytes that are cut short, continue, or name no kind are not those of a value.
#[test]
fn other_bytes_are_no_value(rt: HostRuntime) {
    let alloc = rt.alloc();
    for end in 0..46 {
        let is_refused = matches!(read_value(alloc, &BYTES[..end]), Err(Unread::Form));
        assert!(rt; is_refused);
    }
    let goes_on = matches!(read_value(alloc, &BYTES), Err(Unread::Form));
    let no_kind = matches!(read_value(alloc, &[10]), Err(Unread::Form));
    let too_many = matches!(
        read_value(alloc, &[5, 255, 255, 255, 255, 255, 255, 255, 255]),
        Err(Unread::Form)
    );
    assert!(rt; goes_on && no_kind && too_many);
}

/// What `call_at_once` returns: nothing for a script with statements, an unknown function and too
/// few operations; then a value, another one of a run that starts again, and a pause.
fn at_once(alloc: Global) -> Option<bool> {
    let mut engine = Engine::new(alloc);
    engine.compile("fn sum(x, y) { x + y } 1", &[]).ok()?;
    let body = engine
        .call_at_once(&LIMITS, "sum", &mut ints(alloc, &[3, 4])?, 100)
        .ok()?;
    engine
        .compile("fn sum(x, y) { x + y } fn endless() { loop {} }", &[])
        .ok()?;
    let unknown = engine
        .call_at_once(&LIMITS, "sum", &mut ints(alloc, &[3])?, 100)
        .ok()?;
    let few = engine
        .call_at_once(&LIMITS, "sum", &mut ints(alloc, &[3, 4])?, 2)
        .ok()?;
    let none = body.is_none() && unknown.is_none() && few.is_none() && engine.run().is_none();
    let done = engine
        .call_at_once(&LIMITS, "sum", &mut ints(alloc, &[3, 4])?, 100)
        .ok()?;
    let operations = engine.run()?.operations();
    let sum = engine.value().as_int(engine.store()).ok()?;
    let more = engine
        .call_at_once(&LIMITS, "sum", &mut ints(alloc, &[30, 4])?, 100)
        .ok()?;
    let is_more = matches!(more, Some(Step::Done))
        && engine.value().as_int(engine.store()).ok()? == 34
        && engine.run()?.operations() == operations;
    let again = engine
        .call_at_once(&LIMITS, "endless", &mut ints(alloc, &[])?, 100)
        .ok()?;
    let is_done = matches!(done, Some(Step::Done)) && sum == 7;
    let is_paused = matches!(again, Some(Step::Paused)) && engine.run()?.operations() == 100;
    Some(none && is_done && is_more && is_paused)
}

#[test]
fn a_function_is_called_at_once(rt: HostRuntime) {
    let is_called = at_once(rt.alloc());
    assert!(rt; is_called == Some(true));
}

/// A run that starts again has the variables until it ends, and reads what it wrote before.
fn at_once_over_variables(alloc: Global) -> Option<bool> {
    let mut engine = Engine::new(alloc);
    engine.scope_mut().push("n", Dynamic::from_int(1)).ok()?;
    engine
        .compile("fn kept(x) { let f = || x; f.call() }", &[])
        .ok()?;
    let mut values = Vec::new(alloc);
    for number in 0..3 {
        engine
            .call_at_once(&LIMITS, "kept", &mut ints(alloc, &[number])?, 100)
            .ok()?;
        values
            .push(engine.value().as_int(engine.store()).ok()?)
            .ok()?;
    }
    let is_away = engine.scope().is_empty();
    engine.end();
    let n = engine.scope().get(0)?.as_int(engine.store()).ok()?;
    Some(
        values.as_slice() == [0, 1, 2].as_slice() && is_away && n == 1 && engine.scope().len() == 1,
    )
}

#[test]
fn runs_that_start_again_keep_the_variables(rt: HostRuntime) {
    let is_kept = at_once_over_variables(rt.alloc());
    assert!(rt; is_kept == Some(true));
}
