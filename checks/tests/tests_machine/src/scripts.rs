//! Scripts as texts, run to their end in one call.

use rhai_text::{Limits, Position};
use script_run::{ScriptError, ScriptLimits, run_script};
use std::alloc::Global;

/// What each script may use.
const LIMITS: ScriptLimits = ScriptLimits {
    sizes: Limits {
        text: 1_000,
        items: 1_000,
    },
    entries: 100,
    output: 100,
    memory: 0,
    operations: 100,
    calls: 20,
};

/// A script appends to the output, and adds to the number of operations; so does one that fails.
fn goes_on(alloc: Global) -> Option<bool> {
    let mut out = String::from_str(alloc, "0\n").ok()?;
    let mut operations = 50;
    let done = run_script(alloc, "print(1);", &mut out, &LIMITS, &mut operations);
    let taken = operations;
    let text = "print(2);\nprint([1][2]);";
    let failed = run_script(alloc, text, &mut out, &LIMITS, &mut operations);
    let is_placed = match failed {
        Err(ScriptError::Fault(message, place, _)) => {
            message.as_str() == "index 2 out of range of 1" && place == Position::new(2, 11)
        }
        Ok(()) | Err(_) => false,
    };
    let is_counted = taken > 50 && operations > taken && operations < 100;
    Some(done.is_ok() && is_placed && is_counted && out.as_str() == "0\n1\n2\n")
}

#[test]
fn a_script_goes_on_with_what_is_given(rt: HostRuntime) {
    let goes_on = goes_on(rt.alloc());
    assert!(rt; goes_on == Some(true));
}

/// A script that begins with all operations used does nothing; its position is its beginning.
fn is_limited(alloc: Global) -> bool {
    let mut out = String::new(alloc);
    let mut operations = 100;
    let ended = run_script(alloc, "print(1);", &mut out, &LIMITS, &mut operations);
    let is_told = match ended {
        Err(ScriptError::Fault(message, place, _)) => {
            message.as_str() == "too many operations" && place == Position::new(1, 1)
        }
        Ok(()) | Err(_) => false,
    };
    is_told && out.is_empty() && operations == 100
}

#[test]
fn operations_that_were_taken_before_count(rt: HostRuntime) {
    let is_limited = is_limited(rt.alloc());
    assert!(rt; is_limited);
}

/// More variables than a slot can address. The text has 6 times 65,536 bytes, which are 6,144
/// operations.
fn is_too_large(alloc: Global) -> Option<bool> {
    let mut text = String::new(alloc);
    for _ in 0..65_536 {
        text.push_str("let a;").ok()?;
    }
    let limits = ScriptLimits {
        sizes: LIMITS.sizes,
        entries: LIMITS.entries,
        output: LIMITS.output,
        memory: LIMITS.memory,
        operations: 10_000,
        calls: LIMITS.calls,
    };
    let mut out = String::new(alloc);
    let mut operations = 0;
    let ended = run_script(alloc, text.as_str(), &mut out, &limits, &mut operations);
    let is_told = match ended {
        Err(ScriptError::TooLarge(place)) => place == Position::new(1, 1),
        Ok(()) | Err(_) => false,
    };
    Some(is_told && operations == 6_144)
}

#[test]
fn a_script_of_very_many_variables_is_too_large(rt: HostRuntime) {
    let is_too_large = is_too_large(rt.alloc());
    assert!(rt; is_too_large == Some(true));
}

/// 6,410 bytes are 100 operations, of which 99 are left: the text isn't compiled, and none counts.
fn is_text_counted(alloc: Global) -> Option<bool> {
    let mut text = String::new(alloc);
    for _ in 0..640 {
        text.push_str("          ").ok()?;
    }
    text.push_str("print(1);\n").ok()?;
    let mut out = String::new(alloc);
    let mut operations = 1;
    let ended = run_script(alloc, text.as_str(), &mut out, &LIMITS, &mut operations);
    let is_told = match ended {
        Err(ScriptError::Fault(message, place, _)) => {
            message.as_str() == "too many operations" && place == Position::new(1, 1)
        }
        Ok(()) | Err(_) => false,
    };
    Some(is_told && out.is_empty() && operations == 1)
}

#[test]
fn a_text_counts_before_it_is_read(rt: HostRuntime) {
    let is_counted = is_text_counted(rt.alloc());
    assert!(rt; is_counted == Some(true));
}

/// An error has the active functions, the innermost first: the script itself is the last.
fn has_calls(alloc: Global) -> bool {
    let mut out = String::new(alloc);
    let mut operations = 0;
    let text = "fn f(a) {\n  a[1]\n}\nfn g(a) {\n  let b = f(a);\n  b\n}\ng([0]);";
    match run_script(alloc, text, &mut out, &LIMITS, &mut operations) {
        Err(ScriptError::Fault(_, place, calls)) => {
            let expected = [("f", 2), ("g", 5), ("", 8)];
            let mut is_right = place.line() == 2 && calls.len() == expected.len();
            for (call, (name, line)) in calls.iter().zip(expected.iter()) {
                if call.function.as_str() != *name || call.position.line() != *line {
                    is_right = false;
                }
            }
            is_right
        }
        Ok(()) | Err(_) => false,
    }
}

#[test]
fn an_error_has_the_active_functions(rt: HostRuntime) {
    let has_calls = has_calls(rt.alloc());
    assert!(rt; has_calls);
}
