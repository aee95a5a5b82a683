//! Functions that take a callback of the script: with pauses inside them, and with refused sizes
//! and types.

use crate::runs::{begun, compiled, driven};
use script_run::Outcome;
use std::alloc::Global;

/// Returns what a script prints that is done, executed this many operations at a time.
fn printed(alloc: Global, text: &str, at_once: u64) -> Option<String> {
    let program = compiled(alloc, text)?;
    let mut run = begun(alloc, &program)?;
    match driven(&mut run, &program, at_once) {
        Outcome::Done(_) => Some(run.take_output()),
        Outcome::Paused
        | Outcome::Statement
        | Outcome::Calls(_)
        | Outcome::Memory
        | Outcome::Fault(_)
        | Outcome::Answered(_)
        | Outcome::Refused(_) => None,
    }
}

fn prints(alloc: Global, text: &str, wanted: &str) -> bool {
    for at_once in [1, 7, 1_000_000] {
        match printed(alloc, text, at_once) {
            Some(out) if out.as_str() == wanted => {}
            Some(_) | None => return false,
        }
    }
    true
}

#[test]
fn a_run_pauses_within_searches(rt: HostRuntime) {
    let text = "
        let n = 0;
        let a = [5, 6, 7, 8];
        print(a.find(|x| { n += 1; x > 6 }));
        print(a.find_map(|x| { n += 1; if x == 6 { \"six\" } }));
        print(a.index_of(|x| { n += 1; x == 8 }));
        print(a.zip([1, 2, 3, 4, 5], |x, y| { n += 1; x * y }));
        print(a.reduce_rev(|s, x| { n += 1; s * 10 + x }, 0));
        print(n);
    ";
    // 3, 2, 4, 4 and 4 calls
    let is_right = prints(rt.alloc(), text, "7\nsix\n3\n[5, 12, 21, 32]\n8765\n17\n");
    assert!(rt; is_right);
}

#[test]
fn a_run_pauses_within_changes(rt: HostRuntime) {
    let text = "
        let a = [1, 2, 3, 4, 5];
        print(a.drain(|x| x % 2 == 1));
        print(a);
        print(a.retain(|x, i| i == 1));
        print(a);
        let d = [1, 3, 2, 8, 9];
        d.dedup(|x, y| x % 2 == y % 2);
        print(d);
        let m = #{ a: 1, b: 2, c: 3 };
        print(m.drain(|k, v| v > 2).keys());
        print(m.retain(|k| k == \"b\").keys());
        print(m.filter(|k, v| true).keys());
    ";
    let wanted = "[1, 3, 5]\n[2, 4]\n[2]\n[4]\n[1, 2, 9]\n[\"c\"]\n[\"a\"]\n[\"b\"]\n";
    let is_right = prints(rt.alloc(), text, wanted);
    assert!(rt; is_right);
}

#[test]
fn functions_of_the_packages_are_called_by_pointers(rt: HostRuntime) {
    let text = "
        print(Fn(\"max\").call(2, 5));
        print([\"b\", \"a\"].map(Fn(\"to_upper\")));
        let least = Fn(\"min\").curry(3);
        print([1, 5].map(least));
        Fn(\"print\").call(7);
    ";
    let is_right = prints(rt.alloc(), text, "5\n[\"B\", \"A\"]\n[1, 3]\n7\n");
    assert!(rt; is_right);
}

/// Returns the message of the fault that ends a script, if one does.
fn refusal(alloc: Global, text: &str) -> Option<String> {
    let program = compiled(alloc, text)?;
    let mut run = begun(alloc, &program)?;
    match driven(&mut run, &program, 1_000_000) {
        Outcome::Fault(fault) => fault.kind.message(alloc, run.store()).ok(),
        Outcome::Done(_)
        | Outcome::Paused
        | Outcome::Statement
        | Outcome::Calls(_)
        | Outcome::Memory
        | Outcome::Answered(_)
        | Outcome::Refused(_) => None,
    }
}

#[test]
fn refusals_name_what_scripts_see(rt: HostRuntime) {
    let alloc = rt.alloc();
    for (text, wanted) in [
        ("1 / 0;", "division by zero"),
        (
            "\"a\".split(1, 2, 3);",
            "function not found: split (3 arguments)",
        ),
        (
            "split(\"a\", 1, 2, 3);",
            "function not found: split (4 arguments)",
        ),
        (
            "\"a\".truncate(1..2);",
            "data type mismatch: expected i64, found range",
        ),
        ("(1..2)[0];", "no such part of a value of type range"),
        ("[1].find(5);", "data type mismatch: expected Fn, found i64"),
        (
            "(5).map(|x| x);",
            "data type mismatch: expected array, found i64",
        ),
        (
            "Fn(\"nowhere\").call(1);",
            "function not found: nowhere (1 arguments)",
        ),
        (
            "let a = [1, 2]; a.sort(|x, y| { a.push(1); 0 });",
            "data race",
        ),
        ("let x = 5; x.get_bit(64);", "index 64 out of range of 64"),
        ("[].nothing;", "no such part of a value of type array"),
    ] {
        let found = refusal(alloc, text);
        let is_right = match found {
            Some(found) => found.as_str() == wanted,
            None => false,
        };
        if !is_right {
            let _told = println!(rt; "{text}");
        }
        assert!(rt; is_right);
    }
}
