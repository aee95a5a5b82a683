//! Size limits, at each operation that makes or writes a value.

use crate::runs::compiled;
use rhai_text::{EvalAltResult, Limits, SizeKind};
use script_faults::FaultKind;
use script_run::{Outcome, Run};
use script_slots::RunLimits;
use std::alloc::Global;

/// Texts of ten bytes, arrays of five items, maps of five entries.
const SMALL: RunLimits = RunLimits {
    sizes: Limits { text: 10, items: 5 },
    entries: 5,
    output: 0,
    memory: 0,
    operations: u64::MAX,
    calls: 20,
};

/// Which limit a script exceeds.
#[derive(Clone, Copy, PartialEq, Eq)]
enum Past {
    None,
    Text,
    Items,
    Entries,
}

fn past_of(kind: &FaultKind) -> Option<Past> {
    if matches!(kind, FaultKind::TooManyEntries) {
        return Some(Past::Entries);
    }
    let FaultKind::Layer(EvalAltResult::ErrorDataTooLarge(size, _)) = kind else {
        return None;
    };
    match size {
        SizeKind::Text => Some(Past::Text),
        SizeKind::Items => Some(Past::Items),
    }
}

/// Returns which limit a script exceeds, if it is one that runs.
fn limit_passed(alloc: Global, text: &str) -> Option<Past> {
    let program = compiled(alloc, text)?;
    let mut run = Run::new(alloc, &program, &SMALL).ok()?;
    match run.go(&program, 100_000) {
        Outcome::Done(_) => Some(Past::None),
        Outcome::Fault(fault) => past_of(&fault.kind),
        Outcome::Paused
        | Outcome::Statement
        | Outcome::Calls(_)
        | Outcome::Memory
        | Outcome::Answered(_)
        | Outcome::Refused(_) => None,
    }
}

#[test]
fn texts_keep_their_size(rt: HostRuntime) {
    let alloc = rt.alloc();
    let text = "let s = \"0123456789\"; ";
    for (rest, wanted) in [
        ("s[0..1] = \"ab\";", Past::Text),
        ("s[0..2] = \"ab\";", Past::None),
        ("s[0] = 'é';", Past::Text),
        ("s.replace(\"0\", \"ab\");", Past::Text),
        ("s.replace(\"0\", \"a\");", Past::None),
        ("s.replace(\"01\", \"ab\");", Past::None),
        ("s.pad(11, ' ');", Past::Text),
        ("s.replace('0', \"ab\");", Past::Text),
        ("s.replace('0', 'a');", Past::None),
        ("s.remove('0'); s += 'a';", Past::None),
        ("let t = #{ a: \"12345\" }.to_json();", Past::Text),
        ("let t = (-1).to_hex();", Past::Text),
        ("let t = blob(4, 255).as_string();", Past::Text),
        ("s += \"a\";", Past::Text),
        ("let t = s + \"a\";", Past::Text),
        ("let t = [s].to_string();", Past::Text),
        ("let t = s.to_debug();", Past::Text),
        ("let t = s.to_string();", Past::None),
    ] {
        let whole = format!(in alloc; "{text}{rest}").ok();
        let found = match whole {
            Some(whole) => limit_passed(alloc, whole.as_str()),
            None => None,
        };
        assert!(rt; found == Some(wanted));
    }
}

#[test]
fn arrays_keep_their_size(rt: HostRuntime) {
    let alloc = rt.alloc();
    for (text, wanted) in [
        ("let a = [1, 2, 3, 4, 5];", Past::None),
        ("let a = [1, 2, 3, 4, 5, 6];", Past::Items),
        ("let a = \"abcde\".chars();", Past::None),
        ("let a = \"abcdef\".chars();", Past::Items),
        ("let a = \"a,b,c,d,e\".split(\",\");", Past::None),
        ("let a = \"a,b,c,d,,e\".split(\",\");", Past::Items),
        ("let a = \"a,b,c,d,,e\".split(',');", Past::Items),
        ("let a = \"a b c d e\".split();", Past::None),
        ("let a = \"a b c d e f\".split();", Past::Items),
        ("let a = \"a,b,c,d,,e\".split_rev(',');", Past::Items),
        ("let a = \"a,b,c,d,,e\".split(',', 5);", Past::None),
        ("let b = \"abcdef\".to_blob();", Past::Items),
        ("let a = (5).bits;", Past::Items),
        // there is an empty text before and after the characters
        ("let a = \"abc\".split(\"\");", Past::None),
        ("let a = \"abcd\".split(\"\");", Past::Items),
        ("let a = [1, 2, 3]; a += [4, 5];", Past::None),
        ("let a = [1, 2, 3]; a += a;", Past::Items),
        ("let a = [1, 2, 3] + [4, 5, 6];", Past::Items),
    ] {
        let found = limit_passed(alloc, text);
        assert!(rt; found == Some(wanted));
    }
}

#[test]
fn maps_keep_their_size(rt: HostRuntime) {
    let alloc = rt.alloc();
    let map = "let m = #{a: 1, b: 2, c: 3, d: 4, e: 5}; ";
    for (rest, wanted) in [
        ("m.e = 6; m[\"e\"] = 7; m.set(\"e\", 8);", Past::None),
        ("m.f = 6;", Past::Entries),
        ("m.f += \"x\";", Past::Entries),
        ("m.set(\"f\", 6);", Past::Entries),
        ("let n = m + #{a: 6, e: 7};", Past::None),
        ("let n = m + #{f: 6};", Past::Entries),
        ("m += #{a: 6, e: 7};", Past::None),
        ("m += #{e: 6, f: 7};", Past::Entries),
        ("m.mixin(#{f: 6});", Past::Entries),
        ("m.fill_with(#{f: 6});", Past::Entries),
        (
            "let n = #{a: 1, b: 2, c: 3, d: 4, e: 5, f: 6};",
            Past::Entries,
        ),
        ("let k = m.keys(); let v = m.values();", Past::None),
    ] {
        let whole = format!(in alloc; "{map}{rest}").ok();
        let found = match whole {
            Some(whole) => limit_passed(alloc, whole.as_str()),
            None => None,
        };
        assert!(rt; found == Some(wanted));
    }
}
