//! Sorting by a function of the script.

use crate::runs::{begun, compiled, driven};
use script_run::Outcome;
use std::alloc::Global;

/// Returns what a script prints that is done, executed this many operations at a time.
fn printed(alloc: Global, text: &str, at_once: u64) -> Option<String> {
    let program = compiled(alloc, text)?;
    let mut run = begun(alloc, &program)?;
    match driven(&mut run, &program, at_once) {
        Outcome::Done(_) => Some(run.take_output()),
        Outcome::Paused
        | Outcome::Statement
        | Outcome::Calls(_)
        | Outcome::Memory
        | Outcome::Fault(_)
        | Outcome::Answered(_)
        | Outcome::Refused(_) => None,
    }
}

fn prints(alloc: Global, text: &str, wanted: &str) -> bool {
    for at_once in [1, 5, 1_000_000] {
        match printed(alloc, text, at_once) {
            Some(out) if out.as_str() == wanted => {}
            Some(_) | None => return false,
        }
    }
    true
}

#[test]
fn equal_items_keep_their_order(rt: HostRuntime) {
    let text = "
        let a = [[2, 0], [1, 1], [2, 2], [0, 3], [1, 4], [2, 5], [0, 6]];
        a.sort(|x, y| x[0] - y[0]);
        print(a);
    ";
    let wanted = "[[0, 3], [0, 6], [1, 1], [1, 4], [2, 0], [2, 2], [2, 5]]\n";
    let is_stable = prints(rt.alloc(), text, wanted);
    assert!(rt; is_stable);
}

#[test]
fn few_items_are_sorted(rt: HostRuntime) {
    let text = "
        let none = []; none.sort(|x, y| x - y); print(none);
        let one = [1]; one.sort(|x, y| x - y); print(one);
        let two = [2, 1]; two.sort(|x, y| x - y); print(two);
        let three = [3, 2, 1]; three.sort(|x, y| x - y); print(three);
    ";
    let is_sorted = prints(rt.alloc(), text, "[]\n[1]\n[1, 2]\n[1, 2, 3]\n");
    assert!(rt; is_sorted);
}

/// Eight items in order are compared four times in each of three passes.
#[test]
fn items_in_order_are_compared_least(rt: HostRuntime) {
    let text = "
        let n = 0;
        let a = [1, 2, 3, 4, 5, 6, 7, 8];
        a.sort(|x, y| { n += 1; x - y });
        print(n);
        print(a);
    ";
    let is_least = prints(rt.alloc(), text, "12\n[1, 2, 3, 4, 5, 6, 7, 8]\n");
    assert!(rt; is_least);
}

/// Whatever the function returns, the result contains each item once: 1 to 11 add up to 66.
#[test]
fn a_function_that_lies_loses_nothing(rt: HostRuntime) {
    let text = "
        let k = 1;
        let a = [1, 2, 3, 4, 5, 6, 7, 8, 9, 10, 11];
        a.sort(|x, y| { k = (k * 7 + 3) % 11; k - 5 });
        print(a.reduce(|sum, x| sum + x, 0));
        print(a.len());
        let b = [1, 2, 3];
        b.sort(|x, y| -1);
        print(b.contains(1) && b.contains(2) && b.contains(3));
    ";
    let is_whole = prints(rt.alloc(), text, "66\n11\ntrue\n");
    assert!(rt; is_whole);
}
