//! Random scripts that call functions of the program, which call back, panic and keep functions; in pieces of random sizes, dropped half way, and
//! continued on another thread.
//!
//! `RHAI_WORLD_RUNS` says how many trials are done, and `RHAI_WORLD_SEED` with which one they begin: a trial that failed is repeated by its
//! seed alone.
mod functions;
mod random;
mod scripts;
mod trial;

use random::Random;
use std::collections::BTreeMap;
use std::ops::Range;
use std::panic::{catch_unwind, resume_unwind, AssertUnwindSafe};
use trial::{End, Trial};

fn number(variable: &str, default: u64) -> u64 {
    std::env::var(variable).ok().and_then(|word| word.parse().ok()).unwrap_or(default)
}

/// Returns the seeds of the trials; of one in so many, for slower ones.
fn seeds(one_in: u64) -> Range<u64> {
    let (runs, seed) = (number("RHAI_WORLD_RUNS", 300), number("RHAI_WORLD_SEED", 1));
    seed..seed + runs.div_ceil(one_in)
}

/// Does a trial; shows its scripts if it panics.
fn shown<T>(seed: u64, work: impl FnOnce(&Trial, &mut Random) -> T) -> T {
    let mut random = Random::new(seed);
    let trial = Trial::new(&mut random);
    catch_unwind(AssertUnwindSafe(|| work(&trial, &mut random))).unwrap_or_else(|panic| {
        eprintln!("with RHAI_WORLD_SEED={seed}:\n{}\n--- then:\n{}", trial.first.text(), trial.second.text());
        resume_unwind(panic);
    })
}

/// The seeds of trials that failed once: of a function that fails where a run in pieces owes operations.
const FAILED: [u64; 2] = [20_004_805, 10_117_188];

#[test]
fn the_same_script_does_the_same() {
    let mut ends = BTreeMap::new();
    for seed in FAILED.into_iter().chain(seeds(1)) {
        let outcome = shown(seed, Trial::run);
        let end = name_of(&outcome.end);
        assert!(end != "Failed Unexpected" && end != "Failed Syntax", "seed {seed}: {outcome:?}");
        *ends.entry(end).or_insert(0) += 1;
    }
    println!("{ends:?}");
}

#[test]
fn what_a_script_leaves_is_freed() {
    for seed in seeds(100) {
        shown(seed, |trial, _| trial.repeat(120));
    }
}

#[cfg(feature = "faults")]
#[test]
fn after_a_failed_allocation_the_scope_goes_on() {
    for seed in seeds(4) {
        shown(seed, Trial::refuse);
    }
}

/// Names an end, to count such ends.
fn name_of(end: &End) -> String {
    let text = format!("{end:?}");
    let words = text.split(|letter: char| !letter.is_alphanumeric());
    words.take(if text.starts_with("Failed") { 2 } else { 1 }).collect::<Vec<_>>().join(" ")
}
