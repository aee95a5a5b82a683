//! Instructions of workloads, as valgrind counts them.

use crate::rows::{Row, Taken};
use crate::{by_port, by_release};
use std::path::Path;
use std::process::Command;

/// How long the rounds that are counted would take, in nanoseconds.
const COUNTED: f64 = 200_000.0;

/// The sides, by their names among the arguments of this program.
pub const SIDES: [(&str, fn(u32, usize) -> u64); 2] = [("port", by_port), ("release", by_release)];

/// Runs a workload for valgrind: what `counted` starts this program for.
pub fn run_one(side: &str, which: u32, rounds: usize) {
    let workload = SIDES.iter().find(|(name, _)| *name == side).expect("a side").1;
    std::hint::black_box(workload(which, rounds));
}

/// All instructions of this many rounds, and of the code around them.
fn counted(program: &Path, side: &str, which: u32, rounds: usize) -> Option<f64> {
    let mut valgrind = Command::new("valgrind");
    valgrind.args(["--tool=callgrind", "--callgrind-out-file=/dev/null"]).arg(program);
    let output = valgrind.args(["one", side, &which.to_string(), &rounds.to_string()]).output().ok()?;
    let said = String::from_utf8_lossy(&output.stderr).into_owned();
    said.lines().find_map(|line| line.split("Collected :").nth(1)).and_then(|count| count.trim().parse().ok())
}

/// Instructions of a round by a side of a program that takes `one SIDE WHICH ROUNDS`.
#[must_use]
pub fn of_round(program: &Path, side: &str, which: u32, rounds: usize) -> Option<f64> {
    let more = counted(program, side, which, 2 * rounds)? - counted(program, side, which, rounds)?;
    Some(more / rounds as f64)
}

/// Instructions per operation, of the port and of the release; `None` without valgrind.
#[must_use]
pub fn of(row: &Row, taken: &Taken) -> Option<[f64; 2]> {
    let program = std::env::current_exe().ok()?;
    let mut of_sides = [0.0; 2];
    for ((at, (side, _)), nanoseconds) in SIDES.iter().enumerate().zip([taken.port, taken.release]) {
        let rounds = (COUNTED / nanoseconds / row.operations as f64).ceil() as usize;
        of_sides[at] = of_round(&program, side, row.which, rounds)? / row.operations as f64;
    }
    Some(of_sides)
}
