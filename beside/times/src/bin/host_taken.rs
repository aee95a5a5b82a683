//! Measures commands from Rust, by the crate `rhai-world`, beside `apply` in Rattle and beside the same machine over the released files.
//!
//! Usage: host_taken PAGE HOST_TIMES TURNS: HOST_TIMES is the program of the package of this name, in which alone the crate's library is linked.

use std::fmt::Write as _;
use std::path::Path;
use std::process::Command;
use times::page::{number, with_part};
use times::rows::{calibrated, timed};
use times::{by_port, by_release, instructions};

/// What a row does, and how many commands a round of it has.
const ROWS: [(&str, u64); 5] = [
    ("put, copy, drop", 1024),
    ("write, ask a shared int", 1024),
    ("push, get, rewind", 1536),
    ("show an int", 1024),
    ("add, add to", 1792),
];

const HOST_SIDES: [&str; 2] = ["methods", "commands"];

/// The time of this many rounds from Rust, and their checksum.
fn from_rust(program: &Path, side: &str, kind: u32, rounds: usize) -> (u64, u64) {
    let output = Command::new(program).args(["time", side, &kind.to_string(), &rounds.to_string()]).output().expect("host_times");
    let said = String::from_utf8(output.stdout).expect("numbers");
    let (taken, sum) = said.trim().split_once(' ').expect("two numbers");
    (taken.parse().expect("a number"), sum.parse().expect("a number"))
}

/// Nanoseconds a command: `apply`, the released files, the methods, and `Command` with `Answer`; and whether all checksums agree.
fn measured(program: &Path, kind: u32, commands: u64, turns: usize) -> ([f64; 4], bool) {
    let which = 1000 + kind;
    let rounds = calibrated(by_port, which);
    let (mut least, mut agrees) = ([u64::MAX; 4], true);
    for _ in 0..turns {
        let set_ups = [timed(by_port, which, 0).0, timed(by_release, which, 0).0];
        let (port, sum) = timed(by_port, which, rounds);
        let (release, of_release) = timed(by_release, which, rounds);
        let [methods, listed] = HOST_SIDES.map(|side| from_rust(program, side, kind, rounds));
        agrees &= [of_release, methods.1, listed.1] == [sum; 3];
        let taken = [port.saturating_sub(set_ups[0]), release.saturating_sub(set_ups[1]), methods.0, listed.0];
        least = std::array::from_fn(|at| least[at].min(taken[at].max(1)));
    }
    (least.map(|taken| taken as f64 / rounds as f64 / commands as f64), agrees)
}

/// Instructions of the methods and of `Command` with `Answer` to those of `apply`, or dashes.
fn instruction_ratios(program: &Path, kind: u32) -> String {
    let of_apply = std::env::current_exe().ok().and_then(|this| instructions::of_round(&this, "port", 1000 + kind, 20));
    let ratio = |side| {
        let of_side = instructions::of_round(program, side, kind, 20)?;
        Some(format!("{:.2}", of_side / of_apply?))
    };
    HOST_SIDES.map(|side| ratio(side).unwrap_or("-".into())).join(" | ")
}

fn table(program: &Path, turns: usize) -> String {
    let mut text = String::from("| commands | `apply` ns | rhai ns | methods ns | to `apply` | `Command` ns | to `apply` | methods, instructions | `Command` |\n");
    text.push_str("|---|---|---|---|---|---|---|---|---|\n");
    for (kind, (name, commands)) in (0..).zip(ROWS) {
        let ([apply, release, methods, listed], agrees) = measured(program, kind, commands, turns);
        let note = if agrees { "" } else { " CHECKSUMS DIFFER" };
        let [apply_ns, release, methods_ns, listed_ns] = [apply, release, methods, listed].map(number);
        let ratios = instruction_ratios(program, kind);
        let (by_methods, by_commands) = (methods / apply, listed / apply);
        let _ = writeln!(text, "| {name}{note} | {apply_ns} | {release} | {methods_ns} | {by_methods:.2} | {listed_ns} | {by_commands:.2} | {ratios} |");
    }
    text
}

fn main() {
    let args: Vec<String> = std::env::args().collect();
    if let [_, one, side, which, rounds] = args.as_slice() {
        if one == "one" {
            return instructions::run_one(side, which.parse().expect("a number"), rounds.parse().expect("a number"));
        }
    }
    let [_, path, program, turns] = args.as_slice() else { panic!("host_taken PAGE HOST_TIMES TURNS") };
    let table = table(Path::new(program), turns.parse().expect("a number"));
    println!("{table}");
    let page = std::fs::read_to_string(path).expect("the page");
    std::fs::write(path, with_part(&page, "host", &table)).expect("the page");
}
