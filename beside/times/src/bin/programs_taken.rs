//! Measures whole programs: scripts beside Lua, and lines beside the same program over the released files.
//!
//! Usage: programs_taken PAGE SCRIPTS RUNNER WORLD LINES: SCRIPTS is the folder of scripts, RUNNER `script_program`, WORLD `rhai_world`,
//! LINES the program over the released files.

use std::fmt::Write as _;
use times::child::{least, measured, Ran, MEASURED};
use times::page::with_part;

const TURNS: usize = 7;

/// The scripts, what each does, and its goal as a multiple of Lua's time.
const SCRIPTS: [(&str, &str, &str); 12] = [
    ("fib", "`fib(27)`", "3"),
    ("sort", "Shell's sort, 50,000", "3"),
    ("sieve", "sieve, 1,000,000", "3"),
    ("loop", "loop, 5,000,000", "1.5"),
    ("closures", "closures, 1,000,000", "5"),
    ("callbacks", "callbacks, 300,000", "5"),
    ("records", "`a[i].f[j] += 1`, 1,000,000", "4"),
    ("matrix", "matrix, 200", "4"),
    ("words", "words, 200,000", "4"),
    ("queens", "queens, 8", "4"),
    ("bodies", "bodies", "4"),
    ("append", "appends, 100,000", "4"),
];

/// Milliseconds, or a dash.
fn milliseconds(ran: &Option<Ran>) -> String {
    ran.as_ref().map_or("-".into(), |ran| format!("{:.0}", ran.nanoseconds / 1e6))
}

fn ratio(ours: &Option<Ran>, theirs: &Option<Ran>) -> String {
    match (ours, theirs) {
        (Some(ours), Some(theirs)) => format!("{:.1}", ours.nanoseconds / theirs.nanoseconds.max(1.0)),
        _ => "-".into(),
    }
}

fn scripts(folder: &str, runner: &str) -> String {
    let mut text = String::from("| script | ms here | Lua | to Lua | at most |\n|---|---|---|---|---|\n");
    for (name, what, most) in SCRIPTS {
        let script = std::fs::read(format!("{folder}/{name}.rhai")).expect("a script");
        let lua = format!("{folder}/{name}.lua");
        let ran = least(&[vec![runner], vec!["lua5.4", &lua]], &[&script, b""], TURNS);
        let said: Vec<&[u8]> = ran.iter().flatten().map(|ran| ran.output.as_slice()).collect();
        let note = if said.windows(2).all(|two| two[0] == two[1]) { "" } else { " ANSWERS DIFFER" };
        let [here, lua] = &ran[..] else { unreachable!() };
        let times = [here, lua].map(milliseconds).join(" | ");
        let _ = writeln!(text, "| {what}{note} | {times} | {} | {most} |", ratio(here, lua));
    }
    text
}

fn inputs() -> Vec<(&'static str, String)> {
    let mixed = (0..100_000)
        .map(|i| format!("int {i}\ncopy 2\ndrop\nwrite 1 {i}\nshow 0\npush counter 2\nget counter\nrewind 0\ndrop\ndrop\n"));
    vec![
        ("a million mixed lines", format!("int 5\nshare 0\ncopy 0\n{}", mixed.collect::<String>())),
        ("a million ints in one hand", "int 7\n".repeat(1_000_000)),
        ("a million shares and drops", "int 7\nshare 0\ndrop\n".repeat(1_000_000)),
        ("a million copies and drops", format!("int 7\n{}", "copy 0\ndrop\n".repeat(1_000_000))),
    ]
}

fn lines(world: &str, over_release: &str) -> String {
    let mut text = String::from("| lines | ns a line here | rhai | ratio | peak MB here | rhai |\n|---|---|---|---|---|---|\n");
    for (name, input) in inputs() {
        let count = input.matches('\n').count() as f64;
        let ran = least(&[vec![world], vec![over_release]], &[input.as_bytes(), input.as_bytes()], TURNS);
        let [Some(here), Some(rhai)] = &ran[..] else { panic!("a program failed on {name}") };
        let note = if here.output == rhai.output { "" } else { " ANSWERS DIFFER" };
        let (a, b) = (here.nanoseconds / count, rhai.nanoseconds / count);
        let peak = [here, rhai].map(|ran| format!("{:.0}", ran.peak_kilobytes as f64 / 1000.0)).join(" | ");
        let _ = writeln!(text, "| {name}{note} | {a:.0} | {b:.0} | {:.2} | {peak} |", a / b);
    }
    text
}

fn main() {
    let args: Vec<String> = std::env::args().collect();
    if args.get(1).is_some_and(|word| word == MEASURED) {
        std::process::exit(measured(&args[2..]));
    }
    let [_, path, folder, runner, world, over_release] = args.as_slice() else {
        panic!("programs_taken PAGE SCRIPTS RUNNER WORLD LINES")
    };
    let (scripts, lines) = (scripts(folder, runner), lines(world, over_release));
    println!("{scripts}\n{lines}");
    let page = std::fs::read_to_string(path).expect("the page");
    std::fs::write(path, with_part(&with_part(&page, "scripts", &scripts), "lines", &lines)).expect("the page");
}
