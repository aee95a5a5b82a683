//! Random programs of commands, by the port's program and by the machine over the released files.
//!
//! Usage: programs PROGRAM PAGE COUNT SEED. PROGRAM is `crates/rhai_world`, built, which answers each line with a line; PAGE is docs/PORTING.md.
//! The exit status is 1 if an answer differs, if the program ends with a status other than 0, if there were too few worlds with many
//! entries or marks, or if a departure that was put in has no row on that page. At most a hundred programs that differ are printed.

use compare::departures::{unlisted, Tally};
use compare::dice::Dice;
use compare::lines::{emptying, Maker};
use compare::machine::command::Command;
use compare::machine::{LeftOut, Stop, World};
use compare::style::{Style, Theme};
use std::collections::BTreeMap;
use std::io::{Read, Write};
use std::process::{Command as Process, Stdio};
use std::sync::atomic::{AtomicU64, AtomicUsize, Ordering};
use std::thread;

/// A run has this many pieces, each with its own dice, whatever the number of threads.
const PIECES: u64 = 64;

/// About how many commands one process of the port answers, world after world.
const BATCH: usize = 20_000;

/// How many worlds of each required kind a run of 200000 commands must have; proportionally fewer in a shorter run.
const WORLDS_LEAST: u64 = 20;
const WHOLE: u64 = 200_000;

/// At most this many programs that differ are printed.
const MOST_TOLD: usize = 100;

/// How many shorter programs are tried for each of them.
const SHORTER: usize = 400;

/// How many programs that differ were found.
static FOUND: AtomicUsize = AtomicUsize::new(0);

/// What was met.
#[derive(Default)]
struct Met {
    commands: BTreeMap<String, u64>,
    worlds: BTreeMap<Theme, u64>,
    refused: u64,
    /// Worlds that had two hundred entries at once; four marks; and a mark released that wasn't the last.
    wide: u64,
    marked: u64,
    out_of_order: u64,
    departures: Tally,
    left_out: BTreeMap<LeftOut, u64>,
    /// Programs whose answers differ, shortened, each with the difference.
    new: Vec<(Vec<Command>, String)>,
}

impl Met {
    fn join(&mut self, other: Met) {
        other.commands.into_iter().for_each(|(verb, count)| *self.commands.entry(verb).or_default() += count);
        other.left_out.into_iter().for_each(|(why, count)| *self.left_out.entry(why).or_default() += count);
        other.worlds.into_iter().for_each(|(theme, count)| *self.worlds.entry(theme).or_default() += count);
        self.refused += other.refused;
        self.wide += other.wide;
        self.marked += other.marked;
        self.out_of_order += other.out_of_order;
        self.departures.join(&other.departures);
        self.new.extend(other.new);
    }
}

/// The port's answers to lines, in one text; and how it ended, unless with status 0.
fn port_answers(program: &str, lines: &str) -> (Vec<u8>, Option<String>) {
    let process = Process::new(program).stdin(Stdio::piped()).stdout(Stdio::piped()).stderr(Stdio::null()).spawn();
    let mut process = process.expect("the port's program");
    let mut to = process.stdin.take().expect("its input");
    let mut answers = Vec::new();
    thread::scope(|scope| {
        scope.spawn(move || drop(to.write_all(lines.as_bytes())));
        process.stdout.take().expect("its output").read_to_end(&mut answers).expect("its answers");
    });
    let status = process.wait().expect("its end");
    (answers, (!status.success()).then(|| format!("the port ends with {status}")))
}

/// The first command whose answers differ, and how.
fn first_apart(answers: &[String], mut given: &[u8]) -> Option<(usize, String)> {
    for (at, answer) in answers.iter().enumerate() {
        match given.strip_prefix(answer.as_bytes()) {
            Some([b'\n', rest @ ..]) => given = rest,
            Some(_) | None => {
                let line_end = given.iter().position(|byte| *byte == b'\n').unwrap_or(given.len());
                let line = String::from_utf8_lossy(&given[..line_end]);
                return Some((at, format!("the port says {line:?}, the release {answer:?}")));
            }
        }
    }
    (!given.is_empty()).then(|| (answers.len(), "the port says more".into()))
}

/// The difference: in the answers, or else in how the port ends.
fn apart(program: &str, commands: &[Command], answers: &[String]) -> Option<(usize, String)> {
    let (given, end) = port_answers(program, &lines_of(commands));
    first_apart(answers, &given).or_else(|| end.map(|end| (answers.len(), end)))
}

fn answer(world: &mut World, command: &Command) -> Result<String, LeftOut> {
    match world.apply(command) {
        Ok(answer) => Ok(answer),
        Err(Stop::Refused(why)) => Ok(format!("refused {why}")),
        Err(Stop::LeftOut(why)) => Err(why),
    }
}

fn lines_of(commands: &[Command]) -> String {
    commands.iter().map(|command| format!("{}\n", spelled(command))).collect()
}

/// The line of a command; for an empty text nothing follows the verb.
fn spelled(command: &Command) -> String {
    let line = command.to_string();
    if line == "text " {
        "text".into()
    } else {
        line
    }
}

/// The difference on a new world, if there is one and the release can execute all commands.
fn differs(program: &str, commands: &[Command]) -> Option<(usize, String)> {
    let mut world = World::default();
    let answers: Vec<String> = commands.iter().map(|command| answer(&mut world, command)).collect::<Result<_, _>>().ok()?;
    apart(program, commands, &answers)
}

/// A short program whose answers differ.
fn shrunk(program: &str, mut commands: Vec<Command>) -> (Vec<Command>, String) {
    let (mut size, mut left) = (commands.len().max(1), SHORTER);
    while size > 0 {
        let mut at = 0;
        while at < commands.len() && left > 0 {
            left -= 1;
            let mut fewer = commands.clone();
            fewer.drain(at..(at + size).min(commands.len()));
            if differs(program, &fewer).is_some() {
                commands = fewer;
            } else {
                at += size;
            }
        }
        size /= 2;
    }
    let how = differs(program, &commands).map_or_else(|| "only behind other worlds".into(), |(_, how)| how);
    (commands, how)
}

/// Commands for consecutive worlds, their answers, and where each world begins.
struct Batch {
    commands: Vec<Command>,
    answers: Vec<String>,
    worlds: Vec<usize>,
}

impl Batch {
    fn does(&mut self, world: &mut World, command: Command, met: &mut Met) {
        match answer(world, &command) {
            Ok(said) => {
                let line = command.to_string();
                let verb = line.split(' ').next().unwrap_or("").to_string();
                *met.commands.entry(verb).or_default() += 1;
                met.refused += u64::from(said.starts_with("refused "));
                world.take_departures().into_iter().for_each(|departure| met.departures.add(departure));
                self.commands.push(command);
                self.answers.push(said);
            }
            Err(why) => {
                world.take_departures();
                *met.left_out.entry(why).or_default() += 1;
            }
        }
    }

    fn add_world(&mut self, d: &mut Dice, met: &mut Met) {
        let style = Style::new(d);
        self.worlds.push(self.commands.len());
        *met.worlds.entry(style.theme).or_default() += 1;
        let mut world = World::default();
        let (least, more) = style.commands;
        let (mut wide, mut marked, mut out_of_order) = (false, false, false);
        for _ in 0..least + d.below(more) as usize {
            let command = Maker { d, world: &world, style: &style }.command();
            let (_, entries, marks) = world.sizes();
            wide |= entries >= 200;
            marked |= marks >= 4;
            out_of_order |= matches!(command, Command::Unmark(k) if k + 1 < marks && marks > 2);
            self.does(&mut world, command, met);
        }
        met.wide += u64::from(wide);
        met.marked += u64::from(marked);
        met.out_of_order += u64::from(out_of_order);
        for command in emptying(&world) {
            self.does(&mut world, command, met);
        }
    }

    fn made(d: &mut Dice, count: usize, met: &mut Met) -> Self {
        let mut batch = Batch { commands: Vec::new(), answers: Vec::new(), worlds: Vec::new() };
        while batch.commands.len() < count {
            batch.add_world(d, met);
        }
        batch
    }

    /// Keeps each program that differs, shortened: another process then runs the worlds after it.
    fn compare(&self, program: &str, met: &mut Met) {
        let mut start = 0;
        while start < self.commands.len() {
            let Some((at, _)) = apart(program, &self.commands[start..], &self.answers[start..]) else { return };
            if FOUND.fetch_add(1, Ordering::Relaxed) >= MOST_TOLD {
                return;
            }
            let end = (start + at + 1).min(self.commands.len());
            let world = self.worlds.iter().rev().find(|world| **world < end).copied().unwrap_or(0);
            met.new.push(shrunk(program, self.commands[world..end].to_vec()));
            start = self.worlds.iter().find(|next| **next >= end).copied().unwrap_or(self.commands.len());
        }
    }
}

fn piece(program: &str, count: u64, seed: u64) -> Met {
    let mut met = Met::default();
    let mut dice = Dice(seed);
    let mut left = count as usize;
    while left > 0 {
        let batch = Batch::made(&mut dice, left.min(BATCH), &mut met);
        left = left.saturating_sub(batch.commands.len());
        batch.compare(program, &mut met);
    }
    met
}

fn run(program: &str, count: u64, seed: u64) -> Met {
    let next = AtomicU64::new(0);
    let threads = thread::available_parallelism().map_or(1, usize::from);
    let work = || {
        let mut met = Met::default();
        loop {
            let at = next.fetch_add(1, Ordering::Relaxed);
            if at >= PIECES {
                return met;
            }
            met.join(piece(program, count.div_ceil(PIECES), seed.wrapping_mul(PIECES).wrapping_add(at)));
        }
    };
    let mut met = Met::default();
    thread::scope(|scope| {
        let workers: Vec<_> = (0..threads).map(|_| scope.spawn(work)).collect();
        workers.into_iter().for_each(|worker| met.join(worker.join().expect("a worker")));
    });
    met
}

/// Prints how many worlds there were of each required kind; returns how many kinds had too few.
fn report_worlds(met: &Met, least: u64) -> usize {
    let kinds = [("two hundred entries", met.wide), ("four marks", met.marked), ("a release out of order", met.out_of_order)];
    for (what, count) in kinds {
        println!("  worlds with {what}: {count}{}", if count < least { ", TOO SELDOM" } else { "" });
    }
    kinds.iter().filter(|(_, count)| *count < least).count()
}

fn report(met: &Met) {
    let all: u64 = met.commands.values().sum();
    let worlds: Vec<_> = met.worlds.iter().map(|(theme, count)| format!("{} {count}", theme.name())).collect();
    println!("commands of whole programs: {all}, of which {} were refused; worlds: {}", met.refused, worlds.join(", "));
    let verbs: Vec<_> = met.commands.iter().map(|(verb, count)| format!("{verb} {count}")).collect();
    println!("  by verb: {}", verbs.join(", "));
    for (why, count) in &met.left_out {
        println!("  left out, {why:?}: {count}");
    }
    met.departures.report(0);
    for (commands, how) in &met.new {
        println!("\nNOT LISTED: {how}; the program:\n{}", lines_of(commands));
    }
    let found = FOUND.load(Ordering::Relaxed);
    println!("  not listed: {found}{}", if found > met.new.len() { ", and worlds that were left" } else { "" });
}

fn main() {
    std::panic::set_hook(Box::new(|_| {}));
    let args: Vec<String> = std::env::args().collect();
    let [_, program, page, count, seed] = args.as_slice() else { panic!("programs PROGRAM PAGE COUNT SEED") };
    let page = std::fs::read_to_string(page).expect("the page of departures");
    let count: u64 = count.parse().expect("a count");
    let met = run(program, count, seed.parse().expect("a seed"));
    report(&met);
    let seldom = report_worlds(&met, (WORLDS_LEAST * count / WHOLE).min(WORLDS_LEAST));
    let is_good = met.new.is_empty() && seldom == 0 && unlisted(&page).is_empty();
    std::process::exit(i32::from(!is_good));
}
