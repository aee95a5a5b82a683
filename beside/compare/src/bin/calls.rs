//! Random single calls, answered by the port's program and by the released files.
//!
//! Usage: calls PROGRAM PAGE COUNT SEED. PROGRAM is `beside/crates/bench_calls`, built; PAGE is docs/PORTING.md. The exit status is 1 if a
//! difference isn't a departure on that page, if a departure or an operator's row was met too rarely, or if the program ends with a
//! status other than 0.

use compare::child::Port;
use compare::departures::{key, shown, unknown, unlisted, Departure, Tally};
use compare::dice::Dice;
use compare::make::recipe;
use compare::recipe::{Call, Kind, Recipe};
use compare::rows::{rows, Row};
use compare::{departing, release, shrink};
use std::collections::{BTreeMap, BTreeSet};
use std::sync::atomic::{AtomicU64, Ordering};
use std::thread;

/// A run has this many pieces, each with its own dice, whatever the number of threads.
const PIECES: u64 = 64;

/// How many recipes are sent to the port at once.
const BATCH: usize = 400;

/// How often each row and each departure must be met in a run of 200000 calls; proportionally in a shorter run.
const ROW_LEAST: u64 = 1000;
const DEPARTURE_LEAST: u64 = 100;
const WHOLE: u64 = 200_000;

enum Found {
    Same,
    Listed(BTreeSet<Departure>),
    New(String),
}

/// The first lines that differ.
fn first_apart(a: &str, b: &str) -> String {
    let (mut a, mut b) = (a.lines(), b.lines());
    loop {
        match (a.next(), b.next()) {
            (None, None) => return "(none)".into(),
            (x, y) if x != y => return format!("{} | {}", x.unwrap_or("(end)"), y.unwrap_or("(end)")),
            _ => (),
        }
    }
}

/// The port must answer like the release with the departures put in, whether or not the release itself does.
fn compared(r: &Recipe, ours: &str) -> Found {
    let (raw, _) = release::answer(r, false);
    let (ruled, why) = release::answer(r, true);
    if ruled != ours {
        return Found::New(first_apart(ours, &ruled));
    }
    if raw == ruled {
        return Found::Same;
    }
    if why.is_empty() {
        return Found::New(first_apart(&ruled, &raw));
    }
    Found::Listed(shown(&why, &raw, &ruled))
}

/// The purpose of a recipe.
#[derive(Clone, Copy)]
enum Aim {
    Any(Kind),
    /// The row at an index of the list.
    Row(usize),
    Departure(Departure),
}

impl Aim {
    fn name(self) -> String {
        match self {
            Aim::Any(kind) => format!("{kind:?}").to_lowercase(),
            Aim::Row(_) => "rows".into(),
            Aim::Departure(_) => "departures".into(),
        }
    }
}

/// What was met.
#[derive(Default)]
struct Met {
    /// Calls of each kind, and how many got the same answer from the release itself.
    calls: BTreeMap<String, (u64, u64)>,
    /// Kinds of the two operands.
    pairs: BTreeMap<(&'static str, &'static str), u64>,
    /// How often each row was met.
    rows: BTreeMap<usize, u64>,
    departures: Tally,
    /// Differences that no departure explains, by the line at which they begin, each with its smallest recipe.
    new: BTreeMap<(String, String), (u64, Recipe)>,
    /// The exit statuses of the port's program other than 0.
    ends: Vec<String>,
}

impl Met {
    fn add(&mut self, aim: Aim, r: &Recipe, ours: &str) {
        if let Call::Operate(..) | Call::Assign(..) = r.call {
            *self.pairs.entry((r.x.kind(), r.y.kind())).or_default() += 1;
        }
        if let Aim::Row(row) = aim {
            *self.rows.entry(row).or_default() += u64::from(!ours.starts_with("row=none"));
        }
        let (calls, same) = self.calls.entry(aim.name()).or_default();
        *calls += 1;
        match compared(r, ours) {
            Found::Same => *same += 1,
            Found::Listed(met) => met.into_iter().for_each(|departure| self.departures.add(departure)),
            Found::New(apart) => self.add_new((aim.name(), key(&apart).into()), 1, r),
        }
    }

    fn add_new(&mut self, at: (String, String), times: u64, r: &Recipe) {
        let (count, smallest) = self.new.entry(at).or_insert_with(|| (0, r.clone()));
        *count += times;
        if r.bytes().len() < smallest.bytes().len() {
            *smallest = r.clone();
        }
    }

    fn join(&mut self, other: Met) {
        for (kind, (calls, same)) in other.calls {
            let sum = self.calls.entry(kind).or_default();
            *sum = (sum.0 + calls, sum.1 + same);
        }
        other.pairs.into_iter().for_each(|(pair, count)| *self.pairs.entry(pair).or_default() += count);
        other.rows.into_iter().for_each(|(row, count)| *self.rows.entry(row).or_default() += count);
        self.departures.join(&other.departures);
        other.new.into_iter().for_each(|(at, (times, r))| self.add_new(at, times, &r));
        self.ends.extend(other.ends);
    }
}

/// The purposes of the calls in one piece of a run: its share of each kind, each row and each departure.
fn aims(count: u64, rows: usize) -> Vec<Aim> {
    let mut aims = Vec::new();
    for kind in Kind::ALL {
        let calls = (count * kind.share()).div_ceil(Kind::shares());
        aims.extend(std::iter::repeat_n(Aim::Any(*kind), calls as usize));
    }
    // An eighth more than required, since some recipes meet nothing.
    let times = |least: u64| (count * least * 9).div_ceil(WHOLE * 8) as usize;
    for row in 0..rows {
        aims.extend(std::iter::repeat_n(Aim::Row(row), times(ROW_LEAST)));
    }
    for departure in Departure::ALL {
        aims.extend(std::iter::repeat_n(Aim::Departure(*departure), 2 * times(DEPARTURE_LEAST)));
    }
    aims
}

fn piece(port: &mut Port, rows: &[Row], count: u64, seed: u64) -> Met {
    let mut met = Met::default();
    let mut dice = Dice(seed);
    for aims in aims(count, rows.len()).chunks(BATCH) {
        let made = |aim: &Aim| match aim {
            Aim::Any(kind) => recipe(&mut dice, *kind),
            Aim::Row(row) => compare::rows::recipe(&mut dice, &rows[*row]),
            Aim::Departure(departure) => departing::recipe(&mut dice, *departure),
        };
        let batch: Vec<Recipe> = aims.iter().map(made).collect();
        let answers = port.ask(&batch);
        aims.iter().zip(batch.iter().zip(&answers)).for_each(|(aim, (r, ours))| met.add(*aim, r, ours));
    }
    met
}

fn run(program: &str, count: u64, seed: u64) -> Met {
    let (next, rows) = (AtomicU64::new(0), rows());
    let threads = thread::available_parallelism().map_or(1, usize::from);
    let work = || {
        let (mut port, mut met) = (Port::new(program), Met::default());
        loop {
            let at = next.fetch_add(1, Ordering::Relaxed);
            if at >= PIECES {
                met.ends.extend(port.end().err());
                return met;
            }
            met.join(piece(&mut port, &rows, count.div_ceil(PIECES), seed.wrapping_mul(PIECES).wrapping_add(at)));
        }
    };
    let mut met = Met::default();
    thread::scope(|scope| {
        let workers: Vec<_> = (0..threads).map(|_| scope.spawn(work)).collect();
        workers.into_iter().for_each(|worker| met.join(worker.join().expect("a worker")));
    });
    met
}

/// Prints the smallest recipe that differs in this way, and both answers.
fn show_new(port: &mut Port, (kind, at): &(String, String), times: u64, r: &Recipe) {
    let small = shrink::shrink(r.clone(), &mut |all: &[Recipe]| {
        let answers = port.ask(all);
        all.iter().zip(&answers).position(|(r, ours)| matches!(compared(r, ours), Found::New(apart) if key(&apart) == at))
    });
    let ours = port.ask(std::slice::from_ref(&small)).remove(0);
    println!("\nNOT LISTED: {kind} at {at}, {times} times; smallest:\n{small:?}\n--- the port\n{ours}--- the release");
    println!("{}--- the release with the departures\n{}", release::answer(&small, false).0, release::answer(&small, true).0);
}

/// Prints how often each row was met; returns how many were met fewer times than that.
fn report_rows(met: &Met, least: u64) -> usize {
    let rows = rows();
    let count = |at: usize| met.rows.get(&at).copied().unwrap_or_default();
    let fewest = (0..rows.len()).map(count).min().unwrap_or_default();
    println!("  by row: {} rows of operators, the fewest {fewest}", rows.len());
    let seldom: Vec<_> = rows.iter().enumerate().filter(|(at, _)| count(*at) < least).collect();
    seldom.iter().for_each(|(at, row)| println!("  row {}: {}, TOO SELDOM", row.name(), count(*at)));
    seldom.len()
}

fn report(met: &Met) {
    let all: u64 = met.calls.values().map(|(calls, _)| calls).sum();
    let same: u64 = met.calls.values().map(|(_, same)| same).sum();
    println!("single calls: {all}, of which {same} are answered as the release itself does");
    let kinds: Vec<_> = met.calls.iter().map(|(kind, (calls, _))| format!("{kind} {calls}")).collect();
    println!("  by kind: {}", kinds.join(", "));
    if let Some(((first, second), count)) = met.pairs.iter().min_by_key(|(_, count)| **count) {
        println!("  by pair of operands: {} pairs, the fewest {count} ({first} and {second})", met.pairs.len());
    }
}

fn main() {
    std::panic::set_hook(Box::new(|_| {}));
    let args: Vec<String> = std::env::args().collect();
    let [_, program, page, count, seed] = args.as_slice() else { panic!("calls PROGRAM PAGE COUNT SEED") };
    let page = std::fs::read_to_string(page).expect("the page of departures");
    let (unlisted, unknown) = (unlisted(&page), unknown(&page));
    let count: u64 = count.parse().expect("a count");
    let met = run(program, count, seed.parse().expect("a seed"));
    report(&met);
    let least = |whole: u64| (whole * count / WHOLE).min(whole);
    let seldom = report_rows(&met, least(ROW_LEAST)) + met.departures.report(least(DEPARTURE_LEAST));
    let mut port = Port::new(program);
    for (at, (times, r)) in &met.new {
        show_new(&mut port, at, *times, r);
    }
    let new: u64 = met.new.values().map(|(times, _)| times).sum();
    println!("  not listed: {new}");
    unlisted.iter().for_each(|name| println!("  the page of departures has no row {name}"));
    unknown.iter().for_each(|name| println!("  no call is to meet the departure {name} of the page"));
    met.ends.iter().for_each(|end| println!("  the port's program ended with {end}"));
    let is_good = new == 0 && seldom == 0 && unlisted.is_empty() && unknown.is_empty() && met.ends.is_empty();
    std::process::exit(i32::from(!is_good));
}
