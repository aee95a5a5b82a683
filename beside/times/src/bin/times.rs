//! Measures the rows of docs/SPEED.md, prints them, and writes its tables.
//!
//! Usage: times PAGE TURNS TABLES [PART]: TABLES tables of TURNS turns each; with PART only the rows whose names contain it, and the
//! page is unchanged.

use std::fmt::Write as _;
use std::thread;
use times::page::{mean, number, ratio, rows_of, with_part};
use times::rows::{Row, Taken, ROWS};
use times::{instructions, sizes};

/// The rows that gain by another algorithm.
const OTHER_ALGORITHM: [&str; 8] = [
    "scope_get_first_of_10",
    "scope_get_first_of_100",
    "scope_get_first_of_1000",
    "scope_contains_miss_100",
    "target_char_1000",
    "target_byte",
    "target_bit",
    "text_with_char_1000",
];

/// What the tables have for a row: the ratio in each, and the least times.
struct Told {
    name: &'static str,
    ratios: Vec<f64>,
    taken: Taken,
    instructions: Option<[f64; 2]>,
}

impl Told {
    fn ratio(&self) -> f64 {
        mean(&self.ratios)
    }

    /// Instructions of the port to those of the release.
    fn ratio_of_instructions(&self) -> Option<f64> {
        self.instructions.map(|[port, release]| port / release)
    }

    fn is_of_one_algorithm(&self) -> bool {
        !OTHER_ALGORITHM.contains(&self.name)
    }

    /// Whether the row counts for the means: lists of commands are beside them.
    fn counts(&self) -> bool {
        !self.name.starts_with("run_")
    }
}

fn measured(rows: &[&'static Row], turns: usize, tables: usize) -> Vec<Told> {
    let mut told = Vec::new();
    for row in rows {
        let taken = Taken { port: f64::MAX, release: f64::MAX, agrees: true };
        told.push(Told { name: row.name, ratios: Vec::new(), taken, instructions: None });
    }
    for table in 1..=tables {
        for (row, told) in rows.iter().zip(&mut told) {
            let taken = row.measured(turns);
            eprintln!("table {table}: {} {:.2}", row.name, taken.port / taken.release);
            told.ratios.push(taken.port / taken.release);
            told.taken.port = told.taken.port.min(taken.port);
            told.taken.release = told.taken.release.min(taken.release);
            told.taken.agrees &= taken.agrees;
        }
    }
    count(rows, &mut told);
    told
}

/// Counts the instructions of each row: these are the same whatever runs beside, so rows are counted side by side.
fn count(rows: &[&'static Row], told: &mut [Told]) {
    let lanes = thread::available_parallelism().map_or(1, usize::from);
    let taken: Vec<&Taken> = told.iter().map(|told| &told.taken).collect();
    let counts: Vec<_> = thread::scope(|scope| {
        let lane = |first: usize| (first..rows.len()).step_by(lanes).map(|at| (at, instructions::of(rows[at], taken[at]))).collect::<Vec<_>>();
        let workers: Vec<_> = (0..lanes).map(|first| scope.spawn(move || lane(first))).collect();
        workers.into_iter().flat_map(|worker| worker.join().expect("a worker")).collect()
    });
    for (at, instructions) in counts {
        told[at].instructions = instructions;
    }
}

/// How much a row's ratio varies between tables: the mean of the greatest over the least.
fn spread(told: &[Told]) -> f64 {
    let moves = |row: &Told| {
        let greatest = row.ratios.iter().copied().fold(0.0, f64::max);
        greatest / row.ratios.iter().copied().fold(f64::MAX, f64::min)
    };
    mean(&told.iter().map(moves).collect::<Vec<_>>())
}

/// The ratio that a row had before, from its row on the page.
fn before(page: &str, name: &str) -> Option<f64> {
    rows_of(page).get(name).and_then(|cells| cells.get(1)).and_then(|cell| cell.parse().ok())
}

fn means(told: &[Told], page: &str) -> String {
    let counted: Vec<&Told> = told.iter().filter(|row| row.counts()).collect();
    let alike: Vec<&Told> = counted.iter().copied().filter(|row| row.is_of_one_algorithm()).collect();
    let mut text = String::from("| geometric mean | rows | before | now |\n|---|---|---|---|\n");
    for (what, rows) in [("by time", &counted), ("by time, the same algorithm on both sides", &alike)] {
        let was: Vec<f64> = rows.iter().filter_map(|row| before(page, row.name)).collect();
        let now: Vec<f64> = rows.iter().map(|row| row.ratio()).collect();
        let _ = writeln!(text, "| {what} | {} | {:.2} | {:.2} |", now.len(), mean(&was), mean(&now));
    }
    let instructions: Vec<f64> = counted.iter().filter_map(|row| row.ratio_of_instructions()).collect();
    let _ = writeln!(text, "| by instructions | {} | - | {:.2} |", instructions.len(), mean(&instructions));
    let _ = writeln!(text, "| greatest over least of a row's ratios in the tables | {} | - | {:.2} |", told.len(), spread(told));
    text
}

fn rows_text(told: &[Told], page: &str) -> String {
    let mut text = String::from("| row | before | now | port ns | rhai ns | port instructions | rhai instructions | ratio |\n");
    text.push_str("|---|---|---|---|---|---|---|---|\n");
    for row in told {
        let was = before(page, row.name).map_or("-".into(), |was| format!("{was:.2}"));
        let note = if row.taken.agrees { "" } else { " CHECKSUMS DIFFER" };
        let times = [row.taken.port, row.taken.release].map(number).join(" | ");
        let counts = row.instructions.map_or("- | -".into(), |counts| counts.map(number).join(" | "));
        let instructions = row.ratio_of_instructions().map_or("-".into(), ratio);
        let _ = writeln!(text, "| {}{note} | {was} | {} | {times} | {counts} | {instructions} |", row.name, ratio(row.ratio()));
    }
    text
}

fn main() {
    let args: Vec<String> = std::env::args().collect();
    if let [_, one, side, which, rounds] = args.as_slice() {
        if one == "one" {
            return instructions::run_one(side, which.parse().expect("a number"), rounds.parse().expect("a number"));
        }
    }
    let number_at = |at: usize| args[at].parse::<usize>().expect("a number");
    let part = args.get(4).map_or("", String::as_str);
    let page = std::fs::read_to_string(&args[1]).expect("the page");
    let rows: Vec<&Row> = ROWS.iter().filter(|row| row.name.contains(part)).collect();
    println!("bytes of a value, by port and release: {:?}; of a map {:?}; of a text {:?}", sizes(0), sizes(3), sizes(4));
    let told = measured(&rows, number_at(2), number_at(3));
    let (means, rows) = (means(&told, &page), rows_text(&told, &page));
    println!("{means}\n{rows}");
    if part.is_empty() {
        let page = with_part(&with_part(&page, "means", &means), "rows", &rows);
        std::fs::write(&args[1], page).expect("the page");
    }
    let differ = told.iter().filter(|row| !row.taken.agrees).count();
    std::process::exit(i32::from(differ > 0));
}
