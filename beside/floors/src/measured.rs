//! Times and instructions of the forms, beside those of both sides.

use crate::forms::{self, Form};
use std::path::Path;
use std::thread;
use times::instructions::{of_round, SIDES};
use times::rows::{calibrated, timed, Row, Side};

/// How long the rounds that are counted would take, in nanoseconds.
const COUNTED: f64 = 200_000.0;

/// Rows of fewer nanoseconds than these have another aim.
const SHORT: f64 = 3.0;

/// What an operation takes.
#[derive(Clone, Copy)]
pub struct Taken {
    pub ns: f64,
    pub instructions: Option<f64>,
}

/// A form of a row, and what it takes.
pub struct FormTold {
    /// Its place among all forms.
    which: u32,
    pub name: &'static str,
    pub keeps: bool,
    /// Whether it returns the checksum of the released files, as forms that keep the promises must.
    pub agrees: bool,
    pub taken: Taken,
}

/// A row with its forms; the sides are the port and the released files.
pub struct Told {
    row: &'static Row,
    pub name: &'static str,
    pub sides: [Taken; 2],
    pub forms: Vec<FormTold>,
}

fn by_form(which: u32, n: usize) -> u64 {
    (forms::all()[which as usize].run)(n)
}

/// Runs a workload for valgrind: of a side by its number, of a form by its place.
pub fn run_one(side: &str, which: u32, rounds: usize) {
    let of_side = SIDES.iter().find(|(name, _)| *name == side);
    let workload = of_side.map_or(by_form as Side, |(_, workload)| *workload);
    std::hint::black_box(workload(which, rounds));
}

/// The least time of an operation by each of some workloads, which take turns.
fn least(runs: &[(Side, u32)], operations: u64, turns: usize) -> Vec<f64> {
    let rounds: Vec<usize> = runs.iter().map(|(side, which)| calibrated(*side, *which)).collect();
    let (mut set_ups, mut least) = (vec![u64::MAX; runs.len()], vec![u64::MAX; runs.len()]);
    for _ in 0..turns {
        for (at, (side, which)) in runs.iter().enumerate() {
            set_ups[at] = set_ups[at].min(timed(*side, *which, 0).0);
            least[at] = least[at].min(timed(*side, *which, rounds[at]).0);
        }
    }
    let each = |at: usize| least[at].saturating_sub(set_ups[at]).max(1) as f64 / rounds[at] as f64 / operations as f64;
    (0..runs.len()).map(each).collect()
}

impl Told {
    /// Measures a row that has forms.
    pub fn of(row: &'static Row, forms: &[Form], turns: usize) -> Option<Told> {
        let own: Vec<(u32, &Form)> = (0..).zip(forms).filter(|(_, form)| form.row == row.which).collect();
        if own.is_empty() {
            return None;
        }
        let mut runs: Vec<(Side, u32)> = SIDES.iter().map(|(_, side)| (*side as Side, row.which)).collect();
        runs.extend(own.iter().map(|(at, _)| (by_form as Side, *at)));
        let times = least(&runs, row.operations, turns);
        let taken = |ns: f64| Taken { ns, instructions: None };
        let expected = SIDES[1].1(row.which, 67);
        let told = |((at, form), ns): (&(u32, &Form), &f64)| FormTold {
            which: *at,
            name: form.name,
            keeps: form.keeps,
            agrees: !form.keeps || (form.run)(67) == expected,
            taken: taken(*ns),
        };
        let forms = own.iter().zip(&times[2..]).map(told).collect();
        eprintln!("{}", row.name);
        Some(Told { row, name: row.name, sides: [taken(times[0]), taken(times[1])], forms })
    }

    /// The forms that keep the promises, the fastest first.
    #[must_use]
    pub fn kept(&self) -> Vec<&FormTold> {
        let mut kept: Vec<&FormTold> = self.forms.iter().filter(|form| form.keeps).collect();
        kept.sort_by(|a, b| a.taken.ns.total_cmp(&b.taken.ns));
        kept
    }

    /// The ratio of the port's time to that of the released files.
    #[must_use]
    pub fn ratio(&self) -> f64 {
        let [port, rhai] = self.sides;
        port.ns / rhai.ns
    }

    /// Whether a ratio of the port's time to rhai's is above the row's aim.
    #[must_use]
    pub fn is_behind(&self, ratio: f64) -> bool {
        let aim = match self.name {
            "evaluate_x_plus_y_times_2" => 0.8,
            _ if self.sides[0].ns < SHORT => 1.1,
            _ => 1.0,
        };
        ratio > aim
    }

    /// Counts the instructions of an operation by each side and each form.
    fn count(&mut self, program: &Path) {
        let operations = self.row.operations as f64;
        let counted = |side: &str, which: u32, ns: f64| {
            let rounds = (COUNTED / ns / operations).ceil() as usize;
            of_round(program, side, which, rounds).map(|instructions| instructions / operations)
        };
        for ((side, _), taken) in SIDES.iter().zip(&mut self.sides) {
            taken.instructions = counted(side, self.row.which, taken.ns);
        }
        for form in &mut self.forms {
            form.taken.instructions = counted("form", form.which, form.taken.ns);
        }
    }
}

/// Counts the instructions of all rows, two at a time.
pub fn count(told: &mut [Told]) {
    let Ok(program) = std::env::current_exe() else {
        return;
    };
    let half = told.len().div_ceil(2).max(1);
    thread::scope(|scope| {
        for part in told.chunks_mut(half) {
            scope.spawn(|| part.iter_mut().for_each(|row| row.count(&program)));
        }
    });
}
