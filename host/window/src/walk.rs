//! A run that goes step by step to where the page asks for.
use crate::failure::Failure;
use crate::picture::{cut, picture, unfolded, Unfolded};
use rhai_world::{Array, CallPlace, EvalError, Progress, Run};
use serde_json::{json, Value};
use std::collections::BTreeSet;
use std::sync::{Arc, Mutex, MutexGuard, PoisonError};
use std::time::{Duration, Instant};

/// How long one answer may take until the page hears how far the run got.
const SLICE: Duration = Duration::from_millis(60);

/// How many operations, and how many steps, go by between two looks at the clock.
const PIECE: u64 = 50_000;
const STEPS: u64 = 512;

/// The lines that the script printed, shared with the engine's callback.
pub type Printed = Arc<Mutex<Vec<String>>>;

pub fn lines_of(printed: &Printed) -> MutexGuard<'_, Vec<String>> {
    // (a list of lines is whole whatever happened to a thread)
    printed.lock().unwrap_or_else(PoisonError::into_inner)
}

/// What the next run of a script has to know of the ones before.
#[derive(Default)]
pub struct Past {
    /// The most steps that were ever done.
    last: u64,
    /// The error that ended the script.
    failure: Option<Failure>,
    /// Whether the run shall go to that error, whatever the message asks for.
    to_failure: bool,
}

pub enum Served {
    Answer(Value),
    /// The message needs a run from the start.
    Again,
    /// The message isn't about the run.
    Other,
}

/// Where to stop.
#[derive(Clone, Copy)]
enum Goal {
    /// Before the statement of this number.
    Step(u64),
    /// Before a statement with at most this many active functions, or with a breakpoint.
    Depth(usize),
}

/// How far a run got in the time that it had.
enum Got {
    Arrived,
    OutOfTime,
    /// It failed, and the next run stops before that.
    Failed,
}

/// A run that goes step by step.
pub struct Walk<'a> {
    run: Run<'a>,
    printed: &'a Printed,
    goal: Goal,
    breakpoints: BTreeSet<u32>,
    unfolded: Unfolded,
    /// How many steps were done.
    step: u64,
    past: Past,
    /// Where it stands, and where it stood one step before.
    place: (u32, u32),
    before: (u32, u32),
    /// Whether it stands within a statement.
    within: bool,
    /// How it ended: its value as text, or its error.
    end: Option<Result<String, EvalError>>,
    /// How many printed lines the page has.
    told: usize,
}

impl<'a> Walk<'a> {
    pub fn new(run: Run<'a>, printed: &'a Printed, past: Past) -> Walk<'a> {
        Walk {
            run,
            printed,
            goal: Goal::Step(1),
            breakpoints: BTreeSet::new(),
            unfolded: Unfolded::new(),
            step: 0,
            past,
            place: (0, 0),
            before: (0, 0),
            within: false,
            end: None,
            told: 0,
        }
    }

    /// Returns what the next run has to know.
    pub fn past(self) -> Past {
        self.past
    }

    pub fn serve(&mut self, asked: &Value) -> Result<Served, EvalError> {
        self.unfolded = unfolded(asked);
        let is_new = self.step == 0 && !self.within;
        match asked["do"].as_str() {
            _ if self.past.to_failure => self.aim_at_failure(),
            Some("begin") if is_new => {}
            Some("look") => return Ok(Served::Answer(self.told(true)?)),
            Some("to") => {
                let step = asked["step"].as_u64().unwrap_or(1).max(1);
                if step < self.step || (step == self.step && self.within) {
                    return Ok(Served::Again);
                }
                self.goal = Goal::Step(step);
            }
            Some("go") => self.aim(asked),
            Some(_) | None => return Ok(Served::Other),
        }
        match self.advance(Instant::now() + SLICE) {
            Got::Arrived => Ok(Served::Answer(self.told(true)?)),
            Got::OutOfTime => Ok(Served::Answer(self.told(false)?)),
            Got::Failed => Ok(Served::Again),
        }
    }

    /// Sets the goal that a message asks for; with `on` the last one stays.
    fn aim(&mut self, asked: &Value) {
        let lines = asked["breakpoints"].as_array().map(Vec::as_slice).unwrap_or_default();
        self.breakpoints = lines.iter().filter_map(|line| u32::try_from(line.as_u64()?).ok()).collect();
        match asked["how"].as_str() {
            Some("into") => self.goal = Goal::Step(self.step + 1),
            Some("over") => self.goal = Goal::Depth(self.run.calls().len()),
            Some("out") => self.goal = Goal::Depth(self.run.calls().len().saturating_sub(1)),
            Some("run") => self.goal = Goal::Depth(0),
            Some(_) | None => {}
        }
    }

    fn aim_at_failure(&mut self) {
        self.past.to_failure = false;
        self.goal = Goal::Step(self.past.failure.as_ref().map_or(1, |failure| failure.step));
    }

    /// Goes on to the goal, the end, or this time.
    fn advance(&mut self, until: Instant) -> Got {
        let begun = self.step;
        while self.end.is_none() {
            if matches!(self.goal, Goal::Step(step) if self.step >= step && !self.within) {
                return Got::Arrived;
            }
            let looks = self.within || (self.step - begun) % STEPS == STEPS - 1;
            if looks && Instant::now() >= until {
                return Got::OutOfTime;
            }
            if !self.go() {
                continue;
            }
            self.step += 1;
            self.past.last = self.past.last.max(self.step);
            if self.past.to_failure {
                return Got::Failed;
            }
            if self.has_arrived() {
                return Got::Arrived;
            }
        }
        Got::Arrived
    }

    /// Executes a piece; returns whether a step was done.
    fn go(&mut self) -> bool {
        let began = self.run.operations();
        let mut piece = PIECE;
        if let Some(failure) = self.past.failure.as_ref().filter(|failure| failure.step == self.step + 1) {
            let Some(most) = failure.piece(began) else {
                self.fail(failure.error.clone());
                return true;
            };
            piece = most.min(PIECE);
        }
        let progress = self.run.go(piece);
        self.within = matches!(progress, Ok(Progress::Paused));
        match progress {
            Ok(Progress::Paused) => self.place = self.run.line_column().unwrap_or(self.place),
            Ok(Progress::Statement { line, column }) => {
                self.before = std::mem::replace(&mut self.place, (line, column));
            }
            Ok(Progress::Done(value)) => self.end = Some(Ok(shown(value))),
            Err(error) => self.note(error, began),
        }
        !self.within
    }

    /// Notes an error, for the next run to stop before it.
    fn note(&mut self, error: EvalError, began: u64) {
        let failure = match self.past.failure.take() {
            Some(failure) => failure.again(began),
            None => Failure::new(self.step + 1, error, began, self.run.operations()),
        };
        self.past.to_failure = failure.goes_on();
        self.fail(failure.error.clone());
        self.past.failure = Some(failure);
    }

    fn fail(&mut self, error: EvalError) {
        self.within = false;
        self.place = error.position().unwrap_or(self.place);
        self.end = Some(Err(error));
    }

    /// Whether it stands where a goal by depth stops.
    fn has_arrived(&self) -> bool {
        let Goal::Depth(most) = self.goal else {
            return false;
        };
        let ((line, column), before) = (self.place, self.before);
        let is_same_line = line == before.0 && column > before.1;
        (self.breakpoints.contains(&line) && !is_same_line) || (most > 0 && self.run.call_at(most).is_none())
    }

    /// Tells the page where the run stands, with its picture if it stops there.
    fn told(&mut self, stops: bool) -> Result<Value, EvalError> {
        let from = self.told;
        let lines = lines_of(self.printed);
        let printed = lines.get(from..).unwrap_or_default().to_vec();
        self.told = lines.len();
        drop(lines);
        let mut told = json!({
            "step": self.step,
            "last": self.past.last,
            "line": self.place.0,
            "column": self.place.1,
            "going": !stops,
            "within": self.within,
            "ended": self.end.is_some(),
            "printed": printed,
            "from": from,
        });
        match &self.end {
            Some(Ok(value)) => told["value"] = value.as_str().into(),
            Some(Err(error)) => told["error"] = told_error(error),
            None => {}
        }
        if stops {
            told["picture"] = picture(&self.run.snapshot()?, &self.unfolded);
        }
        Ok(told)
    }
}

/// Returns the text of a value as it is within an array, where texts have quotes.
fn shown(value: rhai_world::Value) -> String {
    let within = rhai_world::Value::Array(Array::from(vec![value])).to_string();
    cut(within.strip_prefix('[').and_then(|text| text.strip_suffix(']')).unwrap_or(&within))
}

pub fn told_error(error: &EvalError) -> Value {
    let (line, column) = error.position().unwrap_or_default();
    let calls: Vec<Value> = error.calls().iter().map(told_call).collect();
    json!({ "message": error.to_string(), "line": line, "column": column, "calls": calls })
}

fn told_call(call: &CallPlace) -> Value {
    json!({ "name": call.function, "line": call.line, "column": call.column })
}
