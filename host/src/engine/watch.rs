//! What is watched in a run: operations, time, output, interrupts, and the progress callback.
use super::{Engine, EvalError};
use crate::value::Value;
use std::fmt;
use std::sync::atomic::{AtomicU64, Ordering};
use std::sync::Arc;
use std::time::{Duration, Instant};

/// The most operations between two checks of a run.
const AT_ONCE: u64 = 1_024 * 1_024;

/// The same, if anything besides operations is watched.
const WATCHED_AT_ONCE: u64 = 1_024;

/// Ends the unfinished runs of an engine, from any thread. A script can't catch it, and the
/// variables keep their values.
///
/// A run that is paused, as a [`Run`](crate::Run) between two pieces, is unfinished too. Runs that
/// start later are not affected.
///
/// ```
/// use rhai_world::{Engine, EvalError};
///
/// let mut engine = Engine::new();
/// let interrupt = engine.interrupt();
/// engine.register_fn("pull", move || interrupt.pull());
/// let run = engine.run("pull(); loop {}");
/// assert!(matches!(run, Err(EvalError::Interrupted { line: 1, .. })));
/// assert_eq!(engine.eval::<i64>("40 + 2")?, 42);
/// # Ok::<(), EvalError>(())
/// ```
#[derive(Clone, Debug)]
pub struct Interrupt {
    pulls: Arc<AtomicU64>,
}

impl Interrupt {
    fn new() -> Interrupt {
        Interrupt { pulls: Arc::new(AtomicU64::new(0)) }
    }

    /// Ends each unfinished run within 1,024 operations. A host function that is being called
    /// returns first.
    ///
    /// Cost: one atomic operation, so a signal handler may call it.
    pub fn pull(&self) {
        self.pulls.fetch_add(1, Ordering::Release);
    }

    fn pulls(&self) -> u64 {
        self.pulls.load(Ordering::Acquire)
    }

    /// Whether anyone except the engine holds it.
    fn is_held(&self) -> bool {
        Arc::strong_count(&self.pulls) > 1
    }
}

/// The progress callback, called with the operations used so far.
type OnProgress = Box<dyn Fn(u64) -> Option<Value> + Send + Sync>;

/// What an engine watches its runs for; 0 means no limit.
pub(super) struct Watch {
    operations: u64,
    time: Duration,
    deadline: Option<Instant>,
    output: u64,
    on_progress: Option<OnProgress>,
    interrupt: Interrupt,
}

impl Watch {
    pub(super) fn new() -> Watch {
        Watch { operations: 0, time: Duration::ZERO, deadline: None, output: 0, on_progress: None, interrupt: Interrupt::new() }
    }

    fn has_time(&self) -> bool {
        !self.time.is_zero()
    }

    /// How many operations a run may execute before the next check.
    fn at_once(&self) -> u64 {
        let is_timed = self.has_time() || self.deadline.is_some();
        if is_timed || self.output != 0 || self.on_progress.is_some() || self.interrupt.is_held() {
            WATCHED_AT_ONCE
        } else {
            AT_ONCE
        }
    }
}

impl fmt::Debug for Watch {
    fn fmt(&self, f: &mut fmt::Formatter<'_>) -> fmt::Result {
        f.debug_struct("Watch")
            .field("operations", &self.operations)
            .field("time", &self.time)
            .field("deadline", &self.deadline)
            .field("output", &self.output)
            .finish_non_exhaustive()
    }
}

/// Limits on runs, and ways to end them. No script can catch these errors, and the variables keep
/// their values after each of them.
impl Engine {
    /// Limits the operations of a run; 0 means no limit. A run that needs more ends with
    /// [`EvalError::TooManyOperations`].
    pub fn set_max_operations(&mut self, operations: u64) -> &mut Engine {
        self.watch.operations = operations;
        self
    }

    /// Limits the time of a run, including the host functions that it calls; zero means no limit.
    /// Time between the pieces of a [`Run`](crate::Run) doesn't count. A run that takes longer ends
    /// within 1,024 operations, with [`EvalError::TooMuchTime`]; a host function that is being
    /// called returns first.
    ///
    /// ```
    /// use rhai_world::{Engine, EvalError};
    /// use std::time::Duration;
    ///
    /// let mut engine = Engine::new();
    /// engine.set_max_time(Duration::from_millis(20));
    /// assert!(matches!(engine.run("try { loop {} } catch { }"), Err(EvalError::TooMuchTime { line: 1, .. })));
    /// ```
    pub fn set_max_time(&mut self, time: Duration) -> &mut Engine {
        self.watch.time = time;
        self
    }

    /// Sets when all runs have to be done, whenever they start; `None` is never. A run that isn't
    /// done by then ends within 1,024 operations, with [`EvalError::TooMuchTime`]; a host function
    /// that is being called returns first. Time between the pieces of a run counts.
    ///
    /// ```
    /// use rhai_world::{Engine, EvalError};
    /// use std::time::{Duration, Instant};
    ///
    /// let mut engine = Engine::new();
    /// engine.set_deadline(Some(Instant::now() + Duration::from_millis(20)));
    /// assert!(matches!(engine.run("loop {}"), Err(EvalError::TooMuchTime { line: 1, .. })));
    /// assert!(matches!(engine.run("1"), Err(EvalError::TooMuchTime { .. })));
    /// engine.set_deadline(None);
    /// assert_eq!(engine.run("1"), Ok(()));
    /// ```
    pub fn set_deadline(&mut self, deadline: Option<Instant>) -> &mut Engine {
        self.watch.deadline = deadline;
        self
    }

    /// Limits the bytes that a run may print in all, including line feeds; 0 means no limit. Lines
    /// within the limit are passed on; at the first line past it the run ends with
    /// [`EvalError::TooMuchOutput`].
    ///
    /// Output is passed on every 1,024 operations, and before each call of a host function: it is
    /// never all in memory.
    ///
    /// ```
    /// use rhai_world::{Engine, EvalError};
    ///
    /// let mut engine = Engine::new();
    /// engine.set_max_output(1_000).on_print(|_| {});
    /// assert!(matches!(engine.run("loop { print(7); }"), Err(EvalError::TooMuchOutput { .. })));
    /// ```
    pub fn set_max_output(&mut self, bytes: u64) -> &mut Engine {
        self.watch.output = bytes;
        self
    }

    /// Sets a callback that is called during runs, with the operations used so far: at least every
    /// 1,024 operations, and after each call of a host function. If it returns a reason, the run
    /// ends with [`EvalError::Terminated`] and that reason.
    ///
    /// ```
    /// use rhai_world::{Engine, EvalError, Value};
    ///
    /// let mut engine = Engine::new();
    /// engine.on_progress(|operations| (operations > 10_000).then(|| Value::from("enough")));
    /// let run = engine.run("loop {}");
    /// assert!(matches!(run, Err(EvalError::Terminated { reason, .. }) if reason == Value::from("enough")));
    /// ```
    pub fn on_progress(&mut self, ask: impl Fn(u64) -> Option<Value> + Send + Sync + 'static) -> &mut Engine {
        self.watch.on_progress = Some(Box::new(ask));
        self
    }

    /// Returns a handle with which other threads can end the runs of this engine. While one exists,
    /// runs check for it every 1,024 operations; a run that had started before may first execute up
    /// to 1,048,576.
    pub fn interrupt(&self) -> Interrupt {
        self.watch.interrupt.clone()
    }
}

/// What a run has used of its limits.
#[derive(Debug)]
pub(super) struct Used {
    pub(super) operations: u64,
    /// Where it is; 0 is nowhere.
    pub(super) line: u32,
    pub(super) column: u32,
    /// How long its pieces took, and when the current one began.
    time: Duration,
    since: Option<Instant>,
    output: u64,
    /// How often the interrupt had been pulled before the run started.
    pulls: u64,
    /// The number of operations last reported to the callback.
    told: u64,
    /// How deep calls of functions of scripts are nested.
    pub(super) within: usize,
    /// The last error in such a call, as it is shown and as a script sees it.
    pub(super) refused: Option<(String, Value)>,
    /// The error that ended the run in such a call.
    pub(super) ended: Option<EvalError>,
}

impl Used {
    /// The counts of a run that starts.
    pub(super) fn new(watch: &Watch) -> Used {
        let pulls = watch.interrupt.pulls();
        Used {
            operations: 0,
            line: 0,
            column: 0,
            time: Duration::ZERO,
            since: None,
            output: 0,
            pulls,
            told: 0,
            within: 0,
            refused: None,
            ended: None,
        }
    }

    /// Starts a piece.
    pub(super) fn begin_piece(&mut self, watch: &Watch) {
        self.since = watch.has_time().then(Instant::now);
    }

    /// Ends a piece.
    pub(super) fn end_piece(&mut self) {
        self.time = self.time();
        self.since = None;
    }

    fn time(&self) -> Duration {
        let piece = self.since.map_or(Duration::ZERO, |since| since.elapsed());
        self.time.saturating_add(piece)
    }

    /// How many operations the run may execute next, if it may use this many in all.
    pub(super) fn granted(&self, watch: &Watch, until: u64) -> u64 {
        let most = if watch.operations == 0 { until } else { until.min(watch.operations) };
        most.saturating_sub(self.operations).min(watch.at_once())
    }

    /// Fails if the run may not continue.
    pub(super) fn check(&mut self, watch: &Watch) -> Result<(), EvalError> {
        let (line, column) = (self.line, self.column);
        if watch.interrupt.pulls() != self.pulls {
            return Err(EvalError::Interrupted { line, column, calls: Vec::new() });
        }
        if watch.operations != 0 && self.operations >= watch.operations {
            return Err(EvalError::TooManyOperations { line, column, calls: Vec::new() });
        }
        let is_late = watch.deadline.is_some_and(|deadline| Instant::now() >= deadline);
        if is_late || watch.has_time() && self.time() >= watch.time {
            return Err(EvalError::TooMuchTime { line, column, calls: Vec::new() });
        }
        match self.asked(watch) {
            Some(reason) => Err(EvalError::Terminated { reason, line, column, calls: Vec::new() }),
            None => Ok(()),
        }
    }

    fn asked(&mut self, watch: &Watch) -> Option<Value> {
        let ask = watch.on_progress.as_ref()?;
        if self.operations == self.told {
            return None;
        }
        self.told = self.operations;
        ask(self.operations)
    }

    /// Counts a printed line; fails if it is past the limit.
    pub(super) fn print(&mut self, watch: &Watch, line: &str) -> Result<(), EvalError> {
        self.output = self.output.saturating_add(line.len() as u64);
        if watch.output != 0 && self.output > watch.output {
            return Err(EvalError::TooMuchOutput { line: self.line, column: self.column, calls: Vec::new() });
        }
        Ok(())
    }
}
