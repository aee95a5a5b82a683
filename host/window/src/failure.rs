//! Errors that end a run, and how a second run comes to the values right before one.
use rhai_world::EvalError;

/// How many operations before the error the second run goes one by one.
const SINGLE: u64 = 64;

/// How often a script runs again for the same error. The second run knows how many operations the
/// first one used, and a third one is only needed if the last operation counts for many.
const MOST_RUNS: u32 = 4;

/// An error that ended a run. Runs repeat exactly, so the next one fails at the same place.
#[derive(Clone, Debug)]
pub struct Failure {
    /// The number of the step that the error ended.
    pub step: u64,
    pub error: EvalError,
    /// The number of operations with the one that failed.
    at: u64,
    /// The number of operations from where the next run goes one by one.
    slow: u64,
    runs: u32,
}

impl Failure {
    /// Notes an error in a piece of a run that began after some operations and ended at others.
    pub fn new(step: u64, error: EvalError, began: u64, ended: u64) -> Failure {
        Failure { step, error, at: ended, slow: began.max(ended.saturating_sub(SINGLE)), runs: 1 }
    }

    /// Notes that the next run failed too, in a piece that began after so many operations.
    pub fn again(mut self, began: u64) -> Failure {
        if began >= self.slow {
            self.at = began + 1;
        }
        self.slow = began;
        self.runs += 1;
        self
    }

    /// Returns whether another run should come closer.
    pub fn goes_on(&self) -> bool {
        self.runs < MOST_RUNS
    }

    /// Returns how many operations a run that is in the last step may do at once; `None` once the
    /// next one fails.
    pub fn piece(&self, operations: u64) -> Option<u64> {
        if operations + 1 >= self.at {
            return None;
        }
        Some(self.slow.saturating_sub(operations).max(1))
    }
}

#[cfg(test)]
mod tests {
    use super::Failure;
    use rhai_world::EvalError;

    /// Runs again until the failing operation is next, and returns the operations before it and the
    /// number of runs. Operation number 90 counts for `size`, and fails.
    fn found(size: u64) -> (u64, u32) {
        let mut failure = Failure::new(7, EvalError::Ended, 10, 89 + size);
        let mut runs = 0;
        'runs: while failure.goes_on() {
            runs += 1;
            let mut done = 10;
            while let Some(piece) = failure.piece(done) {
                if done + piece >= 90 {
                    failure = failure.again(done);
                    continue 'runs;
                }
                done += piece;
            }
            return (done, runs);
        }
        (0, runs)
    }

    #[test]
    fn the_operations_before_the_error_are_found() {
        assert_eq!(found(1), (89, 1));
        assert_eq!(found(20), (89, 2));
        assert_eq!(found(5_000), (89, 3));
    }
}
