//! How a run continues, and why it stops.
use super::{EvalError, Scope};
use crate::error::done;
use crate::sys::{self, ScriptStop, Told};
use crate::value::Value;

/// A line of `debug` in what a run printed.
pub(crate) struct Debugged {
    /// The bytes before it, and its own with the line feed.
    pub(crate) begin: usize,
    pub(crate) length: usize,
    /// Where `debug` was called.
    pub(crate) line: u32,
    pub(crate) column: u32,
}

/// Why a run stopped.
pub(crate) enum Stop {
    Done,
    Paused,
    Statement,
    Calls {
        function: usize,
    },
    Memory,
    Fault {
        message: String,
    },
    /// A function called from a host function is done, and the host function still waits.
    Answered,
    /// Such a function failed, and the host function still waits.
    Refused {
        message: String,
    },
}

/// A value that crosses in numbers.
#[derive(Clone, Copy)]
pub(super) enum Scalar {
    Unit,
    Bool(bool),
    Int(i64),
}

impl Scalar {
    /// Returns the value that the library reports in these numbers, if it reports one.
    #[inline]
    fn reported(kind: u32, number: i64) -> Option<Value> {
        match kind {
            0 => Some(Value::Unit),
            1 => Some(Value::Bool(number != 0)),
            2 => Some(Value::Int(number)),
            _ => None,
        }
    }

    #[inline]
    fn of(value: &Value) -> Option<Scalar> {
        match value {
            Value::Unit => Some(Scalar::Unit),
            Value::Bool(truth) => Some(Scalar::Bool(*truth)),
            Value::Int(number) => Some(Scalar::Int(*number)),
            Value::Char(_)
            | Value::Text(_)
            | Value::Array(_)
            | Value::Blob(_)
            | Value::Map(_)
            | Value::FnPtr(..)
            | Value::U8(_)
            | Value::U16(_)
            | Value::U32(_)
            | Value::U64(_)
            | Value::U128(_)
            | Value::I8(_)
            | Value::I16(_)
            | Value::I32(_)
            | Value::I128(_)
            | Value::Range(..)
            | Value::RangeWithEnd(..) => None,
        }
    }

    fn value(self) -> Value {
        match self {
            Scalar::Unit => Value::Unit,
            Scalar::Bool(truth) => Value::Bool(truth),
            Scalar::Int(number) => Value::Int(number),
        }
    }

    /// Returns the numbers in which the library takes the value.
    #[inline]
    fn numbers(self) -> (u32, i64) {
        match self {
            Scalar::Unit => (0, 0),
            Scalar::Bool(truth) => (1, i64::from(truth)),
            Scalar::Int(number) => (2, number),
        }
    }
}

/// Arguments that cross in numbers.
pub(super) struct Numbers {
    pub(super) kinds: [u8; MOST],
    pub(super) numbers: [usize; MOST],
}

/// How many arguments may cross in numbers.
const MOST: usize = 6;

impl Numbers {
    /// Returns the numbers of these values, if there are few, and all of them cross in numbers.
    pub(super) fn of(values: &[Value]) -> Option<Numbers> {
        let mut numbers = Numbers { kinds: [0; MOST], numbers: [0; MOST] };
        if values.len() > MOST {
            return None;
        }
        for (at, value) in values.iter().enumerate() {
            let (kind, number) = Scalar::of(value)?.numbers();
            (numbers.kinds[at], numbers.numbers[at]) = (kind as u8, number as usize);
        }
        Some(numbers)
    }
}

/// How a run of the scope continues: `stop` has where it stopped.
impl Scope {
    /// Continues the run for at most this many operations, with the result that waits for it.
    #[inline]
    pub(super) fn go(&mut self, operations: u64) -> Result<(), EvalError> {
        let handle = &self.world.handle;
        Ok(done(match self.waiting.take().map(Scalar::numbers) {
            Some((kind, number)) => sys::script_answer_and_go(handle, kind, number, operations, &mut self.stop),
            None => sys::script_go(handle, operations, &mut self.stop),
        })?)
    }

    /// Passes the result that waits to the run, which doesn't continue yet.
    pub(super) fn settle(&mut self) -> Result<(), EvalError> {
        match self.waiting.take() {
            Some(scalar) => self.pass(&scalar.value()),
            None => Ok(()),
        }
    }

    /// Returns why the run stopped; the message is what went wrong.
    #[inline]
    pub(super) fn why(&self, message: String) -> Result<Stop, EvalError> {
        Ok(match self.stop.kind {
            0 => Stop::Done,
            1 => Stop::Paused,
            2 => Stop::Calls { function: self.stop.function as usize },
            3 => Stop::Statement,
            4 => Stop::Memory,
            5 => Stop::Fault { message },
            7 => Stop::Answered,
            8 => Stop::Refused { message },
            _ => return Err(EvalError::Unexpected),
        })
    }

    /// Whether the run is done, and printed nothing since it continued.
    #[inline]
    pub(super) fn is_done_silently(&self) -> bool {
        let ScriptStop { kind, printed, said, .. } = self.stop;
        kind == 0 && printed == 0 && said == 0
    }

    /// Which of the printed lines are those of `debug`.
    pub(super) fn debugs(&self) -> Result<Vec<Debugged>, EvalError> {
        if !self.notes_debugs {
            return Ok(Vec::new());
        }
        let mut told = Told::default();
        let status = sys::script_debugs(&self.world.handle, &mut told);
        let bytes = self.world.bytes(status, &told)?;
        let numbers = bytes.chunks_exact(8).map(|bytes| u64::from_le_bytes(bytes.try_into().unwrap_or_default()));
        let numbers: Vec<u64> = numbers.collect();
        let debugs = numbers.chunks_exact(4).map(|it| {
            let (begin, length) = (usize::try_from(it[0]).ok()?, usize::try_from(it[1]).ok()?);
            Some(Debugged { begin, length, line: u32::try_from(it[2]).ok()?, column: u32::try_from(it[3]).ok()? })
        });
        debugs.collect::<Option<_>>().ok_or(EvalError::Unexpected)
    }

    /// What was printed, and what went wrong.
    pub(super) fn texts(&self, stop: &ScriptStop) -> Result<(String, String), EvalError> {
        let ScriptStop { printed, said, .. } = *stop;
        if printed == 0 && said == 0 {
            return Ok((String::new(), String::new()));
        }
        let mut text = self.world.text_of(false, (printed + said) as u64)?;
        let message = text.get(printed..).ok_or(EvalError::Unexpected)?.to_owned();
        text.truncate(printed);
        Ok((text, message))
    }

    /// Returns the value of the run, or of the function that has just returned.
    pub(super) fn last_value(&self) -> Result<Value, EvalError> {
        if let ScriptStop { kind: 0 | 7, value_kind, value, .. } = self.stop {
            if let Some(value) = Scalar::reported(value_kind, value) {
                return Ok(value);
            }
        }
        let mut told = Told::default();
        let status = sys::script_value(&self.world.handle, &mut told);
        self.value_told(status, &told)
    }

    /// Returns an argument of the registered function being called.
    #[inline]
    pub(super) fn argument(&self, number: usize) -> Result<Value, EvalError> {
        if let Some(value) = self.reported_argument(number) {
            return Ok(value);
        }
        let mut told = Told::default();
        let status = sys::script_argument(&self.world.handle, number, &mut told);
        self.value_told(status, &told)
    }

    #[inline]
    fn reported_argument(&self, number: usize) -> Option<Value> {
        let ScriptStop { kind: 2, value_kind, value, second_kind, second, third_kind, third, .. } = self.stop else {
            return None;
        };
        let (kind, number) = *[(value_kind, value), (second_kind, second), (third_kind, third)].get(number)?;
        Scalar::reported(kind, number)
    }

    /// Passes a value to the script that called a registered function, at the latest when it
    /// continues.
    #[inline]
    pub(super) fn answer(&mut self, value: &Value) -> Result<(), EvalError> {
        self.waiting = Scalar::of(value);
        match self.waiting {
            Some(_) => Ok(()),
            None => self.pass(value),
        }
    }

    fn pass(&self, value: &Value) -> Result<(), EvalError> {
        Ok(done(value.with_bytes(|bytes| sys::script_answer(&self.world.handle, bytes))?)?)
    }

    /// Fails the call of a registered function: either the script catches the error and continues,
    /// which is reported as a pause, or the run ends.
    pub(super) fn refuse(&mut self, why: &str) -> Result<(), EvalError> {
        Ok(done(sys::script_refuse(&self.world.handle, why.as_bytes(), &mut self.stop))?)
    }

    /// Fails the call with a value, as if the script had thrown it.
    pub(super) fn throw(&mut self, value: &Value) -> Result<(), EvalError> {
        let (handle, stop) = (&self.world.handle, &mut self.stop);
        Ok(done(value.with_bytes(|bytes| sys::script_throw(handle, bytes, stop))?)?)
    }

    /// Replaces the first argument of the registered function being called.
    pub(super) fn change(&mut self, value: &Value) -> Result<(), EvalError> {
        Ok(done(value.with_bytes(|bytes| sys::script_change(&self.world.handle, bytes))?)?)
    }
}
