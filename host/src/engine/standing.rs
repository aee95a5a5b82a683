//! Inspection of a paused run: the active functions, and their variables.
use super::{CallPlace, EvalError, Scope};
use crate::error::{done, Error};
use crate::sys::{self, Told};
use crate::value::Value;

impl Scope {
    /// Returns the active functions, the innermost first, at most this many; fewer if an allocation fails.
    pub(super) fn calls_under_way(&self, most: usize) -> Vec<CallPlace> {
        self.calls_under_way_from(0).take(most).collect()
    }

    /// Iterates over the active functions from this number on.
    pub(super) fn calls_under_way_from(&self, first: usize) -> impl Iterator<Item = CallPlace> + '_ {
        (first..usize::MAX).map_while(|number| self.call_under_way(number).ok().flatten())
    }

    fn call_under_way(&self, number: usize) -> Result<Option<CallPlace>, EvalError> {
        let (mut told, mut line, mut column) = (Told::default(), 0, 0);
        let status = sys::script_function(&self.world.handle, number, &mut line, &mut column, &mut told);
        let Some(function) = self.text_there(status, &told)? else {
            return Ok(None);
        };
        let number = |of: usize| u32::try_from(of).unwrap_or(u32::MAX);
        Ok(Some(CallPlace { function, line: number(line), column: number(column) }))
    }

    /// Returns the visible variables of an active function, from the newest to the oldest.
    pub(super) fn variables_in_sight(&self, function: usize) -> Result<Vec<(String, Value)>, EvalError> {
        let (mut variables, mut before) = (Vec::new(), usize::MAX);
        loop {
            let (mut told, mut number) = (Told::default(), 0);
            let status = sys::script_variable(&self.world.handle, function, before, &mut number, &mut told);
            let Some(name) = self.text_there(status, &told)? else {
                return Ok(variables);
            };
            let status = sys::script_variable_value(&self.world.handle, function, before, &mut told);
            variables.push((name, self.value_told(status, &told)?));
            before = number;
        }
    }

    /// Returns the text of an answer; `None` if the call found nothing.
    fn text_there(&self, status: u32, told: &Told) -> Result<Option<String>, EvalError> {
        match done(status) {
            Ok(()) => String::from_utf8(self.world.bytes(status, told)?).map(Some).map_err(|_| EvalError::Unexpected),
            Err(Error::NoCommand) => Ok(None),
            Err(error) => Err(error.into()),
        }
    }
}
