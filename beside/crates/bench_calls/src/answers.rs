//! Answers, each on a line after its key.

use crate::dump::{add_dump, add_quoted};
use rhai_text::{ArithmeticFault, EvalAltResult, Position, SizeKind};
use rhai_value::{Dynamic, Store};
use std::alloc::{AllocError, Global};

/// The answers to a recipe so far.
#[derive(Drop)]
pub struct Answers {
    pub text: String,
    /// The last value that was kept, to be written once more.
    pub last: Dynamic,
}

impl Answers {
    pub fn new(alloc: Global) -> Self {
        Answers {
            text: String::new(alloc),
            last: Dynamic::UNIT,
        }
    }

    /// Returns everything that was written.
    pub fn into_text(self) -> String {
        let Answers { text, last: _ } = self;
        text
    }

    pub fn key(&mut self, key: &str) -> Result<(), AllocError> {
        self.text.push_str(key)?;
        self.text.push('=')
    }

    pub fn end(&mut self) -> Result<(), AllocError> {
        self.text.push('\n')
    }

    pub fn say(&mut self, key: &str, text: &str) -> Result<(), AllocError> {
        self.key(key)?;
        self.text.push_str(text)?;
        self.end()
    }

    pub fn say_flag(&mut self, key: &str, flag: bool) -> Result<(), AllocError> {
        self.say(key, if flag { "true" } else { "false" })
    }

    pub fn say_number(&mut self, key: &str, number: i64) -> Result<(), AllocError> {
        self.key(key)?;
        let text = &mut self.text;
        write!(text, "{number}")?;
        self.end()
    }

    pub fn say_size(&mut self, key: &str, size: usize) -> Result<(), AllocError> {
        self.key(key)?;
        let text = &mut self.text;
        write!(text, "{size}")?;
        self.end()
    }

    pub fn say_quoted(&mut self, key: &str, text: &str) -> Result<(), AllocError> {
        self.key(key)?;
        add_quoted(&mut self.text, text)?;
        self.end()
    }

    pub fn say_value(&mut self, key: &str, s: &Store, value: &Dynamic) -> Result<(), AllocError> {
        self.key(key)?;
        add_dump(&mut self.text, s, value)?;
        self.end()
    }

    /// Writes a value, and keeps it.
    pub fn say_kept(&mut self, key: &str, s: &Store, value: Dynamic) -> Result<(), AllocError> {
        self.say_value(key, s, &value)?;
        self.last = value;
        Ok(())
    }

    fn say_mismatch(&mut self, wanted: &str, found: &str, pos: Position) -> Result<(), AllocError> {
        let line = pos.line();
        let place = pos.position();
        self.say("fault", "ErrorMismatchDataType")?;
        self.say("wanted", wanted)?;
        self.say("found", found)?;
        self.key("pos")?;
        let text = &mut self.text;
        write!(text, "{line}:{place}")?;
        self.end()
    }

    /// Writes an error. A failed allocation is this call's own error instead.
    pub fn say_fault(&mut self, error: &EvalAltResult) -> Result<(), AllocError> {
        match error {
            EvalAltResult::ErrorMismatchDataType(wanted, found, pos) => {
                self.say_mismatch(wanted.as_str(), found.as_str(), *pos)
            }
            EvalAltResult::ErrorDataRace(_) => self.say("fault", "ErrorDataRace"),
            EvalAltResult::ErrorArithmetic(ArithmeticFault::Overflow, _) => {
                self.say("fault", "Overflow")
            }
            EvalAltResult::ErrorArithmetic(ArithmeticFault::DivisionByZero, _) => {
                self.say("fault", "DivisionByZero")
            }
            EvalAltResult::ErrorArithmetic(ArithmeticFault::NegativePower, _) => {
                self.say("fault", "NegativePower")
            }
            EvalAltResult::ErrorArithmetic(ArithmeticFault::PowerTooLarge, _) => {
                self.say("fault", "PowerTooLarge")
            }
            EvalAltResult::ErrorDataTooLarge(SizeKind::Text, _) => self.say("fault", "Text"),
            EvalAltResult::ErrorDataTooLarge(SizeKind::Items, _) => self.say("fault", "Items"),
            EvalAltResult::ErrorMemory(_) => Err(AllocError),
        }
    }
}
