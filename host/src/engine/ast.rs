//! Compiled scripts.
use std::fmt;
use std::sync::Arc;

/// A script that an engine has compiled. It is a text and a number, so it can go to other threads,
/// and a clone costs nothing. A [`Scope`](crate::Scope) keeps the code of the script that it ran
/// last.
#[derive(Clone)]
pub struct Ast {
    text: Arc<str>,
    serial: u64,
}

impl Ast {
    pub(crate) fn of(text: &str) -> Ast {
        Ast { text: text.into(), serial: super::serial() }
    }

    /// Returns the text of the script.
    pub fn text(&self) -> &str {
        &self.text
    }

    pub(crate) fn serial(&self) -> u64 {
        self.serial
    }
}

impl fmt::Debug for Ast {
    fn fmt(&self, f: &mut fmt::Formatter<'_>) -> fmt::Result {
        f.debug_tuple("Ast").field(&self.text).finish()
    }
}
