//! Replaces `EvalAltResult`: the variants that the five files (and arithmetic) make.

use crate::Position;
use std::fmt;

#[derive(Debug)]
pub enum EvalAltResult {
    ErrorMismatchDataType(String, String, Position),
    ErrorDataRace(String, Position),
    ErrorArithmetic(String, Position),
    ErrorDataTooLarge(String, Position),
}

impl EvalAltResult {
    #[must_use]
    pub const fn name(&self) -> &'static str {
        match self {
            Self::ErrorMismatchDataType(..) => "ErrorMismatchDataType",
            Self::ErrorDataRace(..) => "ErrorDataRace",
            Self::ErrorArithmetic(..) => "ErrorArithmetic",
            Self::ErrorDataTooLarge(..) => "ErrorDataTooLarge",
        }
    }
}

impl fmt::Display for EvalAltResult {
    fn fmt(&self, f: &mut fmt::Formatter<'_>) -> fmt::Result {
        match self {
            Self::ErrorMismatchDataType(a, b, _) => write!(f, "expecting {a}, found {b}"),
            Self::ErrorDataRace(s, _) => write!(f, "data race: {s}"),
            Self::ErrorArithmetic(s, _) => write!(f, "{s}"),
            Self::ErrorDataTooLarge(s, _) => write!(f, "{s} too large"),
        }
    }
}

impl std::error::Error for EvalAltResult {}
