//! Colours of a terminal.
use std::ffi::OsStr;
use std::io::IsTerminal;

/// What is coloured.
#[derive(Clone, Copy, Debug)]
pub enum Colour {
    /// The prompt's mark.
    Mark,
    /// A value.
    Value,
    /// An error.
    Error,
}

/// Colours texts, or leaves them as they are.
#[derive(Clone, Copy, Debug, PartialEq, Eq)]
pub struct Paint {
    paints: bool,
}

impl Paint {
    /// Colours texts if the stream is a terminal and `NO_COLOR` isn't set.
    pub fn of(stream: &impl IsTerminal) -> Paint {
        Paint::when(stream.is_terminal(), std::env::var_os("NO_COLOR").as_deref())
    }

    fn when(is_terminal: bool, no_color: Option<&OsStr>) -> Paint {
        Paint { paints: is_terminal && no_color.is_none_or(OsStr::is_empty) }
    }

    /// Returns the text in its colour.
    pub fn paint(self, colour: Colour, text: &str) -> String {
        if !self.paints {
            return text.to_owned();
        }
        let number = match colour {
            Colour::Mark => 36,
            Colour::Value => 32,
            Colour::Error => 31,
        };
        format!("\x1b[{number}m{text}\x1b[0m")
    }
}

#[cfg(test)]
mod tests {
    use super::*;

    #[test]
    fn a_terminal_is_painted_unless_no_color_says_otherwise() {
        assert!(Paint::when(true, None).paints);
        assert!(Paint::when(true, Some(OsStr::new(""))).paints);
        assert!(!Paint::when(true, Some(OsStr::new("1"))).paints);
        assert!(!Paint::when(false, None).paints);
    }

    #[test]
    fn texts_without_colours_stay() {
        assert_eq!(Paint { paints: false }.paint(Colour::Error, "x"), "x");
        assert_eq!(Paint { paints: true }.paint(Colour::Error, "x"), "\u{1b}[31mx\u{1b}[0m");
    }
}
