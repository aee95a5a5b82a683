//! Sources of lines.
use std::io::{self, BufRead, Write};

/// The source of a prompt's lines.
pub trait Lines {
    /// Reads the next line without its end, or `None` at the end of the input. The mark is shown to
    /// the user before the line; the words are the completions.
    ///
    /// Errors: of kind `InvalidData` if the line is not a text, and `Interrupted` if the user gave
    /// it up: the prompt continues after both. Any other error ends it.
    fn next(&mut self, mark: &str, words: &dyn Fn() -> Vec<String>) -> io::Result<Option<String>>;
}

/// Lines as they come, without an editor.
#[derive(Debug)]
pub struct Plain<R> {
    input: R,
    shows_marks: bool,
}

impl<R: BufRead> Plain<R> {
    /// Reads lines from this input, with or without marks on standard output.
    pub fn new(input: R, shows_marks: bool) -> Plain<R> {
        Plain { input, shows_marks }
    }
}

impl<R: BufRead> Lines for Plain<R> {
    fn next(&mut self, mark: &str, _: &dyn Fn() -> Vec<String>) -> io::Result<Option<String>> {
        if self.shows_marks {
            let mut out = io::stdout().lock();
            write!(out, "{mark}")?;
            out.flush()?;
        }
        let mut line = Vec::new();
        if self.input.read_until(b'\n', &mut line)? == 0 {
            return Ok(None);
        }
        let line = String::from_utf8(line).map_err(|_| io::Error::new(io::ErrorKind::InvalidData, "the line isn't UTF-8"))?;
        let line = line.strip_suffix('\n').unwrap_or(&line);
        Ok(Some(line.strip_suffix('\r').unwrap_or(line).to_owned()))
    }
}

#[cfg(test)]
mod tests {
    use super::*;

    fn no_words() -> Vec<String> {
        Vec::new()
    }

    #[test]
    fn lines_come_without_their_ends() -> io::Result<()> {
        let mut lines = Plain::new(&b"one\ntwo\r\n\nfour"[..], false);
        for expected in [Some("one"), Some("two"), Some(""), Some("four"), None, None] {
            assert_eq!(lines.next("> ", &no_words)?.as_deref(), expected);
        }
        Ok(())
    }

    #[test]
    fn a_line_that_is_no_text_is_refused_alone() -> io::Result<()> {
        let mut lines = Plain::new(&b"\xff\xfe\nnext\n"[..], false);
        assert_eq!(lines.next("> ", &no_words).unwrap_err().kind(), io::ErrorKind::InvalidData);
        assert_eq!(lines.next("> ", &no_words)?.as_deref(), Some("next"));
        Ok(())
    }
}
