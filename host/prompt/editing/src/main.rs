//! The program `rhai-world` with a line editor: it has a history, and completes names of variables,
//! functions and commands.
//!
//! `RHAI_WORLD_HISTORY` may name a file that keeps the history.
#![forbid(unsafe_code)]

use rhai_world_prompt::{program, Lines, Plain};
use rustyline::completion::Completer;
use rustyline::error::ReadlineError;
use rustyline::highlight::Highlighter;
use rustyline::hint::Hinter;
use rustyline::validate::Validator;
use rustyline::{Config, Context, Editor, Helper};
use std::io::{self, ErrorKind, IsTerminal};
use std::path::PathBuf;
use std::process::ExitCode;

/// How many lines the history has.
const HISTORY: usize = 1000;

fn main() -> ExitCode {
    program(|| {
        let input = io::stdin();
        Ok(if input.is_terminal() { Box::new(Edited::new()?) } else { Box::new(Plain::new(input.lock(), false)) })
    })
}

/// Lines that are edited in a terminal.
struct Edited {
    editor: Editor<Words>,
    file: Option<PathBuf>,
}

impl Edited {
    fn new() -> Result<Edited, String> {
        let config = Config::builder().max_history_size(HISTORY).history_ignore_dups(true).history_ignore_space(true).build();
        let mut editor = Editor::with_config(config);
        editor.set_helper(Some(Words::default()));
        let file = std::env::var_os("RHAI_WORLD_HISTORY").filter(|name| !name.is_empty()).map(PathBuf::from);
        if let Some(file) = file.as_ref().filter(|file| file.exists()) {
            editor.load_history(file).map_err(|error| format!("{}: {error}", file.display()))?;
        }
        Ok(Edited { editor, file })
    }
}

impl Lines for Edited {
    fn next(&mut self, mark: &str, words: &dyn Fn() -> Vec<String>) -> io::Result<Option<String>> {
        self.editor.set_helper(Some(Words { words: words() }));
        match self.editor.readline(mark) {
            Ok(line) => {
                self.editor.add_history_entry(&line);
                if let Some(file) = &self.file {
                    self.editor.save_history(file).map_err(io::Error::other)?;
                }
                Ok(Some(line))
            }
            Err(ReadlineError::Eof) => Ok(None),
            Err(ReadlineError::Interrupted) => Err(ErrorKind::Interrupted.into()),
            Err(ReadlineError::Io(error)) => Err(error),
            Err(error) => Err(io::Error::other(error)),
        }
    }
}

/// The words that complete a line, in order.
#[derive(Default)]
struct Words {
    words: Vec<String>,
}

impl Words {
    /// Returns where the word before this position begins, and its completions.
    fn completed(&self, line: &str, place: usize) -> (usize, Vec<String>) {
        let before = &line[..place];
        let begin = before.rfind(|character: char| !character.is_ascii_alphanumeric() && character != '_').map_or(0, |i| {
            let character = before[i..].chars().next().map_or(0, char::len_utf8);
            i + character
        });
        // (the colon belongs to the word of a command)
        let begin = if begin == 1 && line.starts_with(':') { 0 } else { begin };
        let word = &before[begin..];
        let found = self.words.iter().filter(|one| !word.is_empty() && one.starts_with(word));
        (begin, found.cloned().collect())
    }
}

impl Completer for Words {
    type Candidate = String;

    fn complete(&self, line: &str, place: usize, _: &Context<'_>) -> rustyline::Result<(usize, Vec<String>)> {
        Ok(self.completed(line, place))
    }
}

impl Hinter for Words {
    type Hint = String;
}

impl Highlighter for Words {}

impl Validator for Words {}

impl Helper for Words {}

#[cfg(test)]
mod tests {
    use super::*;

    fn completed(line: &str) -> (usize, Vec<String>) {
        let words = [":quit", ":scope", "stock", "stop", "twice"].map(str::to_owned).to_vec();
        Words { words }.completed(line, line.len())
    }

    #[test]
    fn the_word_before_the_place_is_completed() {
        assert_eq!(completed("st"), (0, vec!["stock".to_owned(), "stop".to_owned()]));
        assert_eq!(completed("twice(sto"), (6, vec!["stock".to_owned(), "stop".to_owned()]));
        assert_eq!(completed("ß+tw"), (3, vec!["twice".to_owned()]));
        assert_eq!(completed("x"), (0, vec![]));
        assert_eq!(completed(""), (0, vec![]));
        assert_eq!(completed("1 + "), (4, vec![]));
    }

    #[test]
    fn commands_are_completed_with_their_colon() {
        assert_eq!(completed(":s"), (0, vec![":scope".to_owned()]));
        assert_eq!(completed("x:s"), (2, vec!["stock".to_owned(), "stop".to_owned()]));
    }
}
