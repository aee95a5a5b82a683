//! The program's arguments.
use std::ffi::OsString;
use std::fmt;
use std::path::PathBuf;
use std::time::Duration;

/// The default limit on the memory of a scope.
const MEMORY: usize = 256 * 1024 * 1024;

/// The usage text.
pub const USAGE: &str = "\
Usage: rhai-world [OPTIONS] [FILE]
       rhai-world [OPTIONS] -e TEXT

Runs the script of a file, of which `-` is standard input; or that of a text, and shows its value. Without either it
reads scripts line by line from standard input.

  --operations N   the most operations of a run (0, which is no limit)
  --memory BYTES   the most memory that values and scripts hold (268435456; 0 is no limit)
  --time SECONDS   the longest time of a run, as 1.5 (0, which is no limit)
  -h, --help       this page
  -V, --version    the version

It ends with 0; with 1 where a script failed; with 2 where nothing could be run.
It has colours where it writes to a terminal and NO_COLOR isn't set.
";

/// What to run.
#[derive(Debug, PartialEq, Eq)]
pub enum Work {
    /// Scripts from standard input, line by line.
    Prompt,
    /// Standard input as one script.
    Input,
    /// The script of a file.
    File(PathBuf),
    /// A script.
    Text(String),
}

/// The limits of a run; 0 means no limit.
#[derive(Clone, Copy, Debug, PartialEq, Eq)]
pub struct Budgets {
    pub operations: u64,
    pub memory: usize,
    pub time: Duration,
}

/// What the arguments request.
#[derive(Debug, PartialEq, Eq)]
pub enum Asked {
    Run(Work, Budgets),
    Help,
    Version,
}

/// Why the arguments are invalid.
#[derive(Debug, PartialEq, Eq)]
pub enum BadCall {
    Unknown(String),
    NoValue(&'static str),
    BadValue(&'static str, String),
    Twice(&'static str),
    TwoScripts,
}

impl fmt::Display for BadCall {
    fn fmt(&self, f: &mut fmt::Formatter<'_>) -> fmt::Result {
        match self {
            BadCall::Unknown(word) => write!(f, "no such option: {word}"),
            BadCall::NoValue(option) => write!(f, "{option} wants a value"),
            BadCall::BadValue(option, word) => write!(f, "{option} takes no such value: {word}"),
            BadCall::Twice(option) => write!(f, "{option} twice"),
            BadCall::TwoScripts => f.write_str("more than one script"),
        }
    }
}

/// The remaining arguments, and what was read from those before.
struct Reader<I> {
    words: I,
    work: Option<Work>,
    operations: Option<u64>,
    memory: Option<usize>,
    time: Option<Duration>,
}

/// Reads the arguments, without the program's own name.
pub fn parse(words: impl IntoIterator<Item = OsString>) -> Result<Asked, BadCall> {
    let mut reader = Reader { words: words.into_iter(), work: None, operations: None, memory: None, time: None };
    while let Some(word) = reader.words.next() {
        match word.to_str() {
            Some("-h" | "--help") => return Ok(Asked::Help),
            Some("-V" | "--version") => return Ok(Asked::Version),
            Some("-e") => {
                let text = reader.value("-e")?;
                reader.set_work(Work::Text(text))?;
            }
            Some("--operations") => reader.operations = reader.number("--operations", reader.operations.is_some(), number)?,
            Some("--memory") => reader.memory = reader.number("--memory", reader.memory.is_some(), number)?,
            Some("--time") => reader.time = reader.number("--time", reader.time.is_some(), seconds)?,
            Some("-") => reader.set_work(Work::Input)?,
            Some(option) if option.starts_with('-') => return Err(BadCall::Unknown(option.to_owned())),
            Some(_) | None => reader.set_work(Work::File(PathBuf::from(word)))?,
        }
    }
    let budgets = Budgets {
        operations: reader.operations.unwrap_or(0),
        memory: reader.memory.unwrap_or(MEMORY),
        time: reader.time.unwrap_or(Duration::ZERO),
    };
    Ok(Asked::Run(reader.work.unwrap_or(Work::Prompt), budgets))
}

impl<I: Iterator<Item = OsString>> Reader<I> {
    fn value(&mut self, option: &'static str) -> Result<String, BadCall> {
        let word = self.words.next().ok_or(BadCall::NoValue(option))?;
        word.into_string().map_err(|word| BadCall::BadValue(option, word.to_string_lossy().into_owned()))
    }

    fn number<T>(&mut self, option: &'static str, is_there: bool, read: fn(&str) -> Option<T>) -> Result<Option<T>, BadCall> {
        if is_there {
            return Err(BadCall::Twice(option));
        }
        let word = self.value(option)?;
        match read(&word) {
            Some(found) => Ok(Some(found)),
            None => Err(BadCall::BadValue(option, word)),
        }
    }

    fn set_work(&mut self, work: Work) -> Result<(), BadCall> {
        match self.work.replace(work) {
            None => Ok(()),
            Some(_) => Err(BadCall::TwoScripts),
        }
    }
}

fn number<T: std::str::FromStr>(word: &str) -> Option<T> {
    word.parse().ok()
}

fn seconds(word: &str) -> Option<Duration> {
    Duration::try_from_secs_f64(word.parse().ok()?).ok()
}

#[cfg(test)]
mod tests {
    use super::*;

    fn asked(line: &str) -> Result<Asked, BadCall> {
        parse(line.split(' ').filter(|word| !word.is_empty()).map(OsString::from))
    }

    fn run(work: Work, operations: u64, memory: usize, time: Duration) -> Result<Asked, BadCall> {
        Ok(Asked::Run(work, Budgets { operations, memory, time }))
    }

    #[test]
    fn what_is_run() {
        assert_eq!(asked(""), run(Work::Prompt, 0, 268_435_456, Duration::ZERO));
        assert_eq!(asked("a.rhai"), run(Work::File("a.rhai".into()), 0, 268_435_456, Duration::ZERO));
        assert_eq!(asked("-"), run(Work::Input, 0, 268_435_456, Duration::ZERO));
        assert_eq!(asked("-e 1+1"), run(Work::Text("1+1".to_owned()), 0, 268_435_456, Duration::ZERO));
        assert_eq!(asked("-e --help"), run(Work::Text("--help".to_owned()), 0, 268_435_456, Duration::ZERO));
        assert_eq!(asked("a -h"), Ok(Asked::Help));
        assert_eq!(asked("--version"), Ok(Asked::Version));
    }

    #[test]
    fn budgets() {
        let all = asked("--operations 5 --memory 0 --time 1.5 a");
        assert_eq!(all, run(Work::File("a".into()), 5, 0, Duration::from_millis(1500)));
        assert_eq!(asked("a --time 0"), run(Work::File("a".into()), 0, 268_435_456, Duration::ZERO));
    }

    #[test]
    fn what_makes_no_sense() {
        assert_eq!(asked("--fast"), Err(BadCall::Unknown("--fast".to_owned())));
        assert_eq!(asked("-e"), Err(BadCall::NoValue("-e")));
        assert_eq!(asked("--time"), Err(BadCall::NoValue("--time")));
        for word in ["-1", "x", "1.5", "18446744073709551616"] {
            assert_eq!(asked(&format!("--operations {word}")), Err(BadCall::BadValue("--operations", word.to_owned())));
        }
        for word in ["-1", "x", "nan", "inf", "1e30"] {
            assert_eq!(asked(&format!("--time {word}")), Err(BadCall::BadValue("--time", word.to_owned())));
        }
        assert_eq!(asked("--memory 1 --memory 2"), Err(BadCall::Twice("--memory")));
        assert_eq!(asked("a b"), Err(BadCall::TwoScripts));
        assert_eq!(asked("-e 1 a"), Err(BadCall::TwoScripts));
        assert_eq!(BadCall::TwoScripts.to_string(), "more than one script");
    }
}
