//! The program: its arguments, and its exit status.
use crate::arguments::{parse, Asked, Budgets, Work, USAGE};
use crate::lines::Lines;
use crate::paint::{Colour, Paint};
use crate::report::shown;
use crate::scan::Open;
use crate::session::{Command, Session, HELP};
use rhai_world::Script;
use std::io::{self, ErrorKind, IsTerminal, Write};
use std::path::Path;
use std::process::ExitCode;

/// Stack for the program itself, in addition to that of a script.
const OWN_STACK: usize = 1024 * 1024;

/// The exit status if a script failed.
const FAILED: u8 = 1;

/// The exit status if nothing could be run.
const NOT_RUN: u8 = 2;

/// Does what the arguments request; the lines of a prompt come from the given source.
pub fn program(make_lines: fn() -> Result<Box<dyn Lines>, String>) -> ExitCode {
    let thread = std::thread::Builder::new().stack_size(Script::STACK + OWN_STACK);
    let done = thread.spawn(move || asked(make_lines)).map(std::thread::JoinHandle::join);
    match done {
        Ok(Ok(Ok(status))) => ExitCode::from(status),
        // (the reader of the output is gone)
        Ok(Ok(Err(error))) if error.kind() == ErrorKind::BrokenPipe => ExitCode::from(NOT_RUN),
        Ok(Ok(Err(error))) | Err(error) => ExitCode::from(not_run(&error.to_string())),
        Ok(Err(_)) => ExitCode::from(not_run("the program went wrong")),
    }
}

/// Where output and errors go.
#[derive(Clone, Copy)]
struct Told {
    out: Paint,
    errors: Paint,
}

/// Writes an error to standard error. If that fails, nobody is left to report it to.
fn complain(paint: Paint, what: &str) {
    let _told = writeln!(io::stderr().lock(), "{} {what}", paint.paint(Colour::Error, "error:"));
}

fn not_run(why: &str) -> u8 {
    complain(Paint::of(&io::stderr()), why);
    NOT_RUN
}

fn asked(make_lines: fn() -> Result<Box<dyn Lines>, String>) -> io::Result<u8> {
    match parse(std::env::args_os().skip(1)) {
        Ok(Asked::Help) => write!(io::stdout().lock(), "{USAGE}").map(|()| 0),
        Ok(Asked::Version) => writeln!(io::stdout().lock(), "rhai-world {}", env!("CARGO_PKG_VERSION")).map(|()| 0),
        Ok(Asked::Run(work, budgets)) => works(&work, budgets, make_lines),
        Err(bad) => Ok(not_run(&format!("{bad}\n{USAGE}"))),
    }
}

fn works(work: &Work, budgets: Budgets, make_lines: fn() -> Result<Box<dyn Lines>, String>) -> io::Result<u8> {
    let told = Told { out: Paint::of(&io::stdout()), errors: Paint::of(&io::stderr()) };
    let mut session = match Session::new(budgets) {
        Ok(session) => session,
        Err(error) => return Ok(not_run(&error.to_string())),
    };
    match work {
        Work::Text(text) => script(&mut session, told, text, true),
        Work::Input => whole(&mut session, told, io::read_to_string(io::stdin()), "standard input"),
        Work::File(file) => whole(&mut session, told, read(file), &file.to_string_lossy()),
        Work::Prompt => match make_lines() {
            Ok(lines) => Prompt { session, told, lines, failed: false }.goes_on(),
            Err(why) => Ok(not_run(&why)),
        },
    }
}

fn read(file: &Path) -> io::Result<String> {
    std::fs::read_to_string(file)
}

/// Runs a script that was read from a source.
fn whole(session: &mut Session, told: Told, text: io::Result<String>, from: &str) -> io::Result<u8> {
    match text {
        Ok(text) => script(session, told, &text, false),
        Err(error) => Ok(not_run(&shown(&format!("{from}: {error}")))),
    }
}

/// Runs a script, and shows its value if requested.
fn script(session: &mut Session, told: Told, text: &str, shows: bool) -> io::Result<u8> {
    match session.run(text) {
        Ok(Some(value)) if shows => value_line(told, &value).map(|()| 0),
        Ok(Some(_) | None) => Ok(0),
        Err(why) => {
            complain(told.errors, &why);
            Ok(FAILED)
        }
    }
}

fn value_line(told: Told, value: &str) -> io::Result<()> {
    writeln!(io::stdout().lock(), "{}", told.out.paint(Colour::Value, value))
}

/// A prompt that runs until its lines end.
struct Prompt {
    session: Session,
    told: Told,
    lines: Box<dyn Lines>,
    failed: bool,
}

impl Prompt {
    /// Runs to the end. A user sees each error at once; if lines come from elsewhere, the exit
    /// status says that there was one.
    fn goes_on(mut self) -> io::Result<u8> {
        let (mut text, mut open) = (String::new(), Open::default());
        while let Some(line) = self.next_line(open.is_open())? {
            if line == ":drop" {
                (text, open) = (String::new(), Open::default());
                continue;
            }
            let command = if open.is_open() { None } else { Command::of(&line) };
            if let Some(command) = command {
                if !self.does(&command)? {
                    break;
                }
                continue;
            }
            open = open.behind(&line);
            text.push_str(&line);
            text.push('\n');
            if !open.is_open() {
                self.runs(&std::mem::take(&mut text))?;
            }
        }
        if open.is_open() {
            self.runs(&text)?;
        }
        Ok(if self.failed && !io::stdin().is_terminal() { FAILED } else { 0 })
    }

    /// Reads the next line, after skipping those that were not a text or given up.
    fn next_line(&mut self, goes_on: bool) -> io::Result<Option<String>> {
        let mark = self.told.out.paint(Colour::Mark, if goes_on { "| " } else { "> " });
        loop {
            let session = &self.session;
            match self.lines.next(&mark, &|| session.words()) {
                Err(error) if error.kind() == ErrorKind::Interrupted => return Ok(Some(":drop".to_owned())),
                Err(error) if error.kind() == ErrorKind::InvalidData => self.complains(&error.to_string()),
                line => return line,
            }
        }
    }

    fn complains(&mut self, what: &str) {
        self.failed = true;
        complain(self.told.errors, what);
    }

    fn runs(&mut self, text: &str) -> io::Result<()> {
        match self.session.run(text) {
            Ok(Some(value)) => value_line(self.told, &value),
            Ok(None) => Ok(()),
            Err(why) => {
                self.complains(&why);
                Ok(())
            }
        }
    }

    fn lists(&mut self, lines: Result<String, String>) -> io::Result<()> {
        match lines {
            Ok(lines) => write!(io::stdout().lock(), "{lines}"),
            Err(why) => {
                self.complains(&why);
                Ok(())
            }
        }
    }

    /// Does a command; returns `false` if it ends the prompt.
    fn does(&mut self, command: &Command<'_>) -> io::Result<bool> {
        match command {
            Command::Scope => {
                let lines = self.session.variables();
                self.lists(lines)?;
            }
            Command::Cells => {
                let lines = self.session.cells();
                self.lists(lines)?;
            }
            Command::Load(file) => match read(file) {
                Ok(text) => self.runs(&text)?,
                Err(error) => self.complains(&shown(&format!("{}: {error}", file.display()))),
            },
            Command::Help => write!(io::stdout().lock(), "{HELP}")?,
            Command::Quit => return Ok(false),
            Command::Unknown(line) => self.complains(&shown(&format!("no such command: {line} (:help has them)"))),
        }
        Ok(true)
    }
}
