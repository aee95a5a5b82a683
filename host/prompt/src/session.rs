//! A prompt's engine, variables and functions.
use crate::arguments::Budgets;
use crate::cells::cells;
use crate::report::report;
use crate::scan::{functions, Function};
use rhai_world::{Engine, Error, EvalError, Limits, Scope, Value, World};
use std::num::NonZeroUsize;
use std::path::Path;

/// What a line of a prompt requests, by its first word.
#[derive(Debug, PartialEq, Eq)]
pub enum Command<'a> {
    Scope,
    Cells,
    Load(&'a Path),
    Help,
    Quit,
    /// An unknown command.
    Unknown(&'a str),
}

/// The help text of the commands.
pub const HELP: &str = "\
A line is a script; one with an open bracket or comment goes on with the next line, and `:drop` drops it.
Variables and functions stay. A closure is called by the script that made it alone.
:scope      the variables
:cells      what variables and closures share
:load FILE  runs a file
:help       this page
:quit       ends
";

impl Command<'_> {
    /// Reads a line as a command, if it is one.
    pub fn of(line: &str) -> Option<Command<'_>> {
        let words = line.strip_prefix(':')?;
        let (name, rest) = words.split_once(' ').unwrap_or((words, ""));
        Some(match (name, rest.trim()) {
            ("scope", "") => Command::Scope,
            ("cells", "") => Command::Cells,
            ("load", file) if !file.is_empty() => Command::Load(Path::new(file)),
            ("help", "") => Command::Help,
            ("quit", "") => Command::Quit,
            _ => Command::Unknown(line),
        })
    }
}

/// What is kept between the scripts of a prompt.
pub struct Session {
    engine: Engine,
    scope: Scope,
    /// The world that formats values.
    shown: World,
    functions: Vec<Function>,
}

impl Session {
    /// Makes a session without variables.
    pub fn new(budgets: Budgets) -> Result<Session, EvalError> {
        let mut engine = Engine::new();
        engine.set_max_operations(budgets.operations).set_max_memory(budgets.memory).set_max_time(budgets.time);
        let limits = Limits::new().with_memory(NonZeroUsize::new(budgets.memory));
        Ok(Session { engine, scope: Scope::new()?, shown: World::new(limits)?, functions: Vec::new() })
    }

    /// Runs a script, and returns its value as `debug` shows it; `None` for unit. Its functions are
    /// kept, once it was compiled.
    ///
    /// Errors: the message to show.
    pub fn run(&mut self, text: &str) -> Result<Option<String>, String> {
        let own = functions(text);
        let is_kept = |known: &Function| !own.iter().any(|one| one.is_like(known));
        let earlier: String =
            self.functions.iter().filter(|known| is_kept(known)).map(|known| format!("{}\n", known.text)).collect();
        let value = self.engine.eval_with_scope::<Value>(&mut self.scope, &format!("{earlier}{text}"));
        if !matches!(value, Err(EvalError::Syntax { .. })) {
            self.functions.retain(is_kept);
            self.functions.extend(own);
        }
        match value {
            Ok(Value::Unit) => Ok(None),
            Ok(value) => show(&mut self.shown, &value).map(Some).map_err(|error| error.to_string()),
            Err(error) => Err(report(error, &earlier, text)),
        }
    }

    /// Lists the variables, oldest first, one a line.
    ///
    /// Errors: the message to show.
    pub fn variables(&mut self) -> Result<String, String> {
        let Session { scope, shown, .. } = self;
        let mut lines = String::new();
        for variable in scope.iter() {
            let (name, value) = variable.map_err(|error| error.to_string())?;
            let value = show(shown, &value).map_err(|error| error.to_string())?;
            lines.push_str(&format!("{name} = {value}\n"));
        }
        Ok(lines)
    }

    /// Lists what variables and closures share, one a line.
    ///
    /// Errors: the message to show.
    pub fn cells(&self) -> Result<String, String> {
        self.scope.snapshot().map(|snapshot| cells(&snapshot)).map_err(|error| error.to_string())
    }

    /// Returns the completions of a line.
    pub fn words(&self) -> Vec<String> {
        let mut words = self.scope.names().unwrap_or_default();
        words.extend(self.functions.iter().map(|known| known.name.clone()));
        words.extend([":cells", ":drop", ":help", ":load", ":quit", ":scope"].map(str::to_owned));
        words.sort();
        words.dedup();
        words
    }
}

/// Formats the value as `debug` does, in a world that is empty before and after.
fn show(world: &mut World, value: &Value) -> Result<String, Error> {
    world.put(value)?;
    let text = world.debug(0);
    world.drop()?;
    text
}

#[cfg(test)]
mod tests {
    use super::*;

    #[test]
    fn commands_begin_with_a_colon() {
        assert_eq!(Command::of(":scope"), Some(Command::Scope));
        assert_eq!(Command::of(":cells"), Some(Command::Cells));
        assert_eq!(Command::of(":load a b.rhai "), Some(Command::Load(Path::new("a b.rhai"))));
        assert_eq!(Command::of(":help"), Some(Command::Help));
        assert_eq!(Command::of(":quit"), Some(Command::Quit));
        assert_eq!(Command::of("let x = 1;"), None);
        assert_eq!(Command::of(" :quit"), None);
        for line in [":", ":what", ":load", ":quit now", ":scope x"] {
            assert_eq!(Command::of(line), Some(Command::Unknown(line)));
        }
    }
}
