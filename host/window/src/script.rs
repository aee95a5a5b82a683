//! A script that runs step by step. A step ends before each statement, and at the end.
use crate::sessions::Message;
use crate::walk::{lines_of, told_error, Past, Printed, Served, Walk};
use rhai_world::{Ast, Engine, EvalError, Scope};
use serde_json::json;
use std::mem::take;
use std::sync::mpsc::Receiver;
use std::sync::Arc;

/// What a run may use.
const OPERATIONS: u64 = 5_000_000;
const MEMORY: usize = 8 << 20;
const OUTPUT: u64 = 256 * 1024;

/// Serves the messages of a page until it is gone.
pub fn session(asked: &Receiver<Message>) {
    let mut next = None;
    while let Some(message) = take(&mut next).or_else(|| asked.recv().ok()) {
        match message.asked["do"].as_str() {
            Some("begin") => match debug(message, asked) {
                Some(other) => next = Some(other),
                None => return,
            },
            Some("lines") => {
                let answer = crate::lines::lines(&message.asked);
                message.answer(answer);
            }
            Some(_) | None => message.answer(json!({ "wrong": "no script was begun" })),
        }
    }
}

/// Serves messages about a script, from the one that begins it, until one is about something else:
/// returns that one, or `None` once nobody is left to send any.
fn debug(begun: Message, asked: &Receiver<Message>) -> Option<Message> {
    let printed = Printed::default();
    let engine = engine(&printed);
    let ast = match engine.compile(begun.asked["script"].as_str().unwrap_or_default()) {
        Ok(ast) => ast,
        Err(error) => {
            begun.answer(json!({ "step": 0, "last": 0, "ended": true, "error": told_error(&error), "printed": [], "from": 0 }));
            return asked.recv().ok();
        }
    };
    let script = Script { engine: &engine, ast: &ast, printed: &printed, asked };
    let (mut message, mut past) = (begun, Past::default());
    loop {
        match script.run(message, past) {
            Ok(Next::Again(again, known)) => (message, past) = (again, known),
            Ok(Next::Other(other)) => return Some(other),
            Ok(Next::Gone) | Err(_) => return None,
        }
    }
}

/// Why a run is left.
enum Next {
    /// The run has to begin again, to come to where the message asks for.
    Again(Message, Past),
    /// The message isn't about this run.
    Other(Message),
    Gone,
}

/// A script that was begun, and who asks about it.
struct Script<'a> {
    engine: &'a Engine,
    ast: &'a Ast,
    printed: &'a Printed,
    asked: &'a Receiver<Message>,
}

impl Script<'_> {
    /// Runs the script from its start, and serves messages, beginning with this one.
    fn run(&self, message: Message, past: Past) -> Result<Next, EvalError> {
        lines_of(self.printed).clear();
        let mut scope = Scope::new()?;
        let mut run = self.engine.start(&mut scope, self.ast)?;
        run.stop_at_statements(true)?;
        let mut walk = Walk::new(run, self.printed, past);
        let mut message = message;
        loop {
            let answer = match walk.serve(&message.asked)? {
                Served::Answer(answer) => answer,
                Served::Again => return Ok(Next::Again(message, walk.past())),
                Served::Other => return Ok(Next::Other(message)),
            };
            message.answer(answer);
            match self.asked.recv() {
                Ok(next) => message = next,
                Err(_) => return Ok(Next::Gone),
            }
        }
    }
}

fn engine(printed: &Printed) -> Engine {
    let printed = Arc::clone(printed);
    let mut engine = Engine::new();
    engine.set_max_operations(OPERATIONS).set_max_memory(MEMORY).set_max_output(OUTPUT);
    engine.on_print(move |line| lines_of(&printed).push(line.to_owned()));
    engine
}
