//! The sessions of pages, each a thread that has its script and its run.
use crate::script::session;
use crate::token::token;
use rhai_world::Script;
use serde_json::Value;
use std::io;
use std::sync::mpsc::{channel, Receiver, Sender};
use std::sync::{Mutex, MutexGuard, PoisonError};
use std::time::{Duration, Instant};

/// The most sessions at a time.
const MOST: usize = 8;

/// How long a session may be idle.
const IDLE: Duration = Duration::from_secs(15 * 60);

/// The stack of a session's thread, in addition to that of a script.
const OWN_STACK: usize = 1024 * 1024;

/// What a page asks a session, and where the answer goes.
pub struct Message {
    pub asked: Value,
    reply: Sender<Value>,
}

impl Message {
    pub fn answer(self, answer: Value) {
        // (nobody waits for it if the page is gone)
        let _told = self.reply.send(answer);
    }
}

struct Session {
    name: String,
    /// Without it, its thread ends.
    messages: Sender<Message>,
    used: Instant,
}

/// The sessions under way.
#[derive(Default)]
pub struct Sessions {
    all: Mutex<Vec<Session>>,
}

impl Sessions {
    /// Opens a session, and returns its name. If there are too many, the one that was idle the
    /// longest ends.
    pub fn open(&self, now: Instant) -> io::Result<String> {
        let name = token()?;
        let (messages, asked) = channel();
        let thread = std::thread::Builder::new().stack_size(Script::STACK + OWN_STACK);
        thread.spawn(move || session(&asked))?;
        let mut all = self.all();
        if all.len() >= MOST {
            if let Some(oldest) = (0..all.len()).min_by_key(|at| all.get(*at).map(|session| session.used)) {
                all.swap_remove(oldest);
            }
        }
        all.push(Session { name: name.clone(), messages, used: now });
        Ok(name)
    }

    /// Asks a session; returns `None` if it has ended.
    pub fn ask(&self, name: &str, asked: Value, now: Instant) -> Option<Value> {
        let answers = self.send(name, asked, now)?;
        answers.recv().ok()
    }

    fn send(&self, name: &str, asked: Value, now: Instant) -> Option<Receiver<Value>> {
        let mut all = self.all();
        let session = all.iter_mut().find(|session| session.name == name)?;
        let (reply, answers) = channel();
        session.used = now;
        session.messages.send(Message { asked, reply }).ok()?;
        Some(answers)
    }

    /// Ends a session.
    pub fn end(&self, name: &str) {
        self.all().retain(|session| session.name != name);
    }

    /// Ends the sessions that were idle for `IDLE`.
    pub fn end_idle(&self, now: Instant) {
        self.all().retain(|session| now.saturating_duration_since(session.used) < IDLE);
    }

    fn all(&self) -> MutexGuard<'_, Vec<Session>> {
        // (the list is whole whatever happened to a thread)
        self.all.lock().unwrap_or_else(PoisonError::into_inner)
    }
}

#[cfg(test)]
mod tests {
    use super::*;
    use serde_json::json;

    #[test]
    fn a_ninth_session_ends_the_first() -> io::Result<()> {
        let (sessions, begun) = (Sessions::default(), Instant::now());
        let after = |minutes: u64| begun + Duration::from_secs(60 * minutes);
        let names = (0..9).map(|minutes| sessions.open(after(minutes))).collect::<io::Result<Vec<String>>>()?;
        let lines = json!({ "do": "lines", "text": "int 1" });
        assert_eq!(sessions.ask(&names[0], lines.clone(), after(9)), None);
        assert!(names[1..].iter().all(|name| sessions.ask(name, lines.clone(), after(9)).is_some()));
        sessions.end(&names[3]);
        assert_eq!(sessions.ask(&names[3], lines, after(9)), None);
        Ok(())
    }

    #[test]
    fn an_idle_session_ends() -> io::Result<()> {
        let (sessions, begun) = (Sessions::default(), Instant::now());
        let (one, other) = (sessions.open(begun)?, sessions.open(begun)?);
        let lines = json!({ "do": "lines", "text": "int 1" });
        let shortly = Duration::from_secs(1);
        assert!(sessions.ask(&one, lines.clone(), begun + shortly).is_some());
        sessions.end_idle(begun + IDLE - shortly);
        assert_eq!(sessions.all().len(), 2);
        sessions.end_idle(begun + IDLE);
        assert_eq!(sessions.ask(&other, lines.clone(), begun + IDLE), None);
        assert!(sessions.ask(&one, lines.clone(), begun + IDLE).is_some());
        sessions.end_idle(begun + IDLE + IDLE);
        assert_eq!(sessions.ask(&one, lines, begun + IDLE + IDLE), None);
        Ok(())
    }

    /// Asks for this until the run stops, and returns where it stands.
    fn stopped(sessions: &Sessions, name: &str, asked: Value) -> Value {
        let mut told = sessions.ask(name, asked, Instant::now()).expect("the session is there");
        while told["going"] == json!(true) {
            let on = json!({ "do": "go", "how": "on" });
            told = sessions.ask(name, on, Instant::now()).expect("the session is there");
        }
        told
    }

    #[test]
    fn steps_go_forward_and_back() -> io::Result<()> {
        let sessions = Sessions::default();
        let name = sessions.open(Instant::now())?;
        let script = "fn twice(x) {\n  let y = x + x;\n  y\n}\nlet a = 1;\nprint(a);\na = twice(a);\nprint(a);";
        let line = |asked: Value| stopped(&sessions, &name, asked)["line"].clone();
        assert_eq!(line(json!({ "do": "begin", "script": script })), 5);
        assert_eq!(line(json!({ "do": "go", "how": "into" })), 6);
        assert_eq!(line(json!({ "do": "go", "how": "over" })), 7);
        assert_eq!(line(json!({ "do": "go", "how": "over" })), 8);
        assert_eq!(line(json!({ "do": "to", "step": 3 })), 7);
        assert_eq!(line(json!({ "do": "go", "how": "into" })), 2);
        assert_eq!(line(json!({ "do": "go", "how": "out" })), 8);
        assert_eq!(line(json!({ "do": "to", "step": 1 })), 5);
        assert_eq!(line(json!({ "do": "go", "how": "run", "breakpoints": [3] })), 3);
        let end = stopped(&sessions, &name, json!({ "do": "go", "how": "run" }));
        assert_eq!((&end["ended"], &end["printed"], &end["from"]), (&json!(true), &json!(["2"]), &json!(1)));
        let error = stopped(&sessions, &name, json!({ "do": "begin", "script": "let x = 1;\nx + nowhere" }));
        assert_eq!(error["line"], 1);
        let error = stopped(&sessions, &name, json!({ "do": "go", "how": "run" }));
        assert_eq!((&error["error"]["line"], &error["error"]["column"]), (&json!(2), &json!(5)));
        assert_eq!(error["picture"]["calls"][0]["rows"][0]["value"], json!({ "k": "int", "s": "1" }));
        let wrong = stopped(&sessions, &name, json!({ "do": "begin", "script": "let = 1;" }));
        assert_eq!(wrong["error"]["line"], 1);
        Ok(())
    }

    #[test]
    fn endless_scripts_end() -> io::Result<()> {
        let sessions = Sessions::default();
        let name = sessions.open(Instant::now())?;
        for script in ["loop {}", "let a = [1]; loop { a += a; }", "loop { print(1); }", "fn f() { f() } f()"] {
            stopped(&sessions, &name, json!({ "do": "begin", "script": script }));
            let end = stopped(&sessions, &name, json!({ "do": "go", "how": "run" }));
            assert!(end["error"].is_object() && end["picture"]["calls"].is_array(), "{script}: {end}");
        }
        Ok(())
    }
}
