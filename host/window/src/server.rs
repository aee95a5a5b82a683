//! The server: who may ask what.
use crate::page::FILES;
use crate::sessions::Sessions;
use crate::token::is_same;
use serde_json::{json, Value};
use std::fmt::Write as _;
use std::io::{self, Read, Write as _};
use std::net::TcpStream;
use std::sync::Arc;
use std::time::{Duration, Instant};
use tiny_http::{Method, Request, Server, StatusCode};

/// The most bytes of a call.
const MOST_BODY: usize = 256 * 1024;

/// How long the server waits for a request before it looks after connections and sessions: soon
/// after a request, and less often while there is none.
const SOON: Duration = Duration::from_millis(50);
const SELDOM: Duration = Duration::from_secs(2);

/// Headers of every answer. The page has no part from elsewhere, and no other page may show it.
const HEADERS: [(&str, &str); 8] = [
    (
        "Content-Security-Policy",
        "default-src 'none'; script-src 'self'; style-src 'self'; connect-src 'self'; base-uri 'none'; form-action 'none'; \
         frame-ancestors 'none'",
    ),
    ("X-Content-Type-Options", "nosniff"),
    ("X-Frame-Options", "DENY"),
    ("Referrer-Policy", "no-referrer"),
    ("Cache-Control", "no-store"),
    ("Cross-Origin-Opener-Policy", "same-origin"),
    ("Cross-Origin-Resource-Policy", "same-origin"),
    ("Permissions-Policy", "camera=(), geolocation=(), microphone=()"),
];

/// What a request gets.
struct Answer {
    status: u16,
    kind: &'static str,
    text: String,
}

/// The page at its address, and its sessions.
pub struct Site {
    server: Server,
    /// The only host under which it answers.
    host: String,
    token: String,
    /// The script that the page begins with.
    script: Option<String>,
    sessions: Sessions,
}

impl Site {
    /// Binds a free port of 127.0.0.1.
    pub fn open(token: String, script: Option<String>) -> Result<Site, String> {
        let server = Server::http("127.0.0.1:0").map_err(|error| error.to_string())?;
        let port = server.server_addr().to_ip().ok_or("the server has no port")?.port();
        Ok(Site { server, host: format!("127.0.0.1:{port}"), token, script, sessions: Sessions::default() })
    }

    /// Returns the address of the page, with the token where browsers don't send it.
    pub fn address(&self) -> String {
        format!("http://{}/#{}", self.host, self.token)
    }

    /// Answers requests for ever. Each has a thread, so that one that doesn't come to its end keeps
    /// nobody else waiting.
    pub fn serve(self) -> Result<(), String> {
        let site = Arc::new(self);
        let mut wait = SOON;
        loop {
            let request = site.server.recv_timeout(wait).map_err(|error| error.to_string())?;
            site.sessions.end_idle(Instant::now());
            let Some(mut request) = request else {
                site.nudge();
                wait = SELDOM.min(wait * 2);
                continue;
            };
            wait = SOON;
            let site = Arc::clone(&site);
            let thread = std::thread::Builder::new().spawn(move || {
                let answer = site.answer(&mut request).unwrap_or_else(|(status, why)| refusal(status, why));
                // (if this fails, the client is gone)
                let _sent = send(request, &answer);
            });
            drop(thread);
        }
    }

    /// Begins and ends a connection. tiny_http may have queued two connections for one free thread,
    /// and then the second one waits while the first one is open, for minutes if a browser keeps it.
    /// This one gets a new thread, which takes the next connection of the queue.
    fn nudge(&self) {
        if let Ok(address) = self.host.parse() {
            // (if this fails, the next one may not)
            drop(TcpStream::connect_timeout(&address, SOON));
        }
    }

    fn answer(&self, request: &mut Request) -> Result<Answer, (u16, &'static str)> {
        if only(request, "Host") != Some(&self.host) {
            return Err((403, "another host"));
        }
        match request.method() {
            Method::Get => file(request.url()).ok_or((404, "no such page")),
            Method::Post if request.url() == "/call" => {
                self.check(request)?;
                let asked = body(request)?;
                Ok(Answer { status: 200, kind: "application/json", text: self.call(asked)?.to_string() })
            }
            Method::Post => Err((404, "no such call")),
            _ => Err((405, "only GET and POST")),
        }
    }

    /// Refuses a call that doesn't come from the page.
    fn check(&self, request: &Request) -> Result<(), (u16, &'static str)> {
        let own = format!("http://{}", self.host);
        if all(request, "Origin").any(|origin| origin != own) {
            return Err((403, "another origin"));
        }
        if all(request, "Sec-Fetch-Site").any(|site| site != "same-origin") {
            return Err((403, "another site"));
        }
        if !only(request, "X-Token").is_some_and(|given| is_same(&self.token, given)) {
            return Err((403, "another token"));
        }
        if only(request, "Content-Type") != Some("application/json") {
            return Err((415, "only JSON"));
        }
        match request.body_length() {
            Some(length) if length <= MOST_BODY => Ok(()),
            Some(_) => Err((413, "too long")),
            None => Err((411, "no length")),
        }
    }

    /// Answers a call of the page.
    fn call(&self, asked: Value) -> Result<Value, (u16, &'static str)> {
        match (asked["do"].as_str(), asked["session"].as_str()) {
            (Some("open"), _) => {
                let session = self.sessions.open(Instant::now()).map_err(|_| (503, "no session"))?;
                Ok(json!({ "session": session, "script": self.script }))
            }
            (Some("end"), Some(session)) => {
                self.sessions.end(session);
                Ok(json!({}))
            }
            (Some(_), Some(session)) => {
                let session = session.to_owned();
                self.sessions.ask(&session, asked, Instant::now()).ok_or((410, "the session has ended"))
            }
            _ => Err((400, "no call")),
        }
    }
}

/// Returns the values of all headers of a name.
fn all<'a>(request: &'a Request, name: &'static str) -> impl Iterator<Item = &'a str> {
    request.headers().iter().filter(move |header| header.field.equiv(name)).map(|header| header.value.as_str())
}

/// Returns the value of a header that is there once.
fn only<'a>(request: &'a Request, name: &'static str) -> Option<&'a str> {
    let mut values = all(request, name);
    values.next().filter(|_| values.next().is_none())
}

fn body(request: &mut Request) -> Result<Value, (u16, &'static str)> {
    let mut text = String::new();
    let read = request.as_reader().take(MOST_BODY as u64).read_to_string(&mut text);
    read.map_err(|_| (400, "no text"))?;
    serde_json::from_str(&text).map_err(|_| (400, "no JSON"))
}

/// Returns the file of the page at a path.
fn file(path: &str) -> Option<Answer> {
    let file = FILES.iter().find(|file| file.path == path)?;
    Some(Answer { status: 200, kind: file.kind, text: file.text.to_owned() })
}

fn refusal(status: u16, why: &str) -> Answer {
    Answer { status, kind: "text/plain; charset=utf-8", text: format!("{why}\n") }
}

/// Sends an answer with one write. Of two writes, the system would hold back the second one until
/// the browser confirms the first, which takes 40 ms.
fn send(request: Request, answer: &Answer) -> io::Result<()> {
    let status = StatusCode(answer.status);
    let mut text = format!("HTTP/1.1 {} {}\r\n", answer.status, status.default_reason_phrase());
    let length = answer.text.len().to_string();
    // (a page needs a connection for each of its files at first, and then one for its calls)
    let connection = if *request.method() == Method::Post { "keep-alive" } else { "close" };
    let own = [("Connection", connection), ("Content-Type", answer.kind), ("Content-Length", &length)];
    for (name, value) in HEADERS.into_iter().chain(own) {
        // (writing to a text can't fail)
        let _written = write!(text, "{name}: {value}\r\n");
    }
    text.push_str("\r\n");
    if *request.method() != Method::Head {
        text.push_str(&answer.text);
    }
    let mut writer = request.into_writer();
    writer.write_all(text.as_bytes())?;
    writer.flush()
}
