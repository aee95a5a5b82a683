//! The program `rhai-window`: serves a page that shows a script as it runs, with its values drawn
//! beside it.
//!
//! ```text
//! rhai-window            begins with an example
//! rhai-window FILE       begins with the script of a file
//! rhai-window '#dGV4dA'  begins with a script that was handed on
//! ```
//!
//! It prints the address of the page, and serves it on 127.0.0.1 until it is ended. The address
//! has a token behind `#`, which browsers don't send: the page sends it in a header with each call.
#![forbid(unsafe_code)]

mod failure;
mod handed;
mod lines;
mod mark;
mod page;
mod picture;
mod script;
mod server;
mod sessions;
mod token;
mod walk;

use server::Site;
use std::io::{self, Write};
use std::process::ExitCode;

/// The most bytes of a script that the program takes.
const MOST_SCRIPT: usize = 64 * 1024;

const USAGE: &str = "\
Usage: rhai-window [FILE | '#FRAGMENT']
Serves a page on 127.0.0.1 that shows a script as it runs, and prints its address.
";

fn main() -> ExitCode {
    match begin() {
        Ok(()) => ExitCode::SUCCESS,
        Err(why) => {
            // (if this fails, nobody is left to report it to)
            let _told = writeln!(io::stderr().lock(), "error: {why}");
            ExitCode::from(2)
        }
    }
}

fn begin() -> Result<(), String> {
    let mut arguments = std::env::args_os().skip(1);
    let script = match (arguments.next(), arguments.next()) {
        (None, _) => None,
        (Some(word), None) if word == "--help" => return tell(USAGE),
        (Some(word), None) => Some(asked(&word)?),
        (Some(_), Some(_)) => return Err(USAGE.to_owned()),
    };
    let site = Site::open(token::token().map_err(|error| format!("no token from the system: {error}"))?, script)?;
    tell(&format!("{}\n", site.address()))?;
    site.serve()
}

/// Returns the script that an argument names or contains.
fn asked(word: &std::ffi::OsStr) -> Result<String, String> {
    if let Some(fragment) = word.to_str().and_then(|word| word.strip_prefix('#')) {
        let script = handed::script(fragment).ok_or("the fragment is no script")?;
        return if script.len() <= MOST_SCRIPT { Ok(script) } else { Err("the script is too long".to_owned()) };
    }
    let name = word.to_string_lossy();
    let bytes = std::fs::read(word).map_err(|error| format!("{name}: {error}"))?;
    if bytes.len() > MOST_SCRIPT {
        return Err(format!("{name}: a script may have {MOST_SCRIPT} bytes"));
    }
    String::from_utf8(bytes).map_err(|_| format!("{name}: it is no text in UTF-8"))
}

fn tell(text: &str) -> Result<(), String> {
    let mut out = io::stdout().lock();
    out.write_all(text.as_bytes()).and_then(|()| out.flush()).map_err(|error| error.to_string())
}
