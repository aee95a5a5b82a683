//! The program `rhai-world`, without a line editor: use `rlwrap rhai-world`.
use rhai_world_prompt::{program, Plain};
use std::io::IsTerminal;
use std::process::ExitCode;

fn main() -> ExitCode {
    program(|| {
        let input = std::io::stdin();
        let shows_marks = input.is_terminal();
        Ok(Box::new(Plain::new(input.lock(), shows_marks)))
    })
}
