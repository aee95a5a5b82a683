//! The program of lines over rhai's own values: a command a line from standard input, an answer a line to standard output.
use std::io::{BufRead, BufWriter, Write};
use times::machine::{apply, command, write_answer, World};

fn main() -> std::io::Result<()> {
    let mut input = std::io::stdin().lock();
    let mut out = BufWriter::new(std::io::stdout().lock());
    let mut world = World::default();
    let mut line = Vec::new();
    loop {
        line.clear();
        if input.read_until(b'\n', &mut line)? == 0 {
            return out.flush();
        }
        if line.last() == Some(&b'\n') {
            line.pop();
        }
        match command(&line) {
            None => out.write_all(b"refused BadLine\n")?,
            Some(command) => write_answer(&apply(&mut world, &command), &mut out)?,
        }
    }
}
