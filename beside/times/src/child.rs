//! Other programs, and the time and memory that they take.

use std::fs::File;
use std::io::{Seek, SeekFrom, Write};
use std::process::{Command, Stdio};

/// The argument that makes this program run another.
pub const MEASURED: &str = "measured";

/// What a run of a program took, and what it wrote.
pub struct Ran {
    pub nanoseconds: f64,
    pub peak_kilobytes: i64,
    pub output: Vec<u8>,
}

/// The head of C's `struct rusage` on 64 bits, with room for the rest.
#[repr(C)]
#[derive(Default)]
struct Usage {
    user: [i64; 2],
    system: [i64; 2],
    peak: i64,
    rest: [i64; 13],
}

unsafe extern "C" {
    fn wait4(process: i32, status: *mut i32, options: i32, usage: *mut Usage) -> i32;
}

/// A file without a name that has these bytes.
fn file_of(bytes: &[u8]) -> File {
    let path = std::env::temp_dir().join(format!("beside-{}-{}", std::process::id(), bytes.len()));
    let mut file = File::options().read(true).write(true).create(true).truncate(true).open(&path).expect("a file for input");
    file.write_all(bytes).expect("input");
    file.seek(SeekFrom::Start(0)).expect("input");
    std::fs::remove_file(path).expect("a file for input");
    file
}

/// Runs a program on this one's input and output, and prints to standard error what it took. `run` starts this program for that, since
/// the peak of a process begins with that of its parent.
pub fn measured(words: &[String]) -> i32 {
    let Ok(child) = Command::new(&words[0]).args(&words[1..]).stderr(Stdio::null()).spawn() else { return 1 };
    let (mut status, mut usage) = (0, Usage::default());
    // SAFETY: both pointers lead to places of the types that the call writes, and the child is ours and not waited for before.
    let waited = unsafe { wait4(child.id() as i32, &mut status, 0, &mut usage) };
    let time = |[seconds, micros]: [i64; 2]| seconds * 1_000_000 + micros;
    eprintln!("{} {}", time(usage.user) + time(usage.system), usage.peak);
    i32::from(waited != child.id() as i32 || status != 0)
}

/// Runs a program on some input; `None` if it doesn't exist or fails.
#[must_use]
pub fn run(words: &[&str], input: &[u8]) -> Option<Ran> {
    let mut command = Command::new(std::env::current_exe().ok()?);
    let ran = command.arg(MEASURED).args(words).stdin(file_of(input)).output().ok()?;
    let said = String::from_utf8(ran.stderr).ok()?;
    let (micros, peak) = said.trim().split_once(' ')?;
    let (micros, peak_kilobytes): (f64, i64) = (micros.parse().ok()?, peak.parse().ok()?);
    ran.status.success().then_some(Ran { nanoseconds: micros * 1000.0, peak_kilobytes, output: ran.stdout })
}

/// The least time of this many runs of each of some programs, which take turns, with the output of each one's last run.
#[must_use]
pub fn least(programs: &[Vec<&str>], inputs: &[&[u8]], turns: usize) -> Vec<Option<Ran>> {
    let mut best: Vec<Option<Ran>> = programs.iter().map(|_| None).collect();
    for _ in 0..turns {
        for ((words, input), best) in programs.iter().zip(inputs).zip(&mut best) {
            let Some(ran) = run(words, input) else { continue };
            if best.as_ref().is_none_or(|best| ran.nanoseconds < best.nanoseconds) {
                *best = Some(ran);
            }
        }
    }
    best
}
