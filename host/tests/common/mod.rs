//! Shared parts of the tests; each test uses some of them.
#![allow(dead_code)]
use std::sync::Mutex;

/// Held while a deep value exists, so that a test file has one at a time.
static ONE: Mutex<()> = Mutex::new(());

/// How many levels a deep value has, and how many names are made: a million, or what
/// `RHAI_WORLD_LEVELS` says, for a slow run.
pub fn levels() -> usize {
    std::env::var("RHAI_WORLD_LEVELS").ok().and_then(|word| word.parse().ok()).unwrap_or(1_000_000)
}

/// Does the work on a thread with this many bytes of stack.
pub fn on_stack<T: Send + 'static>(bytes: usize, work: impl FnOnce() -> T + Send + 'static) -> T {
    let one = ONE.lock().unwrap_or_else(|poisoned| poisoned.into_inner());
    let done = std::thread::Builder::new().stack_size(bytes).spawn(work).unwrap().join();
    drop(one);
    done.unwrap()
}
