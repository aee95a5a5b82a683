//! Of the module `scripts`: written by `tools/host_declarations` from the lines of `crates/rhai_host`.

use crate::sys::Handle;

/// How a script ended. The answer is what it printed, followed by what went wrong.
#[repr(C)]
#[derive(Clone, Copy, Debug, Default)]
pub struct ScriptEnd {
    /// 0 it ran to its end, 1 the text is not a valid script, 2 it failed while running.
    pub kind: u32,
    /// The line where it went wrong, counted from 1; else 0.
    pub line: u32,
    /// The column where it went wrong, counted from 1; else 0.
    pub column: u32,
    /// How many bytes of the answer it printed.
    pub printed: usize,
    /// How many bytes after these say what went wrong.
    pub said: usize,
}

unsafe extern "C" {
    fn rhai_host_run_script(
        handle: *mut Handle,
        script: *const u8,
        script_len: usize,
        text: usize,
        items: usize,
        operations: u64,
        calls: usize,
        end: &mut ScriptEnd,
    ) -> u32;
}

/// Runs a script on values of its own, with limits on the sizes of texts and of arrays, 0 meaning
/// no limit, on operations, and on nested calls. What it prints is the answer, followed by what
/// went wrong; the handle's world is unchanged.
#[inline]
pub fn run_script(
    handle: &Handle,
    script: &[u8],
    text: usize,
    items: usize,
    operations: u64,
    calls: usize,
    end: &mut ScriptEnd,
) -> u32 {
    // SAFETY: `handle` is zeros or what a call left, and this call's alone: it is no `Sync`, and the library comes back by
    // the doors only. `script` is a slice with its own length, and is read. `end` is a whole `ScriptEnd` that nobody else
    // has. Any `text`, `items`, `operations`, `calls` will do.
    unsafe { rhai_host_run_script(handle.lent().at(), script.as_ptr(), script.len(), text, items, operations, calls, end) }
}
