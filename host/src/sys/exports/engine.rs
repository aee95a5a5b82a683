//! Of the module `engine`: written by `tools/host_declarations` from the lines of `crates/rhai_host`.

use crate::sys::Handle;

/// Why a script stopped. The answer is what it printed, followed by what went wrong, if that isn't
/// empty.
#[repr(C)]
#[derive(Clone, Copy, Debug, Default)]
pub struct ScriptStop {
    /// 0 it is done, 1 it executed as many operations as it might, 2 it calls the host, 3 it is
    /// before a statement, 4 an allocation failed, 5 it failed, 6 the text is not a valid script, 7
    /// a function that a host function called is done, 8 such a function failed.
    pub kind: u32,
    /// The number of the host function being called; else 0.
    pub function: u32,
    /// How many arguments it is called with; else 0.
    pub arguments: usize,
    /// The line where it is, or where it went wrong, counted from 1; else 0.
    pub line: u32,
    /// The column, counted from 1; else 0.
    pub column: u32,
    /// How many operations the run has used so far, including those for the size of values.
    pub operations: u64,
    /// How many bytes of the answer it printed.
    pub printed: usize,
    /// How many bytes after these say what went wrong.
    pub said: usize,
    /// What the value of a stop of kind 0 or 7 is, or the first argument at one of kind 2: 0 unit,
    /// 1 a boolean, 2 an int; 6 there is none, or `rhai_host_script_value` or
    /// `rhai_host_script_argument` returns it.
    pub value_kind: u32,
    /// What the second argument is.
    pub second_kind: u32,
    /// What the third argument is.
    pub third_kind: u32,
    /// That value or first argument: a boolean as 0 or 1, or an int; else 0.
    pub value: i64,
    /// The second argument.
    pub second: i64,
    /// The third argument.
    pub third: i64,
}

unsafe extern "C" {
    fn rhai_host_script_compile(
        handle: *mut Handle,
        text: *const u8,
        text_len: usize,
        names: *const u8,
        names_len: usize,
        stop: &mut ScriptStop,
    ) -> u32;
    fn rhai_host_script_begin(
        handle: *mut Handle,
        text: usize,
        items: usize,
        entries: usize,
        calls: usize,
        with_body: bool,
    ) -> u32;
    fn rhai_host_script_stop_at_statements(handle: *mut Handle, stops: bool) -> u32;
    fn rhai_host_script_note_debugs(handle: *mut Handle, notes: bool) -> u32;
    fn rhai_host_script_go(handle: *mut Handle, operations: u64, stop: &mut ScriptStop) -> u32;
    fn rhai_host_script_call(
        handle: *mut Handle,
        name: *const u8,
        name_len: usize,
        arguments: *const u8,
        arguments_len: usize,
    ) -> u32;
    fn rhai_host_script_call_at_once(
        handle: *mut Handle,
        text: usize,
        items: usize,
        entries: usize,
        calls: usize,
        name: *const u8,
        name_len: usize,
        arguments: *const u8,
        arguments_len: usize,
        operations: u64,
        stop: &mut ScriptStop,
    ) -> u32;
    fn rhai_host_script_call_numbers(
        handle: *mut Handle,
        text: usize,
        items: usize,
        entries: usize,
        calls: usize,
        name: *const u8,
        name_len: usize,
        kinds: *const u8,
        kinds_len: usize,
        numbers: *const usize,
        numbers_len: usize,
        operations: u64,
        stop: &mut ScriptStop,
    ) -> u32;
    fn rhai_host_script_end(handle: *mut Handle) -> u32;
}

/// Compiles a script for the present variables. The host functions are a line each: the name, a
/// space and the number of arguments, then ` mut` if it may change the first one; the first
/// function has number 0. An unfinished run ends. What is wrong with the text is reported as a stop
/// of kind 6.
#[inline]
pub fn script_compile(handle: &Handle, text: &[u8], names: &[u8], stop: &mut ScriptStop) -> u32 {
    // SAFETY: `handle` is zeros or what a call left, and this call's alone: it is no `Sync`, and the library comes back by
    // the doors only. `text` is a slice with its own length, and is read. `names` is a slice with its own length, and is
    // read. `stop` is a whole `ScriptStop` that nobody else has.
    unsafe { rhai_host_script_compile(handle.lent().at(), text.as_ptr(), text.len(), names.as_ptr(), names.len(), stop) }
}

/// Starts a run of the script over the variables, with the largest sizes of texts, arrays and maps,
/// 0 meaning no limit, and the deepest nesting of calls. Without its body, it has ended at once,
/// and functions can be called.
#[inline]
pub fn script_begin(handle: &Handle, text: usize, items: usize, entries: usize, calls: usize, with_body: bool) -> u32 {
    // SAFETY: `handle` is zeros or what a call left, and this call's alone: it is no `Sync`, and the library comes back by
    // the doors only. Any `text`, `items`, `entries`, `calls`, `with_body` will do.
    unsafe { rhai_host_script_begin(handle.lent().at(), text, items, entries, calls, with_body) }
}

/// Sets whether the run stops before each statement.
#[inline]
pub fn script_stop_at_statements(handle: &Handle, stops: bool) -> u32 {
    // SAFETY: `handle` is zeros or what a call left, and this call's alone: it is no `Sync`, and the library comes back by
    // the doors only. Any `stops` will do.
    unsafe { rhai_host_script_stop_at_statements(handle.lent().at(), stops) }
}

/// Sets whether this run and later ones note which printed lines are those of `debug`, for
/// `rhai_host_script_debugs`.
#[inline]
pub fn script_note_debugs(handle: &Handle, notes: bool) -> u32 {
    // SAFETY: `handle` is zeros or what a call left, and this call's alone: it is no `Sync`, and the library comes back by
    // the doors only. Any `notes` will do.
    unsafe { rhai_host_script_note_debugs(handle.lent().at(), notes) }
}

/// Continues the run for at most this many operations.
#[inline]
pub fn script_go(handle: &Handle, operations: u64, stop: &mut ScriptStop) -> u32 {
    // SAFETY: `handle` is zeros or what a call left, and this call's alone: it is no `Sync`, and the library comes back by
    // the doors only. `stop` is a whole `ScriptStop` that nobody else has. Any `operations` will do.
    unsafe { rhai_host_script_go(handle.lent().at(), operations, stop) }
}

/// Starts a call of a function of the script with these arguments: the hash bytes of an array of
/// them. The script's body has to be done, and no call may be open.
#[inline]
pub fn script_call(handle: &Handle, name: &[u8], arguments: &[u8]) -> u32 {
    // SAFETY: `handle` is zeros or what a call left, and this call's alone: it is no `Sync`, and the library comes back by
    // the doors only. `name` is a slice with its own length, and is read. `arguments` is a slice with its own length, and is
    // read.
    unsafe { rhai_host_script_call(handle.lent().at(), name.as_ptr(), name.len(), arguments.as_ptr(), arguments.len()) }
}

/// Starts a run as `rhai_host_script_begin` does, of a script that has no statements outside
/// functions, calls one of its functions as `rhai_host_script_call` does, and continues for at most
/// this many operations. NO_COMMAND means that there is no run: the script has such statements, or
/// no such function, or no operation is left for the function, or it is not a script for these
/// variables. A run of the script that is done is started again, and keeps the variables until
/// `rhai_host_script_end`.
#[inline]
#[allow(clippy::too_many_arguments)]
pub fn script_call_at_once(
    handle: &Handle,
    text: usize,
    items: usize,
    entries: usize,
    calls: usize,
    name: &[u8],
    arguments: &[u8],
    operations: u64,
    stop: &mut ScriptStop,
) -> u32 {
    // SAFETY: `handle` is zeros or what a call left, and this call's alone: it is no `Sync`, and the library comes back by
    // the doors only. `name` is a slice with its own length, and is read. `arguments` is a slice with its own length, and is
    // read. `stop` is a whole `ScriptStop` that nobody else has. Any `text`, `items`, `entries`, `calls`, `operations` will
    // do.
    unsafe {
        rhai_host_script_call_at_once(
            handle.lent().at(),
            text,
            items,
            entries,
            calls,
            name.as_ptr(),
            name.len(),
            arguments.as_ptr(),
            arguments.len(),
            operations,
            stop,
        )
    }
}

/// As `rhai_host_script_call_at_once`, with at most six arguments in numbers: each is unit (kind
/// 0), a boolean (1, true unless the number is 0) or an int (2, the number has its bits).
#[inline]
#[allow(clippy::too_many_arguments)]
pub fn script_call_numbers(
    handle: &Handle,
    text: usize,
    items: usize,
    entries: usize,
    calls: usize,
    name: &[u8],
    kinds: &[u8],
    numbers: &[usize],
    operations: u64,
    stop: &mut ScriptStop,
) -> u32 {
    // SAFETY: `handle` is zeros or what a call left, and this call's alone: it is no `Sync`, and the library comes back by
    // the doors only. `name` is a slice with its own length, and is read. `kinds` is a slice with its own length, and is
    // read. `numbers` is a slice with its own length, and is read. `stop` is a whole `ScriptStop` that nobody else has. Any
    // `text`, `items`, `entries`, `calls`, `operations` will do.
    unsafe {
        rhai_host_script_call_numbers(
            handle.lent().at(),
            text,
            items,
            entries,
            calls,
            name.as_ptr(),
            name.len(),
            kinds.as_ptr(),
            kinds.len(),
            numbers.as_ptr(),
            numbers.len(),
            operations,
            stop,
        )
    }
}

/// Ends the run, wherever it is: its variables can be read and written then.
#[inline]
pub fn script_end(handle: &Handle) -> u32 {
    // SAFETY: `handle` is zeros or what a call left, and this call's alone: it is no `Sync`, and the library comes back by
    // the doors only.
    unsafe { rhai_host_script_end(handle.lent().at()) }
}
