//! Of the module `told`: written by `tools/host_declarations` from the lines of `crates/rhai_host`.

/// An answer in numbers. Further calls fetch its text, its bytes and the names of types.
#[repr(C)]
#[derive(Clone, Copy, Debug, Default)]
pub struct Told {
    /// 0 done, 1 a boolean, 2 a number, 3 a text, 4 bytes, 5 two numbers, 6 nothing, 7 a refusal.
    pub kind: u32,
    /// Which refusal; else 0.
    pub reason: u32,
    /// A boolean as 0 or 1, the lower 64 bits of a number, a length in bytes, the first of two
    /// numbers, or which one of a kind of refusals.
    pub low: u64,
    /// The upper 64 bits of a number, the second of two numbers, or the length of a second name.
    pub high: u64,
}
