//! The same workloads over rhai's own values, the released files, and over the port's, a static library.
//!
//! A workload takes a number of rounds and returns a checksum; each mirrors a function of `beside/crates/bench_times/src`.

pub mod child;
mod clock;
#[cfg(feature = "counts")]
mod counting;
pub mod instructions;
pub mod machine;
pub mod page;
pub mod rows;
pub mod workloads;

pub use clock::now;
#[cfg(feature = "counts")]
pub use counting::counted;

mod door {
    // SAFETY: these are the exports of beside/crates/bench_times, by the same types; they take no pointers, and end the process nowhere.
    unsafe extern "C" {
        pub safe fn rattle_workload(which: u32, n: usize) -> u64;
        pub safe fn rattle_size(which: u32) -> usize;
        pub safe fn rattle_apply(kind: u32, n: usize) -> u64;
        pub safe fn rattle_run(kind: u32, n: usize) -> u64;
    }
}

/// A workload by the port.
#[must_use]
pub fn by_port(which: u32, n: usize) -> u64 {
    match which {
        0..=999 => door::rattle_workload(which, n),
        1000..=1099 => door::rattle_apply(which - 1000, n),
        _ => door::rattle_run(which - 1100, n),
    }
}

/// The same over the released files.
#[must_use]
pub fn by_release(which: u32, n: usize) -> u64 {
    match which {
        0..=999 => workloads::workload(which, n),
        1000..=1099 => machine::apply_all(which - 1000, n),
        _ => machine::run_all(which - 1100, n),
    }
}

/// The sizes of a type, by the port and by the release.
#[must_use]
pub fn sizes(which: u32) -> (usize, usize) {
    (door::rattle_size(which), workloads::size(which))
}
