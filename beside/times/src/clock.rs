//! The clock.

#[repr(C)]
struct Spec {
    seconds: i64,
    nanoseconds: i64,
}

unsafe extern "C" {
    fn clock_gettime(clock: i32, time: *mut Spec) -> i32;
}

/// The clock of this thread's processor time.
const THREAD_CPUTIME: i32 = 3;

/// The processor time of this thread in nanoseconds: other work on the machine doesn't count as ours.
#[must_use]
pub fn now() -> u64 {
    let mut time = Spec { seconds: 0, nanoseconds: 0 };
    // SAFETY: the call writes one `timespec`, which on 64 bits is two numbers of 64 bits.
    unsafe { clock_gettime(THREAD_CPUTIME, &mut time) };
    time.seconds as u64 * 1_000_000_000 + time.nanoseconds as u64
}
