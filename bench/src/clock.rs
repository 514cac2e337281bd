//! The time that the processor has spent on this program, or on those that it started. Other work on the machine is not
//! in it.

use std::ffi::{c_int, c_long};

const CLOCK_PROCESS_CPUTIME_ID: c_int = 2;
const RUSAGE_CHILDREN: c_int = -1;

#[repr(C)]
struct Timespec {
    seconds: c_long,
    nanoseconds: c_long,
}

/// What getrusage answers: seconds and microseconds of the user and of the system, and 14 other numbers.
#[repr(C)]
#[derive(Default)]
struct Usage {
    user: [c_long; 2],
    system: [c_long; 2],
    others: [c_long; 14],
}

extern "C" {
    fn clock_gettime(clock: c_int, time: *mut Timespec) -> c_int;
    fn getrusage(who: c_int, usage: *mut Usage) -> c_int;
}

/// In nanoseconds.
pub fn processor_time() -> f64 {
    let mut time = Timespec {
        seconds: 0,
        nanoseconds: 0,
    };
    // SAFETY: the time is this function's own, and of the form that the C library has on 64-bit Linux.
    let answer = unsafe { clock_gettime(CLOCK_PROCESS_CPUTIME_ID, &mut time) };
    assert_eq!(answer, 0, "the clock of the processor");
    time.seconds as f64 * 1e9 + time.nanoseconds as f64
}

/// That of the programs that this one has started and waited for, in nanoseconds.
pub fn children_time() -> f64 {
    let mut usage = Usage::default();
    // SAFETY: the numbers are this function's own, and of the form that the C library has on 64-bit Linux.
    let answer = unsafe { getrusage(RUSAGE_CHILDREN, &mut usage) };
    assert_eq!(answer, 0, "the time of other programs");
    let nanoseconds = |[seconds, micros]: [c_long; 2]| seconds as f64 * 1e9 + micros as f64 * 1e3;
    nanoseconds(usage.user) + nanoseconds(usage.system)
}
