//! Processor time, of this thread and of programs that it ran: other work on
//! the machine lengthens it less than the time of day.

use std::hint::black_box;
use std::time::Duration;

/// The processor time that the work takes in this thread.
pub fn here<T>(work: impl FnOnce() -> T) -> Duration {
    let start = system::thread();
    black_box(work());
    system::thread() - start
}

/// The processor time of the programs that the work starts and waits for.
pub fn in_programs<T>(work: impl FnOnce() -> T) -> Duration {
    let start = system::programs();
    black_box(work());
    system::programs() - start
}

/// Two calls of the C library that Rust's own has no counterpart of, on 64-bit
/// Linux.
#[allow(unsafe_code)]
mod system {
    use std::time::Duration;

    const CLOCK_THREAD_CPUTIME_ID: i32 = 3;
    const RUSAGE_CHILDREN: i32 = -1;

    #[repr(C)]
    #[derive(Default)]
    struct Timespec {
        seconds: i64,
        nanoseconds: i64,
    }

    /// User time, then system time, in seconds and microseconds each.
    #[repr(C)]
    #[derive(Default)]
    struct Usage {
        times: [[i64; 2]; 2],
        others: [i64; 14],
    }

    unsafe extern "C" {
        fn clock_gettime(clock: i32, time: *mut Timespec) -> i32;
        fn getrusage(who: i32, usage: *mut Usage) -> i32;
    }

    pub fn thread() -> Duration {
        let mut time = Timespec::default();
        // SAFETY: the call writes one timespec.
        let status = unsafe { clock_gettime(CLOCK_THREAD_CPUTIME_ID, &mut time) };
        assert_eq!(status, 0, "no clock of the thread's processor time");
        Duration::new(time.seconds as u64, time.nanoseconds as u32)
    }

    pub fn programs() -> Duration {
        let mut usage = Usage::default();
        // SAFETY: the call writes one rusage.
        let status = unsafe { getrusage(RUSAGE_CHILDREN, &mut usage) };
        assert_eq!(status, 0, "no resource usage of programs");
        let time = |[seconds, micros]: [i64; 2]| {
            Duration::from_secs(seconds as u64) + Duration::from_micros(micros as u64)
        };
        usage.times.into_iter().map(time).sum()
    }
}
