//! Linux's clock of a thread.
use std::ffi::{c_int, c_long};
use std::time::Duration;

const CLOCK_THREAD_CPUTIME_ID: c_int = 3;

#[repr(C)]
struct Timespec {
    seconds: i64,
    nanoseconds: c_long,
}

unsafe extern "C" {
    fn clock_gettime(clock: c_int, time: *mut Timespec) -> c_int;
}

/// How long this thread has run, not counting what else ran on its processor.
pub fn thread_time() -> Duration {
    let mut time = Timespec {
        seconds: 0,
        nanoseconds: 0,
    };
    let status = unsafe { clock_gettime(CLOCK_THREAD_CPUTIME_ID, &mut time) };
    assert_eq!(status, 0, "a clock");
    Duration::new(time.seconds as u64, time.nanoseconds as u32)
}

#[cfg(test)]
mod tests {
    use super::*;
    use std::time::Instant;

    #[test]
    fn a_thread_runs_no_longer_than_time_goes_by() {
        let start = Instant::now();
        let from = thread_time();
        while thread_time() == from {}
        let ran = thread_time() - from;
        assert!(ran <= start.elapsed());
    }
}
