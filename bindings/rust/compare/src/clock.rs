//! The processor time of a thread, which other programs on the machine don't lengthen.

use std::time::Duration;

/// A time as Linux gives it on x86-64.
#[repr(C)]
struct Time {
    seconds: i64,
    nanoseconds: i64,
}

/// The clock of the calling thread on Linux.
const THREAD_CLOCK: i32 = 3;

extern "C" {
    fn clock_gettime(clock: i32, time: *mut Time) -> i32;
}

/// The processor time that the calling thread has taken so far.
pub fn thread_time() -> Duration {
    let mut time = Time {
        seconds: 0,
        nanoseconds: 0,
    };
    // SAFETY: the pointer is to a variable of the type that the function fills.
    let status = unsafe { clock_gettime(THREAD_CLOCK, &mut time) };
    assert_eq!(status, 0, "the clock can't be read");
    Duration::new(time.seconds as u64, time.nanoseconds as u32)
}

#[cfg(test)]
mod tests {
    use super::thread_time;

    #[test]
    fn time_goes_on() {
        let start = thread_time();
        while thread_time() == start {}
        assert!(thread_time() > start);
    }
}
