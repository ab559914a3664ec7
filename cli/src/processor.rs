//! The processor's time, which other programs on the machine do not lengthen.

use std::time::Duration;

/// The clock of the thread that asks, by its number on Linux.
const THREAD: i32 = 3;

/// A time as the C library tells it.
#[repr(C)]
struct Time {
    seconds: i64,
    nanoseconds: i64,
}

// The C library's, which every program is linked with.
extern "C" {
    fn clock_gettime(clock: i32, time: *mut Time) -> i32;
}

/// The processor time that this thread has taken.
pub fn time() -> Duration {
    let mut time = Time {
        seconds: 0,
        nanoseconds: 0,
    };
    // SAFETY: the time is written to a place of its own.
    unsafe { clock_gettime(THREAD, &raw mut time) };
    Duration::new(time.seconds as u64, time.nanoseconds as u32)
}

#[cfg(test)]
mod tests {
    use super::time;
    use std::time::Duration;

    #[test]
    fn it_goes_on_with_work_and_not_with_sleep() {
        let begun = time();
        while time() < begun + Duration::from_millis(2) {}
        let slept = time();
        std::thread::sleep(Duration::from_millis(50));
        assert!(time() < slept + Duration::from_millis(25));
    }
}
