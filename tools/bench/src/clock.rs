//! The time that this thread has run, as Linux counts it.

/// C's `struct timespec` on 64-bit Linux.
#[repr(C)]
struct Time {
    seconds: i64,
    nanoseconds: i64,
}

extern "C" {
    fn clock_gettime(clock: i32, time: *mut Time) -> i32;
}

const THREAD: i32 = 3;

fn now() -> u64 {
    let mut time = Time { seconds: 0, nanoseconds: 0 };
    // SAFETY: the pointer is that of a Time, which the function writes.
    let reply = unsafe { clock_gettime(THREAD, &mut time) };
    assert_eq!(reply, 0, "no clock for threads");
    time.seconds as u64 * 1_000_000_000 + time.nanoseconds as u64
}

/// A clock that runs since its start.
pub struct Clock {
    start: u64,
}

impl Clock {
    pub fn start() -> Self {
        Clock { start: now() }
    }

    pub fn nanoseconds(&self) -> u64 {
        now() - self.start
    }
}
