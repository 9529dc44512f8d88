//! How long a call takes.

use std::hint::black_box;
use std::time::{Duration, Instant};

/// From here on a call is seldom without other processes' turns in between.
const LONG: Duration = Duration::from_millis(1);

/// The time on the clock; of a long call no more than the time on the core,
/// which is not exact enough for a short one. What the call returns is freed
/// after.
pub fn time<T>(call: impl FnOnce() -> T) -> Duration {
    let core = on_core();
    let clock = Instant::now();
    let result = black_box(call());
    let clock = clock.elapsed();
    let core = on_core().saturating_sub(core);
    drop(result);
    match clock < LONG {
        true => clock,
        false => clock.min(core),
    }
}

#[repr(C)]
struct Timespec {
    seconds: i64,
    nanoseconds: i64,
}

extern "C" {
    fn clock_gettime(clock: i32, time: *mut Timespec) -> i32;
}

/// What this thread has had of the processor, on 64-bit Linux.
fn on_core() -> Duration {
    const CLOCK_THREAD_CPUTIME_ID: i32 = 3;
    let mut time = Timespec {
        seconds: 0,
        nanoseconds: 0,
    };
    // Writes one `Timespec`.
    let failed = unsafe { clock_gettime(CLOCK_THREAD_CPUTIME_ID, &mut time) };
    assert_eq!(failed, 0, "the thread has a clock");
    Duration::new(time.seconds as u64, time.nanoseconds as u32)
}
