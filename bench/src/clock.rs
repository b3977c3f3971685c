//! Processor time of this thread: what other programs on the machine take does not count.

#[repr(C)]
struct Timespec {
    seconds: i64,
    nanoseconds: i64,
}

/// CLOCK_THREAD_CPUTIME_ID of Linux.
const OF_THIS_THREAD: i32 = 3;

extern "C" {
    fn clock_gettime(clock: i32, time: *mut Timespec) -> i32;
}

fn nanoseconds() -> i64 {
    let mut time = Timespec {
        seconds: 0,
        nanoseconds: 0,
    };
    let answer = unsafe { clock_gettime(OF_THIS_THREAD, &mut time) };
    assert_eq!(answer, 0, "no clock of this thread");
    1_000_000_000 * time.seconds + time.nanoseconds
}

/// Milliseconds that a run takes.
pub fn ms(run: impl FnOnce()) -> f64 {
    let began = nanoseconds();
    run();
    (nanoseconds() - began) as f64 / 1e6
}
