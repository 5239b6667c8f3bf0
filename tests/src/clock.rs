//! The time that a thread has had a core, for a machine may have other work too.

use std::sync::OnceLock;
use std::time::{Duration, Instant};

/// Runs are timed until this many in a row are no shorter than the shortest, which counts, and at most so many.
const NO_SHORTER: usize = 3;
const MOST_RUNS: usize = 30;

/// The time that this thread has had a core so far, or, where the system does not say it, the time that has passed.
pub fn thread_time() -> Duration {
    static BEGIN: OnceLock<Instant> = OnceLock::new();
    let begin = BEGIN.get_or_init(Instant::now);
    own_time().unwrap_or_else(|| begin.elapsed())
}

#[cfg(all(target_os = "linux", target_pointer_width = "64"))]
#[expect(unsafe_code, reason = "std has no clock of a thread's own time")]
fn own_time() -> Option<Duration> {
    #[repr(C)]
    struct Timespec {
        seconds: i64,
        nanoseconds: i64,
    }
    extern "C" {
        fn clock_gettime(clock: i32, time: *mut Timespec) -> i32;
    }
    const CLOCK_THREAD_CPUTIME_ID: i32 = 3;
    let mut time = Timespec { seconds: 0, nanoseconds: 0 };
    // SAFETY: the call writes one timespec, which is of two words here and lent to it.
    let answer = unsafe { clock_gettime(CLOCK_THREAD_CPUTIME_ID, &mut time) };
    (answer == 0).then(|| Duration::new(time.seconds as u64, time.nanoseconds as u32))
}

#[cfg(not(all(target_os = "linux", target_pointer_width = "64")))]
fn own_time() -> Option<Duration> {
    None
}

/// The time of a run, and what it gives.
pub fn once<T>(run: impl FnOnce() -> T) -> (Duration, T) {
    let begin = thread_time();
    let given = run();
    (thread_time() - begin, given)
}

/// The shortest time of some runs: what other work on the machine adds to one is left out.
pub fn time<T>(mut run: impl FnMut() -> T) -> Duration {
    let (mut shortest, mut since) = (once(&mut run).0, 0);
    for _ in 1..MOST_RUNS {
        let time = once(&mut run).0;
        since = if time < shortest { 0 } else { since + 1 };
        shortest = shortest.min(time);
        if since == NO_SHORTER {
            break;
        }
    }
    shortest
}
