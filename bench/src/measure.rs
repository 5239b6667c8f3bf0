//! Times of several functions in one process: called in turn, so that what disturbs one disturbs all.

pub use spireyerba_tests::clock::thread_time;
use std::process::Command;
use std::time::{Duration, Instant};

/// How often functions are called: `rounds` samples of each, each of `calls` calls.
#[derive(Clone, Copy)]
pub struct Plan {
    pub rounds: usize,
    pub calls: u32,
}

/// The median time of one call of each function.
pub fn medians<const COUNT: usize>(plan: Plan, functions: [&mut dyn FnMut(); COUNT]) -> [Duration; COUNT] {
    samples(plan, functions).map(median)
}

/// The times of one call of each function, round by round.
pub fn samples<const COUNT: usize>(plan: Plan, mut functions: [&mut dyn FnMut(); COUNT]) -> [Vec<Duration>; COUNT] {
    let mut samples = [(); COUNT].map(|()| Vec::with_capacity(plan.rounds));
    for _ in 0..plan.rounds {
        for (function, samples) in functions.iter_mut().zip(&mut samples) {
            let begin = thread_time();
            for _ in 0..plan.calls {
                function();
            }
            samples.push((thread_time() - begin) / plan.calls);
        }
    }
    samples
}

/// The median of some times.
pub fn median(mut times: Vec<Duration>) -> Duration {
    times.sort_unstable();
    times[times.len() / 2]
}

/// What a program took that was run to its end.
#[derive(Clone, Copy, Debug)]
pub struct Taken {
    /// The time from start to end.
    pub elapsed: Duration,
    /// The time that its threads have had processors.
    pub processor: Duration,
    /// The most memory that it had at a time, in bytes: Linux's VmHWM, as it was last seen.
    pub memory: u64,
}

/// How often a program's memory is looked at.
const LOOK: Duration = Duration::from_millis(1);

/// Runs a program to its end, which must be a good one.
#[expect(unsafe_code, reason = "std does not say how much time and memory a program took")]
pub fn run(command: &mut Command) -> Taken {
    #[repr(C)]
    struct Timeval {
        seconds: i64,
        microseconds: i64,
    }
    #[repr(C)]
    struct Usage {
        user: Timeval,
        system: Timeval,
        others: [i64; 14],
    }
    extern "C" {
        fn wait4(process: i32, status: *mut i32, options: i32, usage: *mut Usage) -> i32;
    }
    let none = || Timeval { seconds: 0, microseconds: 0 };
    let (mut status, mut usage) = (0, Usage { user: none(), system: none(), others: [0; 14] });
    let begin = Instant::now();
    let process = command.spawn().expect("a program").id() as i32;
    let memory = std::thread::spawn(move || most_memory(process));
    // SAFETY: the call writes a status and one rusage of a 64-bit Linux, which are lent to it.
    let ended = unsafe { wait4(process, &mut status, 0, &mut usage) };
    let elapsed = begin.elapsed();
    assert_eq!((ended, status), (process, 0), "{command:?}");
    let time = |time: &Timeval| Duration::new(time.seconds as u64, time.microseconds as u32 * 1_000);
    Taken { elapsed, processor: time(&usage.user) + time(&usage.system), memory: memory.join().expect("its memory") }
}

/// The most memory that a program had, looked at until it ends: what the system says behind its end has that of this one in it.
fn most_memory(process: i32) -> u64 {
    let (status, mut most) = (format!("/proc/{process}/status"), 0);
    let seen = || {
        let text = std::fs::read_to_string(&status).ok()?;
        let line = text.lines().find_map(|line| line.strip_prefix("VmHWM:"))?;
        line.trim().strip_suffix(" kB")?.parse::<u64>().ok()
    };
    while let Some(kibibytes) = seen() {
        most = kibibytes * 1_024;
        std::thread::sleep(LOOK);
    }
    most
}

/// Microseconds with as many digits as are worth reading.
pub fn micros(time: Duration) -> String {
    let micros = time.as_secs_f64() * 1e6;
    if micros < 100.0 {
        format!("{micros:.2}")
    } else {
        format!("{micros:.0}")
    }
}

/// How long the first takes beside the second.
pub fn ratio(first: Duration, second: Duration) -> String {
    format!("{:.2}", quotient(first, second))
}

/// How long the first takes without `apart`, beside the second: the median over all rounds, so that what disturbs a round disturbs
/// its three times alike.
pub fn ratio_of_rounds(first: &[Duration], apart: &[Duration], second: &[Duration]) -> String {
    let mut ratios: Vec<f64> = first
        .iter()
        .zip(apart)
        .zip(second)
        .map(|((first, apart), second)| quotient(first.saturating_sub(*apart), *second))
        .collect();
    ratios.sort_unstable_by(f64::total_cmp);
    format!("{:.2}", ratios[ratios.len() / 2])
}

fn quotient(first: Duration, second: Duration) -> f64 {
    first.as_secs_f64() / second.as_secs_f64()
}

#[cfg(test)]
mod tests {
    use super::*;

    #[test]
    fn times_are_written_with_few_digits() {
        assert_eq!(micros(Duration::from_nanos(1_234)), "1.23");
        assert_eq!(micros(Duration::from_micros(1_234)), "1234");
        assert_eq!(ratio(Duration::from_micros(3), Duration::from_micros(4)), "0.75");
    }

    #[test]
    fn a_ratio_of_rounds_is_of_one_round() {
        let times = |numbers: [u64; 3]| numbers.map(Duration::from_micros);
        // 6 / 4, 30 / 40, 7 / 7
        let (first, apart, second) = (times([8, 50, 7]), times([2, 20, 0]), times([4, 40, 7]));
        assert_eq!(ratio_of_rounds(&first, &apart, &second), "1.00");
    }

    #[test]
    fn each_function_is_called_in_each_round() {
        let (mut first, mut second) = (0, 0);
        medians(Plan { rounds: 3, calls: 5 }, [&mut || first += 1, &mut || second += 1]);
        assert_eq!((first, second), (15, 15));
    }
}
