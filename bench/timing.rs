//! Times one system: its run again and again until a floor of time is reached. What counts is the time that the processor
//! spent on this thread, so that a run is not charged for what else the machine does meanwhile.

use std::time::Duration;

/// `struct timespec` of C on 64-bit Linux.
#[repr(C)]
struct Timespec {
    seconds: i64,
    nanoseconds: i64,
}

extern "C" {
    fn clock_gettime(clock: i32, time: *mut Timespec) -> i32;
}

/// Linux's CLOCK_THREAD_CPUTIME_ID.
const THREAD_CPU_TIME: i32 = 3;

/// A sample takes at least so long; a shorter run is repeated within it.
const SAMPLE: u64 = 100_000;

/// Nanoseconds that the processor has spent on this thread.
fn spent() -> u64 {
    let mut time = Timespec { seconds: 0, nanoseconds: 0 };
    // SAFETY: `time` is writable and has the layout that the call fills.
    let status = unsafe { clock_gettime(THREAD_CPU_TIME, &mut time) };
    assert_eq!(status, 0, "no clock of processor time");
    time.seconds as u64 * 1_000_000_000 + time.nanoseconds as u64
}

/// The file of systems, and the least time that each system is run for.
pub fn arguments() -> (String, Duration) {
    let mut words = std::env::args().skip(1);
    let file = words.next().expect("the file of systems");
    let floor = words.next().expect("milliseconds").parse().expect("milliseconds");
    (file, Duration::from_millis(floor))
}

/// What a run took in nanoseconds, sample by sample, in rising order.
pub fn timed(floor: Duration, mut run: impl FnMut()) -> Vec<f64> {
    let mut sample = |runs: u64| {
        let start = spent();
        (0..runs).for_each(|_| run());
        (spent() - start) as f64 / runs as f64
    };
    let begin = spent();
    let first = sample(1);
    let runs = (SAMPLE as f64 / first).ceil().max(1.0) as u64;
    // The first run warms up what the others find warm; where a run is short it does not count.
    let mut all = if runs == 1 { vec![first] } else { Vec::new() };
    while all.is_empty() || spent() - begin < floor.as_nanos() as u64 {
        all.push(sample(runs));
    }
    all.sort_unstable_by(f64::total_cmp);
    all
}

/// A line for `measured.py`: the energy's bits, one number for all that was left (or `-`), the least and the median time
/// of a run, and how many samples there were.
pub fn line(energy: f64, left: &str, all: &[f64]) -> String {
    format!("{:016x} {left} {:.0} {:.0} {}", energy.to_bits(), all[0], all[all.len() / 2], all.len())
}
