//! Processor time of a call, and a line that compares two.

use std::time::Duration;

const ROUNDS: usize = 5;

/// A round repeats its call until it has lasted this long.
const LEAST_ROUND: Duration = Duration::from_millis(20);

/// Prints the best time of each of two calls, and their ratio.
pub fn compare(what: &str, mut refiner: impl FnMut(), mut plain: impl FnMut()) {
    let [refiner, plain] = best_in_turn([&mut refiner, &mut plain]);
    let ratio = refiner / plain;
    println!("{what:<44}{refiner:>9.2} us{plain:>9.2} us{ratio:>8.2}");
}

/// The best time of each call, in microseconds; they are made in turn.
pub fn best_in_turn<const N: usize>(mut calls: [&mut dyn FnMut(); N]) -> [f64; N] {
    let mut best = [Duration::MAX; N];
    for _ in 0..ROUNDS {
        for (best, call) in best.iter_mut().zip(&mut calls) {
            *best = (*best).min(time(call));
        }
    }
    best.map(|time| time.as_secs_f64() * 1e6)
}

/// The mean time of a call over one round.
fn time(call: &mut dyn FnMut()) -> Duration {
    let start = processor_time();
    let mut calls = 0;
    loop {
        call();
        calls += 1;
        let passed = processor_time() - start;
        if passed >= LEAST_ROUND {
            return passed / calls;
        }
    }
}

/// C's `struct timespec` on 64-bit Linux.
#[repr(C)]
struct Timespec {
    seconds: i64,
    nanoseconds: i64,
}

extern "C" {
    fn clock_gettime(clock: i32, time: *mut Timespec) -> i32;
}

const CLOCK_PROCESS_CPUTIME_ID: i32 = 2;

/// The time that processors have spent on this process.
pub fn processor_time() -> Duration {
    let mut time = Timespec {
        seconds: 0,
        nanoseconds: 0,
    };
    // SAFETY: the C library writes one `struct timespec` at the address, which is that of one.
    let failed = unsafe { clock_gettime(CLOCK_PROCESS_CPUTIME_ID, &mut time) };
    assert_eq!(failed, 0, "the system has no clock of processor time");
    Duration::new(time.seconds as u64, time.nanoseconds as u32)
}
