//! Two calls measured in turn on the same buffers, so that whatever else the machine does hits both.

use std::arch::asm;
use std::time::{Duration, Instant};

/// How long to measure.
#[derive(Clone, Copy)]
pub struct Effort {
    pub budget: Duration,
    pub least: usize,
    pub most: usize,
}

/// Seconds per call.
pub struct Times {
    pub best: f64,
    pub median: f64,
}

pub struct Measured {
    pub repeats: usize,
    pub library: Times,
    pub plain: Times,
}

/// A sample repeats its call until about this long has passed: the clock costs some 30 ns.
const SAMPLE: Duration = Duration::from_micros(50);

/// Hides a value from the optimiser, so that what makes it and what it is for are not left out.
pub fn black_box<T>(mut value: T) -> T {
    // SAFETY: the assembly is empty; the compiler must assume that it reads and changes the value.
    unsafe { asm!("/* {0} */", in(reg) &mut value as *mut T, options(nostack, preserves_flags)) };
    value
}

pub fn alternate<L>(
    lent: &mut L,
    library: impl Fn(&mut L),
    plain: impl Fn(&mut L),
    effort: Effort,
) -> Measured {
    let calls = (batch(lent, &library), batch(lent, &plain));
    let mut samples = (Vec::new(), Vec::new());
    let start = Instant::now();
    while wants_more(samples.0.len(), start.elapsed(), effort) {
        samples.0.push(sample(lent, &library, calls.0));
        samples.1.push(sample(lent, &plain, calls.1));
    }
    Measured {
        repeats: samples.0.len(),
        library: times(samples.0),
        plain: times(samples.1),
    }
}

fn wants_more(taken: usize, elapsed: Duration, effort: Effort) -> bool {
    taken < effort.least || (taken < effort.most && elapsed < effort.budget)
}

/// How many calls make a sample. The first call touches the buffers and is not counted.
fn batch<L>(lent: &mut L, call: &impl Fn(&mut L)) -> u32 {
    call(lent);
    let one = sample(lent, call, 1);
    (SAMPLE.as_secs_f64() / one).clamp(1.0, 10_000.0) as u32
}

fn sample<L>(lent: &mut L, call: &impl Fn(&mut L), calls: u32) -> f64 {
    let start = Instant::now();
    for _ in 0..calls {
        call(lent);
    }
    start.elapsed().as_secs_f64() / f64::from(calls)
}

fn times(mut samples: Vec<f64>) -> Times {
    samples.sort_by(f64::total_cmp);
    Times {
        best: samples[0],
        median: samples[samples.len() / 2],
    }
}
