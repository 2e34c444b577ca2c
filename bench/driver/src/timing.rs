//! Times: all readers in one process, in rounds that each start with another reader, so that what slows the machine down for a
//! while hits them all. What counts is a reader's time over another's in the same round, and the median of that.
use std::ffi::{c_int, c_long};

#[repr(C)]
#[derive(Default)]
struct Timespec {
    seconds: i64,
    nanoseconds: c_long,
}

/// Of Linux: the processor time of the thread that asks. What else the machine does meanwhile is not in it.
const CLOCK_THREAD_CPUTIME_ID: c_int = 3;

extern "C" {
    fn clock_gettime(clock: c_int, time: *mut Timespec) -> c_int;
}

fn processor_seconds() -> f64 {
    let mut time = Timespec::default();
    let failed = unsafe { clock_gettime(CLOCK_THREAD_CPUTIME_ID, &mut time) };
    assert_eq!(failed, 0, "the thread's clock cannot be read");
    time.seconds as f64 + time.nanoseconds as f64 / 1e9
}

/// A task's seconds, round by round.
pub struct Measured {
    seconds: Vec<f64>,
}

const ROUNDS: usize = 21;

/// Runs each of the tasks in every round.
pub fn measure(tasks: &[&dyn Fn()]) -> Vec<Measured> {
    let mut measured: Vec<Measured> = tasks.iter().map(|_| Measured { seconds: vec![] }).collect();
    for round in 0..ROUNDS {
        for turn in 0..tasks.len() {
            let task = (round + turn) % tasks.len();
            let start = processor_seconds();
            tasks[task]();
            measured[task].seconds.push(processor_seconds() - start);
        }
    }
    measured
}

/// The value that this share of the others does not exceed.
fn quantile(values: &[f64], share: f64) -> f64 {
    let mut sorted = values.to_vec();
    sorted.sort_by(f64::total_cmp);
    sorted[((sorted.len() - 1) as f64 * share).round() as usize]
}

/// A ratio: its median over the rounds and its quartiles.
pub struct Ratio {
    pub median: f64,
    pub low: f64,
    pub high: f64,
}

impl Measured {
    pub fn median_seconds(&self) -> f64 {
        quantile(&self.seconds, 0.5)
    }

    pub fn ratio_to(&self, other: &Measured) -> Ratio {
        let ratios: Vec<f64> = self
            .seconds
            .iter()
            .zip(&other.seconds)
            .map(|(mine, others)| mine / others)
            .collect();
        Ratio {
            median: quantile(&ratios, 0.5),
            low: quantile(&ratios, 0.25),
            high: quantile(&ratios, 0.75),
        }
    }
}
