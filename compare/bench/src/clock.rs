//! The shortest of many runs. The things to be timed take turns, so that a machine that slows
//! down or speeds up does so for all of them.
use std::time::{Duration, Instant};

/// A round is one run of each thing. There are at least so many, then more for some seconds.
const LEAST: usize = 20;
const MOST: usize = 2000;
const LONGEST: Duration = Duration::from_secs(2);

pub struct Best(Vec<Duration>);

impl Best {
    /// Runs each thing once, and keeps the shortest time of each. A thing says how long it took,
    /// so that what it has to do besides is not counted.
    pub fn of(things: &mut [&mut dyn FnMut() -> Duration]) -> Self {
        let mut best = vec![Duration::MAX; things.len()];
        let start = Instant::now();
        for round in 0..MOST {
            if round >= LEAST && start.elapsed() > LONGEST {
                break;
            }
            for (best, thing) in best.iter_mut().zip(&mut *things) {
                *best = thing().min(*best);
            }
        }
        Self(best)
    }

    pub fn microseconds(&self, thing: usize) -> f64 {
        self.0[thing].as_secs_f64() * 1e6
    }

    /// How many times as long the first thing takes as this one.
    pub fn ratio(&self, thing: usize) -> f64 {
        self.microseconds(0) / self.microseconds(thing)
    }
}

/// How long it takes; what it makes is dropped after the clock has stopped.
pub fn timed<T>(run: impl FnOnce() -> T) -> Duration {
    let start = Instant::now();
    let made = std::hint::black_box(run());
    let time = start.elapsed();
    drop(made);
    time
}
