//! Times of many rounds, and their medians.

use std::hint::black_box;
use std::time::Instant;

/// What each round took on each side, in microseconds.
#[derive(Default)]
pub struct Timed {
    rounds: Vec<[f64; 2]>,
}

/// Each side's median, and the median of the rounds' ratios.
pub struct Medians {
    pub library: f64,
    pub plain: f64,
    pub ratio: f64,
}

pub fn microseconds(work: impl FnOnce() -> u32) -> f64 {
    let start = Instant::now();
    black_box(work());
    start.elapsed().as_secs_f64() * 1e6
}

pub fn median(values: impl Iterator<Item = f64>) -> f64 {
    let mut values: Vec<f64> = values.collect();
    values.sort_by(f64::total_cmp);
    values[values.len() / 2]
}

impl Timed {
    pub fn add(&mut self, took: [f64; 2]) {
        self.rounds.push(took);
    }

    pub fn medians(&self) -> Medians {
        let rounds = || self.rounds.iter();
        Medians {
            library: median(rounds().map(|took| took[0])),
            plain: median(rounds().map(|took| took[1])),
            ratio: median(rounds().map(|took| took[0] / took[1])),
        }
    }
}
