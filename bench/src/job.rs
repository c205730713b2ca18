//! A job: one piece of work that both sides do on the same inputs.

use crate::timing::Timed;

/// Writes the job's output into the buffer, and answers the count.
pub type Side = Box<dyn FnMut(&mut [u8]) -> u32>;

pub const LIBRARY: usize = 0;
pub const PLAIN: usize = 1;

pub struct Job {
    pub name: String,
    /// What the buffer holds before each call: zeros, or the file that a slip changes.
    pub start: Vec<u8>,
    /// The library's side, then the plain one.
    pub sides: [Side; 2],
    pub rounds: usize,
}

impl Job {
    pub fn new(
        name: String,
        start: Vec<u8>,
        library: impl FnMut(&mut [u8]) -> u32 + 'static,
        plain: impl FnMut(&mut [u8]) -> u32 + 'static,
    ) -> Job {
        Job { name, start, sides: [Box::new(library), Box::new(plain)], rounds: 101 }
    }

    /// Both sides must answer the same and leave the same bytes, and other ones than before, or the times mean nothing.
    pub fn compare(&mut self) {
        let [library, plain] = [LIBRARY, PLAIN].map(|side| {
            let mut buffer = self.start.clone();
            (self.sides[side](&mut buffer), buffer)
        });
        assert!(library == plain, "{}: the sides differ", self.name);
        assert!(library.1 != self.start, "{}: nothing was written", self.name);
    }

    /// Rounds of one call for each side. The side that goes first changes from round to round.
    pub fn time(&mut self) -> Timed {
        self.compare();
        let mut buffer = self.start.clone();
        let mut timed = Timed::default();
        for round in 0..self.rounds {
            let mut took = [0.0; 2];
            for turn in 0..2 {
                let side = (round + turn) % 2;
                buffer.copy_from_slice(&self.start);
                took[side] = crate::timing::microseconds(|| self.sides[side](&mut buffer));
            }
            timed.add(took);
        }
        timed
    }
}
