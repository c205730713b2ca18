//! What an operation answers: number, pair and count, and the refusals by name.

#[derive(Clone, Copy, Debug, PartialEq, Eq)]
pub struct Answer {
    pub number: u32,
    pub first: u32,
    pub second: u32,
    pub count: u32,
}

pub const RECORD: u32 = 1;
pub const KIND: u32 = 2;
pub const SIZE: u32 = 3;
pub const POINTS: u32 = 4;
pub const LENGTH: u32 = 5;
pub const NODE: u32 = 6;
pub const REPEAT: u32 = 7;
pub const MIXED: u32 = 8;
pub const ORDER: u32 = 9;
pub const PLACE: u32 = 10;

pub fn done(count: u32) -> Answer {
    Answer { number: 0, first: 0, second: 0, count }
}

pub fn refused(number: u32) -> Answer {
    Answer { number, first: 0, second: 0, count: 0 }
}

/// Refusal 4 with its pair, places counted from 1.
pub fn points(first: usize, second: usize) -> Answer {
    Answer { number: POINTS, first: first as u32, second: second as u32, count: 0 }
}

/// Goes on only where a rule holds.
pub fn ask(rule: bool, number: u32) -> Result<(), Answer> {
    if rule {
        Ok(())
    } else {
        Err(refused(number))
    }
}

/// A count where all went well, or the refusal, as one answer.
pub fn answer_of(outcome: Result<u32, Answer>) -> Answer {
    outcome.map_or_else(|refusal| refusal, done)
}
