//! What a call answers: the slip count, or the refusal's number and pair.

#[derive(Clone, Copy, Debug, PartialEq, Eq)]
pub struct Refused {
    pub number: u32,
    pub first: u32,
    pub second: u32,
}

pub type Answer<T> = Result<T, Refused>;

pub const RECORD: Refused = plain(1);
pub const KIND: Refused = plain(2);
pub const SIZE: Refused = plain(3);
pub const LENGTH: Refused = plain(5);
pub const NODE: Refused = plain(6);
pub const REPEAT: Refused = plain(7);
pub const MIXED: Refused = plain(8);
pub const ORDER: Refused = plain(9);
pub const PLACE: Refused = plain(10);

const fn plain(number: u32) -> Refused {
    Refused { number, first: 0, second: 0 }
}

/// Refusal 4 with its pair, places counted from 1.
pub fn points(first: usize, second: usize) -> Refused {
    Refused { number: 4, first: first as u32, second: second as u32 }
}

/// Goes on only where a rule holds.
#[inline(always)]
pub fn ask(rule: bool, refused: Refused) -> Answer<()> {
    if rule {
        Ok(())
    } else {
        Err(refused)
    }
}
