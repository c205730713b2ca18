//! A slip as its parts.

use crate::SLIP_LEN;

/// A correction: the change is added (exclusive or) to one symbol of the book.
#[derive(Clone, Copy, Debug, PartialEq, Eq, Hash)]
pub struct Slip {
    /// The share's count + 1, or the slip is refused with 9.
    pub number: u32,
    /// The stripe, from 0.
    pub stripe: u16,
    /// The symbol of the stripe's message, from 0.
    pub index: u16,
    pub change: u8,
}

impl Slip {
    /// The P record, numbers big-endian.
    pub fn record(&self) -> [u8; SLIP_LEN] {
        let ([a, b, c, d], [e, f]) = (self.number.to_be_bytes(), self.stripe.to_be_bytes());
        let [g, h] = self.index.to_be_bytes();
        [b'P', a, b, c, d, e, f, g, h, self.change]
    }
}
