//! The field: every product, every quotient, every power up to 600.

use crate::calls::field::OPERATIONS;
use crate::case::{Input, Operation};

const MOST_POWER: u64 = 600;

fn check_all(operation: &Operation, last: u64) -> u64 {
    for a in 0..=255 {
        for b in 0..=last {
            operation.check(vec![Input::Number(a), Input::Number(b)]);
        }
    }
    256 * (last + 1)
}

pub fn run() -> u64 {
    let [product, quotient, power] = &OPERATIONS;
    check_all(product, 255) + check_all(quotient, 255) + check_all(power, MOST_POWER)
}
