//! Cases that once showed a difference. They are run first, each time.
//!
//! A line is the text that the comparison printed after `case:`.

use crate::case::{Input, Operation};

const KEPT: &[&str] = &[];

/// Runs the kept cases whose operations are linked, and answers their number.
pub fn run(operations: &[Operation]) -> u64 {
    let mut cases = 0;
    for line in KEPT {
        let mut words = line.split_whitespace();
        let name = words.next().expect("a kept case has an operation");
        if let Some(operation) = operations.iter().find(|operation| operation.name == name) {
            operation.check(words.map(Input::parse).collect());
            cases += 1;
        }
    }
    cases
}
