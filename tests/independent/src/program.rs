//! The slips program of document 01, as a function of its whole input.

use crate::answer::RECORD;
use crate::file::{file_length, judge_file, take_slip, HEAD};
use crate::records::{number, CODE_RECORD, ERROR, SLIP, SLIP_RECORD};

/// Where the share file ends, as its N record tells, or the input's end before that.
fn file_end(input: &[u8]) -> usize {
    if input.len() < HEAD {
        return input.len();
    }
    let total = number(&input[CODE_RECORD + 2..CODE_RECORD + 4]) as usize;
    file_length(total).min(input.len())
}

pub fn slips(input: &[u8]) -> Vec<u8> {
    let (file, mut rest) = input.split_at(file_end(input));
    let verdict = judge_file(file).number;
    if verdict != 0 {
        return vec![ERROR, verdict as u8];
    }
    let mut file = file.to_vec();
    let mut output = Vec::new();
    while !rest.is_empty() {
        if rest.len() < SLIP_RECORD || rest[0] != SLIP {
            output.extend([ERROR, RECORD as u8]);
            break;
        }
        let (slip, after) = rest.split_at(SLIP_RECORD);
        output.extend([ERROR, take_slip(&mut file, slip).number as u8]);
        rest = after;
    }
    output.extend(file);
    output
}
