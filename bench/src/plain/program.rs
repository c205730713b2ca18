//! The slips program: the file is judged once, and each slip is taken on it as it comes.

use super::answer::{Answer, RECORD};
use super::file::{file_length, held, take, HEAD, SLIP};

/// Where the share file ends, as its N record tells, or the input's end before that.
fn file_end(input: &[u8]) -> usize {
    match input.get(39..41) {
        Some(total) if input.len() >= HEAD => {
            file_length(u16::from_be_bytes([total[0], total[1]]) as usize).min(input.len())
        }
        _ => input.len(),
    }
}

fn told(answer: Answer<u32>) -> [u8; 2] {
    [b'E', answer.map_or_else(|refused| refused.number as u8, |_| 0)]
}

/// What the program writes for its whole input.
pub fn slips(input: &mut [u8]) -> Vec<u8> {
    let end = file_end(input);
    let (file, slips) = input.split_at_mut(end);
    let mut held = match held(file) {
        Ok(held) => held,
        Err(refused) => return told(Err(refused)).to_vec(),
    };
    let mut output = Vec::with_capacity(slips.len() / SLIP * 2 + 2 + file.len());
    for slip in slips.chunks(SLIP) {
        let answer = match slip.try_into() {
            Ok(slip) => take(&mut held, file, slip),
            Err(_) => Err(RECORD),
        };
        output.extend(told(answer));
        if answer == Err(RECORD) {
            break;
        }
    }
    output.extend_from_slice(file);
    output
}
