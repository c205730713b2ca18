//! Share files: records read, files judged and cut, slips taken, on good and damaged
//! files. The file that a slip leaves is compared byte for byte.

use crate::calls::files::{CUT, JUDGE_FILE, READ, TAKE_SLIP};
use crate::case::Input;
use crate::codes::{damage_code, damage_length, known, no_node};
use crate::random::Random;
use crate::shares::{
    code_of, count_of, damage_file, damage_slip, file_code, good_file, good_slip, other_total, total,
    total_of,
};
use independent::file::file_length;
use independent::records::body_length;

const CASES: u64 = 50_000;

/// Records of all kinds in any order, as no share file has them.
fn mixed_records(random: &mut Random) -> Vec<u8> {
    let mut file = Vec::new();
    for _ in 0..random.from_to(1, 6) {
        let kind = random.pick(b"CNDPHE");
        file.push(kind);
        file.extend(random.bytes(body_length(kind).expect("a known kind")));
    }
    file
}

/// A place to read at: by steps from record to record, near the ends, or far off.
fn place(random: &mut Random, file: &[u8]) -> u64 {
    let length = file.len() as u64;
    match random.below(8) {
        0 => random.below(file.len() + 3) as u64,
        1 => random.pick(&[0, 37, 45, 79]),
        2 => length.wrapping_sub(random.below(40) as u64),
        3 => random.pick(&[u64::MAX, u64::MAX - 1, u64::MAX - 36, 1 << 32, 1 << 63, length]),
        _ => {
            let mut place = 0;
            for _ in 0..random.below(5) {
                place = independent::records::read(file, place).next;
            }
            place
        }
    }
}

fn read_case(random: &mut Random) {
    let mut file = if random.once_in(3) { good_file(random) } else { mixed_records(random) };
    for _ in 0..random.faults() {
        match random.below(3) {
            0 => damage_length(random, &mut file),
            1 => file.truncate(random.below(file.len() + 1)),
            _ => {
                let place = random.below(file.len() + 1);
                file.insert(place, random.byte());
            }
        }
    }
    let place = place(random, &file);
    READ.check(vec![Input::Bytes(file), Input::Number(place)]);
}

fn judge_case(random: &mut Random) {
    let mut file = good_file(random);
    for _ in 0..random.faults() {
        damage_file(random, &mut file);
    }
    JUDGE_FILE.check(vec![Input::Bytes(file)]);
}

fn slip_case(random: &mut Random) {
    let mut file = good_file(random);
    let (total, message) = (total_of(&file), code_of(&file).message());
    let mut slip = good_slip(random, count_of(&file).wrapping_add(1), total, message);
    for _ in 0..random.faults() {
        match random.below(4) {
            0 => damage_file(random, &mut file),
            _ => damage_slip(random, &mut slip, total, message),
        }
    }
    TAKE_SLIP.check(vec![Input::Bytes(file), Input::Bytes(slip)]);
}

fn cut_case(random: &mut Random) {
    let mut code = file_code(random);
    let good = known(&code);
    let total = total(random);
    let mut node = random.from_to(1, good.n) as u8;
    let mut book = random.bytes(total * good.message());
    let mut output = random.bytes(file_length(total));
    let mut stripes = total as u32;
    for _ in 0..random.faults() {
        match random.below(5) {
            0 => damage_code(random, &mut code),
            1 => node = no_node(random, good.n as u8),
            2 => stripes = other_total(random, total as u32),
            3 => damage_length(random, &mut book),
            _ => damage_length(random, &mut output),
        }
    }
    let (node, stripes) = (Input::Number(node as u64), Input::Number(stripes as u64));
    CUT.check(vec![Input::Bytes(code), node, stripes, Input::Bytes(book), Input::Bytes(output)]);
}

pub fn run(random: &mut Random, scale: u64) -> u64 {
    let cases = CASES * scale / 100;
    for _ in 0..cases {
        match random.below(10) {
            0..=2 => read_case(random),
            3..=5 => judge_case(random),
            6..=8 => slip_case(random),
            _ => cut_case(random),
        }
    }
    cases
}
