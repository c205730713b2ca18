//! Lost shares: answers for a failed node, batches of H and whole files rebuilt, with
//! every refusal; then whole histories.

use crate::calls::batches::{ANSWER_FOR, REBUILD_BATCH, REBUILD_FILE};
use crate::case::Input;
use crate::codes::{damage_code, damage_length, known, no_node};
use crate::histories;
use crate::random::Random;
use crate::shares::{damage_file, file_code, good_file, other_total, total, total_of};
use independent::code::Code;
use independent::file::file_length;
use independent::records::{help_record, DATA_RECORD, HELP_RECORD};

const ANSWERS: u64 = 10_000;
const BATCHES: u64 = 20_000;
const FILES: u64 = 10_000;

fn answer_case(random: &mut Random) {
    let mut file = good_file(random);
    let (n, node) = (file[2], file[38]);
    let mut failed = random.from_to(1, n as usize) as u8;
    if failed == node && !random.once_in(4) {
        failed = failed % n + 1;
    }
    let mut output = random.bytes(total_of(&file) * HELP_RECORD);
    for _ in 0..random.faults() {
        match random.below(5) {
            0 => damage_file(random, &mut file),
            1 => failed = no_node(random, n),
            2 => failed = node,
            _ => damage_length(random, &mut output),
        }
    }
    ANSWER_FOR.check(vec![Input::Bytes(file), Input::Number(failed as u64), Input::Bytes(output)]);
}

/// d records from any d other nodes, in random order, with any symbols.
fn good_batch(random: &mut Random, code: &Code, asked: u8, count: u32, stripe: usize) -> Vec<u8> {
    let mut nodes: Vec<u8> = (1..=code.n as u8).filter(|node| *node != asked).collect();
    random.shuffle(&mut nodes);
    let record = |node: &u8| help_record(asked, *node, count, stripe, random.byte());
    nodes[..code.d].iter().flat_map(record).collect()
}

/// Writes a field of one record, or now and then of all records.
fn put(random: &mut Random, batch: &mut [u8], field: usize, value: &[u8]) {
    let records = (batch.len() / HELP_RECORD).max(1);
    let (chosen, all) = (random.below(records), random.once_in(3));
    for (i, record) in batch.chunks_exact_mut(HELP_RECORD).enumerate() {
        if all || i == chosen {
            record[field..field + value.len()].copy_from_slice(value);
        }
    }
}

/// Puts a fault, or a change that may be none, into the records of a batch.
fn damage_batch(random: &mut Random, batch: &mut [u8], n: u8, asked: u8) {
    let other_node = random.from_to(1, n as usize) as u8;
    let bad_node = no_node(random, n);
    let count = random.count().to_be_bytes();
    let stripe = random.pick(&[0u16, 1, 2, 1023, 1024, 1025, 65_535]).to_be_bytes();
    match random.below(9) {
        0 => put(random, batch, 0, &[b"CNDPEh\0"[count[3] as usize % 7]]),
        1 => put(random, batch, 1, &[bad_node]),
        2 => put(random, batch, 1, &[other_node]),
        3 => put(random, batch, 2, &[bad_node]),
        4 => put(random, batch, 2, &[other_node]),
        5 => put(random, batch, 2, &[asked]),
        6 => put(random, batch, 3, &count),
        7 => put(random, batch, 3 + other_node as usize % 4, &count[..1]),
        _ => put(random, batch, 7, &stripe),
    }
}

/// An asked node of another value: within the code or outside it.
fn other_asked(random: &mut Random, n: u8) -> u8 {
    if random.once_in(2) {
        no_node(random, n)
    } else {
        random.from_to(1, n as usize) as u8
    }
}

fn batch_case(random: &mut Random) {
    let mut code = file_code(random);
    let good = known(&code);
    let n = good.n as u8;
    let mut asked = random.from_to(1, good.n) as u8;
    let (count, stripe) = (random.count(), random.pick(&[0, 1, 255, 256, 1023]));
    let mut batch = good_batch(random, &good, asked, count, stripe);
    let mut output = random.bytes(DATA_RECORD);
    for _ in 0..random.faults() {
        match random.below(10) {
            0 => damage_code(random, &mut code),
            1 => asked = other_asked(random, n),
            2 => damage_length(random, &mut batch),
            3 => damage_length(random, &mut output),
            _ => damage_batch(random, &mut batch, n, asked),
        }
    }
    let asked = Input::Number(asked as u64);
    REBUILD_BATCH.check(vec![Input::Bytes(code), asked, Input::Bytes(batch), Input::Bytes(output)]);
}

/// Puts a fault into one of a file's batches, or sets one in another's place.
fn damage_one_of(random: &mut Random, batches: &mut [u8], length: usize, n: u8, asked: u8) {
    let total = (batches.len() / length).max(1);
    let (one, other) = (random.below(total) * length, random.below(total) * length);
    if batches.len() < length {
        return;
    }
    if random.once_in(6) {
        batches.copy_within(other..other + length, one);
    } else {
        damage_batch(random, &mut batches[one..one + length], n, asked);
    }
}

fn file_case(random: &mut Random) {
    let mut code = file_code(random);
    let good = known(&code);
    let n = good.n as u8;
    let total = total(random);
    let mut asked = random.from_to(1, good.n) as u8;
    let count = random.count();
    let one = |stripe| good_batch(random, &good, asked, count, stripe);
    let mut batches: Vec<u8> = (0..total).flat_map(one).collect();
    let mut output = random.bytes(file_length(total));
    let mut stripes = total as u32;
    for _ in 0..random.faults() {
        match random.below(14) {
            0 => damage_code(random, &mut code),
            1 => asked = other_asked(random, n),
            2 => stripes = other_total(random, total as u32),
            3 => damage_length(random, &mut batches),
            4 => damage_length(random, &mut output),
            _ => damage_one_of(random, &mut batches, good.d * HELP_RECORD, n, asked),
        }
    }
    let (asked, stripes) = (Input::Number(asked as u64), Input::Number(stripes as u64));
    REBUILD_FILE.check(vec![Input::Bytes(code), asked, stripes, Input::Bytes(batches), Input::Bytes(output)]);
}

pub fn run(random: &mut Random, scale: u64) -> u64 {
    let mut cases = 0;
    for (number, case) in
        [(ANSWERS, answer_case as fn(&mut Random)), (BATCHES, batch_case), (FILES, file_case)]
    {
        for _ in 0..number * scale / 100 {
            case(random);
            cases += 1;
        }
    }
    cases + histories::run(random, scale)
}
