//! Random share files and slips, and faults to put into them.

use crate::codes::{damage_code, damage_length, good_code, known, no_node, KINDS};
use crate::random::Random;
use independent::code::{Code, MOST_SYMBOLS};
use independent::file::{file_length, whole_file, HEAD};
use independent::records::{number, CODE_RECORD, DATA_RECORD};

/// A good code for files: few nodes mostly.
pub fn file_code(random: &mut Random) -> Vec<u8> {
    let (kind, most) = (random.pick(&KINDS), random.pick(&[6, 6, 6, 12, 32]));
    good_code(random, kind, most)
}

/// A stripe total: 1 to 8 mostly, now and then a large one.
pub fn total(random: &mut Random) -> usize {
    match random.below(400) {
        0 => 1024,
        1 => random.from_to(9, 1024),
        _ => random.from_to(1, 8),
    }
}

/// A stripe total of another value, within its rule or not.
pub fn other_total(random: &mut Random, total: u32) -> u32 {
    random.pick(&[0, total.wrapping_sub(1), total + 1, 1024, 1025, 65_535, 65_536 + total, u32::MAX])
}

/// A good file of any symbols; no rule ties them to each other.
pub fn good_file(random: &mut Random) -> Vec<u8> {
    let code = file_code(random);
    let good = known(&code);
    let shares: Vec<_> = (0..total(random)).map(|_| any_share(random, &good)).collect();
    let node = random.from_to(1, good.n) as u8;
    whole_file(&code, node, random.count(), &shares)
}

fn any_share(random: &mut Random, code: &Code) -> [u8; MOST_SYMBOLS] {
    let mut share = [0; MOST_SYMBOLS];
    share[..code.alpha()].iter_mut().for_each(|symbol| *symbol = random.byte());
    share
}

pub fn count_of(file: &[u8]) -> u32 {
    number(&file[HEAD - 4..HEAD])
}

pub fn total_of(file: &[u8]) -> usize {
    number(&file[HEAD - 6..HEAD - 4]) as usize
}

pub fn code_of(file: &[u8]) -> Code {
    known(&file[1..CODE_RECORD])
}

fn put(file: &mut [u8], place: usize, bytes: &[u8]) {
    if let Some(part) = file.get_mut(place..place + bytes.len()) {
        part.copy_from_slice(bytes);
    }
}

/// Puts a fault, or a change that may be none, into a file.
pub fn damage_file(random: &mut Random, file: &mut Vec<u8>) {
    if file.len() < file_length(1) {
        return damage_length(random, file);
    }
    let stripe = random.below((file.len() - HEAD) / DATA_RECORD);
    let at = file_length(stripe);
    match random.below(12) {
        0 => file.truncate(random.below(file.len())),
        1 => file.truncate(random.pick(&[0, 1, CODE_RECORD, HEAD, at])),
        2 => lengthen(random, file),
        3 => {
            let place = random.below(file.len());
            file[place] ^= 1 << random.below(8);
        }
        4 => damage_kind_byte(random, file, at),
        5 => damage_file_code(random, file),
        6 => damage_name(random, file),
        7 => put(file, at + 1, &other_total(random, stripe as u32).to_be_bytes()[2..]),
        8 | 9 => {
            let place = at + 3 + random.below(MOST_SYMBOLS);
            put(file, place, &[random.byte()]);
        }
        10 => swap_stripes(random, file, at),
        _ => drop(file.drain(at..at + DATA_RECORD)),
    }
}

fn lengthen(random: &mut Random, file: &mut Vec<u8>) {
    let length = random.pick(&[1, 10, DATA_RECORD]);
    let mut bytes = random.bytes(length);
    bytes[0] = random.pick(&[bytes[0], 0x44, 0x50, 0]);
    file.extend(bytes);
}

fn damage_kind_byte(random: &mut Random, file: &mut [u8], data: usize) {
    let place = random.pick(&[0, CODE_RECORD, data]);
    put(file, place, &[random.pick(b"CNDPHEcn\0\xff")]);
}

fn damage_file_code(random: &mut Random, file: &mut [u8]) {
    let mut code = file[1..CODE_RECORD].to_vec();
    damage_code(random, &mut code);
    code.resize(CODE_RECORD - 1, 0);
    put(file, 1, &code);
}

/// Another node, total or count in the N record.
fn damage_name(random: &mut Random, file: &mut [u8]) {
    let (name, n, total) = (CODE_RECORD + 1, file[2], total_of(file) as u32);
    match random.below(3) {
        0 => put(file, name, &[no_node(random, n)]),
        1 => put(file, name + 1, &other_total(random, total).to_be_bytes()[2..]),
        _ => put(file, name + 3, &random.count().to_be_bytes()),
    }
}

fn swap_stripes(random: &mut Random, file: &mut [u8], at: usize) {
    let other = file_length(random.below((file.len() - HEAD) / DATA_RECORD));
    for i in 0..DATA_RECORD {
        file.swap(at + i, other + i);
    }
}

pub fn slip_record(order: u32, stripe: usize, index: usize, change: u8) -> Vec<u8> {
    let mut slip = vec![0x50];
    slip.extend(order.to_be_bytes());
    slip.extend((stripe as u16).to_be_bytes());
    slip.extend((index as u16).to_be_bytes());
    slip.push(change);
    slip
}

/// A slip with a good place and any change, 0 among them.
pub fn good_slip(random: &mut Random, order: u32, total: usize, message: usize) -> Vec<u8> {
    let change = if random.once_in(10) { 0 } else { random.byte() };
    slip_record(order, random.below(total), random.below(message), change)
}

/// Puts a fault, or a change that may be none, into a slip.
pub fn damage_slip(random: &mut Random, slip: &mut Vec<u8>, total: usize, message: usize) {
    if slip.len() != 10 {
        return;
    }
    let order = number(&slip[1..5]);
    match random.below(8) {
        0 => put(slip, 0, &[random.pick(b"CNDHEp\0")]),
        1 => damage_length(random, slip),
        2 | 3 => {
            let other = [order.wrapping_sub(1), order.wrapping_add(1), 0, 1, random.count()];
            put(slip, 1, &random.pick(&other).to_be_bytes());
        }
        4 | 5 => put(slip, 5, &random.pick(&[total, total + 1, 1024, 65_535, 256]).to_be_bytes()[6..]),
        6 => put(slip, 7, &random.pick(&[message, message + 1, 496, 65_535, 256]).to_be_bytes()[6..]),
        _ => put(slip, 1 + random.below(4), &[random.byte()]),
    }
}
