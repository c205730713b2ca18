//! Random codes: good ones of every size, and faults to put into them.

use crate::random::Random;
use independent::code::{judged, Code, CODE_LENGTH, MBR, MSR};
use independent::field::{power, product};

pub const KINDS: [u8; 2] = [MBR, MSR];

/// The power of a point that must differ from node to node.
fn exponent(kind: u8, k: usize) -> usize {
    if kind == MBR {
        1
    } else {
        k - 1
    }
}

/// Points with distinct powers, taken greedily from all symbols in random order:
/// fewer than n where the field has no more.
pub fn points(random: &mut Random, kind: u8, n: usize, k: usize) -> Vec<u8> {
    let mut symbols: Vec<u8> = (0..=255).collect();
    random.shuffle(&mut symbols);
    let mut seen = [false; 256];
    let is_new = |x: &u8| !std::mem::replace(&mut seen[power(*x, exponent(kind, k)) as usize], true);
    symbols.into_iter().filter(is_new).take(n).collect()
}

/// n, k and d of a code; small ones in half of the cases.
fn sizes(random: &mut Random, kind: u8, most: usize) -> (usize, usize, usize) {
    let most = if random.once_in(2) { most.min(8) } else { most };
    if kind == MBR {
        let n = random.from_to(2, most);
        let d = random.from_to(1, n - 1);
        return (n, random.from_to(1, d), d);
    }
    // k = 16 is left out: its points never suffice.
    let k = random.from_to(2, ((most + 1) / 2).min(15));
    let d = 2 * k - 2;
    (random.from_to(d + 1, most), k, d)
}

pub fn code_run(kind: u8, n: usize, k: usize, d: usize, points: &[u8]) -> Vec<u8> {
    let mut run = vec![kind, n as u8, k as u8, d as u8];
    run.extend(points);
    run.resize(CODE_LENGTH, 0);
    run
}

/// A good code of a kind, with at most `most` nodes.
pub fn good_code(random: &mut Random, kind: u8, most: usize) -> Vec<u8> {
    let (n, k, d) = sizes(random, kind, most);
    let points = points(random, kind, n, k);
    code_run(kind, n, k, d, &points)
}

/// The sizes and rows of a code that is known to be good.
pub fn known(code: &[u8]) -> Code {
    judged(code, None).ok().expect("a good code")
}

/// Puts a fault, or a change that may be none, into a code.
pub fn damage_code(random: &mut Random, code: &mut Vec<u8>) {
    if code.len() != CODE_LENGTH {
        return;
    }
    let (n, k, d) = (code[1], code[2], code[3]);
    match random.below(10) {
        0 => code[0] = random.pick(&[0, 1, 2, 3, 4, 67, 255]),
        1 => code[1] = random.pick(&[0, 1, d, d.wrapping_add(1), 31, 32, 33, 255]),
        2 => code[2] = random.pick(&[0, 1, 2, d, d.wrapping_add(1), 128, 255]),
        3 => code[3] = random.pick(&[0, 1, k, k.wrapping_sub(1), n, n.wrapping_sub(1), 254, 255]),
        4 | 5 => equal_points(random, code),
        6 | 7 => equal_powers(random, code),
        8 => {
            let place = random.from_to(4, 35);
            code[place] = random.byte();
        }
        _ => damage_length(random, code),
    }
}

/// Two places of a code, different ones wherever it has two nodes.
fn two_places(random: &mut Random, code: &[u8]) -> (usize, usize) {
    let n = code[1].clamp(2, 32) as usize;
    let first = random.below(n);
    (4 + first, 4 + (first + random.from_to(1, n - 1)) % n)
}

fn equal_points(random: &mut Random, code: &mut [u8]) {
    let (one, other) = two_places(random, code);
    code[other] = code[one];
}

/// Different points whose powers x^(k-1) are equal, where the field has such.
fn equal_powers(random: &mut Random, code: &mut [u8]) {
    let (one, other) = two_places(random, code);
    let e = exponent(MSR, code[2].max(2) as usize);
    let roots: Vec<u8> = (1..=255).filter(|x| power(*x, e) == 1).collect();
    code[other] = product(code[one], random.pick(&roots));
}

/// Makes a run longer or shorter.
pub fn damage_length<T: Clone + Default>(random: &mut Random, run: &mut Vec<T>) {
    let length = run.len();
    let other = match random.below(8) {
        0 => 0,
        1..=3 => length.saturating_sub(1),
        4 | 5 => length + 1,
        6 => 2 * length,
        _ => random.below(600),
    };
    run.resize(other, T::default());
}

/// A node that no code of n nodes has.
pub fn no_node(random: &mut Random, n: u8) -> u8 {
    random.pick(&[0, 0, n.saturating_add(1), 33, 255])
}
