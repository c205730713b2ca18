//! Judging codes: named edges, good codes, damaged codes and plain noise.

use crate::calls::judge::JUDGE;
use crate::case::Input;
use crate::codes::{code_run, damage_code, good_code, points, KINDS};
use crate::random::Random;

const CASES: u64 = 100_000;

/// Points 0, 1, 2 and so on.
fn first_points(n: usize) -> Vec<u8> {
    (0..n.min(32) as u8).collect()
}

/// Document 01's edges by name.
fn edges() -> Vec<Vec<u8>> {
    let sizes = [
        (1, 32, 5, 9),
        (1, 33, 5, 9),
        (1, 32, 31, 31),
        (1, 9, 5, 8),
        (1, 9, 5, 9),
        (1, 2, 1, 1),
        (1, 1, 1, 1),
        (1, 0, 0, 0),
        (1, 5, 0, 3),
        (1, 5, 3, 2),
        (2, 3, 1, 0),
        (2, 3, 2, 2),
        (2, 5, 3, 4),
        (2, 5, 3, 3),
        (2, 32, 16, 30),
        (2, 31, 16, 30),
        (2, 32, 15, 28),
        (2, 29, 15, 28),
        (2, 28, 15, 28),
        (3, 4, 2, 3),
        (0, 4, 2, 3),
        (255, 255, 255, 255),
        (2, 32, 130, 2),
        (2, 32, 129, 0),
    ];
    let mut codes: Vec<_> =
        sizes.iter().map(|(kind, n, k, d)| code_run(*kind, *n, *k, *d, &first_points(*n))).collect();
    // 1 and 2^85 have equal cubes.
    codes.push(code_run(2, 7, 4, 6, &[1, 2, 3, 4, 5, 6, 214]));
    codes.push(code_run(1, 7, 4, 6, &[1, 2, 3, 4, 5, 6, 214]));
    codes.push(code_run(1, 4, 2, 3, &[1, 2, 3, 4, 0, 0, 9]));
    codes.push(code_run(1, 4, 2, 3, &[1, 2, 3, 3, 0, 0, 9]));
    codes.extend([vec![], vec![1; 35], vec![1; 37], vec![0; 36]]);
    codes
}

/// Codes of every size at MSR's upper end, whose points may not suffice.
fn crowded(random: &mut Random) -> Vec<u8> {
    let k = random.from_to(2, 16);
    let n = random.from_to(2 * k - 1, 32);
    let points = points(random, 2, n, k);
    code_run(2, n, k, 2 * k - 2, &points)
}

/// Small fields and few different points, with no care for the rules.
fn noise(random: &mut Random) -> Vec<u8> {
    let most = random.pick(&[4, 8, 40]);
    let sizes = [0; 3].map(|_| random.below(most));
    let variety = random.pick(&[20, 100, 256]);
    let points: Vec<u8> = (0..sizes[0].min(32)).map(|_| random.below(variety) as u8).collect();
    code_run(random.below(4) as u8, sizes[0], sizes[1], sizes[2], &points)
}

fn random_code(random: &mut Random) -> Vec<u8> {
    let kind = random.pick(&KINDS);
    let mut code = match random.below(10) {
        0 => crowded(random),
        1 | 2 => noise(random),
        _ => good_code(random, kind, 32),
    };
    for _ in 0..random.faults() {
        damage_code(random, &mut code);
    }
    code
}

pub fn run(random: &mut Random, scale: u64) -> u64 {
    let edges = edges();
    let cases = CASES * scale / 100;
    let count = edges.len() as u64 + cases;
    for code in edges {
        JUDGE.check(vec![Input::Bytes(code)]);
    }
    for _ in 0..cases {
        JUDGE.check(vec![Input::Bytes(random_code(random))]);
    }
    count
}
