//! Document 01's worked cases, starred or not.

mod common;

use common::{code, code_a, code_b, file_a, slip_a};
use independent::collect::collect;
use independent::field::{power, product, quotient};
use independent::file::{cut, judge_file, take_slip};
use independent::program::slips;
use independent::stripe::{encode, help, rebuild};

fn share(code: &[u8], node: u8, message: &[u8], alpha: usize) -> Vec<u8> {
    let mut output = vec![0xaa; alpha];
    assert_eq!(encode(code, node, message, &mut output).number, 0);
    output
}

fn symbol(code: &[u8], helper: u8, failed: u8, share: &[u8]) -> u8 {
    let mut output = [0xaa];
    assert_eq!(help(code, helper, failed, share, &mut output).number, 0);
    output[0]
}

#[test]
fn products() {
    let cases = [(2, 128, 29), (3, 7, 9), (16, 16, 29), (2, 142, 1), (0, 255, 0)];
    for (a, b, expected) in cases {
        assert_eq!(product(a, b), expected);
        assert_eq!(product(b, a), expected);
    }
}

#[test]
fn field_rules() {
    let mut seen = [false; 256];
    for n in 0..255 {
        seen[power(2, n) as usize] = true;
    }
    assert!(!seen[0] && seen[1..].iter().all(|found| *found));
    assert_eq!((power(0, 0), power(0, 1), power(7, 0)), (1, 0, 1));
    for b in 0..=255 {
        assert_eq!(quotient(b, 0), 0);
        assert_eq!(quotient(b, b), (b != 0) as u8);
        for a in 1..=255 {
            assert_eq!(product(quotient(b, a), a), b);
        }
    }
}

const SHARES_A: [[u8; 3]; 4] = [[7, 4, 1], [21, 16, 14], [19, 22, 11], [73, 94, 16]];
const SHARES_B: [[u8; 2]; 5] = [[1, 2], [2, 2], [61, 32], [32, 52], [20, 195]];

#[test]
fn shares_and_helpers_of_code_a() {
    for (node, expected) in (1..).zip(SHARES_A) {
        assert_eq!(share(&code_a(), node, &[1, 2, 3, 4, 5], 3), expected);
    }
    let symbols: Vec<u8> = (2..5).map(|h| symbol(&code_a(), h, 1, &SHARES_A[h as usize - 1])).collect();
    assert_eq!(symbols, [11, 14, 7]);
    let mut output = [0xaa; 3];
    let answer = rebuild(&code_a(), 1, &[2, 3, 4], &symbols, &[6; 3], &mut output);
    assert_eq!((answer.number, answer.count, output), (0, 6, SHARES_A[0]));
}

#[test]
fn shares_and_helpers_of_code_b() {
    for (node, expected) in (1..).zip(SHARES_B) {
        assert_eq!(share(&code_b(), node, &[1, 2, 3, 4, 5, 6], 2), expected);
    }
    for (failed, helpers, expected) in
        [(1, [2, 3, 4, 5], [2, 61, 32, 20]), (2, [1, 3, 4, 5], [3, 29, 20, 215])]
    {
        let symbols = helpers.map(|h| symbol(&code_b(), h, failed, &SHARES_B[h as usize - 1]));
        assert_eq!(symbols, expected);
        let mut output = [0xaa; 2];
        let answer = rebuild(&code_b(), failed, &helpers, &symbols, &[0; 4], &mut output);
        assert_eq!((answer.number, output), (0, SHARES_B[failed as usize - 1]));
    }
}

#[test]
fn collected_messages() {
    let mut message = [0xaa; 5];
    let shares = [SHARES_A[3], SHARES_A[1]].concat();
    assert_eq!(collect(&code_a(), &[4, 2], &[3, 3], &shares, &mut message).count, 3);
    assert_eq!(message, [1, 2, 3, 4, 5]);
    let mut message = [0xaa; 6];
    let shares = [SHARES_B[4], SHARES_B[0], SHARES_B[2]].concat();
    assert_eq!(collect(&code_b(), &[5, 1, 3], &[0; 3], &shares, &mut message).number, 0);
    assert_eq!(message, [1, 2, 3, 4, 5, 6]);
}

#[test]
fn shares_that_fit_no_message() {
    let mut message = [0xaa; 5];
    let answer = collect(&code_a(), &[1, 2], &[0, 0], &[1, 2, 3, 4, 5, 6], &mut message);
    assert_eq!((answer.number, message), (0, [2, 242, 243, 0, 3]));
}

#[test]
fn smallest_code() {
    let smallest = code(1, 2, 1, 1, &[0, 1]);
    assert_eq!(share(&smallest, 1, &[9], 1), [9]);
    assert_eq!(share(&smallest, 2, &[9], 1), [9]);
}

#[test]
fn file_and_slips() {
    let mut fresh = vec![0xaa; 79];
    assert_eq!(cut(&code_a(), 2, 1, &[1, 2, 3, 4, 5], &mut fresh).number, 0);
    assert_eq!(fresh, file_a());
    assert_eq!((judge_file(&fresh).number, judge_file(&fresh).count), (0, 0));
    for (index, expected) in [(1, [23, 17, 14]), (3, [17, 16, 15])] {
        let mut file = file_a();
        let mut slip = slip_a();
        slip[8] = index;
        assert_eq!(take_slip(&mut file, &slip).count, 1);
        let mut changed = file_a();
        changed[44] = 1;
        changed[48..51].copy_from_slice(&expected);
        assert_eq!(file, changed);
    }
}

#[test]
fn the_program() {
    let mut left = file_a();
    left[44] = 1;
    left[48..51].copy_from_slice(&[23, 17, 14]);
    let once = [file_a(), slip_a()].concat();
    assert_eq!(slips(&once), [vec![69, 0], left.clone()].concat());
    let twice = [once, slip_a()].concat();
    assert_eq!(slips(&twice), [vec![69, 0, 69, 9], left].concat());
}
