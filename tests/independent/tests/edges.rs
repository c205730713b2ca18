//! Edges of the rules: sizes, points, and the order of refusals in each operation.

mod common;

use common::{code, code_a, code_b, numbers, points, refusal};
use independent::code::judge;
use independent::collect::collect;
use independent::field::power;
use independent::stripe::{encode, help, rebuild};

#[test]
fn sizes() {
    let judged = |kind, n: u8, k, d| judge(&code(kind, n, k, d, &points(n.min(32)))).number;
    assert_eq!((judged(1, 32, 5, 9), judged(1, 33, 5, 9)), (0, 3));
    assert_eq!((judged(1, 9, 5, 8), judged(1, 9, 5, 9)), (0, 3));
    assert_eq!((judged(1, 1, 1, 1), judged(1, 2, 1, 1), judged(1, 2, 0, 1)), (3, 0, 3));
    assert_eq!((judged(1, 5, 3, 2), judged(1, 5, 3, 3)), (3, 0));
    assert_eq!((judged(2, 5, 1, 0), judged(2, 3, 2, 2), judged(2, 5, 3, 3)), (3, 0, 3));
    assert_eq!((judged(0, 99, 0, 0), judged(3, 4, 2, 3)), (2, 2));
}

#[test]
fn points_and_their_pairs() {
    let judged = |code: &[u8]| numbers(judge(code));
    assert_eq!(judged(&code(1, 4, 2, 3, &[1, 2, 3, 2])), [4, 2, 4, 0]);
    assert_eq!(judged(&code(1, 4, 2, 3, &[3, 2, 2, 3])), [4, 1, 4, 0]);
    assert_eq!(judged(&code(1, 4, 2, 3, &[1, 2, 3, 4, 0, 7])), [4, 6, 6, 0]);
    assert_eq!(judged(&code(1, 4, 2, 3, &[1, 2, 3, 3, 5])), [4, 3, 4, 0]);
    assert_eq!(judged(&code(1, 4, 2, 3, &[0, 1, 2, 3])), refusal(0));
    assert_eq!(power(2, 85), 214);
    assert_eq!(judged(&code(2, 7, 4, 6, &[0, 1, 2, 3, 4, 5, 214])), [4, 2, 7, 0]);
    assert_eq!(judged(&code(1, 7, 4, 6, &[0, 1, 2, 3, 4, 5, 214])), refusal(0));
    let mut run = code(2, 31, 16, 30, &points(31));
    assert_eq!(judged(&run)[0], 4);
    run[1] = 32;
    run[35] = 31;
    assert_eq!(judged(&run)[0], 4);
    assert_eq!(judged(&code_a()[..35]), refusal(5));
}

#[test]
fn encode_refusals() {
    let refused = |code: &[u8], node, message: &[u8], room: usize| {
        let mut output = vec![0xaa; room];
        let answer = encode(code, node, message, &mut output);
        assert!(output.iter().all(|byte| *byte == 0xaa));
        numbers(answer)
    };
    assert_eq!(refused(&code_a(), 0, &[0; 5], 2), refusal(5));
    assert_eq!(refused(&code_a(), 0, &[0; 4], 3), refusal(5));
    assert_eq!(refused(&code_a(), 0, &[0; 5], 3), refusal(6));
    assert_eq!(refused(&code_a(), 5, &[0; 5], 3), refusal(6));
    assert_eq!(refused(&code(1, 4, 2, 3, &[1, 1, 2, 3]), 5, &[0; 5], 0), [4, 1, 2, 0]);
    assert_eq!(refused(&[], 5, &[0; 5], 0), refusal(5));
}

#[test]
fn help_refusals() {
    let refused = |helper, failed, share: &[u8], room: usize| {
        let mut output = vec![0xaa; room];
        let answer = help(&code_b(), helper, failed, share, &mut output);
        assert!(output.iter().all(|byte| *byte == 0xaa));
        numbers(answer)
    };
    assert_eq!(refused(9, 9, &[0; 3], 1), refusal(5));
    assert_eq!(refused(1, 2, &[0; 2], 0), refusal(5));
    assert_eq!(refused(1, 2, &[0; 2], 2), refusal(5));
    assert_eq!(refused(9, 9, &[0; 2], 1), refusal(6));
    assert_eq!(refused(1, 6, &[0; 2], 1), refusal(6));
    assert_eq!(refused(3, 3, &[0; 2], 1), refusal(7));
}

#[test]
fn rebuild_refusals() {
    let refused = |failed, nodes: &[u8], symbols: usize, counts: &[u32], room: usize| {
        let mut output = vec![0xaa; room];
        let symbols = vec![1; symbols];
        let answer = rebuild(&code_a(), failed, nodes, &symbols, counts, &mut output);
        assert!(output.iter().all(|byte| *byte == 0xaa));
        numbers(answer)
    };
    assert_eq!(refused(0, &[1, 1], 2, &[1, 2], 3), refusal(5));
    assert_eq!(refused(0, &[1, 1, 1], 2, &[1, 2, 1], 3), refusal(5));
    assert_eq!(refused(0, &[1, 1, 1], 3, &[1, 2], 3), refusal(5));
    assert_eq!(refused(0, &[1, 1, 1], 3, &[1, 2, 1], 4), refusal(5));
    assert_eq!(refused(0, &[1, 1, 1], 3, &[1, 2, 1], 3), refusal(6));
    assert_eq!(refused(1, &[2, 2, 5], 3, &[1, 2, 1], 3), refusal(6));
    assert_eq!(refused(1, &[2, 3, 2], 3, &[1, 2, 1], 3), refusal(7));
    assert_eq!(refused(1, &[2, 3, 1], 3, &[1, 2, 1], 3), refusal(7));
    assert_eq!(refused(1, &[2, 3, 4], 3, &[1, 1, 2], 3), refusal(8));
}

#[test]
fn collect_refusals() {
    let refused = |nodes: &[u8], counts: &[u32], shares: usize, room: usize| {
        let mut output = vec![0xaa; room];
        let answer = collect(&code_a(), nodes, counts, &vec![1; shares], &mut output);
        assert!(output.iter().all(|byte| *byte == 0xaa));
        numbers(answer)
    };
    assert_eq!(refused(&[9], &[1, 2], 6, 5), refusal(5));
    assert_eq!(refused(&[9, 9], &[1], 6, 5), refusal(5));
    assert_eq!(refused(&[9, 9], &[1, 2], 5, 5), refusal(5));
    assert_eq!(refused(&[9, 9], &[1, 2], 6, 6), refusal(5));
    assert_eq!(refused(&[9, 9], &[1, 2], 6, 5), refusal(6));
    assert_eq!(refused(&[3, 3], &[1, 2], 6, 5), refusal(7));
    assert_eq!(refused(&[3, 4], &[1, 2], 6, 5), refusal(8));
}
