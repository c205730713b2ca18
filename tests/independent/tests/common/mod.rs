//! The codes of document 01's worked cases, shared by the tests.

#![allow(dead_code)]

use independent::answer::Answer;

pub fn code(kind: u8, n: u8, k: u8, d: u8, points: &[u8]) -> Vec<u8> {
    let mut run = vec![kind, n, k, d];
    run.extend(points);
    run.resize(36, 0);
    run
}

pub fn code_a() -> Vec<u8> {
    code(1, 4, 2, 3, &[1, 2, 3, 4])
}

pub fn code_b() -> Vec<u8> {
    code(2, 5, 3, 4, &[0, 1, 2, 3, 4])
}

/// Points 0, 1, 2 and so on.
pub fn points(n: u8) -> Vec<u8> {
    (0..n).collect()
}

pub fn numbers(answer: Answer) -> [u32; 4] {
    [answer.number, answer.first, answer.second, answer.count]
}

/// A refusal that names nothing.
pub fn refusal(number: u32) -> [u32; 4] {
    [number, 0, 0, 0]
}

/// The whole file of document 01's last worked case.
pub fn file_a() -> Vec<u8> {
    let mut file = vec![67, 1, 4, 2, 3, 1, 2, 3, 4];
    file.extend([0; 28]);
    file.extend([78, 2, 0, 1, 0, 0, 0, 0]);
    file.extend([68, 0, 0, 21, 16, 14]);
    file.extend([0; 28]);
    file
}

pub fn slip_a() -> Vec<u8> {
    vec![80, 0, 0, 0, 1, 0, 0, 0, 1, 1]
}
