//! The slips program on whole inputs: good files with slips, damaged files, damaged
//! slips, and what is neither.

use crate::calls::program::SLIPS;
use crate::case::Input;
use crate::random::Random;
use crate::shares::{code_of, count_of, damage_file, damage_slip, good_file, good_slip, total_of};
use std::thread;

const CASES: u64 = 20_000;
const THREADS: u64 = 2;

/// Slips in order; a faulty one now and then, which may use up no number.
fn slips(random: &mut Random, file: &[u8]) -> Vec<u8> {
    let (total, message) = (total_of(file), code_of(file).message());
    let mut order = count_of(file).wrapping_add(1);
    let mut stream = Vec::new();
    for _ in 0..random.pick(&[0, 1, 2, 3, 5, 30]) {
        let mut slip = good_slip(random, order, total, message);
        if random.once_in(5) {
            damage_slip(random, &mut slip, total, message);
            order = order.wrapping_sub(random.below(2) as u32);
        }
        order = order.wrapping_add(1);
        stream.extend(slip);
    }
    stream
}

fn whole_input(random: &mut Random) -> Vec<u8> {
    let mut input = good_file(random);
    let mut stream = slips(random, &input);
    if random.once_in(3) {
        damage_file(random, &mut input);
    }
    match random.below(12) {
        0 => stream.truncate(random.below(stream.len() + 1)),
        1 => stream.extend(random.bytes(7)),
        2 => stream.extend_from_slice(b"E\0"),
        _ => (),
    }
    input.extend(stream);
    if random.once_in(20) {
        input.truncate(random.below(input.len() + 1));
    }
    input
}

fn run_cases(mut random: Random, cases: u64) {
    for case in 0..cases {
        let input = if case == 0 { Vec::new() } else { whole_input(&mut random) };
        let pieces = Input::Number(random.next());
        SLIPS.check(vec![Input::Bytes(input), pieces, Input::Bytes(Vec::new())]);
    }
}

/// In two threads, each with a random stream of its own: a case spends its time waiting for a process to start.
pub fn run(random: &mut Random, scale: u64) -> u64 {
    let each = CASES * scale / 100 / THREADS;
    thread::scope(|scope| {
        for _ in 0..THREADS {
            let stream = Random::of_layer(random.next(), "program");
            scope.spawn(move || run_cases(stream, each));
        }
    });
    each * THREADS
}
