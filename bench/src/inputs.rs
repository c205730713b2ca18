//! The inputs of all jobs: a code of 12 stations, a book of 1,024 stripes, and what is cut from it.

use bench::plain;
use corkpaddle::{file_len, Code, Kind, Slip, HELP_LEN};

pub const STRIPES: usize = 1024;
/// The node whose share is cut, encoded and changed.
pub const NODE: u8 = 3;
/// The node that is rebuilt.
pub const FAILED: u8 = 9;
const K: usize = 6;
const D: usize = 10;
/// Powers of 2, so that their fifth powers are distinct too.
const POINTS: [u8; 12] = [1, 2, 4, 8, 16, 32, 64, 128, 29, 58, 116, 232];
const COLLECTED: [u8; K] = [2, 5, 7, 8, 11, 12];

pub struct Inputs {
    pub kind: &'static str,
    pub code: Code,
    pub book: Vec<u8>,
    /// NODE's share file.
    pub file: Vec<u8>,
    /// For FAILED, a batch for each stripe.
    pub batches: Vec<u8>,
    pub nodes: [u8; K],
    pub counts: [u32; K],
    /// For each stripe the shares of those nodes.
    pub shares: Vec<u8>,
    pub slip: [u8; 10],
}

/// A small random generator, so that each run has the same book.
fn noise(length: usize) -> Vec<u8> {
    let mut state = 1u64;
    let mut byte = || {
        state = state.wrapping_mul(6364136223846793005).wrapping_add(1442695040888963407);
        (state >> 56) as u8
    };
    (0..length).map(|_| byte()).collect()
}

/// A share file, by the plain program, so that the inputs do not hang on the calls that are timed.
fn cut(code: &Code, node: u8, book: &[u8]) -> Vec<u8> {
    let mut file = vec![0; file_len(STRIPES)];
    plain::file::cut(code.body(), node, STRIPES as u32, book, &mut file).expect("a good book");
    file
}

fn answer(file: &[u8]) -> Vec<u8> {
    let mut records = vec![0; STRIPES * HELP_LEN];
    plain::file::answer_for(file, FAILED, &mut records).expect("a good file");
    records
}

fn batches(code: &Code, book: &[u8]) -> Vec<u8> {
    let others = (1..=code.n() as u8).filter(|node| *node != FAILED).take(D);
    let answers: Vec<_> = others.map(|node| answer(&cut(code, node, book))).collect();
    let of_stripe = |stripe: usize| {
        answers.iter().flat_map(move |answer| answer[stripe * HELP_LEN..(stripe + 1) * HELP_LEN].to_vec())
    };
    (0..STRIPES).flat_map(of_stripe).collect()
}

fn shares(code: &Code, book: &[u8]) -> Vec<u8> {
    let mut shares = Vec::new();
    for message in book.chunks_exact(code.message_len()) {
        for node in COLLECTED {
            let mut share = vec![0; code.share_len()];
            plain::stripe::encode(code.body(), node, message, &mut share).expect("a good message");
            shares.extend(share);
        }
    }
    shares
}

impl Inputs {
    /// They are kept until the program ends.
    pub fn of(kind: Kind) -> &'static Inputs {
        let code = Code::new(kind, K as u8, D as u8, &POINTS).expect("a good code");
        let book = noise(STRIPES * code.message_len());
        let slip = Slip { number: 1, stripe: 700, index: 13, change: 77 };
        Box::leak(Box::new(Inputs {
            kind: if kind == Kind::Mbr { "MBR" } else { "MSR" },
            file: cut(&code, NODE, &book),
            batches: batches(&code, &book),
            nodes: COLLECTED,
            counts: [7; K],
            shares: shares(&code, &book),
            slip: slip.record(),
            code,
            book,
        }))
    }
}
