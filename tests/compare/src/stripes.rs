//! One stripe: encode, help, rebuild and collect, on honest, random and damaged inputs.
//!
//! Outputs are filled with noise first. Where all inputs are honest and no fault was
//! put in, what both sides agree on must also be the share or message it came from.

use crate::calls::stripes::{COLLECT, ENCODE, HELP, OPERATIONS, REBUILD};
use crate::case::Input;
use crate::codes::{damage_code, damage_length, good_code, known, no_node, KINDS};
use crate::random::Random;
use independent::code::Code;
use independent::stripe::{share_of, symbol_for};

/// For each kind and each of the four operations.
const CASES: u64 = 5_000;

/// A message: any bytes, or mostly zeros.
fn message(random: &mut Random, code: &Code) -> Vec<u8> {
    let mut message = random.bytes(code.message());
    if random.once_in(5) {
        message.iter_mut().for_each(|symbol| *symbol = if random.once_in(4) { *symbol } else { 0 });
    }
    message
}

/// All nodes of a code in random order.
fn mixed_nodes(random: &mut Random, code: &Code) -> Vec<u8> {
    let mut nodes: Vec<u8> = (1..=code.n as u8).collect();
    random.shuffle(&mut nodes);
    nodes
}

fn share(code: &Code, node: u8, message: &[u8]) -> Vec<u8> {
    share_of(code, node, message)[..code.alpha()].to_vec()
}

fn encode_case(random: &mut Random, mut code: Vec<u8>) {
    let good = known(&code);
    let mut node = random.from_to(1, good.n) as u8;
    let mut message = message(random, &good);
    let mut output = random.bytes(good.alpha());
    for _ in 0..random.faults() {
        match random.below(4) {
            0 => damage_code(random, &mut code),
            1 => node = no_node(random, good.n as u8),
            2 => damage_length(random, &mut message),
            _ => damage_length(random, &mut output),
        }
    }
    ENCODE.check(vec![
        Input::Bytes(code),
        Input::Number(node as u64),
        Input::Bytes(message),
        Input::Bytes(output),
    ]);
}

fn help_case(random: &mut Random, mut code: Vec<u8>) {
    let good = known(&code);
    let nodes = mixed_nodes(random, &good);
    let (mut helper, mut failed) = (nodes[0], nodes[1]);
    let mut share = random.bytes(good.alpha());
    let mut output = random.bytes(1);
    for _ in 0..random.faults() {
        match random.below(6) {
            0 => damage_code(random, &mut code),
            1 => helper = no_node(random, good.n as u8),
            2 => failed = no_node(random, good.n as u8),
            3 => failed = helper,
            4 => damage_length(random, &mut share),
            _ => damage_length(random, &mut output),
        }
    }
    let (helper, failed) = (Input::Number(helper as u64), Input::Number(failed as u64));
    HELP.check(vec![Input::Bytes(code), helper, failed, Input::Bytes(share), Input::Bytes(output)]);
}

/// The inputs of a rebuild, open to faults.
struct Rebuild {
    code: Vec<u8>,
    failed: u8,
    nodes: Vec<u8>,
    symbols: Vec<u8>,
    counts: Vec<u32>,
    output: Vec<u8>,
}

impl Rebuild {
    fn damage(&mut self, random: &mut Random, n: u8) {
        let place = random.below(self.nodes.len().max(1));
        match random.below(10) {
            0 => damage_code(random, &mut self.code),
            1 => self.failed = no_node(random, n),
            2 => set(&mut self.nodes, place, no_node(random, n)),
            3 => repeat(random, &mut self.nodes),
            4 => set(&mut self.nodes, place, self.failed),
            5 => mix(random, &mut self.counts),
            6 => damage_length(random, &mut self.nodes),
            7 => damage_length(random, &mut self.symbols),
            8 => damage_length(random, &mut self.counts),
            _ => damage_length(random, &mut self.output),
        }
    }

    /// One helper too many or too few, in all three runs.
    fn other_length(&mut self, random: &mut Random) {
        let length = random.pick(&[self.nodes.len() - 1, self.nodes.len() + 1]);
        self.nodes.resize(length, 1);
        self.symbols.resize(length, 1);
        self.counts.resize(length, 1);
    }

    fn inputs(self) -> Vec<Input> {
        vec![
            Input::Bytes(self.code),
            Input::Number(self.failed as u64),
            Input::Bytes(self.nodes),
            Input::Bytes(self.symbols),
            Input::Counts(self.counts),
            Input::Bytes(self.output),
        ]
    }
}

fn set(nodes: &mut [u8], place: usize, node: u8) {
    if let Some(entry) = nodes.get_mut(place) {
        *entry = node;
    }
}

fn repeat(random: &mut Random, nodes: &mut [u8]) {
    if nodes.len() >= 2 {
        let (from, to) = (random.below(nodes.len()), random.below(nodes.len()));
        nodes[to] = nodes[from];
    }
}

/// Another count at one place: by one bit, or any.
fn mix(random: &mut Random, counts: &mut [u32]) {
    if !counts.is_empty() {
        let place = random.below(counts.len());
        let bit = 1 << random.below(32);
        counts[place] = if random.once_in(3) { random.count() } else { counts[place] ^ bit };
    }
}

fn rebuild_case(random: &mut Random, code: Vec<u8>) {
    let good = known(&code);
    let nodes = mixed_nodes(random, &good);
    let (failed, helpers) = (nodes[0], nodes[1..=good.d].to_vec());
    let message = message(random, &good);
    let honest = random.below(3) > 0;
    let symbols = match honest {
        true => helpers.iter().map(|h| symbol_for(&good, failed, &share(&good, *h, &message))).collect(),
        false => random.bytes(good.d),
    };
    let counts = vec![random.count(); good.d];
    let output = random.bytes(good.alpha());
    let mut case = Rebuild { code, failed, nodes: helpers, symbols, counts, output };
    let faults = random.faults();
    if faults > 0 && random.once_in(10) {
        case.other_length(random);
    }
    (0..faults).for_each(|_| case.damage(random, good.n as u8));
    let agreed = REBUILD.check(case.inputs());
    if honest && faults == 0 {
        let right = agreed.reply[0] == 0 && agreed.inputs[5].bytes() == share(&good, failed, &message);
        REBUILD.must(right, "the honest share", &agreed.inputs);
    }
}

fn collect_case(random: &mut Random, mut code: Vec<u8>) {
    let good = known(&code);
    let mut nodes = mixed_nodes(random, &good)[..good.k].to_vec();
    let message = message(random, &good);
    let honest = random.once_in(2);
    let mut shares: Vec<u8> = match honest {
        true => nodes.iter().flat_map(|node| share(&good, *node, &message)).collect(),
        false => random.bytes(good.k * good.alpha()),
    };
    let mut counts = vec![random.count(); good.k];
    let mut output = random.bytes(good.message());
    let faults = random.faults();
    for _ in 0..faults {
        let place = random.below(good.k);
        match random.below(8) {
            0 => damage_code(random, &mut code),
            1 => set(&mut nodes, place, no_node(random, good.n as u8)),
            2 => repeat(random, &mut nodes),
            3 => mix(random, &mut counts),
            4 => damage_length(random, &mut nodes),
            5 => damage_length(random, &mut counts),
            6 => damage_length(random, &mut shares),
            _ => damage_length(random, &mut output),
        }
    }
    let agreed = COLLECT.check(vec![
        Input::Bytes(code),
        Input::Bytes(nodes),
        Input::Counts(counts),
        Input::Bytes(shares),
        Input::Bytes(output),
    ]);
    if honest && faults == 0 {
        let right = agreed.reply[0] == 0 && agreed.inputs[4].bytes() == message;
        COLLECT.must(right, "the honest message", &agreed.inputs);
    }
}

pub fn run(random: &mut Random, scale: u64) -> u64 {
    let rounds = CASES * scale / 100;
    for _ in 0..rounds {
        for kind in KINDS {
            for case in [encode_case, help_case, rebuild_case, collect_case] {
                let code = good_code(random, kind, 32);
                case(random, code);
            }
        }
    }
    rounds * KINDS.len() as u64 * OPERATIONS.len() as u64
}
