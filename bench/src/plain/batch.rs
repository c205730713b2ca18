//! A whole file rebuilt. All batches are judged before anything is written. The weights are made again only where a
//! batch has other helpers than the one before it.

use super::answer::{ask, Answer, LENGTH, MIXED, PLACE, RECORD, REPEAT};
use super::basis::basis;
use super::code::{Code, Row, MBR, MOST};
use super::field::{power, times, PRODUCTS};
use super::file::{file_length, start_data, write_head, DATA, HEAD, HELP};

/// The batches of one file, to be judged.
struct Asked {
    code: Code,
    node: u8,
    count: u32,
}

fn count_of(batch: &[u8]) -> u32 {
    u32::from_be_bytes([batch[3], batch[4], batch[5], batch[6]])
}

fn nodes_of(batch: &[u8]) -> Row {
    let mut nodes = [0; MOST];
    nodes.iter_mut().zip(batch.chunks_exact(HELP)).for_each(|(node, record)| *node = record[2]);
    nodes
}

impl Asked {
    /// 1, 6, 7, 8, 10.
    fn judge(&self, batch: &[u8], stripe: usize) -> Answer<()> {
        let (mut kinds, mut others, mut places) = (0, 0, 0);
        let (mut lowest, mut highest) = (self.node, self.node);
        let (mut seen, mut twice) = (1u64 << (self.node & 63), 0);
        let [a, b, c, d] = self.count.to_be_bytes();
        let [high, low] = (stripe as u16).to_be_bytes();
        let (first_high, first_low) = (batch[7], batch[8]);
        for record in batch.chunks_exact(HELP) {
            let record: &[u8; HELP] = record.try_into().expect("10 bytes");
            kinds |= record[0] ^ b'H';
            lowest = lowest.min(record[1]).min(record[2]);
            highest = highest.max(record[1]).max(record[2]);
            let mark = 1u64 << (record[2] & 63);
            twice |= seen & mark;
            seen |= mark;
            others |= (record[1] ^ self.node) | (record[7] ^ first_high) | (record[8] ^ first_low);
            others |= (record[3] ^ a) | (record[4] ^ b) | (record[5] ^ c) | (record[6] ^ d);
            places |= (record[7] ^ high) | (record[8] ^ low);
        }
        ask(kinds == 0, RECORD)?;
        self.code.ask_node(lowest)?;
        self.code.ask_node(highest)?;
        ask(twice == 0, REPEAT)?;
        ask(others == 0, MIXED)?;
        ask(places == 0, PLACE)
    }

    /// The weights of the helpers' symbols: row j for helper j, alpha entries.
    fn weights(&self, nodes: &[u8]) -> [Row; MOST] {
        let mut points = [0; MOST];
        points.iter_mut().zip(nodes).for_each(|(point, node)| *point = self.code.point(*node));
        let mut weights = basis(&points[..nodes.len()]);
        if self.code.kind != MBR {
            let (w, lambda) = (self.code.k - 1, power(self.code.point(self.node), self.code.k - 1));
            for row in &mut weights[..nodes.len()] {
                for i in 0..w {
                    row[i] ^= times(lambda, row[w + i]);
                }
            }
        }
        weights
    }
}

pub fn rebuild_file(run: &[u8], asked: u8, total: u32, batches: &[u8], output: &mut [u8]) -> Answer<u32> {
    let code = Code::judge(run, Some(total))?;
    let (total, length, alpha) = (total as usize, code.d * HELP, code.alpha());
    ask(batches.len() == total * length && output.len() == file_length(total), LENGTH)?;
    let count = count_of(batches);
    let file = Asked { code, node: asked, count };
    for (stripe, batch) in batches.chunks_exact(length).enumerate() {
        file.judge(batch, stripe)?;
    }
    write_head(run, asked, total, count, output);
    let mut nodes = [0; MOST];
    let mut weights = [[0; MOST]; MOST];
    let records = output[HEAD..].chunks_exact_mut(DATA);
    for (stripe, (record, batch)) in records.zip(batches.chunks_exact(length)).enumerate() {
        let now = nodes_of(batch);
        if now != nodes {
            nodes = now;
            weights = file.weights(&nodes[..code.d]);
        }
        start_data(record, stripe);
        add_all(batch, &weights, &mut record[3..3 + alpha]);
    }
    Ok(count)
}

/// Each helper's symbol times its weights, added up.
#[inline(always)]
fn add_all(batch: &[u8], weights: &[Row; MOST], share: &mut [u8]) {
    for (help, row) in batch.chunks_exact(HELP).zip(weights) {
        let product = &PRODUCTS[help[9] as usize];
        share.iter_mut().zip(row).for_each(|(entry, weight)| *entry ^= product[*weight as usize]);
    }
}
