//! One stripe: the message matrix, encoding, a helper's symbol, rebuilding.

use crate::answer::{answer_of, ask, done, Answer, LENGTH, MIXED, REPEAT};
use crate::code::{judged, Code, MBR, MOST_SYMBOLS};
use crate::field::{dot, power, product};
use crate::system::solve;

/// The message matrix: d rows of alpha symbols, each row in its own array.
pub struct Matrix {
    rows: [[u8; MOST_SYMBOLS]; MOST_SYMBOLS],
}

impl Matrix {
    /// Fills the matrix in the order of document 01.
    pub fn of(code: &Code, message: &[u8]) -> Matrix {
        let mut matrix = Matrix { rows: [[0; MOST_SYMBOLS]; MOST_SYMBOLS] };
        let mut symbols = message.iter().copied();
        if code.kind == MBR {
            matrix.fill_square(0, code.k, &mut symbols);
            matrix.fill_sides(code, &mut symbols);
        } else {
            matrix.fill_square(0, code.k - 1, &mut symbols);
            matrix.fill_square(code.k - 1, code.k - 1, &mut symbols);
        }
        matrix
    }

    /// A symmetric square, from row `top` down: its upper triangle row by row.
    fn fill_square(&mut self, top: usize, side: usize, symbols: &mut impl Iterator<Item = u8>) {
        for i in 0..side {
            for (j, symbol) in (i..side).zip(&mut *symbols) {
                self.rows[top + i][j] = symbol;
                self.rows[top + j][i] = symbol;
            }
        }
    }

    /// T right of the square, and T transposed below it.
    fn fill_sides(&mut self, code: &Code, symbols: &mut impl Iterator<Item = u8>) {
        for i in 0..code.k {
            for (j, symbol) in (code.k..code.d).zip(&mut *symbols) {
                self.rows[i][j] = symbol;
                self.rows[j][i] = symbol;
            }
        }
    }

    /// A node's row times the matrix.
    pub fn share(&self, code: &Code, row: &[u8; MOST_SYMBOLS]) -> [u8; MOST_SYMBOLS] {
        let mut share = [0; MOST_SYMBOLS];
        for (factor, symbols) in row.iter().zip(&self.rows[..code.d]) {
            for (entry, symbol) in share.iter_mut().zip(&symbols[..code.alpha()]) {
                if *symbol != 0 {
                    *entry ^= product(*factor, *symbol);
                }
            }
        }
        share
    }
}

/// A node's share of a message.
pub fn share_of(code: &Code, node: u8, message: &[u8]) -> [u8; MOST_SYMBOLS] {
    Matrix::of(code, message).share(code, &code.row(node))
}

pub fn encode(code: &[u8], node: u8, message: &[u8], output: &mut [u8]) -> Answer {
    answer_of(encode_judged(code, node, message, output).map(|()| 0))
}

fn encode_judged(code: &[u8], node: u8, message: &[u8], output: &mut [u8]) -> Result<(), Answer> {
    let code = judged(code, None)?;
    let alpha = code.alpha();
    ask(message.len() == code.message() && output.len() == alpha, LENGTH)?;
    code.ask_node(node)?;
    output.copy_from_slice(&share_of(&code, node, message)[..alpha]);
    Ok(())
}

/// The helper's share times the first alpha entries of the failed node's row.
pub fn symbol_for(code: &Code, failed: u8, share: &[u8]) -> u8 {
    dot(share, &code.row(failed)[..code.alpha()])
}

/// A helper's symbol. The output is one symbol.
pub fn help(code: &[u8], helper: u8, failed: u8, share: &[u8], output: &mut [u8]) -> Answer {
    match help_judged(code, helper, failed, share, output.len()) {
        Ok(symbol) => {
            output[0] = symbol;
            done(0)
        }
        Err(refusal) => refusal,
    }
}

fn help_judged(code: &[u8], helper: u8, failed: u8, share: &[u8], room: usize) -> Result<u8, Answer> {
    let code = judged(code, None)?;
    ask(share.len() == code.alpha() && room == 1, LENGTH)?;
    code.ask_node(helper)?;
    code.ask_node(failed)?;
    ask(helper != failed, REPEAT)?;
    Ok(symbol_for(&code, failed, share))
}

/// The share of a failed node, from d helpers' nodes and symbols.
pub fn rebuilt(code: &Code, failed: u8, nodes: &[u8], symbols: &[u8]) -> [u8; MOST_SYMBOLS] {
    let (d, width) = (code.d, code.d + 1);
    let mut cells = vec![0; d * width];
    for (i, row) in cells.chunks_exact_mut(width).enumerate() {
        row[..d].copy_from_slice(&code.row(nodes[i])[..d]);
        row[d] = symbols[i];
    }
    assert!(solve(&mut cells, d, width), "rows of accepted codes do not depend on each other");
    let solution = |i: usize| cells[i * width + d];
    let mut share = [0; MOST_SYMBOLS];
    for (i, entry) in share[..code.alpha()].iter_mut().enumerate() {
        *entry = solution(i);
        if code.kind != MBR {
            let lambda = power(code.point(failed), code.k - 1);
            *entry ^= product(lambda, solution(code.k - 1 + i));
        }
    }
    share
}

/// Whether a node stands twice in a list.
pub fn repeats(nodes: &[u8]) -> bool {
    (1..nodes.len()).any(|i| nodes[..i].contains(&nodes[i]))
}

/// Whether all entries of a list are equal.
pub fn all_equal<T: PartialEq>(list: &[T]) -> bool {
    list.windows(2).all(|pair| pair[0] == pair[1])
}

/// Rebuilds a stripe; helpers as three runs of nodes, symbols and counts.
pub fn rebuild(
    code: &[u8],
    failed: u8,
    nodes: &[u8],
    symbols: &[u8],
    counts: &[u32],
    output: &mut [u8],
) -> Answer {
    answer_of(rebuild_judged(code, failed, nodes, symbols, counts, output))
}

fn rebuild_judged(
    code: &[u8],
    failed: u8,
    nodes: &[u8],
    symbols: &[u8],
    counts: &[u32],
    output: &mut [u8],
) -> Result<u32, Answer> {
    let code = judged(code, None)?;
    let (d, alpha) = (code.d, code.alpha());
    let lists = [nodes.len(), symbols.len(), counts.len()];
    ask(lists == [d; 3] && output.len() == alpha, LENGTH)?;
    code.ask_node(failed)?;
    nodes.iter().try_for_each(|node| code.ask_node(*node))?;
    ask(!repeats(nodes) && !nodes.contains(&failed), REPEAT)?;
    ask(all_equal(counts), MIXED)?;
    output.copy_from_slice(&rebuilt(&code, failed, nodes, symbols)[..alpha]);
    Ok(counts[0])
}
