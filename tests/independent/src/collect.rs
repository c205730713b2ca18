//! Collecting a stripe from k shares, each kind in its own way.
//!
//! Kind 2: one system of k times alpha equations in B unknowns, whose columns are
//! the shares of unit messages. Kind 1: the shares may fit no message, and document
//! 01 fixes the answer all the same: T, then S by columns, then S's upper triangle.

use crate::answer::{answer_of, ask, Answer, LENGTH, MIXED, REPEAT};
use crate::code::{judged, Code, MBR, MOST_SYMBOLS};
use crate::field::dot;
use crate::stripe::{all_equal, repeats, Matrix};
use crate::system::solve;

pub fn collect(code: &[u8], nodes: &[u8], counts: &[u32], shares: &[u8], output: &mut [u8]) -> Answer {
    answer_of(collect_judged(code, nodes, counts, shares, output))
}

fn collect_judged(
    code: &[u8],
    nodes: &[u8],
    counts: &[u32],
    shares: &[u8],
    output: &mut [u8],
) -> Result<u32, Answer> {
    let code = judged(code, None)?;
    let (k, alpha) = (code.k, code.alpha());
    let needed = [k, k, k * alpha, code.message()];
    ask([nodes.len(), counts.len(), shares.len(), output.len()] == needed, LENGTH)?;
    nodes.iter().try_for_each(|node| code.ask_node(*node))?;
    ask(!repeats(nodes), REPEAT)?;
    ask(all_equal(counts), MIXED)?;
    output.copy_from_slice(&message_of(&code, nodes, shares));
    Ok(counts[0])
}

/// The message that k shares give, in a row in the nodes' order.
pub fn message_of(code: &Code, nodes: &[u8], shares: &[u8]) -> Vec<u8> {
    let rows: Vec<_> = nodes.iter().map(|node| code.row(*node)).collect();
    if code.kind == MBR {
        collect_mbr(code, &rows, shares)
    } else {
        collect_msr(code, &rows, shares)
    }
}

type Row = [u8; MOST_SYMBOLS];

fn collect_msr(code: &Code, rows: &[Row], shares: &[u8]) -> Vec<u8> {
    let (alpha, unknowns) = (code.alpha(), code.message());
    let width = unknowns + 1;
    let mut cells = vec![0; unknowns * width];
    let mut unit = vec![0; unknowns];
    for index in 0..unknowns {
        unit[index] = 1;
        let matrix = Matrix::of(code, &unit);
        unit[index] = 0;
        for (t, row) in rows.iter().enumerate() {
            let share = matrix.share(code, row);
            for (j, symbol) in share[..alpha].iter().enumerate() {
                cells[(t * alpha + j) * width + index] = *symbol;
            }
        }
    }
    for (equation, symbol) in cells.chunks_exact_mut(width).zip(shares) {
        equation[unknowns] = *symbol;
    }
    assert!(solve(&mut cells, unknowns, width), "k shares of an accepted code fix the message");
    cells.chunks_exact(width).map(|equation| equation[unknowns]).collect()
}

fn collect_mbr(code: &Code, rows: &[Row], shares: &[u8]) -> Vec<u8> {
    let (k, d) = (code.k, code.d);
    let right = d - k;
    let t = solve_columns(k, rows, right, |node, column| shares[node * d + k + column]);
    let s = solve_columns(k, rows, k, |node, column| {
        let below = &t[column * right..(column + 1) * right];
        shares[node * d + column] ^ dot(&rows[node][k..d], below)
    });
    let triangle = (0..k).flat_map(|i| (i..k).map(move |j| (i, j)));
    let mut message: Vec<u8> = triangle.map(|(i, j)| s[i * k + j]).collect();
    message.extend(&t);
    message
}

/// Solves the k by k system of the rows' first k entries for each column of right
/// sides. The answer has k rows, entry i of each column's solution in row i.
fn solve_columns(k: usize, rows: &[Row], columns: usize, side: impl Fn(usize, usize) -> u8) -> Vec<u8> {
    let width = k + columns;
    let mut cells = vec![0; k * width];
    for (node, equation) in cells.chunks_exact_mut(width).enumerate() {
        equation[..k].copy_from_slice(&rows[node][..k]);
        for column in 0..columns {
            equation[k + column] = side(node, column);
        }
    }
    assert!(solve(&mut cells, k, width), "rows of accepted codes do not depend on each other");
    cells.chunks_exact(width).flat_map(|equation| equation[k..].to_vec()).collect()
}
