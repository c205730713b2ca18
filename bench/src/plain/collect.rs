//! Collecting one stripe from k shares.

use super::answer::{ask, Answer, LENGTH, MIXED, REPEAT};
use super::basis::{basis, Square};
use super::code::{Code, Row, MBR, MOST};
use super::field::{dot, over, times};

pub fn collect(code: &[u8], nodes: &[u8], counts: &[u32], shares: &[u8], output: &mut [u8]) -> Answer<u32> {
    let code = Code::judge(code, None)?;
    let (k, alpha) = (code.k, code.alpha());
    ask(nodes.len() == k && counts.len() == k && shares.len() == k * alpha, LENGTH)?;
    ask(output.len() == code.message(), LENGTH)?;
    nodes.iter().try_for_each(|node| code.ask_node(*node))?;
    ask(!repeats(nodes), REPEAT)?;
    ask(counts.iter().all(|count| *count == counts[0]), MIXED)?;
    if code.kind == MBR {
        collect_mbr(&code, nodes, shares, output);
    } else {
        collect_msr(&code, nodes, shares, output);
    }
    Ok(counts[0])
}

/// Whether a node, 1 to 32, stands twice in a list.
pub fn repeats(nodes: &[u8]) -> bool {
    let (mut seen, mut twice) = (0u64, 0);
    for node in nodes {
        twice |= seen & 1 << node;
        seen |= 1 << node;
    }
    twice != 0
}

fn points(code: &Code, nodes: &[u8]) -> Row {
    let mut points = [0; MOST];
    points.iter_mut().zip(nodes).for_each(|(point, node)| *point = code.point(*node));
    points
}

/// Entry i of the solution whose right side at point u is `side(u)`.
#[inline(always)]
fn solved(inverse: &Square, s: usize, i: usize, side: impl Fn(usize) -> u8) -> u8 {
    (0..s).fold(0, |sum, u| sum ^ times(inverse[u][i], side(u)))
}

/// T from the last columns, then S's upper triangle from the first ones less what T gives.
fn collect_mbr(code: &Code, nodes: &[u8], shares: &[u8], output: &mut [u8]) {
    let (k, d) = (code.k, code.d);
    let inverse = basis(&points(code, nodes)[..k]);
    let (triangle, t) = output.split_at_mut(k * (k + 1) / 2);
    let width = d - k;
    for i in 0..k {
        for j in 0..width {
            t[i * width + j] = solved(&inverse, k, i, |u| shares[u * d + k + j]);
        }
    }
    let mut near = [[0; MOST]; MOST];
    for (u, node) in nodes.iter().enumerate() {
        let row = code.row(*node);
        for j in 0..k {
            near[j][u] = shares[u * d + j] ^ dot(&row[k..d], &t[j * width..(j + 1) * width]);
        }
    }
    let mut place = 0;
    for i in 0..k {
        for j in i..k {
            triangle[place] = solved(&inverse, k, i, |u| near[j][u]);
            place += 1;
        }
    }
}

/// P and Q parted by the entries (i, j) and (j, i); then for each of the first k-1 nodes its row times S1 and S2, from
/// the other k-1 points; then S1 and S2.
fn collect_msr(code: &Code, nodes: &[u8], shares: &[u8], output: &mut [u8]) {
    let (k, w) = (code.k, code.k - 1);
    let points = points(code, nodes);
    let mut rows = [[0; MOST]; MOST];
    rows.iter_mut().zip(nodes).for_each(|(row, node)| *row = code.row(*node));
    let (p, q) = part(&rows, shares, k);
    let (mut first, mut second) = ([[0; MOST]; MOST], [[0; MOST]; MOST]);
    for u in 0..w {
        let inverse = basis(&without(&points, u)[..w]);
        let (p, q) = (without(&p[u], u), without(&q[u], u));
        for i in 0..w {
            first[i][u] = solved(&inverse, w, i, |v| p[v]);
            second[i][u] = solved(&inverse, w, i, |v| q[v]);
        }
    }
    let inverse = basis(&points[..w]);
    let mut place = 0;
    for half in [&first, &second] {
        for i in 0..w {
            for j in i..w {
                output[place] = solved(&inverse, w, i, |u| half[j][u]);
                place += 1;
            }
        }
    }
}

/// A run without its entry at a place.
fn without(run: &Row, place: usize) -> Row {
    let mut rest = *run;
    rest.copy_within(place + 1.., place);
    rest
}

fn part(rows: &Square, shares: &[u8], k: usize) -> (Square, Square) {
    let w = k - 1;
    let (mut p, mut q) = ([[0; MOST]; MOST], [[0; MOST]; MOST]);
    let entry = |i: usize, j: usize| dot(&shares[i * w..(i + 1) * w], &rows[j][..w]);
    for i in 0..k {
        for j in i + 1..k {
            let (a, b) = (entry(i, j), entry(j, i));
            let apart = over(a ^ b, rows[i][w] ^ rows[j][w]);
            (q[i][j], q[j][i]) = (apart, apart);
            p[i][j] = a ^ times(rows[i][w], apart);
            p[j][i] = p[i][j];
        }
    }
    (p, q)
}
