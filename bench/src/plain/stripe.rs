//! Encoding one stripe, symbol by symbol of the message; the matrix is never made.

use super::answer::{ask, Answer, LENGTH};
use super::code::{Code, Row, MBR};
use super::field::times;

/// The share of a node with this row, into the first alpha places of `share`, which are zero before.
#[inline(always)]
pub fn write_share(code: &Code, row: &Row, message: &[u8], share: &mut [u8]) {
    let (k, d) = (code.k, code.d);
    if code.kind == MBR {
        let rest = add_triangle(&row[..k], message, &mut share[..k]);
        add_sides(&row[..d], k, rest, &mut share[..d]);
    } else {
        let (w, share) = (k - 1, &mut share[..k - 1]);
        let rest = add_triangle(&row[..w], message, share);
        add_triangle(&row[w..2 * w], rest, share);
    }
}

/// A symmetric square's part of the share; hands on the symbols that it did not take.
#[inline(always)]
fn add_triangle<'a>(row: &[u8], mut message: &'a [u8], share: &mut [u8]) -> &'a [u8] {
    let w = share.len();
    for i in 0..w {
        let (symbols, rest) = message.split_at(w - i);
        message = rest;
        let mut sum = 0;
        for (j, symbol) in (i + 1..w).zip(&symbols[1..]) {
            share[j] ^= times(row[i], *symbol);
            sum ^= times(row[j], *symbol);
        }
        share[i] ^= times(row[i], symbols[0]) ^ sum;
    }
    message
}

/// The part of T and of T transposed.
#[inline(always)]
fn add_sides(row: &[u8], k: usize, message: &[u8], share: &mut [u8]) {
    let d = row.len();
    for i in 0..k {
        let symbols = &message[i * (d - k)..(i + 1) * (d - k)];
        let mut sum = 0;
        for (j, symbol) in (k..d).zip(symbols) {
            share[j] ^= times(row[i], *symbol);
            sum ^= times(row[j], *symbol);
        }
        share[i] ^= sum;
    }
}

pub fn encode(code: &[u8], node: u8, message: &[u8], output: &mut [u8]) -> Answer<u32> {
    let code = Code::judge(code, None)?;
    ask(message.len() == code.message() && output.len() == code.alpha(), LENGTH)?;
    code.ask_node(node)?;
    output.fill(0);
    write_share(&code, &code.row(node), message, output);
    Ok(0)
}
