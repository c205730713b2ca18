//! Share files: judged, cut from a book, answered from, slips taken.

use super::answer::{ask, Answer, LENGTH, ORDER, PLACE, RECORD, REPEAT, SIZE};
use super::code::{Code, Row, MBR, MOST, MOST_STRIPES};
use super::field::{dot, times};
use super::stripe::write_share;

pub const HEAD: usize = 45;
pub const DATA: usize = 34;
pub const SLIP: usize = 10;
pub const HELP: usize = 10;
const NAME: usize = 37;
const COUNT: usize = 41;

/// What a judged file holds besides its symbols, with what a slip needs of it.
pub struct Held {
    pub code: Code,
    pub node: u8,
    /// The node's row.
    pub row: Row,
    pub total: usize,
    pub count: u32,
}

pub fn file_length(total: usize) -> usize {
    HEAD + total * DATA
}

fn number(bytes: &[u8]) -> u32 {
    bytes.iter().fold(0, |total, byte| total << 8 | *byte as u32)
}

/// Judges a file record by record; the first faulty one decides.
pub fn held(file: &[u8]) -> Answer<Held> {
    ask(file.len() >= NAME && file[0] == b'C', RECORD)?;
    let code = Code::judge(&file[1..NAME], None)?;
    ask(file.len() >= HEAD && file[NAME] == b'N', RECORD)?;
    let (node, total) = (file[38], number(&file[39..COUNT]) as usize);
    ask(total >= 1 && total <= MOST_STRIPES, SIZE)?;
    code.ask_node(node)?;
    ask(file.len() == file_length(total) && data_holds(&file[HEAD..], code.alpha()), RECORD)?;
    Ok(Held { code, node, row: code.row(node), total, count: number(&file[COUNT..HEAD]) })
}

/// D records in stripe order, with zeros past alpha.
fn data_holds(records: &[u8], alpha: usize) -> bool {
    let mut past = [0; MOST];
    past[alpha..].fill(255);
    let mut fault = 0;
    for (stripe, record) in records.chunks_exact(DATA).enumerate() {
        let record: &[u8; DATA] = record.try_into().expect("34 bytes");
        let [high, low] = (stripe as u16).to_be_bytes();
        fault |= (record[0] ^ b'D') | (record[1] ^ high) | (record[2] ^ low);
        fault |= record[3..].iter().zip(&past).fold(0, |all, (symbol, mask)| all | symbol & mask);
    }
    fault == 0
}

/// The C record and the N record of a file.
pub fn write_head(code: &[u8], node: u8, total: usize, count: u32, output: &mut [u8]) {
    output[0] = b'C';
    output[1..NAME].copy_from_slice(code);
    output[NAME..39].copy_from_slice(&[b'N', node]);
    output[39..COUNT].copy_from_slice(&(total as u16).to_be_bytes());
    output[COUNT..HEAD].copy_from_slice(&count.to_be_bytes());
}

/// The head of a D record, and zeros for its symbols.
#[inline(always)]
pub fn start_data(record: &mut [u8], stripe: usize) {
    record.fill(0);
    record[0] = b'D';
    record[1..3].copy_from_slice(&(stripe as u16).to_be_bytes());
}

pub fn cut(run: &[u8], node: u8, total: u32, book: &[u8], output: &mut [u8]) -> Answer<u32> {
    let code = Code::judge(run, Some(total))?;
    let total = total as usize;
    ask(book.len() == total * code.message() && output.len() == file_length(total), LENGTH)?;
    code.ask_node(node)?;
    let row = code.row(node);
    write_head(run, node, total, 0, output);
    let stripes = book.chunks_exact(code.message());
    for (stripe, (record, message)) in output[HEAD..].chunks_exact_mut(DATA).zip(stripes).enumerate() {
        start_data(record, stripe);
        write_share(&code, &row, message, &mut record[3..]);
    }
    Ok(0)
}

/// A station's H records for a failed node, one for each stripe.
pub fn answer_for(file: &[u8], failed: u8, output: &mut [u8]) -> Answer<u32> {
    let held = held(file)?;
    ask(output.len() == held.total * HELP, LENGTH)?;
    held.code.ask_node(failed)?;
    ask(failed != held.node, REPEAT)?;
    let (alpha, row) = (held.code.alpha(), held.code.row(failed));
    for (help, data) in output.chunks_exact_mut(HELP).zip(file[HEAD..].chunks_exact(DATA)) {
        help[..3].copy_from_slice(&[b'H', failed, held.node]);
        help[3..7].copy_from_slice(&file[COUNT..HEAD]);
        help[7..9].copy_from_slice(&data[1..3]);
        help[9] = dot(&data[3..3 + alpha], &row[..alpha]);
    }
    Ok(0)
}

pub fn take_slip(file: &mut [u8], slip: &[u8]) -> Answer<u32> {
    let mut held = held(file)?;
    let slip = slip.try_into().map_err(|_| RECORD)?;
    take(&mut held, file, slip)
}

/// Takes a slip on a file that is judged already.
pub fn take(held: &mut Held, file: &mut [u8], slip: &[u8; SLIP]) -> Answer<u32> {
    ask(slip[0] == b'P', RECORD)?;
    let order = number(&slip[1..5]);
    ask(held.count != u32::MAX && order == held.count + 1, ORDER)?;
    let (stripe, index) = (number(&slip[5..7]) as usize, number(&slip[7..9]) as usize);
    ask(stripe < held.total && index < held.code.message(), PLACE)?;
    change_share(held, &mut file[file_length(stripe) + 3..], index, slip[9]);
    held.count = order;
    file[COUNT..HEAD].copy_from_slice(&order.to_be_bytes());
    Ok(order)
}

/// Entry (i, j) of the matrix changes, and (j, i) with it.
fn change_share(held: &Held, share: &mut [u8], index: usize, change: u8) {
    let (top, i, j) = cell(&held.code, index);
    share[j] ^= times(held.row[top + i], change);
    if i != j {
        share[i] ^= times(held.row[top + j], change);
    }
}

/// Where a symbol of the message stands: the first row of its square, and its row and column there.
fn cell(code: &Code, index: usize) -> (usize, usize, usize) {
    let (side, tops) = if code.kind == MBR { (code.k, 1) } else { (code.k - 1, 2) };
    let square = side * (side + 1) / 2;
    if index >= tops * square {
        let (beside, width) = (index - square, code.d - code.k);
        return (0, beside / width, code.k + beside % width);
    }
    let (mut i, mut left) = (0, index % square);
    while left >= side - i {
        left -= side - i;
        i += 1;
    }
    (index / square * side, i, i + left)
}
