//! Share files: judged, cut from a book, slips taken, answers for a failed node.

use crate::answer::{answer_of, ask, done, Answer, LENGTH, NODE, ORDER, PLACE, RECORD, REPEAT, SIZE};
use crate::code::{judged, total_holds, Code, MOST_SYMBOLS};
use crate::records::{
    body_length, data_record, help_record, name_record, number, CODE, CODE_RECORD, DATA, DATA_RECORD,
    HELP_RECORD, NAME, NAME_RECORD, SLIP, SLIP_RECORD,
};
use crate::stripe::{share_of, symbol_for};

/// Where the first D record starts.
pub const HEAD: usize = CODE_RECORD + NAME_RECORD;

/// What a judged file holds besides its symbols.
pub struct Held {
    pub code: Code,
    pub node: u8,
    pub total: usize,
    pub count: u32,
}

pub fn file_length(total: usize) -> usize {
    HEAD + total * DATA_RECORD
}

/// The body of the record that is expected at a place.
fn body(file: &[u8], place: usize, kind: u8) -> Result<&[u8], Answer> {
    let end = place + 1 + body_length(kind).expect("a known kind");
    ask(file.len() >= end && file[place] == kind, RECORD)?;
    Ok(&file[place + 1..end])
}

pub fn held(file: &[u8]) -> Result<Held, Answer> {
    let code = judged(body(file, 0, CODE)?, None)?;
    let name = body(file, CODE_RECORD, NAME)?;
    let (node, total, count) = (name[0], number(&name[1..3]), number(&name[3..7]));
    ask(total_holds(total), SIZE)?;
    ask(node >= 1 && node as usize <= code.n, NODE)?;
    let total = total as usize;
    for stripe in 0..total {
        let data = body(file, file_length(stripe), DATA)?;
        ask(number(&data[..2]) as usize == stripe, RECORD)?;
        ask(data[2 + code.alpha()..].iter().all(|symbol| *symbol == 0), RECORD)?;
    }
    ask(file.len() == file_length(total), RECORD)?;
    Ok(Held { code, node, total, count })
}

pub fn judge_file(file: &[u8]) -> Answer {
    answer_of(held(file).map(|held| held.count))
}

/// The symbols of a stripe within a judged file.
fn symbols(held: &Held, stripe: usize) -> std::ops::Range<usize> {
    let start = file_length(stripe) + 3;
    start..start + held.code.alpha()
}

/// A whole file from its C body and the shares of its stripes.
pub fn whole_file(code: &[u8], node: u8, count: u32, shares: &[[u8; MOST_SYMBOLS]]) -> Vec<u8> {
    let mut file = vec![CODE];
    file.extend(code);
    file.extend(name_record(node, shares.len() as u32, count));
    for (stripe, share) in shares.iter().enumerate() {
        file.extend(data_record(stripe, share));
    }
    file
}

/// Writes the fresh share file of a book.
pub fn cut(code: &[u8], node: u8, total: u32, book: &[u8], output: &mut [u8]) -> Answer {
    match cut_judged(code, node, total, book, output.len()) {
        Ok(file) => {
            output.copy_from_slice(&file);
            done(0)
        }
        Err(refusal) => refusal,
    }
}

fn cut_judged(run: &[u8], node: u8, total: u32, book: &[u8], room: usize) -> Result<Vec<u8>, Answer> {
    let code = judged(run, Some(total))?;
    let total = total as usize;
    ask(book.len() == total * code.message() && room == file_length(total), LENGTH)?;
    code.ask_node(node)?;
    let stripes = book.chunks_exact(code.message());
    let shares: Vec<_> = stripes.map(|message| share_of(&code, node, message)).collect();
    Ok(whole_file(run, node, 0, &shares))
}

pub fn take_slip(file: &mut [u8], slip: &[u8]) -> Answer {
    answer_of(take_slip_judged(file, slip))
}

/// The change to the share is the share of the change: a message that is zero but
/// for the named symbol.
fn take_slip_judged(file: &mut [u8], slip: &[u8]) -> Result<u32, Answer> {
    let held = held(file)?;
    ask(slip.len() == SLIP_RECORD && slip[0] == SLIP, RECORD)?;
    let (order, stripe, index) = (number(&slip[1..5]), number(&slip[5..7]), number(&slip[7..9]));
    let count = held.count.checked_add(1).filter(|next| *next == order);
    ask(count.is_some(), ORDER)?;
    let (stripe, index) = (stripe as usize, index as usize);
    ask(stripe < held.total && index < held.code.message(), PLACE)?;
    let mut change = vec![0; held.code.message()];
    change[index] = slip[9];
    let change = share_of(&held.code, held.node, &change);
    for (symbol, added) in file[symbols(&held, stripe)].iter_mut().zip(&change) {
        *symbol ^= added;
    }
    file[HEAD - 4..HEAD].copy_from_slice(&order.to_be_bytes());
    Ok(order)
}

/// Writes a station's H records for a failed node, one for each stripe.
pub fn answer_for(file: &[u8], failed: u8, output: &mut [u8]) -> Answer {
    match answer_for_judged(file, failed, output.len()) {
        Ok(records) => {
            output.copy_from_slice(&records);
            done(0)
        }
        Err(refusal) => refusal,
    }
}

fn answer_for_judged(file: &[u8], failed: u8, room: usize) -> Result<Vec<u8>, Answer> {
    let held = held(file)?;
    ask(room == held.total * HELP_RECORD, LENGTH)?;
    held.code.ask_node(failed)?;
    ask(failed != held.node, REPEAT)?;
    let record = |stripe| {
        let symbol = symbol_for(&held.code, failed, &file[symbols(&held, stripe)]);
        help_record(failed, held.node, held.count, stripe, symbol)
    };
    Ok((0..held.total).flat_map(record).collect())
}
