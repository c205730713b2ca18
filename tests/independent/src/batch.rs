//! Batches of H records: one rebuilt to a D record, or a whole file of them.

use crate::answer::{answer_of, ask, Answer, LENGTH, MIXED, PLACE, RECORD, REPEAT};
use crate::code::{judged, Code, MOST_STRIPES, MOST_SYMBOLS};
use crate::file::{file_length, whole_file};
use crate::records::{data_record, number, DATA_RECORD, HELP, HELP_RECORD};
use crate::stripe::{all_equal, rebuilt, repeats};

/// A batch that is fit to be rebuilt from.
struct Batch {
    nodes: Vec<u8>,
    symbols: Vec<u8>,
    count: u32,
    stripe: usize,
}

/// What a whole file asks of a batch beyond the batch's own rules.
struct Turn {
    /// The first batch's count; none yet for the first.
    count: Option<u32>,
    stripe: usize,
}

fn batch_length(code: &Code) -> usize {
    code.d * HELP_RECORD
}

/// Judges a batch of the right length: 1, 6, 7, 8, 10.
fn judged_batch(code: &Code, asked: u8, bytes: &[u8], turn: Option<Turn>) -> Result<Batch, Answer> {
    let records: Vec<&[u8]> = bytes.chunks_exact(HELP_RECORD).collect();
    ask(records.iter().all(|record| record[0] == HELP), RECORD)?;
    code.ask_node(asked)?;
    for record in &records {
        code.ask_node(record[1])?;
        code.ask_node(record[2])?;
    }
    let nodes: Vec<u8> = records.iter().map(|record| record[2]).collect();
    ask(!repeats(&nodes) && !nodes.contains(&asked), REPEAT)?;
    let failed_count_stripe = |record: &&[u8]| (record[1], number(&record[3..7]), number(&record[7..9]));
    let named: Vec<_> = records.iter().map(failed_count_stripe).collect();
    let (failed, count, stripe) = named[0];
    let first_count = turn.as_ref().and_then(|turn| turn.count).unwrap_or(count);
    ask(all_equal(&named) && failed == asked && count == first_count, MIXED)?;
    let stripe = stripe as usize;
    ask(turn.map_or(stripe < MOST_STRIPES, |turn| stripe == turn.stripe), PLACE)?;
    let symbols = records.iter().map(|record| record[9]).collect();
    Ok(Batch { nodes, symbols, count, stripe })
}

fn share_from(code: &Code, asked: u8, batch: &Batch) -> [u8; MOST_SYMBOLS] {
    rebuilt(code, asked, &batch.nodes, &batch.symbols)
}

/// Writes one D record.
pub fn rebuild_batch(code: &[u8], asked: u8, batch: &[u8], output: &mut [u8]) -> Answer {
    answer_of(rebuild_batch_judged(code, asked, batch, output))
}

fn rebuild_batch_judged(code: &[u8], asked: u8, bytes: &[u8], output: &mut [u8]) -> Result<u32, Answer> {
    let code = judged(code, None)?;
    ask(bytes.len() == batch_length(&code) && output.len() == DATA_RECORD, LENGTH)?;
    let batch = judged_batch(&code, asked, bytes, None)?;
    output.copy_from_slice(&data_record(batch.stripe, &share_from(&code, asked, &batch)));
    Ok(batch.count)
}

/// Writes a whole file at its batches' count.
pub fn rebuild_file(code: &[u8], asked: u8, total: u32, batches: &[u8], output: &mut [u8]) -> Answer {
    answer_of(rebuild_file_judged(code, asked, total, batches, output))
}

fn rebuild_file_judged(
    run: &[u8],
    asked: u8,
    total: u32,
    batches: &[u8],
    output: &mut [u8],
) -> Result<u32, Answer> {
    let code = judged(run, Some(total))?;
    let total = total as usize;
    let lengths = (total * batch_length(&code), file_length(total));
    ask((batches.len(), output.len()) == lengths, LENGTH)?;
    let mut first_count = None;
    let mut shares = Vec::with_capacity(total);
    for (stripe, bytes) in batches.chunks_exact(batch_length(&code)).enumerate() {
        let turn = Turn { count: first_count, stripe };
        let batch = judged_batch(&code, asked, bytes, Some(turn))?;
        first_count = first_count.or(Some(batch.count));
        shares.push(share_from(&code, asked, &batch));
    }
    let count = first_count.expect("at least one stripe");
    output.copy_from_slice(&whole_file(run, asked, count, &shares));
    Ok(count)
}
