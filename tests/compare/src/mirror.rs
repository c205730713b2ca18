//! The independent program in the library's place, so that the comparison can be
//! tried on itself. It shows that the calls, the generators and the checks work.

use crate::boundary::{reply_of, Answer, Record};
use std::slice::{from_raw_parts, from_raw_parts_mut};

fn answer(from: independent::answer::Answer) -> Answer {
    let [number, first, second, count] = reply_of(from).map(|value| value as u32);
    Answer { number, first, second, count }
}

unsafe fn run<'a, T>(at: *const T, len: usize) -> &'a [T] {
    if len == 0 {
        &[]
    } else {
        from_raw_parts(at, len)
    }
}

unsafe fn lent<'a>(at: *mut u8, len: usize) -> &'a mut [u8] {
    if len == 0 {
        &mut []
    } else {
        from_raw_parts_mut(at, len)
    }
}

#[no_mangle]
extern "C" fn corkpaddle_product(a: u8, b: u8) -> u8 {
    independent::field::product(a, b)
}

#[no_mangle]
extern "C" fn corkpaddle_quotient(a: u8, b: u8) -> u8 {
    independent::field::quotient(a, b)
}

#[no_mangle]
extern "C" fn corkpaddle_power(a: u8, n: usize) -> u8 {
    independent::field::power(a, n)
}

#[no_mangle]
unsafe extern "C" fn corkpaddle_judge(code: *const u8, code_len: usize) -> Answer {
    answer(independent::code::judge(run(code, code_len)))
}

#[no_mangle]
unsafe extern "C" fn corkpaddle_encode(
    code: *const u8,
    code_len: usize,
    node: u8,
    message: *const u8,
    message_len: usize,
    output: *mut u8,
    output_len: usize,
) -> Answer {
    let (message, output) = (run(message, message_len), lent(output, output_len));
    answer(independent::stripe::encode(run(code, code_len), node, message, output))
}

#[no_mangle]
unsafe extern "C" fn corkpaddle_help(
    code: *const u8,
    code_len: usize,
    helper: u8,
    failed: u8,
    share: *const u8,
    share_len: usize,
    output: *mut u8,
    output_len: usize,
) -> Answer {
    let (share, output) = (run(share, share_len), lent(output, output_len));
    answer(independent::stripe::help(run(code, code_len), helper, failed, share, output))
}

#[no_mangle]
unsafe extern "C" fn corkpaddle_rebuild(
    code: *const u8,
    code_len: usize,
    failed: u8,
    nodes: *const u8,
    nodes_len: usize,
    symbols: *const u8,
    symbols_len: usize,
    counts: *const u32,
    counts_len: usize,
    output: *mut u8,
    output_len: usize,
) -> Answer {
    let (nodes, symbols) = (run(nodes, nodes_len), run(symbols, symbols_len));
    let (counts, output) = (run(counts, counts_len), lent(output, output_len));
    answer(independent::stripe::rebuild(run(code, code_len), failed, nodes, symbols, counts, output))
}

#[no_mangle]
unsafe extern "C" fn corkpaddle_collect(
    code: *const u8,
    code_len: usize,
    nodes: *const u8,
    nodes_len: usize,
    counts: *const u32,
    counts_len: usize,
    shares: *const u8,
    shares_len: usize,
    output: *mut u8,
    output_len: usize,
) -> Answer {
    let (nodes, counts) = (run(nodes, nodes_len), run(counts, counts_len));
    let (shares, output) = (run(shares, shares_len), lent(output, output_len));
    answer(independent::collect::collect(run(code, code_len), nodes, counts, shares, output))
}

#[no_mangle]
unsafe extern "C" fn corkpaddle_read(file: *const u8, file_len: usize, place: u64) -> Record {
    let record = independent::records::read(run(file, file_len), place);
    Record { number: record.number, start: record.start, end: record.end, next: record.next }
}

#[no_mangle]
unsafe extern "C" fn corkpaddle_judge_file(file: *const u8, file_len: usize) -> Answer {
    answer(independent::file::judge_file(run(file, file_len)))
}

#[no_mangle]
unsafe extern "C" fn corkpaddle_take_slip(
    file: *mut u8,
    file_len: usize,
    slip: *const u8,
    slip_len: usize,
) -> Answer {
    answer(independent::file::take_slip(lent(file, file_len), run(slip, slip_len)))
}

#[no_mangle]
unsafe extern "C" fn corkpaddle_cut(
    code: *const u8,
    code_len: usize,
    node: u8,
    stripes: u32,
    book: *const u8,
    book_len: usize,
    output: *mut u8,
    output_len: usize,
) -> Answer {
    let (book, output) = (run(book, book_len), lent(output, output_len));
    answer(independent::file::cut(run(code, code_len), node, stripes, book, output))
}

#[no_mangle]
unsafe extern "C" fn corkpaddle_answer_for(
    file: *const u8,
    file_len: usize,
    failed: u8,
    output: *mut u8,
    output_len: usize,
) -> Answer {
    answer(independent::file::answer_for(run(file, file_len), failed, lent(output, output_len)))
}

#[no_mangle]
unsafe extern "C" fn corkpaddle_rebuild_batch(
    code: *const u8,
    code_len: usize,
    asked: u8,
    batch: *const u8,
    batch_len: usize,
    output: *mut u8,
    output_len: usize,
) -> Answer {
    let (batch, output) = (run(batch, batch_len), lent(output, output_len));
    answer(independent::batch::rebuild_batch(run(code, code_len), asked, batch, output))
}

#[no_mangle]
unsafe extern "C" fn corkpaddle_rebuild_file(
    code: *const u8,
    code_len: usize,
    asked: u8,
    stripes: u32,
    batches: *const u8,
    batches_len: usize,
    output: *mut u8,
    output_len: usize,
) -> Answer {
    let (batches, output) = (run(batches, batches_len), lent(output, output_len));
    answer(independent::batch::rebuild_file(run(code, code_len), asked, stripes, batches, output))
}
