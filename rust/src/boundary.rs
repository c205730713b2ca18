//! Every unsafe call of this crate: the library's functions, each over slices.
//!
//! The library asks two things of its caller, and slices give both in every call below:
//! - A pointer is valid for its length. Pointer and length come from one slice, which lives through the call. An empty
//!   slice has length 0, and the library reads nothing through its pointer.
//! - A run lent to be written overlaps no other run. It comes from a `&mut` slice, and no other reference can see the
//!   same bytes while that is held.
//!
//! The library keeps no pointer after it returns, starts no thread and has no state.

use crate::refusal::Refusal;

/// What crosses for every function but the reader.
#[repr(C)]
struct Answer {
    number: u32,
    first: u32,
    second: u32,
    count: u32,
}

/// What crosses for the reader. Refused: number 1, start and end 0, next the asked place.
#[repr(C)]
pub struct Found {
    pub number: u64,
    pub start: u64,
    pub end: u64,
    pub next: u64,
}

impl Answer {
    fn result(self) -> Result<u32, Refusal> {
        match self.number {
            0 => Ok(self.count),
            number => Err(Refusal::of(number, self.first, self.second)),
        }
    }
}

#[rustfmt::skip]
extern "C" {
    fn corkpaddle_judge(code: *const u8, code_len: usize) -> Answer;
    fn corkpaddle_encode(
        code: *const u8, code_len: usize, node: u8, message: *const u8, message_len: usize,
        output: *mut u8, output_len: usize,
    ) -> Answer;
    fn corkpaddle_help(
        code: *const u8, code_len: usize, helper: u8, failed: u8, share: *const u8, share_len: usize,
        output: *mut u8, output_len: usize,
    ) -> Answer;
    fn corkpaddle_rebuild(
        code: *const u8, code_len: usize, failed: u8, nodes: *const u8, nodes_len: usize,
        symbols: *const u8, symbols_len: usize, counts: *const u32, counts_len: usize,
        output: *mut u8, output_len: usize,
    ) -> Answer;
    fn corkpaddle_collect(
        code: *const u8, code_len: usize, nodes: *const u8, nodes_len: usize,
        counts: *const u32, counts_len: usize, shares: *const u8, shares_len: usize,
        output: *mut u8, output_len: usize,
    ) -> Answer;
    fn corkpaddle_rebuild_batch(
        code: *const u8, code_len: usize, asked: u8, batch: *const u8, batch_len: usize,
        output: *mut u8, output_len: usize,
    ) -> Answer;
    fn corkpaddle_rebuild_file(
        code: *const u8, code_len: usize, asked: u8, stripes: u32, batches: *const u8, batches_len: usize,
        output: *mut u8, output_len: usize,
    ) -> Answer;
    fn corkpaddle_cut(
        code: *const u8, code_len: usize, node: u8, stripes: u32, book: *const u8, book_len: usize,
        output: *mut u8, output_len: usize,
    ) -> Answer;
    fn corkpaddle_judge_file(file: *const u8, file_len: usize) -> Answer;
    fn corkpaddle_take_slip(file: *mut u8, file_len: usize, slip: *const u8, slip_len: usize) -> Answer;
    fn corkpaddle_answer_for(
        file: *const u8, file_len: usize, failed: u8, output: *mut u8, output_len: usize,
    ) -> Answer;
    fn corkpaddle_read(file: *const u8, file_len: usize, place: u64) -> Found;
}

pub fn judge(code: &[u8]) -> Result<u32, Refusal> {
    // Sound: one run, its pointer with its length, only read.
    unsafe { corkpaddle_judge(code.as_ptr(), code.len()) }.result()
}

#[rustfmt::skip]
pub fn encode(code: &[u8], node: u8, message: &[u8], output: &mut [u8]) -> Result<u32, Refusal> {
    // Sound: each pointer with its own length; only `output` is written, and it is `&mut`.
    unsafe {
        corkpaddle_encode(
            code.as_ptr(), code.len(), node, message.as_ptr(), message.len(), output.as_mut_ptr(), output.len(),
        )
    }
    .result()
}

#[rustfmt::skip]
pub fn help(code: &[u8], helper: u8, failed: u8, share: &[u8], output: &mut [u8]) -> Result<u32, Refusal> {
    // Sound: each pointer with its own length; only `output` is written, and it is `&mut`.
    unsafe {
        corkpaddle_help(
            code.as_ptr(), code.len(), helper, failed, share.as_ptr(), share.len(),
            output.as_mut_ptr(), output.len(),
        )
    }
    .result()
}

#[rustfmt::skip]
pub fn rebuild(
    code: &[u8], failed: u8, nodes: &[u8], symbols: &[u8], counts: &[u32], output: &mut [u8],
) -> Result<u32, Refusal> {
    // Sound: each pointer with its own length in elements; only `output` is written, and it is `&mut`.
    unsafe {
        corkpaddle_rebuild(
            code.as_ptr(), code.len(), failed, nodes.as_ptr(), nodes.len(), symbols.as_ptr(), symbols.len(),
            counts.as_ptr(), counts.len(), output.as_mut_ptr(), output.len(),
        )
    }
    .result()
}

#[rustfmt::skip]
pub fn collect(
    code: &[u8], nodes: &[u8], counts: &[u32], shares: &[u8], output: &mut [u8],
) -> Result<u32, Refusal> {
    // Sound: each pointer with its own length in elements; only `output` is written, and it is `&mut`.
    unsafe {
        corkpaddle_collect(
            code.as_ptr(), code.len(), nodes.as_ptr(), nodes.len(), counts.as_ptr(), counts.len(),
            shares.as_ptr(), shares.len(), output.as_mut_ptr(), output.len(),
        )
    }
    .result()
}

#[rustfmt::skip]
pub fn rebuild_batch(code: &[u8], asked: u8, batch: &[u8], output: &mut [u8]) -> Result<u32, Refusal> {
    // Sound: each pointer with its own length; only `output` is written, and it is `&mut`.
    unsafe {
        corkpaddle_rebuild_batch(
            code.as_ptr(), code.len(), asked, batch.as_ptr(), batch.len(), output.as_mut_ptr(), output.len(),
        )
    }
    .result()
}

#[rustfmt::skip]
pub fn rebuild_file(
    code: &[u8], asked: u8, stripes: u32, batches: &[u8], output: &mut [u8],
) -> Result<u32, Refusal> {
    // Sound: each pointer with its own length; only `output` is written, and it is `&mut`.
    unsafe {
        corkpaddle_rebuild_file(
            code.as_ptr(), code.len(), asked, stripes, batches.as_ptr(), batches.len(),
            output.as_mut_ptr(), output.len(),
        )
    }
    .result()
}

#[rustfmt::skip]
pub fn cut(code: &[u8], node: u8, stripes: u32, book: &[u8], output: &mut [u8]) -> Result<u32, Refusal> {
    // Sound: each pointer with its own length; only `output` is written, and it is `&mut`.
    unsafe {
        corkpaddle_cut(
            code.as_ptr(), code.len(), node, stripes, book.as_ptr(), book.len(),
            output.as_mut_ptr(), output.len(),
        )
    }
    .result()
}

pub fn judge_file(file: &[u8]) -> Result<u32, Refusal> {
    // Sound: one run, its pointer with its length, only read.
    unsafe { corkpaddle_judge_file(file.as_ptr(), file.len()) }.result()
}

pub fn take_slip(file: &mut [u8], slip: &[u8]) -> Result<u32, Refusal> {
    // Sound: each pointer with its own length; only `file` is written, and it is `&mut`.
    unsafe { corkpaddle_take_slip(file.as_mut_ptr(), file.len(), slip.as_ptr(), slip.len()) }.result()
}

pub fn answer_for(file: &[u8], failed: u8, output: &mut [u8]) -> Result<u32, Refusal> {
    // Sound: each pointer with its own length; only `output` is written, and it is `&mut`.
    unsafe { corkpaddle_answer_for(file.as_ptr(), file.len(), failed, output.as_mut_ptr(), output.len()) }
        .result()
}

pub fn read(file: &[u8], place: u64) -> Found {
    // Sound: one run, its pointer with its length, only read.
    unsafe { corkpaddle_read(file.as_ptr(), file.len(), place) }
}
