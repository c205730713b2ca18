//! The calls around a lost share: answer for it, rebuild a batch, rebuild a file.

use crate::boundary::{reply_of, Answer};
use crate::case::Operation;

extern "C" {
    fn corkpaddle_answer_for(
        file: *const u8,
        file_len: usize,
        failed: u8,
        output: *mut u8,
        output_len: usize,
    ) -> Answer;
    fn corkpaddle_rebuild_batch(
        code: *const u8,
        code_len: usize,
        asked: u8,
        batch: *const u8,
        batch_len: usize,
        output: *mut u8,
        output_len: usize,
    ) -> Answer;
    fn corkpaddle_rebuild_file(
        code: *const u8,
        code_len: usize,
        asked: u8,
        stripes: u32,
        batches: *const u8,
        batches_len: usize,
        output: *mut u8,
        output_len: usize,
    ) -> Answer;
}

pub const ANSWER_FOR: Operation = Operation {
    name: "answer_for",
    library: |v| {
        let [file, failed, output] = v else { panic!("answer_for takes 3 inputs") };
        let room = output.len();
        unsafe { corkpaddle_answer_for(file.at(), file.len(), failed.byte(), output.at_mut(), room) }.reply()
    },
    independent: |v| {
        let [file, failed, output] = v else { panic!("answer_for takes 3 inputs") };
        reply_of(independent::file::answer_for(file.bytes(), failed.byte(), output.bytes_mut()))
    },
};

pub const REBUILD_BATCH: Operation = Operation {
    name: "rebuild_batch",
    library: |v| {
        let [code, asked, batch, output] = v else { panic!("rebuild_batch takes 4 inputs") };
        let (asked, room) = (asked.byte(), output.len());
        let (code, batch) = ((code.at(), code.len()), (batch.at(), batch.len()));
        unsafe { corkpaddle_rebuild_batch(code.0, code.1, asked, batch.0, batch.1, output.at_mut(), room) }
            .reply()
    },
    independent: |v| {
        let [code, asked, batch, output] = v else { panic!("rebuild_batch takes 4 inputs") };
        let output = output.bytes_mut();
        reply_of(independent::batch::rebuild_batch(code.bytes(), asked.byte(), batch.bytes(), output))
    },
};

pub const REBUILD_FILE: Operation = Operation {
    name: "rebuild_file",
    library: |v| {
        let [code, asked, total, batches, output] = v else { panic!("rebuild_file takes 5 inputs") };
        let (asked, total, room) = (asked.byte(), total.number() as u32, output.len());
        let (code, from) = ((code.at(), code.len()), (batches.at(), batches.len()));
        let to = output.at_mut();
        unsafe { corkpaddle_rebuild_file(code.0, code.1, asked, total, from.0, from.1, to, room) }.reply()
    },
    independent: |v| {
        let [code, asked, total, batches, output] = v else { panic!("rebuild_file takes 5 inputs") };
        let (asked, total, output) = (asked.byte(), total.number() as u32, output.bytes_mut());
        reply_of(independent::batch::rebuild_file(code.bytes(), asked, total, batches.bytes(), output))
    },
};

pub const OPERATIONS: [Operation; 3] = [ANSWER_FOR, REBUILD_BATCH, REBUILD_FILE];
