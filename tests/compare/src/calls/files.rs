//! The calls of share files: read, judge, take a slip, cut.

use crate::boundary::{reply_of, Answer, Record};
use crate::case::Operation;

extern "C" {
    fn corkpaddle_read(file: *const u8, file_len: usize, place: u64) -> Record;
    fn corkpaddle_judge_file(file: *const u8, file_len: usize) -> Answer;
    fn corkpaddle_take_slip(file: *mut u8, file_len: usize, slip: *const u8, slip_len: usize) -> Answer;
    fn corkpaddle_cut(
        code: *const u8,
        code_len: usize,
        node: u8,
        stripes: u32,
        book: *const u8,
        book_len: usize,
        output: *mut u8,
        output_len: usize,
    ) -> Answer;
}

pub const READ: Operation = Operation {
    name: "read",
    library: |v| {
        let record = unsafe { corkpaddle_read(v[0].at(), v[0].len(), v[1].number()) };
        [record.number, record.start, record.end, record.next]
    },
    independent: |v| {
        let record = independent::records::read(v[0].bytes(), v[1].number());
        [record.number, record.start, record.end, record.next]
    },
};

pub const JUDGE_FILE: Operation = Operation {
    name: "judge_file",
    library: |v| unsafe { corkpaddle_judge_file(v[0].at(), v[0].len()) }.reply(),
    independent: |v| reply_of(independent::file::judge_file(v[0].bytes())),
};

pub const TAKE_SLIP: Operation = Operation {
    name: "take_slip",
    library: |v| {
        let [file, slip] = v else { panic!("take_slip takes 2 inputs") };
        let length = file.len();
        unsafe { corkpaddle_take_slip(file.at_mut(), length, slip.at(), slip.len()) }.reply()
    },
    independent: |v| {
        let [file, slip] = v else { panic!("take_slip takes 2 inputs") };
        reply_of(independent::file::take_slip(file.bytes_mut(), slip.bytes()))
    },
};

pub const CUT: Operation = Operation {
    name: "cut",
    library: |v| {
        let [code, node, total, book, output] = v else { panic!("cut takes 5 inputs") };
        let (node, total, room) = (node.byte(), total.number() as u32, output.len());
        let (code, book) = ((code.at(), code.len()), (book.at(), book.len()));
        unsafe { corkpaddle_cut(code.0, code.1, node, total, book.0, book.1, output.at_mut(), room) }.reply()
    },
    independent: |v| {
        let [code, node, total, book, output] = v else { panic!("cut takes 5 inputs") };
        let (node, total, output) = (node.byte(), total.number() as u32, output.bytes_mut());
        reply_of(independent::file::cut(code.bytes(), node, total, book.bytes(), output))
    },
};

pub const OPERATIONS: [Operation; 4] = [READ, JUDGE_FILE, TAKE_SLIP, CUT];
