//! The call that judges a code.

use crate::boundary::{reply_of, Answer};
use crate::case::Operation;

extern "C" {
    fn corkpaddle_judge(code: *const u8, code_len: usize) -> Answer;
}

pub const JUDGE: Operation = Operation {
    name: "judge",
    library: |v| unsafe { corkpaddle_judge(v[0].at(), v[0].len()) }.reply(),
    independent: |v| reply_of(independent::code::judge(v[0].bytes())),
};
