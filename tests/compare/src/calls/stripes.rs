//! The calls of one stripe: encode, help, rebuild, collect.

use crate::boundary::{reply_of, Answer};
use crate::case::Operation;

extern "C" {
    fn corkpaddle_encode(
        code: *const u8,
        code_len: usize,
        node: u8,
        message: *const u8,
        message_len: usize,
        output: *mut u8,
        output_len: usize,
    ) -> Answer;
    fn corkpaddle_help(
        code: *const u8,
        code_len: usize,
        helper: u8,
        failed: u8,
        share: *const u8,
        share_len: usize,
        output: *mut u8,
        output_len: usize,
    ) -> Answer;
    fn corkpaddle_rebuild(
        code: *const u8,
        code_len: usize,
        failed: u8,
        nodes: *const u8,
        nodes_len: usize,
        symbols: *const u8,
        symbols_len: usize,
        counts: *const u32,
        counts_len: usize,
        output: *mut u8,
        output_len: usize,
    ) -> Answer;
    fn corkpaddle_collect(
        code: *const u8,
        code_len: usize,
        nodes: *const u8,
        nodes_len: usize,
        counts: *const u32,
        counts_len: usize,
        shares: *const u8,
        shares_len: usize,
        output: *mut u8,
        output_len: usize,
    ) -> Answer;
}

pub const ENCODE: Operation = Operation {
    name: "encode",
    library: |v| {
        let [code, node, message, output] = v else { panic!("encode takes 4 inputs") };
        let (code, message) = ((code.at(), code.len()), (message.at(), message.len()));
        let room = output.len();
        unsafe { corkpaddle_encode(code.0, code.1, node.byte(), message.0, message.1, output.at_mut(), room) }
            .reply()
    },
    independent: |v| {
        let [code, node, message, output] = v else { panic!("encode takes 4 inputs") };
        let output = output.bytes_mut();
        reply_of(independent::stripe::encode(code.bytes(), node.byte(), message.bytes(), output))
    },
};

pub const HELP: Operation = Operation {
    name: "help",
    library: |v| {
        let [code, helper, failed, share, output] = v else { panic!("help takes 5 inputs") };
        let (helper, failed, room) = (helper.byte(), failed.byte(), output.len());
        let (code, share) = ((code.at(), code.len()), (share.at(), share.len()));
        unsafe { corkpaddle_help(code.0, code.1, helper, failed, share.0, share.1, output.at_mut(), room) }
            .reply()
    },
    independent: |v| {
        let [code, helper, failed, share, output] = v else { panic!("help takes 5 inputs") };
        let (helper, failed, output) = (helper.byte(), failed.byte(), output.bytes_mut());
        reply_of(independent::stripe::help(code.bytes(), helper, failed, share.bytes(), output))
    },
};

pub const REBUILD: Operation = Operation {
    name: "rebuild",
    library: |v| {
        let [code, failed, nodes, symbols, counts, output] = v else { panic!("rebuild takes 6 inputs") };
        let room = output.len();
        unsafe {
            corkpaddle_rebuild(
                code.at(),
                code.len(),
                failed.byte(),
                nodes.at(),
                nodes.len(),
                symbols.at(),
                symbols.len(),
                counts.counts_at(),
                counts.len(),
                output.at_mut(),
                room,
            )
        }
        .reply()
    },
    independent: |v| {
        let [code, failed, nodes, symbols, counts, output] = v else { panic!("rebuild takes 6 inputs") };
        let (failed, output) = (failed.byte(), output.bytes_mut());
        let (nodes, symbols) = (nodes.bytes(), symbols.bytes());
        reply_of(independent::stripe::rebuild(code.bytes(), failed, nodes, symbols, counts.counts(), output))
    },
};

pub const COLLECT: Operation = Operation {
    name: "collect",
    library: |v| {
        let [code, nodes, counts, shares, output] = v else { panic!("collect takes 5 inputs") };
        let room = output.len();
        unsafe {
            corkpaddle_collect(
                code.at(),
                code.len(),
                nodes.at(),
                nodes.len(),
                counts.counts_at(),
                counts.len(),
                shares.at(),
                shares.len(),
                output.at_mut(),
                room,
            )
        }
        .reply()
    },
    independent: |v| {
        let [code, nodes, counts, shares, output] = v else { panic!("collect takes 5 inputs") };
        let (nodes, output) = (nodes.bytes(), output.bytes_mut());
        reply_of(independent::collect::collect(code.bytes(), nodes, counts.counts(), shares.bytes(), output))
    },
};

pub const OPERATIONS: [Operation; 4] = [ENCODE, HELP, REBUILD, COLLECT];
