//! The slips program as a process. The input goes through a pipe in random pieces.

use crate::case::{Operation, Reply};
use crate::random::Random;
use std::env;
use std::io::{Read, Write};
use std::path::PathBuf;
use std::process::{exit, Child, ChildStdin, Command, Stdio};
use std::sync::OnceLock;
use std::thread;

/// Inputs: the whole input, a number that fixes its pieces, and the output, empty at first.
/// The reply is the exit status.
pub const SLIPS: Operation = Operation {
    name: "slips",
    library: |v| {
        let [input, pieces, output] = v else { panic!("slips takes 3 inputs") };
        let (status, written) = run_process(input.bytes(), pieces.number());
        *output.bytes_mut() = written;
        status
    },
    independent: |v| {
        let [input, _, output] = v else { panic!("slips takes 3 inputs") };
        *output.bytes_mut() = independent::program::slips(input.bytes());
        [0; 4]
    },
};

/// The program: named by CORKPADDLE_SLIPS, or the project's own.
fn program() -> &'static PathBuf {
    static PROGRAM: OnceLock<PathBuf> = OnceLock::new();
    PROGRAM.get_or_init(|| env::var_os("CORKPADDLE_SLIPS").map_or_else(default_program, PathBuf::from))
}

fn default_program() -> PathBuf {
    if cfg!(feature = "mirror") {
        let here = env::current_exe().expect("this program's own place");
        return here.with_file_name("independent_slips");
    }
    PathBuf::from(concat!(env!("CARGO_MANIFEST_DIR"), "/../../target/bin/slips"))
}

/// Less than a pipe holds. So short an input, and its output, cannot fill their pipes: nobody waits for the reader.
const PIPE: usize = 20_000;

fn start() -> Child {
    let piped = Command::new(program()).stdin(Stdio::piped()).stdout(Stdio::piped()).spawn();
    piped.unwrap_or_else(|error| {
        println!("cannot start {}: {error}", program().display());
        exit(2);
    })
}

fn run_process(input: &[u8], pieces: u64) -> (Reply, Vec<u8>) {
    let mut child = start();
    let stdin = child.stdin.take().expect("a pipe");
    let mut stdout = child.stdout.take().expect("a pipe");
    let mut written = Vec::new();
    let mut read = || stdout.read_to_end(&mut written).expect("a readable pipe");
    if input.len() < PIPE {
        feed(stdin, input, pieces);
        read();
    } else {
        thread::scope(|scope| {
            scope.spawn(|| feed(stdin, input, pieces));
            read();
        });
    }
    let status = child.wait().expect("a process that ends").code();
    ([status.map_or(u64::MAX, |code| code as u64), 0, 0, 0], written)
}

/// Writes the input in pieces. A program that ends early may close the pipe.
fn feed(mut stdin: ChildStdin, input: &[u8], pieces: u64) {
    let mut random = Random::of_layer(pieces, "pieces");
    let longest = random.pick(&[3, 40, 1000, 70_000]).max(input.len() / 50);
    let mut rest = input;
    while !rest.is_empty() {
        let (piece, after) = rest.split_at(random.from_to(1, longest).min(rest.len()));
        if stdin.write_all(piece).is_err() {
            return;
        }
        thread::yield_now();
        rest = after;
    }
}
