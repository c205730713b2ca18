//! The slips program as a process: a share file and 100,000 slips, beside the plain program as a process.

use crate::inputs::Inputs;
use crate::job::Job;
use corkpaddle::{Kind, Slip};
use std::env;
use std::fs::{self, File};
use std::io::{Seek, Write};
use std::path::{Path, PathBuf};
use std::process::{Command, Stdio};

const SLIPS: u32 = 100_000;
const ROUNDS: usize = 11;

/// The program: named by CORKPADDLE_SLIPS, or the project's own.
fn slips_program() -> PathBuf {
    match env::var_os("CORKPADDLE_SLIPS") {
        Some(program) => PathBuf::from(program),
        None => PathBuf::from(concat!(env!("CARGO_MANIFEST_DIR"), "/../target/bin/slips")),
    }
}

fn plain_program() -> PathBuf {
    env::current_exe().expect("this program's own place").with_file_name("plain_slips")
}

/// A share file, and slips for all its stripes and symbols in turn.
fn whole_input(inputs: &Inputs) -> Vec<u8> {
    let message = inputs.code.message_len() as u32;
    let mut input = inputs.file.clone();
    for number in 1..=SLIPS {
        let place = number.wrapping_mul(40_503);
        let (stripe, index) = ((place % 1024) as u16, (place / 1024 % message) as u16);
        input.extend(Slip { number, stripe, index, change: number as u8 }.record());
    }
    input
}

/// The input as a file without a name: the system drops it when the bench ends.
fn input_file(inputs: &Inputs) -> File {
    let path = env::temp_dir().join(format!("corkpaddle-bench-{}-{}", std::process::id(), inputs.kind));
    let mut file = File::options().read(true).write(true).create_new(true).open(&path).expect("a new file");
    fs::remove_file(&path).expect("a file that can be removed");
    file.write_all(&whole_input(inputs)).expect("room for the input");
    file
}

/// Runs a program from a file into the buffer. Reading what it wrote is part of the time on both sides.
fn run(program: &Path, mut input: &File, buffer: &mut [u8]) -> u32 {
    input.rewind().expect("a file that can be read again");
    let stdin = input.try_clone().expect("a second handle");
    let command = Command::new(program).stdin(stdin).stderr(Stdio::inherit()).output();
    let output = command.unwrap_or_else(|error| panic!("{}: {error}", program.display()));
    assert!(output.status.success(), "{}: {}", program.display(), output.status);
    assert_eq!(output.stdout.len(), buffer.len(), "{}", program.display());
    buffer.copy_from_slice(&output.stdout);
    0
}

fn job(inputs: &'static Inputs) -> Job {
    let input = input_file(inputs);
    let other = input.try_clone().expect("a second handle");
    let (slips, plain) = (slips_program(), plain_program());
    let mut job = Job::new(
        format!("{}: 100,000 slips through the program", inputs.kind),
        vec![0; 2 * SLIPS as usize + inputs.file.len()],
        move |buffer| run(&slips, &input, buffer),
        move |buffer| run(&plain, &other, buffer),
    );
    job.rounds = ROUNDS;
    job
}

/// None where the program is not built.
pub fn all() -> Vec<Job> {
    if !slips_program().exists() {
        eprintln!("{} is not there: its rows are left out", slips_program().display());
        return Vec::new();
    }
    [Kind::Mbr, Kind::Msr].map(Inputs::of).map(job).into()
}
