//! Times each of the library's jobs beside the plain program's, in one process, and prints a table.
//!
//!     bench                three runs of all jobs, and the table
//!     bench --callgrind    the instructions of a call, counted by valgrind
//!
//! and, for these two to start: `bench --measure` is one run, `bench --call JOB SIDE TIMES` only calls.

mod callgrind;
mod inputs;
mod job;
mod jobs;
mod process;
mod table;
mod timing;

use std::env;
use std::process::exit;

const USAGE: &str = "usage: bench [--callgrind | --measure | --call JOB SIDE TIMES]";

fn usage() -> ! {
    eprintln!("{USAGE}");
    exit(2);
}

fn number(word: &str) -> usize {
    word.parse().unwrap_or_else(|_| usage())
}

fn main() {
    let words: Vec<String> = env::args().skip(1).collect();
    let words: Vec<&str> = words.iter().map(String::as_str).collect();
    match words[..] {
        [] => table::print_runs(),
        ["--callgrind"] => callgrind::print_counts(),
        ["--measure"] => table::measure(),
        ["--call", job, side, times] => jobs::call(number(job), number(side), number(times)),
        _ => usage(),
    }
}
