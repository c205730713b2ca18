//! Instructions of a call, counted by valgrind. Unlike times they are the same on a busy machine.

use crate::job::{LIBRARY, PLAIN};
use crate::jobs;
use std::env;
use std::process::{exit, Command};

/// The count of a run with so many calls.
fn counted(job: usize, side: usize, times: usize) -> u64 {
    let this = env::current_exe().expect("this program's own place");
    let output = Command::new("valgrind")
        .args(["--tool=callgrind", "--callgrind-out-file=/dev/null"])
        .arg(this)
        .args(["--call".to_string(), job.to_string(), side.to_string(), times.to_string()])
        .output();
    let Ok(output) = output else {
        eprintln!("valgrind is not there");
        exit(2);
    };
    let text = String::from_utf8_lossy(&output.stderr);
    let count = text.lines().find_map(|line| line.split("Collected : ").nth(1)?.trim().parse().ok());
    count.expect("a count")
}

/// A call's own share: three calls less one, halved, leave out what comes before.
fn instructions(job: usize, side: usize) -> u64 {
    (counted(job, side, 3) - counted(job, side, 1)) / 2
}

pub fn print_counts() {
    println!("| job | library | plain | ratio |");
    println!("|---|---|---|---|");
    for (number, job) in jobs::all().iter().enumerate() {
        let [library, plain] = [LIBRARY, PLAIN].map(|side| instructions(number, side));
        println!("| {} | {library} | {plain} | {:.2} |", job.name, library as f64 / plain as f64);
    }
}
