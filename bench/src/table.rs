//! Three runs, each a process of its own, and the table of their medians.

use crate::timing::{median, Medians};
use crate::{jobs, process};
use std::env;
use std::process::{exit, Command, Stdio};

const RUNS: usize = 3;

/// One run: a line for each job, its parts parted by tabs.
pub fn measure() {
    for mut job in jobs::all().into_iter().chain(process::all()) {
        let Medians { library, plain, ratio } = job.time().medians();
        println!("{}\t{library}\t{plain}\t{ratio}", job.name);
    }
}

/// What a run printed for one job.
struct Row {
    name: String,
    numbers: [f64; 3],
}

fn row(line: &str) -> Row {
    let mut parts = line.split('\t');
    let name = parts.next().expect("a name").to_string();
    let numbers = [(); 3].map(|()| parts.next().and_then(|part| part.parse().ok()).expect("a number"));
    Row { name, numbers }
}

fn run() -> Vec<Row> {
    let this = env::current_exe().expect("this program's own place");
    let output = Command::new(this).arg("--measure").stderr(Stdio::inherit()).output().expect("a process");
    if !output.status.success() {
        exit(1);
    }
    String::from_utf8(output.stdout).expect("text").lines().map(row).collect()
}

pub fn print_runs() {
    let runs: Vec<Vec<Row>> = (0..RUNS).map(|_| run()).collect();
    println!("| job | library | plain | ratio | three runs |");
    println!("|---|---|---|---|---|");
    for (i, first) in runs[0].iter().enumerate() {
        let column = |number: usize| runs.iter().map(move |run| run[i].numbers[number]);
        let [library, plain, ratio] = [0, 1, 2].map(|number| median(column(number)));
        let least = column(2).fold(f64::INFINITY, f64::min);
        let most = column(2).fold(0.0, f64::max);
        let times = format!("{} | {}", time(library), time(plain));
        println!("| {} | {times} | {ratio:.2} | {least:.2} to {most:.2} |", first.name);
    }
}

fn time(microseconds: f64) -> String {
    if microseconds < 1000.0 {
        format!("{microseconds:.1} us")
    } else {
        format!("{:.2} ms", microseconds / 1000.0)
    }
}
