//! The command line: `compare [--seed S] [--scale PERCENT]`.

use std::process::exit;

pub struct Options {
    pub seed: u64,
    pub scale: u64,
}

const USAGE: &str = "usage: compare [--seed S] [--scale PERCENT]";

impl Options {
    pub fn read() -> Options {
        let mut options = Options { seed: 1, scale: 100 };
        let mut words = std::env::args().skip(1);
        while let Some(word) = words.next() {
            let value = words.next().and_then(|value| value.parse().ok());
            match (word.as_str(), value) {
                ("--seed", Some(value)) => options.seed = value,
                ("--scale", Some(value)) => options.scale = value,
                _ => {
                    eprintln!("{USAGE}");
                    exit(2);
                }
            }
        }
        options
    }
}
