//! A case: an operation and its inputs; run on both sides, compared, and shown.
//!
//! Both sides get copies of the same inputs. They must give the same reply and
//! leave every run the same, byte for byte. A case is shown as one line of text
//! that can be put into the table of kept cases.

use std::fmt::Write;
use std::process::exit;

#[derive(Clone, Debug, PartialEq)]
pub enum Input {
    Bytes(Vec<u8>),
    Counts(Vec<u32>),
    Number(u64),
}

/// Four numbers: number, pair and count, or what the reader answers.
pub type Reply = [u64; 4];

type Side = fn(&mut [Input]) -> Reply;

/// One operation, on both sides.
#[derive(Clone, Copy)]
pub struct Operation {
    pub name: &'static str,
    pub library: Side,
    pub independent: Side,
}

/// What both sides agreed on.
pub struct Agreed {
    pub reply: Reply,
    pub inputs: Vec<Input>,
}

impl Input {
    pub fn bytes(&self) -> &[u8] {
        match self {
            Input::Bytes(run) => run,
            _ => panic!("bytes wanted"),
        }
    }

    pub fn bytes_mut(&mut self) -> &mut Vec<u8> {
        match self {
            Input::Bytes(run) => run,
            _ => panic!("bytes wanted"),
        }
    }

    pub fn counts(&self) -> &[u32] {
        match self {
            Input::Counts(run) => run,
            _ => panic!("counts wanted"),
        }
    }

    pub fn number(&self) -> u64 {
        match self {
            Input::Number(number) => *number,
            _ => panic!("a number wanted"),
        }
    }

    /// `x` and hexadecimal bytes, `c` and counts, or `n` and a number.
    fn text(&self) -> String {
        match self {
            Input::Bytes(run) => format!("x{}", hex(run)),
            Input::Counts(run) => {
                let counts: Vec<String> = run.iter().map(u32::to_string).collect();
                format!("c{}", counts.join(","))
            }
            Input::Number(number) => format!("n{number}"),
        }
    }

    pub fn parse(text: &str) -> Input {
        let rest = &text[1..];
        match &text[..1] {
            "x" => Input::Bytes(bytes_of(rest)),
            "c" => Input::Counts(rest.split(',').filter(|c| !c.is_empty()).map(decimal).collect()),
            "n" => Input::Number(decimal(rest)),
            _ => panic!("an input starts with x, c or n: {text}"),
        }
    }
}

fn decimal<T: std::str::FromStr>(text: &str) -> T {
    text.parse().unwrap_or_else(|_| panic!("a number wanted: {text}"))
}

pub fn hex(bytes: &[u8]) -> String {
    bytes.iter().fold(String::new(), |mut text, byte| {
        write!(text, "{byte:02x}").expect("strings take all");
        text
    })
}

fn bytes_of(text: &str) -> Vec<u8> {
    let byte = |i| u8::from_str_radix(&text[i..i + 2], 16).expect("hexadecimal bytes");
    (0..text.len()).step_by(2).map(byte).collect()
}

fn line(inputs: &[Input]) -> String {
    let words: Vec<String> = inputs.iter().map(Input::text).collect();
    words.join(" ")
}

impl Operation {
    /// Runs both sides; shows the whole case and stops where they differ.
    pub fn check(&self, inputs: Vec<Input>) -> Agreed {
        let (mut ours, mut theirs) = (inputs.clone(), inputs.clone());
        let reply = (self.library)(&mut ours);
        let expected = (self.independent)(&mut theirs);
        if reply != expected || ours != theirs {
            println!("difference");
            println!("case:        {} {}", self.name, line(&inputs));
            println!("library:     {reply:?}, leaves {}", line(&ours));
            println!("independent: {expected:?}, leaves {}", line(&theirs));
            exit(1);
        }
        Agreed { reply, inputs: ours }
    }

    /// Stops where both sides agree on something that is known to be otherwise.
    pub fn must(&self, rule: bool, what: &str, inputs: &[Input]) {
        if !rule {
            println!("both sides agree, but not with this: {what}");
            println!("left by {}: {}", self.name, line(inputs));
            exit(1);
        }
    }
}

#[cfg(test)]
mod tests {
    use super::{line, Input};

    #[test]
    fn a_printed_case_reads_back() {
        let inputs = vec![
            Input::Bytes(vec![0, 10, 255]),
            Input::Bytes(vec![]),
            Input::Counts(vec![0, 7, u32::MAX]),
            Input::Counts(vec![]),
            Input::Number(u64::MAX),
        ];
        let text = line(&inputs);
        assert_eq!(text, "x000aff x c0,7,4294967295 c n18446744073709551615");
        let read: Vec<Input> = text.split_whitespace().map(Input::parse).collect();
        assert_eq!(read, inputs);
    }
}
