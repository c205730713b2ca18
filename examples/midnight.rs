//! The midnight that went wrong last year, and how it goes now.
//!
//! A book of contact minutes is cut for four stations. A slip is taken once, however often it is sent. A lost share is
//! rebuilt from three small answers, takes the later slip again, and the corrected book comes back from two shares.

use corkpaddle::{answer_for, file_len, judge_file, read, take_slip, Code, Kind, Refusal, Slip, HELP_LEN};

const STRIPES: u16 = 3;

/// What the stations hold; station i stands at i - 1.
struct Stations {
    code: Code,
    files: Vec<Vec<u8>>,
}

impl Stations {
    fn cut(code: Code, book: &[u8]) -> Result<Stations, Refusal> {
        let mut files = Vec::new();
        for node in 1..=code.n() as u8 {
            let file = code.cut(node, STRIPES, book)?;
            println!("station {node}: a fresh share of {} bytes, count {}", file.len(), judge_file(&file)?);
            files.push(file);
        }
        Ok(Stations { code, files })
    }

    fn send(&mut self, node: u8, slip: &Slip) {
        match take_slip(&mut self.files[node as usize - 1], &slip.record()) {
            Ok(count) => println!("station {node}: slip {} taken, count {count}", slip.number),
            Err(refusal) => {
                println!("station {node}: slip {} refused with {}", slip.number, refusal.number())
            }
        }
    }

    fn lose(&mut self, node: u8) {
        self.files[node as usize - 1].clear();
        println!("station {node}: its share is lost");
    }

    /// Asks d helpers, and puts their answers into batches, a batch for each stripe.
    fn rebuild(&mut self, node: u8, helpers: &[u8]) -> Result<(), Refusal> {
        let mut answers = Vec::new();
        for helper in helpers {
            let answer = answer_for(&self.files[*helper as usize - 1], node)?;
            println!("station {helper}: answers station {node} with {} records", answer.len() / HELP_LEN);
            answers.push(answer);
        }
        let mut batches = Vec::new();
        for stripe in 0..STRIPES as usize {
            let of_stripe = stripe * HELP_LEN..(stripe + 1) * HELP_LEN;
            answers.iter().for_each(|answer| batches.extend(&answer[of_stripe.clone()]));
        }
        let (file, count) = self.code.rebuild_file(node, STRIPES, &batches)?;
        println!("station {node}: rebuilt, {} bytes, count {count}", file.len());
        self.files[node as usize - 1] = file;
        Ok(())
    }

    /// The book from k stations, stripe by stripe.
    fn collect(&self, nodes: &[u8]) -> Result<Vec<u8>, Refusal> {
        let files = || nodes.iter().map(|node| &self.files[*node as usize - 1]);
        let mut counts = Vec::new();
        for file in files() {
            counts.push(judge_file(file)?);
        }
        let mut book = Vec::new();
        for stripe in 0..STRIPES as usize {
            let mut shares = Vec::new();
            for file in files() {
                let record = read(file, file_len(stripe))?;
                shares.extend(&record.body[2..2 + self.code.share_len()]);
            }
            book.extend(self.code.collect(nodes, &counts, &shares)?.0);
        }
        Ok(book)
    }
}

/// The change that turns one entry of the book into another, as a slip; the book is corrected with it.
fn correct(book: &mut [u8], code: &Code, number: u32, place: usize, minutes: u8) -> Slip {
    let (stripe, index) = (place / code.message_len(), place % code.message_len());
    let change = book[place] ^ minutes;
    println!("slip {number}: entry {place} of the book, {} minutes, becomes {minutes}", book[place]);
    book[place] = minutes;
    Slip { number, stripe: stripe as u16, index: index as u16, change }
}

fn main() -> Result<(), Refusal> {
    let code = Code::new(Kind::Mbr, 2, 3, &[1, 2, 3, 4])?;
    let mut book = [9, 12, 11, 8, 10, 14, 7, 9, 13, 12, 6, 10, 11, 15, 8];
    println!("book: {} entries in {STRIPES} stripes", book.len());
    let mut stations = Stations::cut(code.clone(), &book)?;

    let first = correct(&mut book, &code, 1, 11, 5);
    (1..=4).for_each(|node| stations.send(node, &first));
    stations.send(2, &first);

    let second = correct(&mut book, &code, 2, 3, 16);
    stations.send(3, &second);
    stations.lose(3);
    stations.rebuild(3, &[1, 2, 4])?;
    [3, 4].iter().for_each(|node| stations.send(*node, &second));

    let collected = stations.collect(&[3, 4])?;
    let verdict = if collected == book { "the corrected book" } else { "ANOTHER BOOK" };
    println!("stations 3 and 4: {} entries collected, {verdict}", collected.len());
    Ok(())
}
