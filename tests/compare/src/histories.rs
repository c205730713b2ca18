//! Histories: stations take slips in their own time, refuse wrong ones, lose their
//! shares and have them rebuilt. After every step every file held must be the fresh
//! encoding of the book with as many changes as the file's count says.

use crate::calls::batches::{ANSWER_FOR, REBUILD_FILE};
use crate::calls::files::{CUT, TAKE_SLIP};
use crate::case::Input;
use crate::codes::{good_code, known, KINDS};
use crate::random::Random;
use crate::shares::{count_of, good_slip, slip_record};
use independent::code::Code;
use independent::file::{file_length, whole_file};
use independent::records::{number, HELP_RECORD};
use independent::stripe::share_of;

const HISTORIES: u64 = 200;
const STEPS: u64 = 300;

struct World {
    run: Vec<u8>,
    code: Code,
    total: usize,
    /// The book after each number of changes.
    books: Vec<Vec<u8>>,
    /// Slip number m stands at m - 1.
    slips: Vec<Vec<u8>>,
    /// What station i + 1 holds; nothing after a loss.
    files: Vec<Option<Vec<u8>>>,
}

impl World {
    fn new(random: &mut Random) -> World {
        let (kind, most) = (random.pick(&KINDS), random.pick(&[4, 5, 6, 8, 12]));
        let run = good_code(random, kind, most);
        let code = known(&run);
        let total = random.from_to(1, 3);
        let book = random.bytes(total * code.message());
        let files = (1..=code.n).map(|node| Some(cut(random, &run, node, total, &book))).collect();
        World { run, code, total, books: vec![book], slips: Vec::new(), files }
    }

    /// What a station must hold at a count, by the encoding alone.
    fn fresh(&self, node: usize, count: usize) -> Vec<u8> {
        let stripes = self.books[count].chunks_exact(self.code.message());
        let shares: Vec<_> = stripes.map(|message| share_of(&self.code, node as u8, message)).collect();
        whole_file(&self.run, node as u8, count as u32, &shares)
    }

    fn check_all(&self) {
        for (i, file) in self.files.iter().enumerate() {
            let Some(file) = file else { continue };
            let count = count_of(file) as usize;
            let right = count < self.books.len() && *file == self.fresh(i + 1, count);
            TAKE_SLIP.must(right, "the fresh encoding at its count", &[Input::Bytes(file.clone())]);
        }
    }

    /// Slip number count + 1, made now if the list ends at count.
    fn next_slip(&mut self, random: &mut Random, count: usize) -> Vec<u8> {
        if count == self.slips.len() {
            let message = self.code.message();
            let slip = good_slip(random, count as u32 + 1, self.total, message);
            let index = number(&slip[5..7]) as usize * message + number(&slip[7..9]) as usize;
            let mut book = self.books[count].clone();
            book[index] ^= slip[9];
            self.books.push(book);
            self.slips.push(slip);
        }
        self.slips[count].clone()
    }

    fn deliver(&mut self, station: usize, slip: Vec<u8>, expected: u64) {
        let Some(file) = self.files[station].take() else { return };
        let mut agreed = TAKE_SLIP.check(vec![Input::Bytes(file), Input::Bytes(slip)]);
        TAKE_SLIP.must(agreed.reply[0] == expected, "the expected refusal", &agreed.inputs);
        self.files[station] = Some(std::mem::take(agreed.inputs[0].bytes_mut()));
    }

    /// A random station that holds a share, with its count.
    fn station(&self, random: &mut Random) -> Option<(usize, usize)> {
        let station = random.below(self.files.len());
        self.files[station].as_ref().map(|file| (station, count_of(file) as usize))
    }

    fn take_next(&mut self, random: &mut Random) {
        if let Some((station, count)) = self.station(random) {
            let slip = self.next_slip(random, count);
            self.deliver(station, slip, 0);
        }
    }

    /// Every station gets the slips that it lacks.
    fn catch_up(&mut self) {
        for station in 0..self.files.len() {
            while let Some(file) = &self.files[station] {
                let Some(slip) = self.slips.get(count_of(file) as usize).cloned() else { break };
                self.deliver(station, slip, 0);
            }
        }
    }

    /// A slip of another number than the next, one for no place, or a broken one.
    fn take_wrong(&mut self, random: &mut Random) {
        let Some((station, count)) = self.station(random) else { return };
        let (order, message) = (count as u32 + 1, self.code.message());
        match random.below(4) {
            0 if count > 0 => {
                let slip = self.slips[random.below(count)].clone();
                self.deliver(station, slip, 9);
            }
            1 => {
                let later = order + random.from_to(1, 9) as u32;
                let slip = good_slip(random, later, self.total, message);
                self.deliver(station, slip, 9);
            }
            2 => {
                let place = random.pick(&[(self.total, 0), (0, message), (1023, 496)]);
                self.deliver(station, slip_record(order, place.0, place.1, random.byte()), 10);
            }
            _ => {
                let mut slip = good_slip(random, order, self.total, message);
                slip.truncate(random.below(10));
                self.deliver(station, slip, 1);
            }
        }
    }

    fn lose(&mut self, random: &mut Random) {
        let held = self.files.iter().flatten().count();
        if held > self.code.d {
            let station = random.below(self.files.len());
            self.files[station] = None;
        }
    }

    /// Stations other than the failed one that stand at one count, if they are d or more.
    fn helpers(&self, random: &mut Random, failed: usize) -> Option<Vec<usize>> {
        let count = self.station(random)?.1;
        let at_count =
            |file: &Option<Vec<u8>>| file.as_ref().is_some_and(|file| count_of(file) as usize == count);
        let helpers: Vec<usize> =
            (0..self.files.len()).filter(|i| *i != failed && at_count(&self.files[*i])).collect();
        (helpers.len() >= self.code.d).then_some(helpers)
    }

    /// Rebuilds a share, lost or still held, with other helpers for each stripe.
    fn rebuild(&mut self, random: &mut Random) {
        let failed = random.below(self.files.len());
        let Some(mut helpers) = self.helpers(random, failed) else { return };
        let node = failed as u8 + 1;
        let answers: Vec<Vec<u8>> = self.files.iter().map(|file| self.answer(random, file, node)).collect();
        let mut batches = Vec::new();
        for stripe in 0..self.total {
            random.shuffle(&mut helpers);
            for helper in &helpers[..self.code.d] {
                batches.extend(&answers[*helper][stripe * HELP_RECORD..(stripe + 1) * HELP_RECORD]);
            }
        }
        let output = random.bytes(file_length(self.total));
        let (node, stripes) = (Input::Number(node as u64), Input::Number(self.total as u64));
        let code = Input::Bytes(self.run.clone());
        let mut agreed =
            REBUILD_FILE.check(vec![code, node, stripes, Input::Bytes(batches), Input::Bytes(output)]);
        REBUILD_FILE.must(agreed.reply[0] == 0, "a rebuild that is done", &agreed.inputs);
        self.files[failed] = Some(std::mem::take(agreed.inputs[4].bytes_mut()));
    }

    /// A station's H records for a failed node; none from the failed or a lost one.
    fn answer(&self, random: &mut Random, file: &Option<Vec<u8>>, failed: u8) -> Vec<u8> {
        match file {
            Some(file) if file[38] != failed => {
                let output = Input::Bytes(random.bytes(self.total * HELP_RECORD));
                let inputs = vec![Input::Bytes(file.clone()), Input::Number(failed as u64), output];
                ANSWER_FOR.check(inputs).inputs[2].bytes().to_vec()
            }
            _ => Vec::new(),
        }
    }

    fn step(&mut self, random: &mut Random) {
        match random.below(20) {
            0..=5 => self.take_next(random),
            6..=8 => self.catch_up(),
            9..=11 => self.take_wrong(random),
            12 | 13 => self.lose(random),
            _ => self.rebuild(random),
        }
        self.check_all();
    }
}

fn cut(random: &mut Random, run: &[u8], node: usize, total: usize, book: &[u8]) -> Vec<u8> {
    let output = Input::Bytes(random.bytes(file_length(total)));
    let (node, total) = (Input::Number(node as u64), Input::Number(total as u64));
    let inputs = vec![Input::Bytes(run.to_vec()), node, total, Input::Bytes(book.to_vec()), output];
    CUT.check(inputs).inputs[4].bytes().to_vec()
}

/// Answers the number of steps.
pub fn run(random: &mut Random, scale: u64) -> u64 {
    let histories = HISTORIES * scale / 100;
    for _ in 0..histories {
        let mut world = World::new(random);
        world.check_all();
        for _ in 0..STEPS {
            world.step(random);
        }
    }
    histories * STEPS
}
