//! Random codes for the tests, and answers of both programs in one form.

use bench::plain::answer::Answer;
use independent::code::{judged, Code};
use independent::field::power;

/// Number, pair and count.
pub type Reply = [u32; 4];

pub fn reply(answer: Answer<u32>) -> Reply {
    match answer {
        Ok(count) => [0, 0, 0, count],
        Err(refused) => [refused.number, refused.first, refused.second, 0],
    }
}

pub fn expected(answer: independent::answer::Answer) -> Reply {
    [answer.number, answer.first, answer.second, answer.count]
}

pub struct Random(pub u64);

impl Random {
    pub fn next(&mut self) -> u64 {
        self.0 = self.0.wrapping_mul(6364136223846793005).wrapping_add(1442695040888963407);
        self.0 >> 24
    }

    pub fn below(&mut self, bound: usize) -> usize {
        (self.next() % bound as u64) as usize
    }

    pub fn byte(&mut self) -> u8 {
        self.next() as u8
    }

    pub fn bytes(&mut self, length: usize) -> Vec<u8> {
        (0..length).map(|_| self.byte()).collect()
    }

    /// A count; now and then one at its end.
    pub fn count(&mut self) -> u32 {
        [0, u32::MAX, u32::MAX - 1, self.next() as u32][self.below(4)]
    }

    /// All nodes of a code in random order.
    pub fn nodes(&mut self, code: &Code) -> Vec<u8> {
        let mut nodes: Vec<u8> = (1..=code.n as u8).collect();
        for i in (1..nodes.len()).rev() {
            nodes.swap(i, self.below(i + 1));
        }
        nodes
    }

    /// A good code: n, k and d of any size, with points whose powers differ.
    pub fn code(&mut self) -> Vec<u8> {
        let kind = 1 + self.below(2);
        let (n, k, d) = if kind == 1 {
            let n = 2 + self.below(31);
            let d = 1 + self.below(n - 1);
            (n, 1 + self.below(d), d)
        } else {
            let k = 2 + self.below(14);
            let d = 2 * k - 2;
            (d + 1 + self.below(32 - d), k, d)
        };
        let exponent = if kind == 1 { 1 } else { k - 1 };
        let mut run = vec![kind as u8, n as u8, k as u8, d as u8];
        let (from, mut seen) = (self.byte(), [false; 256]);
        let is_new = |x: &u8| !std::mem::replace(&mut seen[power(*x, exponent) as usize], true);
        run.extend((0..=255u8).map(|x| x.wrapping_mul(77).wrapping_add(from)).filter(is_new).take(n));
        run.resize(36, 0);
        match judged(&run, None) {
            Ok(_) => run,
            Err(_) => self.code(),
        }
    }

    /// Changes a byte somewhere, or the length, in a run that is to have a fault.
    pub fn damage(&mut self, run: &mut Vec<u8>) {
        let (length, place) = (run.len(), self.below(run.len() + 1));
        match self.below(4) {
            0 => run.truncate(place),
            1 => run.push(self.byte()),
            _ if place < length => run[place] = [0, 1, 255, run[place] ^ 1, self.byte()][self.below(5)],
            _ => run.clear(),
        }
    }

    /// True in one case of three.
    pub fn faulty(&mut self) -> bool {
        self.below(3) == 0
    }
}

pub fn known(code: &[u8]) -> Code {
    judged(code, None).ok().expect("a good code")
}

/// Calls both sides on copies of the same output; answers and outputs must be equal.
pub fn same(
    output: &[u8],
    plain: impl FnOnce(&mut [u8]) -> Answer<u32>,
    independent: impl FnOnce(&mut [u8]) -> independent::answer::Answer,
) {
    let (mut ours, mut theirs) = (output.to_vec(), output.to_vec());
    let answers = (reply(plain(&mut ours)), expected(independent(&mut theirs)));
    assert_eq!(answers.0, answers.1);
    assert_eq!(ours, theirs);
}
