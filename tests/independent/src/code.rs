//! A code, judged: its sizes, its points and the encoding row of a node.

use crate::answer::{ask, done, points, Answer, KIND, LENGTH, NODE, SIZE};
use crate::field::power;

pub const MBR: u8 = 1;
pub const MSR: u8 = 2;
pub const CODE_LENGTH: usize = 36;
pub const MOST_NODES: usize = 32;
pub const MOST_STRIPES: usize = 1024;
/// The most symbols that a row or a share can have.
pub const MOST_SYMBOLS: usize = 31;

pub struct Code {
    pub kind: u8,
    pub n: usize,
    pub k: usize,
    pub d: usize,
    pub points: [u8; MOST_NODES],
}

impl Code {
    /// Bytes of a share per stripe.
    pub fn alpha(&self) -> usize {
        if self.kind == MBR {
            self.d
        } else {
            self.k - 1
        }
    }

    /// Bytes of a message stripe, B of document 01.
    pub fn message(&self) -> usize {
        let k = self.k;
        if self.kind == MBR {
            k * (k + 1) / 2 + k * (self.d - k)
        } else {
            k * (k - 1)
        }
    }

    pub fn point(&self, node: u8) -> u8 {
        self.points[node as usize - 1]
    }

    /// The encoding row of a node, d symbols; zero from there on.
    pub fn row(&self, node: u8) -> [u8; MOST_SYMBOLS] {
        let mut row = [0; MOST_SYMBOLS];
        for (i, entry) in row[..self.d].iter_mut().enumerate() {
            *entry = power(self.point(node), i);
        }
        row
    }

    /// The power of a point that must differ from node to node.
    fn exponent(&self) -> usize {
        if self.kind == MBR {
            1
        } else {
            self.k - 1
        }
    }

    fn sizes_hold(&self) -> bool {
        let (n, k, d) = (self.n, self.k, self.d);
        let all = (2..=MOST_NODES).contains(&n) && 1 <= k && k <= d && d < n;
        all && (self.kind == MBR || (k >= 2 && d == 2 * k - 2))
    }

    fn judge_points(&self) -> Result<(), Answer> {
        let e = self.exponent();
        let powers: Vec<u8> = self.points[..self.n].iter().map(|x| power(*x, e)).collect();
        for first in 0..self.n {
            for second in first + 1..self.n {
                if powers[first] == powers[second] {
                    return Err(points(first + 1, second + 1));
                }
            }
        }
        match (self.n..MOST_NODES).find(|place| self.points[*place] != 0) {
            Some(place) => Err(points(place + 1, place + 1)),
            None => Ok(()),
        }
    }

    pub fn ask_node(&self, node: u8) -> Result<(), Answer> {
        ask(node >= 1 && node as usize <= self.n, NODE)
    }
}

/// A stripe total within its rule.
pub fn total_holds(total: u32) -> bool {
    (1..=MOST_STRIPES as u32).contains(&total)
}

/// Reads and judges a code, together with the stripe total of the calls that have one.
pub fn judged(run: &[u8], total: Option<u32>) -> Result<Code, Answer> {
    let total_fits = total.map_or(true, total_holds);
    if run.len() != CODE_LENGTH {
        ask(total_fits, SIZE)?;
        ask(false, LENGTH)?;
    }
    let code = Code {
        kind: run[0],
        n: run[1] as usize,
        k: run[2] as usize,
        d: run[3] as usize,
        points: run[4..CODE_LENGTH].try_into().expect("32 points"),
    };
    ask(code.kind == MBR || code.kind == MSR, KIND)?;
    ask(code.sizes_hold() && total_fits, SIZE)?;
    code.judge_points()?;
    Ok(code)
}

pub fn judge(run: &[u8]) -> Answer {
    judged(run, None).map_or_else(|refusal| refusal, |_| done(0))
}
