//! A code, judged, its lengths, and the encoding row of a node.

use super::answer::{ask, points, Answer, Refused, KIND, LENGTH, NODE, SIZE};
use super::field::{power, times};

pub const MBR: u8 = 1;
pub const MSR: u8 = 2;
pub const CODE_LEN: usize = 36;
pub const MOST_NODES: usize = 32;
pub const MOST_STRIPES: usize = 1024;
/// The most symbols that a row or a share can have.
pub const MOST: usize = 31;

pub type Row = [u8; MOST];

#[derive(Clone, Copy)]
pub struct Code {
    pub kind: u8,
    pub n: usize,
    pub k: usize,
    pub d: usize,
    points: [u8; MOST_NODES],
}

impl Code {
    pub fn judge(body: &[u8], total: Option<u32>) -> Answer<Code> {
        let total_holds = total.map_or(true, |t| t >= 1 && t as usize <= MOST_STRIPES);
        let Ok(run) = <&[u8; CODE_LEN]>::try_from(body) else {
            return Err(if total_holds { LENGTH } else { SIZE });
        };
        let points = run[4..].try_into().expect("32 points");
        let [kind, n, k, d] = [run[0], run[1], run[2], run[3]].map(usize::from);
        let code = Code { kind: kind as u8, n, k, d, points };
        ask(code.kind == MBR || code.kind == MSR, KIND)?;
        ask(code.sizes_hold() && total_holds, SIZE)?;
        code.judge_points()?;
        Ok(code)
    }

    fn sizes_hold(&self) -> bool {
        let (n, k, d) = (self.n, self.k, self.d);
        let all = (2..=MOST_NODES).contains(&n) && 1 <= k && k <= d && d < n;
        all && (self.kind == MBR || (k >= 2 && d == 2 * k - 2))
    }

    /// The power of a point that must differ from node to node.
    fn must_differ(&self, point: u8) -> u8 {
        if self.kind == MBR {
            point
        } else {
            power(point, self.k - 1)
        }
    }

    /// One pass with a mark for each symbol. The pair is looked for only if there is one.
    fn judge_points(&self) -> Answer<()> {
        let mut seen = [false; 256];
        let mut twice = false;
        for point in &self.points[..self.n] {
            let mark = &mut seen[self.must_differ(*point) as usize];
            twice |= *mark;
            *mark = true;
        }
        let unused = self.points[self.n..].iter().fold(0, |all, point| all | point);
        if twice || unused != 0 {
            return Err(self.fault());
        }
        Ok(())
    }

    #[cold]
    fn fault(&self) -> Refused {
        let used = &self.points[..self.n];
        for (i, x) in used.iter().enumerate() {
            let same = |y: &u8| self.must_differ(*y) == self.must_differ(*x);
            if let Some(j) = used[i + 1..].iter().position(same) {
                return points(i + 1, i + j + 2);
            }
        }
        let place = self.n + self.points[self.n..].iter().position(|point| *point != 0).unwrap_or(0);
        points(place + 1, place + 1)
    }

    /// Bytes of a share per stripe.
    pub fn alpha(&self) -> usize {
        if self.kind == MBR {
            self.d
        } else {
            self.k - 1
        }
    }

    /// Bytes of a message stripe.
    pub fn message(&self) -> usize {
        if self.kind == MBR {
            self.k * (self.k + 1) / 2 + self.k * (self.d - self.k)
        } else {
            self.k * (self.k - 1)
        }
    }

    pub fn ask_node(&self, node: u8) -> Answer<()> {
        ask(node >= 1 && node as usize <= self.n, NODE)
    }

    pub fn point(&self, node: u8) -> u8 {
        self.points[node as usize - 1]
    }

    /// The encoding row of a node: the powers of its point.
    pub fn row(&self, node: u8) -> Row {
        let (mut row, x) = ([0; MOST], self.point(node));
        let mut p = 1;
        for entry in &mut row[..self.d] {
            *entry = p;
            p = times(p, x);
        }
        row
    }
}
