//! Why a call was refused.

use std::error::Error;
use std::fmt::{Display, Formatter, Result as Written};

/// A refusal, by document 01's names. A refused call has changed nothing.
#[derive(Clone, Copy, Debug, PartialEq, Eq, Hash)]
pub enum Refusal {
    /// 1: a record is cut short, of a kind not expected there, out of order, or followed by something.
    Record,
    /// 2: the code's kind is not 1 or 2.
    Kind,
    /// 3: n, k, d or the stripe total is outside its rule.
    Size,
    /// 4: two points are too alike, or an unused one is not zero. The pair has their places, counted from 1.
    Points { first: u32, second: u32 },
    /// 5: a slice is not of exactly the needed length.
    Length,
    /// 6: a node is outside 1..n.
    Node,
    /// 7: a node stands twice, or the failed node is among its helpers.
    Repeat,
    /// 8: slip counts differ, or a batch names another node or stripe.
    Mixed,
    /// 9: the slip's number is not the count + 1.
    Order,
    /// 10: there is no such stripe, or no such symbol.
    Place,
}

use Refusal::*;

impl Refusal {
    /// From the library's numbers. It gives no others.
    pub(crate) fn of(number: u32, first: u32, second: u32) -> Refusal {
        match number {
            1 => Record,
            2 => Kind,
            3 => Size,
            4 => Points { first, second },
            5 => Length,
            6 => Node,
            7 => Repeat,
            8 => Mixed,
            9 => Order,
            10 => Place,
            _ => unreachable!("document 01 has no refusal {number}"),
        }
    }

    /// Document 01's number.
    pub fn number(self) -> u32 {
        match self {
            Record => 1,
            Kind => 2,
            Size => 3,
            Points { .. } => 4,
            Length => 5,
            Node => 6,
            Repeat => 7,
            Mixed => 8,
            Order => 9,
            Place => 10,
        }
    }

    /// The pair of places of refusal 4. Other refusals name nothing: (0, 0).
    pub fn pair(self) -> (u32, u32) {
        match self {
            Points { first, second } => (first, second),
            _ => (0, 0),
        }
    }

    fn name(self) -> &'static str {
        let names =
            ["RECORD", "KIND", "SIZE", "POINTS", "LENGTH", "NODE", "REPEAT", "MIXED", "ORDER", "PLACE"];
        names[self.number() as usize - 1]
    }
}

impl Display for Refusal {
    fn fmt(&self, to: &mut Formatter<'_>) -> Written {
        write!(to, "refusal {} {}", self.number(), self.name())?;
        match self {
            Points { first, second } => write!(to, " at {first} and {second}"),
            _ => Ok(()),
        }
    }
}

impl Error for Refusal {}
