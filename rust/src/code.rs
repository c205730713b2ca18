//! A judged code, and the lengths that it fixes.

use crate::boundary;
use crate::{Refusal, CODE_LEN, HELP_LEN};

/// The two constructions.
#[derive(Clone, Copy, Debug, PartialEq, Eq, Hash)]
pub enum Kind {
    /// Kind 1: least traffic in a rebuild.
    Mbr,
    /// Kind 2: smallest shares; d = 2k-2.
    Msr,
}

/// A code that the library has accepted: kind, n, k, d and n points.
#[derive(Clone, Debug, PartialEq, Eq, Hash)]
pub struct Code {
    body: [u8; CODE_LEN],
}

impl Code {
    /// A code from its parts; n is the number of points. Refused with 3 or 4.
    pub fn new(kind: Kind, k: u8, d: u8, points: &[u8]) -> Result<Code, Refusal> {
        let mut body = [0; CODE_LEN];
        let room = body[4..].get_mut(..points.len()).ok_or(Refusal::Size)?;
        room.copy_from_slice(points);
        body[..4].copy_from_slice(&[kind as u8 + 1, points.len() as u8, k, d]);
        Code::judge(&body)
    }

    /// A code from the body of a C record. Refused with 2, 3, 4 or, if it has not 36 bytes, 5.
    pub fn judge(body: &[u8]) -> Result<Code, Refusal> {
        boundary::judge(body)?;
        let body = body.try_into().map_err(|_| Refusal::Length)?;
        Ok(Code { body })
    }

    /// The body of its C record.
    pub fn body(&self) -> &[u8; CODE_LEN] {
        &self.body
    }

    pub fn kind(&self) -> Kind {
        if self.body[0] == 1 {
            Kind::Mbr
        } else {
            Kind::Msr
        }
    }

    /// How many stations have shares. They are numbered from 1.
    pub fn n(&self) -> usize {
        self.body[1].into()
    }

    /// How many shares give the book.
    pub fn k(&self) -> usize {
        self.body[2].into()
    }

    /// How many helpers a rebuild takes.
    pub fn d(&self) -> usize {
        self.body[3].into()
    }

    /// The points of stations 1 to n.
    pub fn points(&self) -> &[u8] {
        &self.body[4..4 + self.n()]
    }

    /// Bytes of a share per stripe: alpha.
    pub fn share_len(&self) -> usize {
        match self.kind() {
            Kind::Mbr => self.d(),
            Kind::Msr => self.k() - 1,
        }
    }

    /// Bytes of a message stripe: B.
    pub fn message_len(&self) -> usize {
        let (k, d) = (self.k(), self.d());
        match self.kind() {
            Kind::Mbr => k * (k + 1) / 2 + k * (d - k),
            Kind::Msr => k * (k - 1),
        }
    }

    /// Bytes of a batch: d records of H.
    pub fn batch_len(&self) -> usize {
        self.d() * HELP_LEN
    }
}
