//! The six records: how long their bodies are, the reader, and writers.

use crate::code::MOST_SYMBOLS;

pub const CODE: u8 = 0x43;
pub const NAME: u8 = 0x4e;
pub const DATA: u8 = 0x44;
pub const SLIP: u8 = 0x50;
pub const HELP: u8 = 0x48;
pub const ERROR: u8 = 0x45;

/// Lengths of whole records, kind byte included.
pub const CODE_RECORD: usize = 37;
pub const NAME_RECORD: usize = 8;
pub const DATA_RECORD: usize = 34;
pub const SLIP_RECORD: usize = 10;
pub const HELP_RECORD: usize = 10;

pub fn body_length(kind: u8) -> Option<usize> {
    match kind {
        CODE => Some(36),
        NAME => Some(7),
        DATA => Some(33),
        SLIP | HELP => Some(9),
        ERROR => Some(1),
        _ => None,
    }
}

/// What the reader answers; refused: number 1, no part, and the asked place.
#[derive(Clone, Copy, Debug, PartialEq, Eq)]
pub struct Record {
    pub number: u64,
    pub start: u64,
    pub end: u64,
    pub next: u64,
}

/// Reads the record at a place, an offset from 0.
pub fn read(file: &[u8], place: u64) -> Record {
    let refused = Record { number: 1, start: 0, end: 0, next: place };
    if place >= file.len() as u64 {
        return refused;
    }
    let rest = &file[place as usize..];
    match body_length(rest[0]) {
        Some(length) if length < rest.len() => {
            let (start, end) = (place + 1, place + 1 + length as u64);
            Record { number: 0, start, end, next: end }
        }
        _ => refused,
    }
}

/// A big-endian number.
pub fn number(bytes: &[u8]) -> u32 {
    bytes.iter().fold(0, |total, byte| total << 8 | *byte as u32)
}

pub fn name_record(node: u8, total: u32, count: u32) -> Vec<u8> {
    let mut record = vec![NAME, node];
    record.extend((total as u16).to_be_bytes());
    record.extend(count.to_be_bytes());
    record
}

/// A D record; symbols past alpha are zero in the share already.
pub fn data_record(stripe: usize, share: &[u8; MOST_SYMBOLS]) -> Vec<u8> {
    let mut record = vec![DATA];
    record.extend((stripe as u16).to_be_bytes());
    record.extend(share);
    record
}

pub fn help_record(failed: u8, helper: u8, count: u32, stripe: usize, symbol: u8) -> Vec<u8> {
    let mut record = vec![HELP, failed, helper];
    record.extend(count.to_be_bytes());
    record.extend((stripe as u16).to_be_bytes());
    record.push(symbol);
    record
}
