//! One record read from a file.

use crate::{boundary, Refusal};

/// A record: its kind byte, its body as the file's own bytes, and where the next one starts.
#[derive(Clone, Copy, Debug, PartialEq, Eq, Hash)]
pub struct Record<'a> {
    pub kind: u8,
    pub body: &'a [u8],
    pub next: usize,
}

/// Reads the record at a place, an offset from 0. Refusal 1 is for that place: no known kind there, or cut short.
pub fn read(file: &[u8], place: usize) -> Result<Record<'_>, Refusal> {
    let found = boundary::read(file, place as u64);
    if found.number != 0 {
        return Err(Refusal::of(found.number as u32, 0, 0));
    }
    let body = &file[found.start as usize..found.end as usize];
    Ok(Record { kind: file[place], body, next: found.next as usize })
}
