//! Share files: cut from a book, judged, changed by slips, answered from.

use crate::{boundary, Code, Refusal, CODE_LEN, DATA_LEN, HELP_LEN};

/// The C record and the N record.
const HEAD_LEN: usize = 1 + CODE_LEN + 8;

/// Bytes of a share file of so many stripes.
pub fn file_len(stripes: usize) -> usize {
    HEAD_LEN + stripes * DATA_LEN
}

impl Code {
    /// The fresh share file of a node, at count 0. The book has `stripes` messages end to end. Refused with 3, 5 or 6.
    pub fn cut(&self, node: u8, stripes: u16, book: &[u8]) -> Result<Vec<u8>, Refusal> {
        let mut file = vec![0; file_len(stripes.into())];
        self.cut_into(node, stripes, book, &mut file)?;
        Ok(file)
    }

    pub fn cut_into(&self, node: u8, stripes: u16, book: &[u8], file: &mut [u8]) -> Result<(), Refusal> {
        boundary::cut(self.body(), node, stripes.into(), book, file).map(drop)
    }
}

/// Judges a share file and gives its slip count. The first faulty record decides: 1, 2, 3, 4 or 6.
pub fn judge_file(file: &[u8]) -> Result<u32, Refusal> {
    boundary::judge_file(file)
}

/// Takes a slip, a P record, and gives the new count. Refused for the file's faults, then 1, 9 or 10.
pub fn take_slip(file: &mut [u8], slip: &[u8]) -> Result<u32, Refusal> {
    boundary::take_slip(file, slip)
}

/// A station's H records for a failed node, one for each stripe. Refused for the file's faults, then 6 or 7.
pub fn answer_for(file: &[u8], failed: u8) -> Result<Vec<u8>, Refusal> {
    let mut records = vec![0; stripes_of(file) * HELP_LEN];
    answer_for_into(file, failed, &mut records)?;
    Ok(records)
}

/// Also refused with 5.
pub fn answer_for_into(file: &[u8], failed: u8, records: &mut [u8]) -> Result<(), Refusal> {
    boundary::answer_for(file, failed, records).map(drop)
}

/// The stripe total as the N record has it. A file without one is refused whatever the room.
fn stripes_of(file: &[u8]) -> usize {
    match file.get(HEAD_LEN - 6..HEAD_LEN - 4) {
        Some(total) => u16::from_be_bytes([total[0], total[1]]).into(),
        None => 0,
    }
}
