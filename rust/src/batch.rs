//! Lost shares: batches of H records rebuilt.

use crate::{boundary, file_len, Code, Refusal, DATA_LEN};

impl Code {
    /// The D record that one batch gives for the asked node, and the helpers' count. Refused with 5, 1, 6, 7, 8 or 10.
    pub fn rebuild_batch(&self, asked: u8, batch: &[u8]) -> Result<([u8; DATA_LEN], u32), Refusal> {
        let mut record = [0; DATA_LEN];
        let count = self.rebuild_batch_into(asked, batch, &mut record)?;
        Ok((record, count))
    }

    pub fn rebuild_batch_into(&self, asked: u8, batch: &[u8], record: &mut [u8]) -> Result<u32, Refusal> {
        boundary::rebuild_batch(self.body(), asked, batch, record)
    }

    /// The whole file of the asked node from a batch for each stripe, end to end, and the helpers' count.
    /// Refused with 3 or 5; then the first faulty batch decides: 1, 6, 7, 8 or 10.
    pub fn rebuild_file(&self, asked: u8, stripes: u16, batches: &[u8]) -> Result<(Vec<u8>, u32), Refusal> {
        let mut file = vec![0; file_len(stripes.into())];
        let count = self.rebuild_file_into(asked, stripes, batches, &mut file)?;
        Ok((file, count))
    }

    pub fn rebuild_file_into(
        &self,
        asked: u8,
        stripes: u16,
        batches: &[u8],
        file: &mut [u8],
    ) -> Result<u32, Refusal> {
        boundary::rebuild_file(self.body(), asked, stripes.into(), batches, file)
    }
}
