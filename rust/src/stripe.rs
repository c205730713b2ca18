//! One stripe: encoded, helped with, rebuilt, collected.

use crate::{boundary, Code, Refusal};

/// What a helper sends for one stripe.
#[derive(Clone, Copy, Debug, PartialEq, Eq, Hash)]
pub struct Helper {
    pub node: u8,
    pub symbol: u8,
    /// The slip count of the helper's share.
    pub count: u32,
}

impl Code {
    /// The share of a node of one message stripe. Refused with 5 or 6.
    pub fn encode(&self, node: u8, message: &[u8]) -> Result<Vec<u8>, Refusal> {
        let mut share = vec![0; self.share_len()];
        self.encode_into(node, message, &mut share)?;
        Ok(share)
    }

    pub fn encode_into(&self, node: u8, message: &[u8], share: &mut [u8]) -> Result<(), Refusal> {
        boundary::encode(self.body(), node, message, share).map(drop)
    }

    /// What a helper with this share sends for a failed node. Refused with 5, 6 or 7.
    pub fn help(&self, helper: u8, failed: u8, share: &[u8]) -> Result<u8, Refusal> {
        let mut symbol = [0];
        boundary::help(self.body(), helper, failed, share, &mut symbol)?;
        Ok(symbol[0])
    }

    /// The share of a failed node from d helpers, and their slip count. Refused with 5, 6, 7 or 8.
    pub fn rebuild(&self, failed: u8, helpers: &[Helper]) -> Result<(Vec<u8>, u32), Refusal> {
        let nodes: Vec<u8> = helpers.iter().map(|helper| helper.node).collect();
        let symbols: Vec<u8> = helpers.iter().map(|helper| helper.symbol).collect();
        let counts: Vec<u32> = helpers.iter().map(|helper| helper.count).collect();
        let mut share = vec![0; self.share_len()];
        let count = self.rebuild_into(failed, &nodes, &symbols, &counts, &mut share)?;
        Ok((share, count))
    }

    /// The helpers as three slices in one order.
    pub fn rebuild_into(
        &self,
        failed: u8,
        nodes: &[u8],
        symbols: &[u8],
        counts: &[u32],
        share: &mut [u8],
    ) -> Result<u32, Refusal> {
        boundary::rebuild(self.body(), failed, nodes, symbols, counts, share)
    }

    /// The message stripe from k shares, one after the other, and their slip count. Refused with 5, 6, 7 or 8.
    pub fn collect(&self, nodes: &[u8], counts: &[u32], shares: &[u8]) -> Result<(Vec<u8>, u32), Refusal> {
        let mut message = vec![0; self.message_len()];
        let count = self.collect_into(nodes, counts, shares, &mut message)?;
        Ok((message, count))
    }

    pub fn collect_into(
        &self,
        nodes: &[u8],
        counts: &[u32],
        shares: &[u8],
        message: &mut [u8],
    ) -> Result<u32, Refusal> {
        boundary::collect(self.body(), nodes, counts, shares, message)
    }
}
