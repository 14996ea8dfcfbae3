//! The block of an object, in the ledger and in the unbounded heap. A number such as O33 is a rule's in docs/RULES.md.

use crate::call::Refusal;
use crate::limits::Store;
use crate::tasks::State;

/// O33: the object's length, all bytes of the block, of which the first are the object's, and the sum that they are to have.
/// Order 10: of the object's bytes a viewer reads the first, as many as the prefix.
#[derive(Clone, Debug, PartialEq, Eq)]
pub struct Block {
    pub length: u16,
    pub prefix: u16,
    pub bytes: Vec<u8>,
    pub sum: u16,
}

impl Block {
    /// O12: all zeros.
    pub fn zeroed(length: u16, prefix: u16, store: Store) -> Block {
        Block { length, prefix, bytes: vec![0; store.block_size()], sum: 0 }
    }

    /// O34: whether the bytes have their sum.
    pub fn is_intact(&self) -> bool {
        total(&self.bytes) == self.sum
    }

    /// 23, of all bytes whoever reads, then O18: the object's own bytes, or its prefix.
    pub fn read(&self, reader: State) -> Result<&[u8], Refusal> {
        self.check_sum()?;
        let count = if reader == State::Viewing { self.prefix } else { self.length };
        Ok(&self.bytes[..usize::from(count)])
    }

    /// 23, 13, then O20, O21 and O35: these bytes and no others, and the sum of all.
    pub fn write(&mut self, offset: u8, bytes: &[u8]) -> Result<(), Refusal> {
        self.check_sum()?;
        let start = usize::from(offset);
        let end = start + bytes.len();
        if end > usize::from(self.length) {
            return Err(Refusal::RangeAboveLength);
        }
        self.bytes[start..end].copy_from_slice(bytes);
        self.sum = total(&self.bytes);
        Ok(())
    }

    /// 23.
    fn check_sum(&self) -> Result<(), Refusal> {
        if !self.is_intact() {
            return Err(Refusal::SumDiffers);
        }
        Ok(())
    }
}

/// At most 65,280, with 256 bytes.
fn total(bytes: &[u8]) -> u16 {
    bytes.iter().map(|&byte| u16::from(byte)).sum()
}
