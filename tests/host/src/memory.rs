//! What a host owns: the record, and both stores, as long as the record's figures say.

use plain::limits::{Limits, LARGE_SIZE, SMALL_BLOCKS, SMALL_SIZE};
use plain::record::{fresh, with_sum, Pool, RECORD};
use reference::random::Random;

#[derive(Debug)]
pub struct Memory {
    pub pool: Pool,
    pub small: Vec<u8>,
    pub large: Vec<u8>,
}

impl Memory {
    /// A fresh record of 01's figures with stores of chance.
    pub fn fresh(random: &mut Random) -> Memory {
        Memory::sized(Limits::STANDARD, random)
    }

    /// The same of a site's figures.
    pub fn sized(limits: Limits, random: &mut Random) -> Memory {
        let (small, large) = (vec![0; limits.small_store()], vec![0; limits.large_store()]);
        let mut memory = Memory { pool: fresh(limits), small, large };
        random.fill(&mut memory.small);
        random.fill(&mut memory.large);
        memory
    }

    /// The places of the site's blocks in the block table.
    pub fn places(&self) -> Vec<usize> {
        let Limits { small_blocks, large_blocks, .. } = self.pool.limits;
        (0..small_blocks as usize).chain(SMALL_BLOCKS..SMALL_BLOCKS + large_blocks as usize).collect()
    }

    /// The block at a place of the block table.
    pub fn block(&self, place: usize) -> &[u8] {
        match place.checked_sub(SMALL_BLOCKS) {
            None => &self.small[place * SMALL_SIZE..][..SMALL_SIZE],
            Some(place) => &self.large[place * LARGE_SIZE..][..LARGE_SIZE],
        }
    }

    pub fn block_mut(&mut self, place: usize) -> &mut [u8] {
        match place.checked_sub(SMALL_BLOCKS) {
            None => &mut self.small[place * SMALL_SIZE..][..SMALL_SIZE],
            Some(place) => &mut self.large[place * LARGE_SIZE..][..LARGE_SIZE],
        }
    }

    /// The record gets the sum of the bytes that stand in this block.
    pub fn sum_up(&mut self, place: usize) {
        let sum = self.block(place).iter().map(|&byte| u16::from(byte)).sum();
        self.pool.extents[place] = with_sum(self.pool.extents[place], sum);
    }

    /// The place of the block that holds this object.
    pub fn place(&self, handle: u32) -> Option<usize> {
        self.pool.handles.iter().position(|&other| other == handle)
    }
}

/// A copy takes the room that is there.
impl Clone for Memory {
    fn clone(&self) -> Memory {
        Memory { pool: self.pool.clone(), small: self.small.clone(), large: self.large.clone() }
    }

    fn clone_from(&mut self, other: &Memory) {
        self.pool.clone_from(&other.pool);
        self.small.clone_from(&other.small);
        self.large.clone_from(&other.large);
    }
}

/// Byte by byte.
impl PartialEq for Memory {
    fn eq(&self, other: &Memory) -> bool {
        bytes(&self.pool) == bytes(&other.pool) && self.small == other.small && self.large == other.large
    }
}

/// The bytes of a record.
pub fn bytes(pool: &Pool) -> &[u8; RECORD] {
    // SAFETY: the record is so many bytes of numbers without a gap.
    unsafe { &*std::ptr::from_ref(pool).cast() }
}

pub fn bytes_mut(pool: &mut Pool) -> &mut [u8; RECORD] {
    // SAFETY: as above, and any bytes are a value of it.
    unsafe { &mut *std::ptr::from_mut(pool).cast() }
}
