//! A record, and stores as long as its figures say; the figures that are tried; and a pool that answers rows.

#![allow(dead_code)] // Not every test uses all of it.

use std::ops::Range;

use plain::calls::{self, ANSWER_ROOM};
use plain::fit::is_well_formed;
use plain::limits::{Limits, LARGE_SIZE, SMALL_BLOCKS, SMALL_SIZE};
use plain::record::{fresh, Pool};
use reference::{generate, limits};

/// Each seed twice: with 01's figures and with others.
pub fn sites(seeds: Range<u64>) -> impl Iterator<Item = (u64, limits::Limits)> {
    seeds.flat_map(|seed| [limits::Limits::STANDARD, generate::limits(seed)].map(|limits| (seed, limits)))
}

/// What answers the lines of rows: a fresh pool of these figures, which stays well-formed.
pub fn answering(limits: limits::Limits) -> impl FnMut(&str) -> String {
    let mut memory = Memory::beside(limits);
    move |line| {
        let answer = memory.frame(line.as_bytes()).1;
        assert!(is_well_formed(&memory.pool), "{line}");
        String::from_utf8(answer).expect("digits")
    }
}

#[derive(Clone, Debug, PartialEq, Eq)]
pub struct Memory {
    pub pool: Pool,
    pub small: Vec<u8>,
    pub large: Vec<u8>,
}

impl Memory {
    pub fn of(pool: Pool) -> Memory {
        Memory { small: vec![7; pool.limits.small_store()], large: vec![7; pool.limits.large_store()], pool }
    }

    /// A fresh one with the figures of a ledger.
    pub fn beside(limits: limits::Limits) -> Memory {
        let limits::Limits { small_blocks, large_blocks, expirations, extension } = limits;
        Memory::of(fresh(Limits {
            small_blocks: small_blocks as u32,
            large_blocks: large_blocks as u32,
            expirations: expirations as u32,
            extension: extension as u32,
        }))
    }

    /// The block at a place of the block table.
    pub fn block(&self, place: usize) -> &[u8] {
        match place.checked_sub(SMALL_BLOCKS) {
            None => &self.small[place * SMALL_SIZE..][..SMALL_SIZE],
            Some(place) => &self.large[place * LARGE_SIZE..][..LARGE_SIZE],
        }
    }

    /// By task 0.
    pub fn make(&mut self, kind: u8, extension: u8, length: u16) -> u8 {
        calls::make(&mut self.pool, &mut self.small, &mut self.large, 0, kind, extension, length, 0, &mut 0)
    }

    /// The number of a line's answer, and the line that is answered.
    pub fn frame(&mut self, line: &[u8]) -> (u8, Vec<u8>) {
        let (mut out, mut count) = ([0; ANSWER_ROOM], 0);
        let number = calls::frame(&mut self.pool, &mut self.small, &mut self.large, line, &mut out, &mut count);
        (number, out[..count].to_vec())
    }
}
