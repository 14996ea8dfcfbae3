//! The limits of a pool, those that are fixed and the four figures that a site chooses, and the refusals that need
//! nothing else: 6, 7, 20, 21, 28 and 29.

use std::str::FromStr;

use crate::call::{Kind, Refusal};
use crate::program::decimal;

pub const TASKS: usize = 16;
pub const LONGEST_SMALL: u16 = 32;
const SHORTEST_LARGE: u16 = LONGEST_SMALL + 1;
pub const LONGEST: u16 = 256;
pub const LARGEST_BATCH: usize = 32;

/// In the order in which they are tested.
pub const STORES: [Store; 2] = [Store::Small, Store::Large];

#[derive(Clone, Copy, Debug, PartialEq, Eq, PartialOrd, Ord)]
pub enum Store {
    Small,
    Large,
}

impl Store {
    /// The store that holds objects of this length.
    pub fn holding(length: u16) -> Result<Store, Refusal> {
        match length {
            1..=LONGEST_SMALL => Ok(Store::Small),
            SHORTEST_LARGE..=LONGEST => Ok(Store::Large),
            _ => Err(Refusal::LengthOutOfRange),
        }
    }

    pub const fn name(self) -> &'static str {
        match self {
            Store::Small => "small",
            Store::Large => "large",
        }
    }

    pub const fn block_size(self) -> usize {
        match self {
            Store::Small => LONGEST_SMALL as usize,
            Store::Large => LONGEST as usize,
        }
    }
}

/// Order 12: the figures of a pool, which no call changes.
#[derive(Clone, Copy, Debug, PartialEq, Eq)]
pub struct Limits {
    pub small_blocks: usize,
    pub large_blocks: usize,
    pub expirations: usize,
    /// The largest one.
    pub extension: usize,
}

impl Limits {
    /// The scope paper's figures, and the most of each.
    pub const STANDARD: Limits = Limits { small_blocks: 64, large_blocks: 32, expirations: 256, extension: 30 };

    /// The least of each.
    pub const SMALLEST: Limits = Limits { small_blocks: 1, large_blocks: 1, expirations: 1, extension: 0 };

    pub fn is_allowed(self) -> bool {
        let is_within =
            |figure: fn(Limits) -> usize| (figure(Limits::SMALLEST)..=figure(Limits::STANDARD)).contains(&figure(self));
        is_within(|limits| limits.small_blocks)
            && is_within(|limits| limits.large_blocks)
            && is_within(|limits| limits.expirations)
            && is_within(|limits| limits.extension)
    }

    /// 29.
    pub fn check(self) -> Result<(), Refusal> {
        if !self.is_allowed() {
            return Err(Refusal::LimitsOutOfRange);
        }
        Ok(())
    }

    pub const fn blocks(self, store: Store) -> usize {
        match store {
            Store::Small => self.small_blocks,
            Store::Large => self.large_blocks,
        }
    }

    /// The most for an expiration of this kind: a pinned one has none.
    fn longest_extension(self, kind: Kind) -> usize {
        match kind {
            Kind::Local | Kind::Global => self.extension,
            Kind::Pinned => 0,
        }
    }

    /// 6.
    pub fn check_extension(self, kind: Kind, extension: u8) -> Result<(), Refusal> {
        if usize::from(extension) > self.longest_extension(kind) {
            return Err(Refusal::ExtensionTooLong);
        }
        Ok(())
    }
}

/// The four in their order, in decimal and with commas between: `64,32,256,30`.
impl FromStr for Limits {
    type Err = Refusal;

    fn from_str(words: &str) -> Result<Limits, Refusal> {
        let figures: Option<Vec<_>> = words.split(',').map(decimal).collect();
        let Some(&[small_blocks, large_blocks, expirations, extension]) = figures.as_deref() else {
            return Err(Refusal::LimitsOutOfRange);
        };
        let limits = Limits { small_blocks, large_blocks, expirations, extension };
        limits.check().map(|()| limits)
    }
}

/// 28: a prefix is a part of its object, and may be all of it.
pub fn check_prefix(prefix: u16, length: u16) -> Result<(), Refusal> {
    if prefix > length {
        return Err(Refusal::PrefixTooLong);
    }
    Ok(())
}

/// A refresh and a batch pin nothing.
pub fn check_refreshing(kind: Kind) -> Result<(), Refusal> {
    if kind == Kind::Pinned {
        return Err(Refusal::OnlyMakePins);
    }
    Ok(())
}

/// How many objects one batch may name.
pub fn check_batch(count: usize) -> Result<(), Refusal> {
    if count == 0 || count > LARGEST_BATCH {
        return Err(Refusal::BatchOutOfRange);
    }
    Ok(())
}
