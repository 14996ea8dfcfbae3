//! The limits of a pool: four figures that a site chooses when it makes the pool, and that stay for its life.

use crate::{EXPIRATIONS, LARGE_SIZE, SMALL_SIZE};

/// The longest extension that a pool may have for a limit.
pub const MAX_EXTENSION: u8 = 30;

/// How much a pool holds, and for how long. No call changes it.
///
/// ```
/// use ramsummer::Limits;
///
/// let cable = Limits { small_blocks: 16, large_blocks: 4, expirations: 64, extension: 10 };
/// assert!(cable.is_allowed());
/// assert_eq!((cable.small_length(), cable.large_length()), (512, 1024));
/// assert!(!Limits { large_blocks: 33, ..cable }.is_allowed());
/// ```
#[repr(C)] // A record has it as the library does.
#[derive(Clone, Copy, Debug, PartialEq, Eq)]
pub struct Limits {
    /// The blocks of the small store, 1 to 64.
    pub small_blocks: u32,
    /// The blocks of the large store, 1 to 32.
    pub large_blocks: u32,
    /// The expirations that stand at a time, 1 to 256.
    pub expirations: u32,
    /// The longest extension of an expiration, 0 to [`MAX_EXTENSION`].
    pub extension: u32,
}

impl Limits {
    /// Document 01's, which are the largest of each: those of `Pool::new` and [`Record::fresh`](crate::Record::fresh).
    pub const STANDARD: Limits =
        Limits { small_blocks: 64, large_blocks: 32, expirations: EXPIRATIONS as u32, extension: MAX_EXTENSION as u32 };

    /// Whether each is in its range. A pool of others is refused with
    /// [`LimitsOutOfRange`](crate::Refusal::LimitsOutOfRange).
    pub const fn is_allowed(self) -> bool {
        let most = Limits::STANDARD;
        (1 <= self.small_blocks && self.small_blocks <= most.small_blocks)
            && (1 <= self.large_blocks && self.large_blocks <= most.large_blocks)
            && (1 <= self.expirations && self.expirations <= most.expirations)
            && self.extension <= most.extension
    }

    /// How many bytes the small store has.
    pub const fn small_length(self) -> usize {
        (self.small_blocks as usize).saturating_mul(SMALL_SIZE)
    }

    /// How many bytes the large store has.
    pub const fn large_length(self) -> usize {
        (self.large_blocks as usize).saturating_mul(LARGE_SIZE)
    }
}
