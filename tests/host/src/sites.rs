//! The figures of sites: a small one to try beside 01's, each figure with its range, and those of a ledger; and a ledger's
//! shares.

use plain::limits::Limits;
use plain::record::{Quota, Share};
use reference::{limits, share};

/// A cable with four sensors.
pub const CABLE: Limits = Limits { small_blocks: 16, large_blocks: 4, expirations: 64, extension: 10 };

/// One of the four figures.
pub type Figure = fn(&mut Limits) -> &mut u32;

/// Each with the least and the most that a site may choose.
pub const FIGURES: [(Figure, u32, u32); 4] = [
    (|limits| &mut limits.small_blocks, 1, 64),
    (|limits| &mut limits.large_blocks, 1, 32),
    (|limits| &mut limits.expirations, 1, 256),
    (|limits| &mut limits.extension, 0, 30),
];

/// These figures, but for one.
pub fn with(mut limits: Limits, figure: Figure, value: u32) -> Limits {
    *figure(&mut limits) = value;
    limits
}

/// A ledger's figures, as a record has them.
pub fn of(limits: limits::Limits) -> Limits {
    let limits::Limits { small_blocks, large_blocks, expirations, extension } = limits;
    Limits {
        small_blocks: small_blocks as u32,
        large_blocks: large_blocks as u32,
        expirations: expirations as u32,
        extension: extension as u32,
    }
}

/// A ledger's share, as a record has it.
pub fn share_of(share: share::Share) -> Share {
    let quota = |quota: share::Quota| Quota { reserve: quota.reserve, limit: quota.limit };
    Share { small: quota(share.small), large: quota(share.large) }
}
