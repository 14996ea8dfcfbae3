//! The limits of the pool: the four figures that a site chooses, and those that are fixed.

pub const TASKS: usize = 16;

/// The bytes of a block of each store.
pub const SMALL_SIZE: usize = 32;
pub const LARGE_SIZE: usize = 256;

/// The entries of the record's tables: as many as a site may choose at most. The blocks of the large store follow the
/// small one's.
pub const SMALL_BLOCKS: usize = 64;
pub const LARGE_BLOCKS: usize = 32;
pub const BLOCKS: usize = SMALL_BLOCKS + LARGE_BLOCKS;
pub const EXPIRATIONS: usize = 256;

/// The most objects of a batch.
pub const LARGEST_BATCH: usize = 32;

/// The longest script that a program reads, in bytes.
pub const LONGEST_SCRIPT: usize = 65_536;

/// The number of the last kind, which pins; 0 is local and 1 global.
pub const PINNING: u8 = 2;

/// The units that a local expiration stands beyond its extension, and a global one.
pub const LOCAL_EXTRA: u32 = 1;
pub const GLOBAL_EXTRA: u32 = 2;

/// The figures of a site, which stay for the life of a pool: the blocks of each store, the expirations that stand at most,
/// and the largest extension.
#[derive(Clone, Copy, Debug, PartialEq, Eq)]
#[repr(C)]
pub struct Limits {
    pub small_blocks: u32,
    pub large_blocks: u32,
    pub expirations: u32,
    pub extension: u32,
}

impl Limits {
    /// Document 01's, the largest of each.
    pub const STANDARD: Limits = Limits {
        small_blocks: SMALL_BLOCKS as u32,
        large_blocks: LARGE_BLOCKS as u32,
        expirations: EXPIRATIONS as u32,
        extension: 30,
    };

    /// The smallest of each.
    pub const SMALLEST: Limits = Limits { small_blocks: 1, large_blocks: 1, expirations: 1, extension: 0 };

    /// Whether a site may choose them: no figure is below the least or above 01's.
    pub const fn is_allowed(self) -> bool {
        let (least, most) = (Limits::SMALLEST, Limits::STANDARD);
        is_within(self.small_blocks, least.small_blocks, most.small_blocks)
            & is_within(self.large_blocks, least.large_blocks, most.large_blocks)
            & is_within(self.expirations, least.expirations, most.expirations)
            & is_within(self.extension, least.extension, most.extension)
    }

    /// The bytes of each store that is lent.
    pub const fn small_store(self) -> usize {
        self.small_blocks as usize * SMALL_SIZE
    }

    pub const fn large_store(self) -> usize {
        self.large_blocks as usize * LARGE_SIZE
    }
}

const fn is_within(figure: u32, least: u32, most: u32) -> bool {
    least <= figure && figure <= most
}
