//! A pool in place with limits of the site's own, for a host without an allocator.

use crate::{LargeStore, Limits, Pool, Record, Refusal, SmallStore, Store};

/// A pool in place, with stores of so many small and large blocks.
///
/// ```
/// use ramsummer::{Kind, Refusal, Share, SitePool};
///
/// // A cable of four: 16 small and 4 large blocks, 64 expirations, extensions up to 10.
/// let mut pool = SitePool::<16, 4>::in_place::<64, 10>();
/// assert_eq!(size_of_val(&pool), 2904 + 16 * 32 + 4 * 256);
/// pool.join(0, Share::OPEN)?;
/// pool.make(0, Kind::Local, 10, 32)?;
/// assert_eq!(pool.make(0, Kind::Local, 11, 32), Err(Refusal::ExtensionTooLong));
/// # Ok::<(), Refusal>(())
/// ```
pub type SitePool<const SMALL_BLOCKS: usize, const LARGE_BLOCKS: usize> =
    Pool<Record, SmallStore<SMALL_BLOCKS>, LargeStore<LARGE_BLOCKS>>;

impl<const SMALL_BLOCKS: usize, const LARGE_BLOCKS: usize> SitePool<SMALL_BLOCKS, LARGE_BLOCKS> {
    /// A fresh pool of so many blocks, with room for so many expirations, and with this longest extension. It is `const`,
    /// so that it may be a `static`; [the crate's page](crate#without-an-allocator) has one.
    ///
    /// All four are tested when it is compiled: what is out of its range in [`Limits`] does not compile.
    ///
    /// ```compile_fail,E0080
    /// ramsummer::SitePool::<65, 4>::in_place::<64, 10>(); // 65 small blocks
    /// ```
    /// ```compile_fail,E0080
    /// ramsummer::SitePool::<0, 4>::in_place::<64, 10>(); // no small block
    /// ```
    /// ```compile_fail,E0080
    /// ramsummer::SitePool::<16, 33>::in_place::<64, 10>(); // 33 large blocks
    /// ```
    /// ```compile_fail,E0080
    /// ramsummer::SitePool::<16, 0>::in_place::<64, 10>(); // no large block
    /// ```
    /// ```compile_fail,E0080
    /// ramsummer::SitePool::<16, 4>::in_place::<257, 10>(); // 257 expirations
    /// ```
    /// ```compile_fail,E0080
    /// ramsummer::SitePool::<16, 4>::in_place::<0, 10>(); // no expiration
    /// ```
    /// ```compile_fail,E0080
    /// ramsummer::SitePool::<16, 4>::in_place::<64, 31>(); // an extension of 31
    /// ```
    /// ```compile_fail,E0080
    /// ramsummer::SitePool::<4_294_967_297, 4>::in_place::<64, 10>(); // not cut to one small block
    /// ```
    /// ```compile_fail,E0080
    /// ramsummer::SitePool::<16, 4_294_967_297>::in_place::<64, 10>(); // nor to one large one
    /// ```
    pub const fn in_place<const EXPIRATIONS: u32, const EXTENSION: u32>() -> Self {
        let limits = const {
            let limits = Limits {
                small_blocks: count(SMALL_BLOCKS),
                large_blocks: count(LARGE_BLOCKS),
                expirations: EXPIRATIONS,
                extension: EXTENSION,
            };
            assert!(limits.is_allowed(), "{}", Refusal::LimitsOutOfRange.sentence());
            limits
        };
        Pool::over(Record::of(limits), Store::new(), Store::new())
    }
}

/// What 32 bits cannot hold is no count of blocks, and nor is the largest that they can.
const fn count(blocks: usize) -> u32 {
    if blocks > u32::MAX as usize {
        return u32::MAX;
    }
    blocks as u32
}
