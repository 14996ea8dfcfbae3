//! Stores in place: the bytes of a pool's objects, as long as its blocks need.

use crate::Limits;

/// The size of a block of the small store, for objects of 1 to 32 bytes.
pub const SMALL_SIZE: usize = 32;

/// The size of a block of the large store, for objects of 33 to 256 bytes.
pub const LARGE_SIZE: usize = 256;

/// The length of the small store of a pool with [`Limits::STANDARD`]: 64 blocks.
pub const SMALL: usize = Limits::STANDARD.small_length();

/// The length of the large store of a pool with [`Limits::STANDARD`]: 32 blocks.
pub const LARGE: usize = Limits::STANDARD.large_length();

/// A store in place, of so many blocks of one size.
#[derive(Clone, Debug, PartialEq, Eq)]
pub struct Store<const SIZE: usize, const BLOCKS: usize>([[u8; SIZE]; BLOCKS]);

/// A small store in place, of so many blocks.
pub type SmallStore<const BLOCKS: usize> = Store<SMALL_SIZE, BLOCKS>;

/// A large store in place, of so many blocks.
pub type LargeStore<const BLOCKS: usize> = Store<LARGE_SIZE, BLOCKS>;

impl<const SIZE: usize, const BLOCKS: usize> Store<SIZE, BLOCKS> {
    /// All zeros. A pool clears a block before it gives it out, whatever it held.
    pub const fn new() -> Self {
        Store([[0; SIZE]; BLOCKS])
    }
}

impl<const SIZE: usize, const BLOCKS: usize> Default for Store<SIZE, BLOCKS> {
    fn default() -> Self {
        Self::new()
    }
}

impl<const SIZE: usize, const BLOCKS: usize> AsRef<[u8]> for Store<SIZE, BLOCKS> {
    fn as_ref(&self) -> &[u8] {
        self.0.as_flattened()
    }
}

impl<const SIZE: usize, const BLOCKS: usize> AsMut<[u8]> for Store<SIZE, BLOCKS> {
    fn as_mut(&mut self) -> &mut [u8] {
        self.0.as_flattened_mut()
    }
}
