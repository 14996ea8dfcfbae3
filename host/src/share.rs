//! What a task may have of each store: what it asks for when it joins, and what it has.

/// What a task asks for of one store when it joins.
#[repr(C)] // A record has it as the library does.
#[derive(Clone, Copy, Debug, PartialEq, Eq)]
pub struct Quota {
    /// As long as the task has fewer objects of the store, a free block is held back for each that it lacks. At most the
    /// limit.
    pub reserve: u8,
    /// How many objects of the store it may have at a time; 255 is above every count of blocks.
    pub limit: u8,
}

impl Quota {
    /// No reserve, and no limit but the store's own.
    pub const OPEN: Quota = Quota { reserve: 0, limit: u8::MAX };

    /// No reserve, and no object at all: what an absent task and a viewer have.
    pub const NONE: Quota = Quota { reserve: 0, limit: 0 };
}

/// What a task asks for when it [joins](crate::Pool::join): a quota of each store. It has it until it leaves.
///
/// ```
/// use ramsummer::{Quota, Share};
///
/// // Two small blocks are held back for it, and it has eight at most; of large ones it takes what there is.
/// let share = Share { small: Quota { reserve: 2, limit: 8 }, ..Share::OPEN };
/// assert_eq!(share.large, Quota { reserve: 0, limit: 255 });
/// ```
#[repr(C)] // A record has it as the library does.
#[derive(Clone, Copy, Debug, PartialEq, Eq)]
pub struct Share {
    /// Of the small store, for objects of 1 to 32 bytes.
    pub small: Quota,
    /// Of the large store, for objects of 33 to 256 bytes.
    pub large: Quota,
}

impl Share {
    /// Of a task that asks for nothing, and is bounded by nothing but the pool.
    pub const OPEN: Share = Share { small: Quota::OPEN, large: Quota::OPEN };

    /// Of a task that makes no object; and what an absent one and a viewer have.
    pub const NONE: Share = Share { small: Quota::NONE, large: Quota::NONE };
}

/// What a task has of one store. All is 0 of an absent task and of a viewer.
#[derive(Clone, Copy, Debug, Default, PartialEq, Eq)]
#[non_exhaustive]
pub struct Holding {
    /// How many of the objects that stand in the store the task has made since it joined.
    pub made: u8,
    /// Its reserve.
    pub reserve: u8,
    /// Its limit.
    pub limit: u8,
}

impl Holding {
    /// How many blocks are held back for it: as many as its reserve is above what it has made.
    pub const fn unmet(self) -> u8 {
        self.reserve.saturating_sub(self.made)
    }
}

/// What a task has of both stores: the answer to [`Pool::share`](crate::Pool::share).
#[derive(Clone, Copy, Debug, Default, PartialEq, Eq)]
#[non_exhaustive]
pub struct Holdings {
    /// Of the small store.
    pub small: Holding,
    /// Of the large store.
    pub large: Holding,
}
