//! The record of a pool, laid out as the library has it (`ramsummer_pool` in include/ramsummer.h).

use crate::{sys, Limits, Quota, Refusal, Share};
use core::mem::{align_of, offset_of, size_of};

/// Tasks are 0 to 15.
pub const TASKS: usize = 16;

/// The record's entries for blocks: 64 for the small store, then 32 for the large one.
pub const STORE_BLOCKS: usize = 96;

/// The record's entries for expirations.
pub const EXPIRATIONS: usize = 256;

/// In [`Record::clocks`], with the number of a task added: the local time of that task.
pub const CLOCK_LOCAL: u8 = 16;

/// In [`Record::clocks`], with the number of a task added: global time, and that task set the expiration.
pub const CLOCK_GLOBAL: u8 = 32;

/// In [`Record::clocks`]: global time, and the setter has left since.
pub const CLOCK_DEPARTED: u8 = 48;

/// In [`Record::clocks`]: none, since the expiration pins its object.
pub const CLOCK_PINNED: u8 = 49;

/// The maker of an object that has left, for [`Record::maker`]. It stays so, also where another joins by its number.
pub const MAKER_DEPARTED: u8 = 16;

/// The size of a record in bytes.
pub const RECORD: usize = 2904;

/// A task. State 0 is absent, 1 running, 2 waiting, 3 viewing.
#[repr(C)]
#[derive(Clone, Copy, Debug, Default, PartialEq, Eq)]
#[non_exhaustive]
pub struct TaskEntry {
    /// 0 absent, 1 running, 2 waiting, 3 viewing.
    pub state: u16,
    /// 1 where the task has ticked in this period of global time, else 0.
    pub ticked: u16,
    /// The task's local time.
    pub clock: u32,
}

/// All that a pool knows, but for the objects' bytes, which are in the stores.
///
/// It holds nothing but numbers, and any numbers may be in it: each call but `fresh` and `fresh_sized` tests whether the
/// record is well-formed, before all else but what is wrong with a frame itself, and refuses with
/// [`NotWellFormed`](crate::Refusal::NotWellFormed) where it is not.
///
/// Store block `i` and the object in it are `handles[i]` and `extents[i]`, of which [`length`](Record::length),
/// [`maker`](Record::maker), [`prefix`](Record::prefix) and [`sum`](Record::sum) tell the parts; in every pool the small
/// store's are numbered from 0 on, the large one's from 64 on. Expiration `i` is `clocks[i]`, `named[i]` and `dues[i]`; they
/// stand in no order. What lies beyond the [`limits`](Record::limits) is free. The other fields of a free store block or
/// expiration have no meaning, and may hold anything.
#[repr(C)]
#[derive(Clone, Debug, PartialEq, Eq)]
#[non_exhaustive]
pub struct Record {
    /// The tasks, by number.
    pub tasks: [TaskEntry; TASKS],
    /// Global time.
    pub global: u32,
    /// The count of handles given so far.
    pub given: u32,
    /// How much the pool holds, and for how long. No call changes it.
    pub limits: Limits,
    /// What each task asked for when it joined; [`Share::NONE`] where it is absent or views.
    pub shares: [Share; TASKS],
    /// The handle of the object in each store block; 0 where it is free.
    pub handles: [u32; STORE_BLOCKS],
    /// Of each store block the [length](Record::length) of its object in bits 0 to 15, the object's [maker](Record::maker)
    /// in 16 to 23, its [prefix](Record::prefix) in 32 to 47, and the [sum](Record::sum) of the block's bytes in 48 to 63. The
    /// rest is kept for later, and may hold anything.
    pub extents: [u64; STORE_BLOCKS],
    /// The clock that each expiration goes by, and who set it: [`CLOCK_LOCAL`] and the number of a task for the task's
    /// local time, [`CLOCK_GLOBAL`] and the number of the task that set it for global time, [`CLOCK_DEPARTED`] for global
    /// time where the setter has left since, [`CLOCK_PINNED`] for none where it is pinned, and 0 where the entry is free.
    /// (A call's [`Kind`](crate::Kind) is another number.)
    pub clocks: [u8; EXPIRATIONS],
    /// The store block with the object that each expiration belongs to.
    pub named: [u8; EXPIRATIONS],
    /// What the clock of each expiration reads when it is due; 0 where it is pinned.
    pub dues: [u32; EXPIRATIONS],
}

// The library knows the record by these places; the header has the same numbers.
const _: () = {
    assert!(size_of::<Quota>() == 2 && offset_of!(Quota, reserve) == 0 && offset_of!(Quota, limit) == 1);
    assert!(size_of::<Share>() == 4 && offset_of!(Share, small) == 0 && offset_of!(Share, large) == 2);
    assert!(size_of::<TaskEntry>() == 8);
    assert!(offset_of!(TaskEntry, state) == 0 && offset_of!(TaskEntry, ticked) == 2);
    assert!(offset_of!(TaskEntry, clock) == 4);
    assert!(size_of::<Record>() == RECORD && align_of::<Record>() == 8);
    assert!(offset_of!(Record, tasks) == 0 && offset_of!(Record, global) == 128 && offset_of!(Record, given) == 132);
    assert!(offset_of!(Record, limits) == 136 && offset_of!(Record, shares) == 152 && size_of::<Limits>() == 16);
    assert!(offset_of!(Limits, small_blocks) == 0 && offset_of!(Limits, large_blocks) == 4);
    assert!(offset_of!(Limits, expirations) == 8 && offset_of!(Limits, extension) == 12);
    assert!(offset_of!(Record, handles) == 216 && offset_of!(Record, extents) == 600);
    assert!(
        offset_of!(Record, clocks) == 1368 && offset_of!(Record, named) == 1624 && offset_of!(Record, dues) == 1880
    );
};

impl Record {
    /// The record of a fresh pool with [`Limits::STANDARD`]: all zeros but for the limits.
    pub const fn fresh() -> Self {
        Record::of(Limits::STANDARD)
    }

    /// The record of a fresh pool with limits of the site's own. Where one of them is out of its range it is refused with
    /// [`LimitsOutOfRange`](Refusal::LimitsOutOfRange).
    ///
    /// ```
    /// use ramsummer::{Limits, Pool, Record, Refusal, Share};
    ///
    /// let limits = Limits { small_blocks: 16, large_blocks: 4, expirations: 64, extension: 10 };
    /// let (mut small, mut large) = ([0; 16 * 32], [0; 4 * 256]);
    /// let mut pool = Pool::over(Record::sized(limits)?, &mut small, &mut large);
    /// pool.join(0, Share::OPEN)?;
    ///
    /// let none = Limits { expirations: 0, ..limits };
    /// assert_eq!(Record::sized(none), Err(Refusal::LimitsOutOfRange));
    /// # Ok::<(), Refusal>(())
    /// ```
    pub const fn sized(limits: Limits) -> Result<Self, Refusal> {
        if limits.is_allowed() {
            Ok(Record::of(limits))
        } else {
            Err(Refusal::LimitsOutOfRange)
        }
    }

    /// It is well-formed where the limits are allowed.
    pub(crate) const fn of(limits: Limits) -> Self {
        Record {
            tasks: [TaskEntry { state: 0, ticked: 0, clock: 0 }; TASKS],
            global: 0,
            given: 0,
            limits,
            shares: [Share::NONE; TASKS],
            handles: [0; STORE_BLOCKS],
            extents: [0; STORE_BLOCKS],
            clocks: [0; EXPIRATIONS],
            named: [0; EXPIRATIONS],
            dues: [0; EXPIRATIONS],
        }
    }

    /// The length of the object in a store block, 0 to 95. As all that is told of it, it has a meaning where the block is in
    /// use: where its handle is not 0.
    ///
    /// ```
    /// # use ramsummer::{Kind, Pool, Record, Share, LARGE, MAKER_DEPARTED, SMALL};
    /// # let mut pool = Pool::over(Record::fresh(), [0; SMALL], [0; LARGE]);
    /// pool.join(3, Share::OPEN)?;
    /// let handle = pool.make_with_prefix(3, Kind::Pinned, 0, 4, 1)?;
    /// pool.write(3, handle, 0, &[250, 7])?;
    /// let block = pool.record().handles.iter().position(|number| *number == handle.into()).unwrap();
    /// let told = |record: &Record| (record.length(block), record.maker(block), record.prefix(block), record.sum(block));
    /// assert_eq!(told(pool.record()), (4, 3, 1, 257));
    /// pool.leave(3)?;
    /// assert_eq!(told(pool.record()), (4, MAKER_DEPARTED, 1, 257));
    /// # Ok::<(), ramsummer::Refusal>(())
    /// ```
    pub const fn length(&self, block: usize) -> u16 {
        self.extents[block] as u16
    }

    /// How many bytes of the object in a store block a viewer sees, from the first on.
    pub const fn prefix(&self, block: usize) -> u16 {
        (self.extents[block] >> 32) as u16
    }

    /// The sum of all bytes of a store block, 32 or 256 of them. A read and a write compare it with the bytes.
    pub const fn sum(&self, block: usize) -> u16 {
        (self.extents[block] >> 48) as u16
    }

    /// The task that made the object in a store block, or [`MAKER_DEPARTED`] where it has left since.
    pub const fn maker(&self, block: usize) -> u8 {
        (self.extents[block] >> 16) as u8
    }

    /// The record as its bytes, in the order of this machine. They have no version: after an update of the library begin
    /// with [`Record::fresh`] or [`Record::sized`], or keep an [`image`](crate::image), which has a version and a CRC-32.
    ///
    /// ```
    /// # use ramsummer::{Pool, Record, Share, LARGE, SMALL};
    /// # let mut pool = Pool::over(Record::fresh(), [0; SMALL], [0; LARGE]);
    /// pool.join(3, Share::OPEN)?;
    /// let kept: [u8; ramsummer::RECORD] = *pool.record().as_bytes();
    /// assert_eq!(Record::from_bytes(&kept), *pool.record());
    /// # Ok::<(), ramsummer::Refusal>(())
    /// ```
    pub fn as_bytes(&self) -> &[u8; RECORD] {
        sys::record_bytes(self)
    }

    /// The record that these bytes are. Any bytes are a record; the calls test whether it is well-formed.
    pub fn from_bytes(bytes: &[u8; RECORD]) -> Self {
        sys::record_of(bytes)
    }
}

impl Default for Record {
    /// As [`Record::fresh`].
    fn default() -> Self {
        Self::fresh()
    }
}
