//! Why a call was refused: the numbers of documents 01 and 02, and that of a buffer too short.

use core::fmt;

/// Why a call was refused. A refused call changes nothing, but for [`Pool::fresh_sized`](crate::Pool::fresh_sized). With the
/// feature `std` it is a `std::error::Error`.
///
/// ```
/// # use ramsummer::{Pool, Record, Refusal, LARGE, SMALL};
/// # let mut pool = Pool::over(Record::fresh(), [0; SMALL], [0; LARGE]);
/// let refusal = pool.tick(0).unwrap_err();
/// assert_eq!(refusal, Refusal::TaskAbsent);
/// assert_eq!(refusal.number(), 3);
/// assert_eq!(refusal.to_string(), "the task has not joined");
/// ```
#[repr(u8)]
#[derive(Clone, Copy, Debug, PartialEq, Eq, PartialOrd, Ord, Hash)]
#[non_exhaustive]
pub enum Refusal {
    /// Task above 15.
    NoSuchTask = 1,
    /// Join, view: the task is not absent.
    TaskPresent = 2,
    /// The task has not joined.
    TaskAbsent = 3,
    /// The task waits: it has not resumed.
    TaskWaiting = 4,
    /// Resume: the task does not wait: it is running, or a [viewer](crate::Pool::view).
    TaskRunning = 5,
    /// Extension above the pool's [limit](crate::Limits), or above 0 where the kind is [`Pinned`](crate::Kind::Pinned).
    ExtensionTooLong = 6,
    /// Length 0 or above 256.
    LengthOutOfRange = 7,
    /// All 4,294,967,295 handles are given.
    HandlesSpent = 8,
    /// No block of the store for this length is free, or the free ones are held back for other tasks'
    /// [reserves](crate::Quota::reserve).
    NoFreeBlock = 9,
    /// As many expirations stand as the pool's [limit](crate::Limits), or a batch would make them more.
    NoFreeExpiration = 10,
    /// Handle 0, or above the count given.
    HandleNotGiven = 11,
    /// The object's last expiration has ended.
    ObjectGone = 12,
    /// Write: offset plus count above the object's length.
    OutsideObject = 13,
    /// A store that has not exactly the length that the pool's blocks need
    /// ([`Limits::small_length`](crate::Limits::small_length)).
    WrongStoreLength = 14,
    /// The record is damaged.
    NotWellFormed = 15,
    /// Frame: not all pairs of digits 0-9, A-F.
    NotHexadecimal = 16,
    /// Frame: no or an unknown operation.
    UnknownOperation = 17,
    /// Frame: wrong length for its operation.
    WrongFrameLength = 18,
    /// Frame: kind above 2.
    UnknownKind = 19,
    /// A batch of no object, or of more than [`LARGEST_BATCH`](crate::LARGEST_BATCH).
    BatchOutOfRange = 20,
    /// A refresh or a batch of kind [`Pinned`](crate::Kind::Pinned).
    OnlyMakePins = 21,
    /// Release: the object stands, and is not pinned, or no longer.
    NotPinned = 22,
    /// Read, write: the sum of the block's bytes is another than the record's, so that they were changed from outside.
    SumDiffers = 23,
    /// Join: a [reserve](crate::Quota::reserve) is above its limit.
    ReserveAboveLimit = 24,
    /// Join: too few blocks are left for a [reserve](crate::Quota::reserve).
    ReserveNotFree = 25,
    /// Make: the task has as many objects of the store as its [limit](crate::Quota::limit).
    AtLimit = 26,
    /// The task is a [viewer](crate::Pool::view): it reads, asks what remains and leaves, and no more.
    OnlyViews = 27,
    /// Make: the [prefix](crate::Pool::make_with_prefix) is longer than the object.
    PrefixTooLong = 28,
    /// A pool that is made with a [limit](crate::Limits) out of its range.
    LimitsOutOfRange = 29,
    /// Read, frame: no room for the answer in the caller's buffer. It is no refusal of the documents.
    BufferTooShort = 255,
}

impl Refusal {
    /// All refusals, in order of number.
    pub const ALL: &'static [Refusal] = &[
        Refusal::NoSuchTask,
        Refusal::TaskPresent,
        Refusal::TaskAbsent,
        Refusal::TaskWaiting,
        Refusal::TaskRunning,
        Refusal::ExtensionTooLong,
        Refusal::LengthOutOfRange,
        Refusal::HandlesSpent,
        Refusal::NoFreeBlock,
        Refusal::NoFreeExpiration,
        Refusal::HandleNotGiven,
        Refusal::ObjectGone,
        Refusal::OutsideObject,
        Refusal::WrongStoreLength,
        Refusal::NotWellFormed,
        Refusal::NotHexadecimal,
        Refusal::UnknownOperation,
        Refusal::WrongFrameLength,
        Refusal::UnknownKind,
        Refusal::BatchOutOfRange,
        Refusal::OnlyMakePins,
        Refusal::NotPinned,
        Refusal::SumDiffers,
        Refusal::ReserveAboveLimit,
        Refusal::ReserveNotFree,
        Refusal::AtLimit,
        Refusal::OnlyViews,
        Refusal::PrefixTooLong,
        Refusal::LimitsOutOfRange,
        Refusal::BufferTooShort,
    ];

    /// The number that the library and an answer line have for it.
    pub const fn number(self) -> u8 {
        self as u8
    }

    /// The refusal of this number, if there is one.
    pub fn from_number(number: u8) -> Option<Self> {
        Self::ALL.iter().copied().find(|refusal| refusal.number() == number)
    }

    pub(crate) const fn sentence(self) -> &'static str {
        match self {
            Refusal::NoSuchTask => "there is no such task: tasks are 0 to 15",
            Refusal::TaskPresent => "the task has joined already",
            Refusal::TaskAbsent => "the task has not joined",
            Refusal::TaskWaiting => "the task is waiting",
            Refusal::TaskRunning => "the task does not wait",
            Refusal::ExtensionTooLong => "the extension is above the pool's limit, or above 0 for what is pinned",
            Refusal::LengthOutOfRange => "the length is 0 or above 256",
            Refusal::HandlesSpent => "all handles are given",
            Refusal::NoFreeBlock => {
                "no block of the store is free, or the free ones are held back for other tasks' reserves"
            }
            Refusal::NoFreeExpiration => "no more expirations may stand in this pool",
            Refusal::HandleNotGiven => "the handle was never given",
            Refusal::ObjectGone => "the object is gone: its last expiration has ended",
            Refusal::OutsideObject => "the bytes reach beyond the object's end",
            Refusal::WrongStoreLength => "a store has not exactly the length that the pool's blocks need",
            Refusal::NotWellFormed => "the record is not well-formed",
            Refusal::NotHexadecimal => "the frame is not hexadecimal, two digits for a byte",
            Refusal::UnknownOperation => "the frame names no known operation",
            Refusal::WrongFrameLength => "the frame has the wrong length for its operation",
            Refusal::UnknownKind => "the kind is none of local, global and pinned",
            Refusal::BatchOutOfRange => "the batch has no object, or more than 32",
            Refusal::OnlyMakePins => "only a make pins an object",
            Refusal::NotPinned => "the object is not pinned",
            Refusal::SumDiffers => "the sum differs: the block's bytes were changed from outside",
            Refusal::ReserveAboveLimit => "a reserve is above its limit",
            Refusal::ReserveNotFree => "too few blocks are left for a reserve",
            Refusal::AtLimit => "the task has as many objects of the store as its limit",
            Refusal::OnlyViews => "the task is a viewer: it only reads",
            Refusal::PrefixTooLong => "the prefix is longer than the object",
            Refusal::LimitsOutOfRange => {
                "a limit is out of its range: 1 to 64 small blocks, 1 to 32 large, 1 to 256 expirations, extension 0 to 30"
            }
            Refusal::BufferTooShort => "the buffer is too short for the answer",
        }
    }
}

impl fmt::Display for Refusal {
    fn fmt(&self, f: &mut fmt::Formatter<'_>) -> fmt::Result {
        f.pad(self.sentence())
    }
}

#[cfg(feature = "std")]
impl std::error::Error for Refusal {}
