//! The pool: a record and two stores, owned or borrowed, and the calls on them.

use crate::{sys, Answer, Handle, Holdings, Kind, Limits, Record, Refusal, Remaining, Report, Share, Tasks};
#[cfg(feature = "alloc")]
use alloc::{boxed::Box, vec, vec::Vec};
use core::borrow::BorrowMut;
use core::fmt;

/// The length of the longest object: room for any read.
pub const LONGEST: usize = 256;

/// The most objects that [`Pool::refresh_all`] takes.
pub const LARGEST_BATCH: usize = 32;

/// The room that [`Pool::frame`] asks for. An answer line has at most 515 bytes.
pub const LINE: usize = 531;

/// A memory pool: its record and its two stores, in place ([`SitePool`](crate::SitePool)), borrowed ([`Pool::over`]) or in
/// boxes (`Pool::new` and `Pool::sized`, with the feature `alloc`).
///
/// Tasks are 0 to 15. Each call is carried out, or refused without any change; [`fresh_sized`](Pool::fresh_sized) alone
/// changes the record also where it is refused.
#[derive(Clone, PartialEq, Eq)]
pub struct Pool<
    #[cfg(feature = "alloc")] R = Box<Record>,
    #[cfg(not(feature = "alloc"))] R,
    #[cfg(feature = "alloc")] S = Box<[u8]>,
    #[cfg(not(feature = "alloc"))] S,
    L = S,
> {
    record: R,
    small: S,
    large: L,
}

#[cfg(feature = "alloc")]
impl Pool {
    /// A fresh pool with [`Limits::STANDARD`], its record and stores in boxes.
    ///
    /// ```
    /// use ramsummer::{Kind, Pool, Refusal, Share};
    ///
    /// let mut pool = Pool::new();
    /// pool.join(0, Share::OPEN)?;
    /// let handle = pool.make(0, Kind::Local, 0, 4)?;
    /// pool.write(0, handle, 1, &[0xA5])?;
    /// assert_eq!(pool.read_to_vec(0, handle)?, [0, 0xA5, 0, 0]);
    /// pool.tick(0)?;
    /// assert_eq!(pool.read_to_vec(0, handle), Err(Refusal::ObjectGone));
    /// # Ok::<(), Refusal>(())
    /// ```
    pub fn new() -> Self {
        Self::boxed(Record::fresh())
    }

    /// A fresh pool with limits of the site's own, its record and stores in boxes. Where a limit is out of its range it is
    /// refused with [`LimitsOutOfRange`](Refusal::LimitsOutOfRange).
    ///
    /// ```
    /// use ramsummer::{Kind, Limits, Pool, Refusal, Share};
    ///
    /// let limits = Limits { small_blocks: 1, large_blocks: 1, expirations: 2, extension: 0 };
    /// let mut pool = Pool::sized(limits)?;
    /// pool.join(0, Share::OPEN)?;
    /// pool.make(0, Kind::Local, 0, 32)?;
    /// assert_eq!(pool.make(0, Kind::Local, 0, 32), Err(Refusal::NoFreeBlock));
    /// pool.make(0, Kind::Local, 0, 33)?;
    /// assert_eq!(pool.refresh(0, Kind::Local, 0, 1.into()), Err(Refusal::NoFreeExpiration));
    /// assert_eq!(pool.refresh(0, Kind::Local, 1, 1.into()), Err(Refusal::ExtensionTooLong));
    /// # Ok::<(), Refusal>(())
    /// ```
    pub fn sized(limits: Limits) -> Result<Self, Refusal> {
        Record::sized(limits).map(Self::boxed)
    }

    /// The stores are as long as the record's limits say.
    fn boxed(record: Record) -> Self {
        let (small, large) = (record.limits.small_length(), record.limits.large_length());
        Pool::over(record.into(), vec![0; small].into(), vec![0; large].into())
    }
}

#[cfg(feature = "alloc")]
impl Default for Pool {
    /// As [`Pool::new`].
    fn default() -> Self {
        Self::new()
    }
}

impl<R, S, L> Pool<R, S, L>
where
    R: BorrowMut<Record>,
    S: AsRef<[u8]> + AsMut<[u8]>,
    L: AsRef<[u8]> + AsMut<[u8]>,
{
    /// A pool over this record and these stores, each owned or borrowed. It is `const`, so that a pool may be a `static`.
    ///
    /// The stores are as long as the record's limits say ([`Limits::small_length`], [`Limits::large_length`]); the calls that
    /// use them refuse others. With [`Record::fresh`] they are [`SMALL`](crate::SMALL) and [`LARGE`](crate::LARGE) bytes long.
    /// A record that was kept over a restart may be damaged; a report tells.
    ///
    /// ```
    /// use ramsummer::{Pool, Record, Refusal, Share, LARGE, SMALL};
    ///
    /// let (mut record, mut small, mut large) = (Record::fresh(), [0; SMALL], [0; LARGE]);
    /// record.tasks[5].clock = 1; // damaged: task 5 is absent
    /// let mut pool = Pool::over(&mut record, &mut small, &mut large);
    /// if pool.report() == Err(Refusal::NotWellFormed) {
    ///     pool.fresh();
    /// }
    /// pool.join(5, Share::OPEN)?;
    /// # Ok::<(), Refusal>(())
    /// ```
    pub const fn over(record: R, small: S, large: L) -> Self {
        Pool { record, small, large }
    }

    /// The record and the small and the large store, handed back.
    pub fn into_parts(self) -> (R, S, L) {
        (self.record, self.small, self.large)
    }

    /// The record.
    pub fn record(&self) -> &Record {
        self.record.borrow()
    }

    /// The small store.
    pub fn small(&self) -> &[u8] {
        self.small.as_ref()
    }

    /// The large store.
    pub fn large(&self) -> &[u8] {
        self.large.as_ref()
    }

    /// Makes the record that of a fresh pool with [`Limits::STANDARD`], whatever it held. The stores stay as they are; those
    /// of a pool with other limits are then refused, and [`fresh_sized`](Pool::fresh_sized) is for it.
    pub fn fresh(&mut self) {
        sys::fresh(self.record.borrow_mut())
    }

    /// Makes the record that of a fresh pool with these limits, whatever it held. The stores stay as they are, and have to be
    /// as long as the limits say.
    ///
    /// Where a limit is out of its range it is refused with [`LimitsOutOfRange`](Refusal::LimitsOutOfRange), and what it
    /// leaves is a record that is not well-formed: each call on it is refused, until it is made fresh.
    ///
    /// ```
    /// # use ramsummer::{Limits, Refusal, Share, SitePool};
    /// # let mut pool = SitePool::<16, 4>::in_place::<64, 10>();
    /// let limits = Limits { small_blocks: 16, large_blocks: 4, expirations: 64, extension: 10 };
    /// let none = Limits { small_blocks: 0, ..limits };
    /// assert_eq!(pool.fresh_sized(none), Err(Refusal::LimitsOutOfRange));
    /// assert_eq!(pool.join(0, Share::OPEN), Err(Refusal::NotWellFormed));
    /// pool.fresh_sized(limits)?;
    /// pool.join(0, Share::OPEN)?;
    /// # Ok::<(), Refusal>(())
    /// ```
    pub fn fresh_sized(&mut self, limits: Limits) -> Result<(), Refusal> {
        sys::fresh_sized(self.record.borrow_mut(), limits)
    }

    /// Absent to running, with clock 0 and this share: [`Share::OPEN`] where the task asks for nothing.
    ///
    /// As long as the task has made fewer of the small objects that stand than its reserve, a free block is held back for
    /// each that it lacks: others are refused with [`NoFreeBlock`](Refusal::NoFreeBlock), and no make of this task is. And
    /// it is refused with [`AtLimit`](Refusal::AtLimit) while it has as many as its limit. So for the large ones.
    ///
    /// ```
    /// use ramsummer::{Kind, Quota, Refusal, Share, SitePool};
    ///
    /// let of_small = |reserve, limit| Share { small: Quota { reserve, limit }, ..Share::OPEN };
    /// let mut pool = SitePool::<4, 1>::in_place::<16, 10>();
    /// pool.join(0, of_small(2, 255))?;
    /// pool.join(1, of_small(0, 1))?;
    /// pool.join(2, Share::OPEN)?;
    /// pool.make(1, Kind::Local, 0, 8)?;
    /// assert_eq!(pool.make(1, Kind::Local, 0, 8), Err(Refusal::AtLimit));
    /// pool.make(2, Kind::Local, 0, 8)?;
    /// assert_eq!(pool.make(2, Kind::Local, 0, 8), Err(Refusal::NoFreeBlock)); // two are free, for task 0
    /// pool.make(0, Kind::Local, 0, 8)?;
    /// pool.make(0, Kind::Local, 0, 8)?;
    ///
    /// assert_eq!(pool.join(3, of_small(2, 1)), Err(Refusal::ReserveAboveLimit));
    /// assert_eq!(pool.join(3, of_small(1, 1)), Err(Refusal::ReserveNotFree));
    /// # Ok::<(), Refusal>(())
    /// ```
    pub fn join(&mut self, task: u8, share: Share) -> Result<(), Refusal> {
        sys::join(self.record.borrow_mut(), task, share)
    }

    /// Absent to viewing, with clock 0 and [`Share::NONE`]: a task that reads of each object its
    /// [prefix](Pool::make_with_prefix) alone, and changes none.
    ///
    /// It does not run, so that global time never waits for it. It reads, asks what [remains](Pool::remaining) of an object,
    /// and leaves; what else a running task may do is refused with [`OnlyViews`](Refusal::OnlyViews), and a resume with
    /// [`TaskRunning`](Refusal::TaskRunning).
    ///
    /// ```
    /// # use ramsummer::*;
    /// # let mut pool = Pool::over(Record::fresh(), [0; SMALL], [0; LARGE]);
    /// pool.join(0, Share::OPEN)?;
    /// pool.view(1)?;
    /// let handle = pool.make_with_prefix(0, Kind::Global, 0, 11, 7)?;
    /// pool.write(0, handle, 0, b"12.50 m 8F3")?;
    ///
    /// let mut room = [0; LONGEST];
    /// assert_eq!(pool.read(1, handle, &mut room)?, b"12.50 m");
    /// assert_eq!(pool.write(1, handle, 0, b"99"), Err(Refusal::OnlyViews));
    /// assert_eq!(pool.tick(0), Ok(true)); // it waits for task 0 alone
    /// # Ok::<(), Refusal>(())
    /// ```
    pub fn view(&mut self, task: u8) -> Result<(), Refusal> {
        sys::view(self.record.borrow_mut(), task)
    }

    /// To absent; the local expirations that this task set go. Those by global time stay and count on, whoever joins by
    /// its number later. What the task made and what stands on counts for nobody from then on, and its share is given up.
    /// Answers whether global time advanced.
    pub fn leave(&mut self, task: u8) -> Result<bool, Refusal> {
        sys::leave(self.record.borrow_mut(), task)
    }

    /// Running to waiting: global time goes on without this task. Answers whether global time advanced.
    ///
    /// A task calls it before it waits for something that may not come: while it runs and does not tick, global time
    /// stands, and no object with a global expiration goes.
    ///
    /// What the task itself has set waits with it: its local time stands, and each advance puts its global expirations
    /// off by one, the advance that its block brings too.
    ///
    /// ```
    /// # use ramsummer::*;
    /// # let mut pool = Pool::over(Record::fresh(), [0; SMALL], [0; LARGE]);
    /// pool.join(0, Share::OPEN)?;
    /// pool.join(1, Share::OPEN)?;
    /// let request = pool.make(1, Kind::Global, 0, 4)?;
    /// assert_eq!(pool.tick(0), Ok(false)); // task 1 has not ticked
    /// assert_eq!(pool.block(1), Ok(true)); // and need not any more
    /// for _ in 0..100 {
    ///     assert_eq!(pool.tick(0), Ok(true));
    /// }
    /// pool.resume(1)?;
    /// assert_eq!(pool.remaining(1, request)?.global, 2);
    /// # Ok::<(), Refusal>(())
    /// ```
    pub fn block(&mut self, task: u8) -> Result<bool, Refusal> {
        sys::block(self.record.borrow_mut(), task)
    }

    /// Waiting to running.
    pub fn resume(&mut self, task: u8) -> Result<(), Refusal> {
        sys::resume(self.record.borrow_mut(), task)
    }

    /// One unit of the task's local time; once all running tasks have ticked, one of global time. Answers whether
    /// global time advanced.
    pub fn tick(&mut self, task: u8) -> Result<bool, Refusal> {
        sys::tick(self.record.borrow_mut(), task)
    }

    /// A new object of `length` zero bytes, 1 to [`LONGEST`], with one expiration. The extension is 0 to the pool's
    /// [limit](Limits), and 0 where the object is pinned, which is until its [`release`](Pool::release). A
    /// [viewer](Pool::view) sees none of its bytes.
    ///
    /// ```
    /// # use ramsummer::*;
    /// # let mut pool = Pool::over(Record::fresh(), [0; SMALL], [0; LARGE]);
    /// pool.join(0, Share::OPEN)?;
    /// for _ in 0..64 {
    ///     pool.make(0, Kind::Local, 30, 32)?;
    /// }
    /// assert_eq!(pool.make(0, Kind::Local, 30, 32), Err(Refusal::NoFreeBlock));
    /// assert!(pool.make(0, Kind::Local, 30, 33).is_ok()); // of the large store
    /// # Ok::<(), Refusal>(())
    /// ```
    pub fn make(&mut self, task: u8, kind: Kind, extension: u8, length: u16) -> Result<Handle, Refusal> {
        self.make_with_prefix(task, kind, extension, length, 0)
    }

    /// The same, and a [viewer](Pool::view) sees the object's first `prefix` bytes, up to all of them. A longer one is refused
    /// with [`PrefixTooLong`](Refusal::PrefixTooLong).
    ///
    /// ```
    /// # use ramsummer::*;
    /// # let mut pool = Pool::over(Record::fresh(), [0; SMALL], [0; LARGE]);
    /// pool.join(0, Share::OPEN)?;
    /// pool.view(1)?;
    /// let mut room = [0; LONGEST];
    /// for prefix in 0..=4 {
    ///     let handle = pool.make_with_prefix(0, Kind::Local, 0, 4, prefix)?;
    ///     assert_eq!(pool.read(0, handle, &mut room)?.len(), 4);
    ///     assert_eq!(pool.read(1, handle, &mut room)?.len(), prefix.into());
    /// }
    /// assert_eq!(pool.make_with_prefix(0, Kind::Local, 0, 4, 5), Err(Refusal::PrefixTooLong));
    /// # Ok::<(), Refusal>(())
    /// ```
    pub fn make_with_prefix(
        &mut self,
        task: u8,
        kind: Kind,
        extension: u8,
        length: u16,
        prefix: u16,
    ) -> Result<Handle, Refusal> {
        let (record, small, large) = self.parts();
        sys::make(record, small, large, task, kind, extension, length, prefix)
    }

    /// A [`make`](Pool::make) and a [`write`](Pool::write) in one: a new object of these bytes, 1 to [`LONGEST`]. Refused as a
    /// make is; the write after it never is. [`get`](Pool::get) gives them back.
    ///
    /// ```
    /// # use ramsummer::*;
    /// # let mut pool = Pool::over(Record::fresh(), [0; SMALL], [0; LARGE]);
    /// pool.join(0, Share::OPEN)?;
    /// let level = 1250_u16; // in centimetres
    /// let handle = pool.put(0, Kind::Local, 0, &level.to_be_bytes())?;
    /// assert_eq!(u16::from_be_bytes(pool.get(0, handle)?), level);
    ///
    /// assert_eq!(pool.put(0, Kind::Local, 0, &[]), Err(Refusal::LengthOutOfRange));
    /// assert_eq!(pool.put(0, Kind::Local, 0, &[0; LONGEST + 1]), Err(Refusal::LengthOutOfRange));
    /// # Ok::<(), Refusal>(())
    /// ```
    pub fn put(&mut self, task: u8, kind: Kind, extension: u8, bytes: &[u8]) -> Result<Handle, Refusal> {
        self.put_with_prefix(task, kind, extension, bytes, 0)
    }

    /// The same, and a [viewer](Pool::view) sees the first `prefix` bytes, as of [`make_with_prefix`](Pool::make_with_prefix).
    ///
    /// ```
    /// # use ramsummer::*;
    /// # let mut pool = Pool::over(Record::fresh(), [0; SMALL], [0; LARGE]);
    /// pool.join(0, Share::OPEN)?;
    /// pool.view(1)?;
    /// let handle = pool.put_with_prefix(0, Kind::Global, 0, b"12.50 m 8F3", 7)?;
    /// assert_eq!(&pool.get(0, handle)?, b"12.50 m 8F3");
    /// assert_eq!(&pool.get(1, handle)?, b"12.50 m");
    /// # Ok::<(), Refusal>(())
    /// ```
    pub fn put_with_prefix(
        &mut self,
        task: u8,
        kind: Kind,
        extension: u8,
        bytes: &[u8],
        prefix: u16,
    ) -> Result<Handle, Refusal> {
        let length = u16::try_from(bytes.len()).unwrap_or(u16::MAX); // which no object has
        let handle = self.make_with_prefix(task, kind, extension, length, prefix)?;
        self.write(task, handle, 0, bytes)?;
        Ok(handle)
    }

    /// One more expiration for the object; those that it has stay. The extension is 0 to the pool's [limit](Limits). Kind
    /// [`Pinned`](Kind::Pinned) is refused with [`OnlyMakePins`](Refusal::OnlyMakePins).
    ///
    /// ```
    /// # use ramsummer::*;
    /// # let mut pool = Pool::over(Record::fresh(), [0; SMALL], [0; LARGE]);
    /// pool.join(0, Share::OPEN)?;
    /// let handle = pool.make(0, Kind::Local, 0, 4)?;
    /// pool.refresh(0, Kind::Local, 1, handle)?;
    /// pool.tick(0)?;
    /// assert_eq!(pool.report()?.small, 1); // it would be gone by now
    /// # Ok::<(), Refusal>(())
    /// ```
    pub fn refresh(&mut self, task: u8, kind: Kind, extension: u8, handle: Handle) -> Result<(), Refusal> {
        sys::refresh(self.record.borrow_mut(), task, kind, extension, handle)
    }

    /// A batch: one more expiration for each of these objects, 1 to [`LARGEST_BATCH`], so that they live on together;
    /// or for none of them, where one is refused. An object that is named twice gets two.
    ///
    /// ```
    /// # use ramsummer::*;
    /// # let mut pool = Pool::over(Record::fresh(), [0; SMALL], [0; LARGE]);
    /// pool.join(0, Share::OPEN)?;
    /// let mut scan = [Handle::from(0); 3];
    /// for reading in &mut scan {
    ///     *reading = pool.make(0, Kind::Local, 0, 4)?;
    /// }
    /// pool.refresh_all(0, Kind::Local, 1, &scan)?;
    /// pool.tick(0)?;
    /// assert_eq!(pool.report()?.small, 3); // they would be gone by now
    /// pool.tick(0)?;
    /// assert_eq!(pool.report()?.small, 0);
    ///
    /// let late = pool.make(0, Kind::Local, 0, 4)?;
    /// assert_eq!(pool.refresh_all(0, Kind::Local, 1, &[late, scan[0]]), Err(Refusal::ObjectGone));
    /// assert_eq!(pool.report()?.expirations, 1); // the late one has not got another either
    /// # Ok::<(), Refusal>(())
    /// ```
    pub fn refresh_all(&mut self, task: u8, kind: Kind, extension: u8, handles: &[Handle]) -> Result<(), Refusal> {
        sys::refresh_all(self.record.borrow_mut(), task, kind, extension, handles)
    }

    /// Ends what pins the object, whoever pinned it. It stands on where another expiration does; else its store block is
    /// free at once.
    ///
    /// What is pinned takes a store block and one of the expirations until then. A handle that is lost can still be found
    /// in the record: where `clocks` is [`CLOCK_PINNED`](crate::CLOCK_PINNED), it is `handles` of the block `named`.
    ///
    /// ```
    /// # use ramsummer::*;
    /// # let mut pool = Pool::over(Record::fresh(), [0; SMALL], [0; LARGE]);
    /// pool.join(0, Share::OPEN)?;
    /// pool.join(1, Share::OPEN)?;
    /// let calibration = pool.make(0, Kind::Pinned, 0, 4)?;
    /// pool.leave(0)?;
    /// for _ in 0..1000 {
    ///     pool.tick(1)?;
    /// }
    /// assert_eq!(pool.report()?.small, 1); // it outlives its maker and all time
    /// pool.release(1, calibration)?;
    /// assert_eq!(pool.report()?.small, 0);
    ///
    /// let reading = pool.make(1, Kind::Local, 0, 4)?;
    /// assert_eq!(pool.release(1, reading), Err(Refusal::NotPinned));
    /// # Ok::<(), Refusal>(())
    /// ```
    pub fn release(&mut self, task: u8, handle: Handle) -> Result<(), Refusal> {
        sys::release(self.record.borrow_mut(), task, handle)
    }

    /// The object's bytes, to a [viewer](Pool::view) those of its prefix alone, copied to the start of `out`; the rest of `out`
    /// stays. Where any byte of the block was changed from outside it is refused with [`SumDiffers`](Refusal::SumDiffers),
    /// [as far as a sum can tell](crate#bytes-changed-from-outside).
    ///
    /// ```
    /// # use ramsummer::*;
    /// # let mut pool = Pool::over(Record::fresh(), [0; SMALL], [0; LARGE]);
    /// pool.join(0, Share::OPEN)?;
    /// let handle = pool.make(0, Kind::Local, 0, 4)?;
    /// let mut room = [0; LONGEST];
    /// assert_eq!(pool.read(0, handle, &mut room)?, [0, 0, 0, 0]);
    /// # Ok::<(), Refusal>(())
    /// ```
    pub fn read<'out>(&mut self, task: u8, handle: Handle, out: &'out mut [u8]) -> Result<&'out [u8], Refusal> {
        let (record, small, large) = self.parts();
        let length = sys::read(record, small, large, task, handle, out)?;
        Ok(&out[..length])
    }

    /// The bytes that a [`read`](Pool::read) tells, in an array of just as many. Where there are more it is refused with
    /// [`BufferTooShort`](Refusal::BufferTooShort), and where there are fewer with [`OutsideObject`](Refusal::OutsideObject).
    ///
    /// ```
    /// # use ramsummer::*;
    /// # let mut pool = Pool::over(Record::fresh(), [0; SMALL], [0; LARGE]);
    /// pool.join(0, Share::OPEN)?;
    /// let handle = pool.put(0, Kind::Local, 0, &[7, 4, 226])?;
    /// let [sensor, level @ ..] = pool.get::<3>(0, handle)?;
    /// assert_eq!((sensor, u16::from_be_bytes(level)), (7, 1250));
    ///
    /// assert_eq!(pool.get::<2>(0, handle), Err(Refusal::BufferTooShort));
    /// assert_eq!(pool.get::<4>(0, handle), Err(Refusal::OutsideObject));
    /// # Ok::<(), Refusal>(())
    /// ```
    pub fn get<const LENGTH: usize>(&mut self, task: u8, handle: Handle) -> Result<[u8; LENGTH], Refusal> {
        let mut bytes = [0; LENGTH];
        let count = self.read(task, handle, &mut bytes)?.len();
        if count < LENGTH {
            return Err(Refusal::OutsideObject);
        }
        Ok(bytes)
    }

    /// The bytes that a [`read`](Pool::read) tells, in a vector.
    #[cfg(feature = "alloc")]
    pub fn read_to_vec(&mut self, task: u8, handle: Handle) -> Result<Vec<u8>, Refusal> {
        self.read(task, handle, &mut [0; LONGEST]).map(<[u8]>::to_vec)
    }

    /// Replaces `bytes.len()` bytes of the object, from `offset` on. The record gets the new sum of its block. Refused with
    /// [`SumDiffers`](Refusal::SumDiffers) as a read is: what was changed from outside cannot be written over.
    pub fn write(&mut self, task: u8, handle: Handle, offset: u8, bytes: &[u8]) -> Result<(), Refusal> {
        let (record, small, large) = self.parts();
        sys::write(record, small, large, task, handle, offset, bytes)
    }

    /// The pool's figures. The only refusal is that of a record that is not well-formed.
    ///
    /// The library is lent a copy of the record, on the stack, so that a pool can be asked that is only looked at.
    ///
    /// ```
    /// # use ramsummer::*;
    /// # let mut pool = Pool::over(Record::fresh(), [0; SMALL], [0; LARGE]);
    /// pool.join(0, Share::OPEN)?;
    /// pool.make(0, Kind::Global, 0, 200)?;
    /// assert_eq!(pool.report()?.to_string(), "small 0, large 1, expirations 1, given 1");
    /// # Ok::<(), Refusal>(())
    /// ```
    pub fn report(&self) -> Result<Report, Refusal> {
        sys::report(&mut self.record().clone())
    }

    /// How long the object stands without a refresh, for a task that refreshes only what would be gone too soon. As for
    /// a report, the library is lent a copy of the record.
    ///
    /// ```
    /// # use ramsummer::*;
    /// # let mut pool = Pool::over(Record::fresh(), [0; SMALL], [0; LARGE]);
    /// pool.join(0, Share::OPEN)?;
    /// let handle = pool.make(0, Kind::Local, 0, 4)?;
    /// pool.refresh(0, Kind::Global, 1, handle)?;
    /// let left = pool.remaining(0, handle)?;
    /// assert_eq!((left.local, left.global), (1, 3));
    /// pool.tick(0)?; // global time advances too, since task 0 runs alone
    /// let left = pool.remaining(0, handle)?;
    /// assert_eq!((left.local, left.global), (0, 2));
    /// # Ok::<(), Refusal>(())
    /// ```
    pub fn remaining(&self, task: u8, handle: Handle) -> Result<Remaining, Refusal> {
        sys::remaining(&mut self.record().clone(), task, handle)
    }

    /// For whom global time waits: the tasks that run and have not ticked since it last advanced. As for a report, the
    /// library is lent a copy of the record.
    ///
    /// ```
    /// # use ramsummer::*;
    /// # let mut pool = Pool::over(Record::fresh(), [0; SMALL], [0; LARGE]);
    /// pool.join(3, Share::OPEN)?;
    /// pool.join(7, Share::OPEN)?;
    /// pool.tick(3)?;
    /// assert!(pool.awaited()?.contains(7));
    /// assert!(pool.awaited()?.iter().eq([7]));
    /// # Ok::<(), Refusal>(())
    /// ```
    pub fn awaited(&self) -> Result<Tasks, Refusal> {
        sys::awaited(&mut self.record().clone()).map(Tasks::of_bits)
    }

    /// What a task has of each store: how many of the objects that stand it has made, its reserve and its limit; all 0
    /// where it is absent or views. As for a report, the library is lent a copy of the record.
    ///
    /// ```
    /// # use ramsummer::*;
    /// # let mut pool = Pool::over(Record::fresh(), [0; SMALL], [0; LARGE]);
    /// pool.join(0, Share { small: Quota { reserve: 3, limit: 8 }, ..Share::OPEN })?;
    /// pool.make(0, Kind::Local, 0, 4)?;
    /// let small = pool.share(0)?.small;
    /// assert_eq!((small.made, small.reserve, small.limit), (1, 3, 8));
    /// assert_eq!(small.unmet(), 2); // so many blocks are held back for it
    /// pool.leave(0)?;
    /// assert_eq!(pool.share(0)?, Holdings::default());
    /// # Ok::<(), Refusal>(())
    /// ```
    pub fn share(&self, task: u8) -> Result<Holdings, Refusal> {
        sys::share(&mut self.record().clone(), task)
    }

    /// Carries out one call frame: a line of hexadecimal without its LF. The answer line goes to the start of `out`,
    /// which is at least [`LINE`] long.
    ///
    /// ```
    /// # use ramsummer::*;
    /// # let mut pool = Pool::over(Record::fresh(), [0; SMALL], [0; LARGE]);
    /// let mut room = [0; LINE];
    /// assert_eq!(pool.frame(b"010000FF00FF", &mut room).line, b"00\n"); // task 0 joins, with Share::OPEN
    /// let answer = pool.frame(b"010000FF00FF", &mut room); // and again
    /// assert_eq!(answer.line, b"02\n");
    /// assert_eq!(answer.outcome, Err(Refusal::TaskPresent));
    /// ```
    pub fn frame<'out>(&mut self, line: &[u8], out: &'out mut [u8]) -> Answer<'out> {
        let (record, small, large) = self.parts();
        let (outcome, length) = sys::frame(record, small, large, line, out);
        Answer { outcome, line: &out[..length] }
    }

    fn parts(&mut self) -> (&mut Record, &mut [u8], &mut [u8]) {
        (self.record.borrow_mut(), self.small.as_mut(), self.large.as_mut())
    }
}

impl<R: BorrowMut<Record>, S, L> fmt::Debug for Pool<R, S, L> {
    /// The record, and not the thousands of bytes of the stores.
    fn fmt(&self, f: &mut fmt::Formatter<'_>) -> fmt::Result {
        f.debug_struct("Pool").field("record", self.record.borrow()).finish_non_exhaustive()
    }
}

impl<R: BorrowMut<Record>, S, L> fmt::Display for Pool<R, S, L> {
    /// Global time and the report's figures on one line, or why there is no report.
    fn fmt(&self, f: &mut fmt::Formatter<'_>) -> fmt::Result {
        let record = self.record.borrow();
        match sys::report(&mut record.clone()) {
            Ok(report) => write!(f, "global time {}, {report}", record.global),
            Err(refusal) => write!(f, "{refusal}"),
        }
    }
}
