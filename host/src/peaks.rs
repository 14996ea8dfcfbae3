//! High-water marks: the most that stood at a time. They are kept here, outside the record, and nothing of them is proved.

use crate::{Answer, Handle, Kind, Pool, Record, Refusal, Report};
use core::borrow::BorrowMut;
use core::fmt;
use core::ops::{Deref, DerefMut};

/// The high-water marks of a pool: the most of each figure that a report has told since they were begun.
///
/// They know what they are told. Only an accepted make, refresh or batch, as a call or as a frame, raises a figure; a
/// report after each of these misses nothing ([`Gauged`] does that), and one in each cycle costs less. A site that has
/// gauged its pool may choose smaller [`Limits`](crate::Limits) for it.
///
/// ```
/// # use ramsummer::*;
/// # let mut pool = Pool::over(Record::fresh(), [0; SMALL], [0; LARGE]);
/// let mut peaks = Peaks::default();
/// pool.join(0, Share::OPEN)?;
/// for _ in 0..3 {
///     pool.make(0, Kind::Local, 0, 4)?;
///     pool.make(0, Kind::Local, 0, 40)?;
///     peaks.note(pool.report()?);
///     pool.tick(0)?;
/// }
/// assert_eq!(pool.report()?.small, 0);
/// assert_eq!(peaks.to_string(), "small 1, large 1, expirations 2");
/// # Ok::<(), Refusal>(())
/// ```
#[derive(Clone, Copy, Debug, Default, PartialEq, Eq)]
#[non_exhaustive]
pub struct Peaks {
    /// The most objects that stood in the small store.
    pub small: u8,
    /// The most objects that stood in the large store.
    pub large: u8,
    /// The most expirations that stood.
    pub expirations: u16,
}

impl Peaks {
    /// Those of a fresh pool. [`Peaks::of`] begins them on another.
    pub const fn new() -> Self {
        Peaks { small: 0, large: 0, expirations: 0 }
    }

    /// Begun with this report: what stands is the most so far.
    pub const fn of(report: Report) -> Self {
        Peaks { small: report.small, large: report.large, expirations: report.expirations }
    }

    /// Takes up a report: one comparison of each figure.
    pub fn note(&mut self, report: Report) {
        self.small = self.small.max(report.small);
        self.large = self.large.max(report.large);
        self.expirations = self.expirations.max(report.expirations);
    }
}

impl fmt::Display for Peaks {
    /// The marks on one line, such as `small 2, large 0, expirations 3`.
    fn fmt(&self, f: &mut fmt::Formatter<'_>) -> fmt::Result {
        let Peaks { small, large, expirations } = self;
        write!(f, "small {small}, large {large}, expirations {expirations}")
    }
}

/// A pool that keeps its high-water marks: each accepted make, put, refresh, batch and frame is followed by a report, and
/// costs that much more. All other calls are the pool's own; `fresh` and `fresh_sized` leave the marks: call
/// [`reset_peaks`](Gauged::reset_peaks) after them.
///
/// ```
/// # use ramsummer::*;
/// let mut pool = Gauged::over(Pool::over(Record::fresh(), [0; SMALL], [0; LARGE]));
/// pool.join(0, Share::OPEN)?;
/// let handle = pool.make(0, Kind::Local, 0, 4)?;
/// pool.refresh(0, Kind::Local, 0, handle)?;
/// pool.tick(0)?;
/// assert_eq!(pool.report()?.expirations, 0);
/// assert_eq!(pool.peaks().to_string(), "small 1, large 0, expirations 2");
/// pool.reset_peaks()?;
/// assert_eq!(pool.peaks(), Peaks::new());
/// # Ok::<(), Refusal>(())
/// ```
#[derive(Clone, Debug, PartialEq, Eq)]
pub struct Gauged<P> {
    pool: P,
    peaks: Peaks,
}

impl<R, S, L> Gauged<Pool<R, S, L>>
where
    R: BorrowMut<Record>,
    S: AsRef<[u8]> + AsMut<[u8]>,
    L: AsRef<[u8]> + AsMut<[u8]>,
{
    /// Over a fresh pool. On one that was kept over a restart [`reset_peaks`](Gauged::reset_peaks) comes first.
    pub const fn over(pool: Pool<R, S, L>) -> Self {
        Gauged { pool, peaks: Peaks::new() }
    }

    /// The pool, handed back.
    pub fn into_pool(self) -> Pool<R, S, L> {
        self.pool
    }

    /// The most that stood since the marks were begun.
    pub const fn peaks(&self) -> Peaks {
        self.peaks
    }

    /// Begins the marks anew with what stands. The only refusal is that of a report, and leaves them.
    pub fn reset_peaks(&mut self) -> Result<(), Refusal> {
        self.peaks = Peaks::of(self.pool.report()?);
        Ok(())
    }

    /// As [`Pool::make`].
    pub fn make(&mut self, task: u8, kind: Kind, extension: u8, length: u16) -> Result<Handle, Refusal> {
        self.make_with_prefix(task, kind, extension, length, 0)
    }

    /// As [`Pool::make_with_prefix`].
    pub fn make_with_prefix(
        &mut self,
        task: u8,
        kind: Kind,
        extension: u8,
        length: u16,
        prefix: u16,
    ) -> Result<Handle, Refusal> {
        let handle = self.pool.make_with_prefix(task, kind, extension, length, prefix)?;
        self.note();
        Ok(handle)
    }

    /// As [`Pool::put`].
    pub fn put(&mut self, task: u8, kind: Kind, extension: u8, bytes: &[u8]) -> Result<Handle, Refusal> {
        self.put_with_prefix(task, kind, extension, bytes, 0)
    }

    /// As [`Pool::put_with_prefix`].
    pub fn put_with_prefix(
        &mut self,
        task: u8,
        kind: Kind,
        extension: u8,
        bytes: &[u8],
        prefix: u16,
    ) -> Result<Handle, Refusal> {
        let handle = self.pool.put_with_prefix(task, kind, extension, bytes, prefix)?;
        self.note();
        Ok(handle)
    }

    /// As [`Pool::refresh`].
    pub fn refresh(&mut self, task: u8, kind: Kind, extension: u8, handle: Handle) -> Result<(), Refusal> {
        self.pool.refresh(task, kind, extension, handle)?;
        self.note();
        Ok(())
    }

    /// As [`Pool::refresh_all`].
    pub fn refresh_all(&mut self, task: u8, kind: Kind, extension: u8, handles: &[Handle]) -> Result<(), Refusal> {
        self.pool.refresh_all(task, kind, extension, handles)?;
        self.note();
        Ok(())
    }

    /// As [`Pool::frame`].
    pub fn frame<'out>(&mut self, line: &[u8], out: &'out mut [u8]) -> Answer<'out> {
        let answer = self.pool.frame(line, out);
        if answer.outcome.is_ok() {
            self.note();
        }
        answer
    }

    /// After an accepted call the record is well-formed, so that there is a report.
    fn note(&mut self) {
        if let Ok(report) = self.pool.report() {
            self.peaks.note(report);
        }
    }
}

impl<P> Deref for Gauged<P> {
    type Target = P;

    fn deref(&self) -> &P {
        &self.pool
    }
}

impl<P> DerefMut for Gauged<P> {
    /// What is made through it is not noted.
    fn deref_mut(&mut self) -> &mut P {
        &mut self.pool
    }
}
