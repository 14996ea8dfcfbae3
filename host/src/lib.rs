//! A proved short-term memory pool: a safe interface over the static library `libramsummer.a`.
//!
//! Sixteen tasks take blocks for readings and never hand them back. An object carries *expirations*; a task extends its
//! life by a refresh, and its block returns when the last expiration has passed. Time moves by the tasks' ticks: each
//! task has its own *local time*, and *global time* advances once every running task has ticked. What must not lapse is
//! made *pinned*: it stands until a task releases it.
//!
#![cfg_attr(feature = "alloc", doc = "```")]
#![cfg_attr(not(feature = "alloc"), doc = "```ignore")]
//! use ramsummer::{Kind, Pool, Refusal, Share};
//!
//! let mut pool = Pool::new();
//! pool.join(0, Share::OPEN)?;
//!
//! // A reading for task 0 alone, until its next tick.
//! let handle = pool.put(0, Kind::Local, 0, b"12.50 m")?;
//! assert_eq!(&pool.get(0, handle)?, b"12.50 m");
//!
//! pool.tick(0)?;
//! assert_eq!(pool.get::<7>(0, handle), Err(Refusal::ObjectGone));
//! println!("{pool}"); // global time 1, small 0, large 0, expirations 0, given 1
//! # assert_eq!(pool.to_string(), "global time 1, small 0, large 0, expirations 0, given 1");
//! # Ok::<(), Refusal>(())
//! ```
//!
//! # Without an allocator
//!
//! The crate is `no_std` and needs no allocator. Two features, both on by default, add what does: `alloc` adds
//! `Pool::new`, `Pool::sized` and `Pool::read_to_vec`, and `std`, which is `alloc` and more, makes a [`Refusal`] a
//! `std::error::Error`. Firmware takes none of them:
//!
//! ```toml
//! ramsummer = { path = "...", default-features = false }
//! ```
//!
//! A pool may then be a `static`, behind the author's own lock:
//!
//! ```
//! use core::cell::UnsafeCell;
//! use core::sync::atomic::{AtomicBool, Ordering};
//! use ramsummer::{Kind, Refusal, Share, SitePool};
//!
//! /// 16 small and 4 large blocks.
//! type Pool = SitePool<16, 4>;
//!
//! /// One caller at a time; where there are interrupts, they are held off here.
//! struct Locked {
//!     taken: AtomicBool,
//!     pool: UnsafeCell<Pool>,
//! }
//!
//! // SAFETY: `with` alone leads to the pool, and lets one caller in at a time.
//! unsafe impl Sync for Locked {}
//!
//! impl Locked {
//!     /// What the work gives, or nothing while another caller is at it.
//!     fn with<T>(&self, work: impl FnOnce(&mut Pool) -> T) -> Option<T> {
//!         if self.taken.swap(true, Ordering::Acquire) {
//!             return None;
//!         }
//!         // SAFETY: `taken` was not set, and is until the work is done.
//!         let answer = work(unsafe { &mut *self.pool.get() });
//!         self.taken.store(false, Ordering::Release);
//!         Some(answer)
//!     }
//! }
//!
//! /// With room for 64 expirations, and extensions up to 10.
//! static POOL: Locked =
//!     Locked { taken: AtomicBool::new(false), pool: UnsafeCell::new(Pool::in_place::<64, 10>()) };
//!
//! assert_eq!(POOL.with(|pool| pool.join(0, Share::OPEN)), Some(Ok(())));
//! let made = POOL.with(|pool| pool.make(0, Kind::Local, 0, 4));
//! assert_eq!(made, Some(Ok(1.into())));
//! assert_eq!(POOL.with(|pool| pool.join(0, Share::OPEN)), Some(Err(Refusal::TaskPresent)));
//! ```
//!
//! `examples/firmware` is a whole program of this sort.
//!
//! # Sizes chosen by the site
//!
//! Four figures say how much a pool holds and for how long: its [`Limits`]. They are chosen when it is made, and stay for
//! its life; the refusals [`ExtensionTooLong`](Refusal::ExtensionTooLong), [`NoFreeBlock`](Refusal::NoFreeBlock),
//! [`NoFreeExpiration`](Refusal::NoFreeExpiration) and [`WrongStoreLength`](Refusal::WrongStoreLength) go by them. The stores
//! are as long as the blocks need; the record has one size.
//!
//! | the pool | with the largest limits | with limits of the site's own |
//! |---|---|---|
//! | in boxes | `Pool::new` | `Pool::sized` |
//! | in place, and so a `static` | [`Pool::over`] and [`Record::fresh`] | [`SitePool`], tested when it is compiled |
//! | over what is lent | [`Pool::over`] and [`Record::fresh`] | [`Pool::over`] and [`Record::sized`] |
//! | begun anew | [`Pool::fresh`] | [`Pool::fresh_sized`] |
//!
//! ```
//! use ramsummer::{Kind, Limits, Pool, Record, Refusal, Share};
//!
//! const CABLE: Limits = Limits { small_blocks: 16, large_blocks: 4, expirations: 64, extension: 10 };
//!
//! let (mut small, mut large) = ([0; CABLE.small_length()], [0; CABLE.large_length()]);
//! let mut pool = Pool::over(Record::sized(CABLE)?, &mut small, &mut large);
//! pool.join(0, Share::OPEN)?;
//! for _ in 0..16 {
//!     pool.make(0, Kind::Local, 10, 32)?;
//! }
//! assert_eq!(pool.make(0, Kind::Local, 10, 32), Err(Refusal::NoFreeBlock));
//! assert_eq!(pool.make(0, Kind::Local, 11, 200), Err(Refusal::ExtensionTooLong));
//!
//! // A limit out of its range makes no pool.
//! assert_eq!(Record::sized(Limits { small_blocks: 65, ..CABLE }), Err(Refusal::LimitsOutOfRange));
//! # Ok::<(), Refusal>(())
//! ```
//!
//! [`Peaks`] tell what a site needs.
//!
//! # Shares
//!
//! A task says when it joins what it may have of each store: its [`Share`]. A *reserve* are blocks that are held back for it
//! as long as it has fewer objects there; a *limit* is the most that it has at a time. A task that asks for nothing joins with
//! [`Share::OPEN`]. So one task that talks too much takes no block that another needs:
//!
//! ```
//! use ramsummer::{Kind, Quota, Refusal, Share, SitePool};
//!
//! let mut pool = SitePool::<16, 4>::in_place::<64, 10>();
//! pool.join(0, Share { small: Quota { reserve: 2, limit: 255 }, ..Share::OPEN })?;
//! pool.join(1, Share::OPEN)?;
//! let refusal = loop {
//!     if let Err(refusal) = pool.make(1, Kind::Local, 10, 8) {
//!         break refusal;
//!     }
//! };
//! assert_eq!(refusal, Refusal::NoFreeBlock);
//! assert_eq!(pool.share(1)?.small.made, 14);
//! pool.make(0, Kind::Local, 10, 8)?;
//! pool.make(0, Kind::Local, 10, 8)?;
//! # Ok::<(), Refusal>(())
//! ```
//!
//! # Viewers
//!
//! A display shows readings and takes no part in the logging. Its task joins by [`Pool::view`]: it reads of each object the
//! *prefix* that the maker gave it ([`Pool::make_with_prefix`]), sees no byte behind it, changes nothing, and holds up nobody.
//! What [`Pool::make`] makes has none.
//!
//! ```
//! use ramsummer::{Kind, Pool, Record, Refusal, Share, LARGE, LONGEST, SMALL};
//!
//! let mut pool = Pool::over(Record::fresh(), [0; SMALL], [0; LARGE]);
//! let (logger, display) = (0, 1);
//! pool.join(logger, Share::OPEN)?;
//! pool.view(display)?;
//!
//! // The reading, and then the raw data of the coil, which are not for the display.
//! let handle = pool.make_with_prefix(logger, Kind::Global, 1, 40, 7)?;
//! pool.write(logger, handle, 0, b"12.50 m")?;
//! pool.write(logger, handle, 7, &[0xC0; 33])?;
//! assert_eq!(pool.read(display, handle, &mut [0; LONGEST])?, b"12.50 m");
//!
//! assert_eq!(pool.refresh(display, Kind::Global, 1, handle), Err(Refusal::OnlyViews));
//! assert_eq!(pool.tick(logger), Ok(true)); // global time goes on without the display
//! # Ok::<(), Refusal>(())
//! ```
//!
//! Whatever was written behind the prefixes, all that a viewer is told is the same (proved), as long as no byte is changed from
//! outside.
//!
//! # Bytes changed from outside
//!
//! The stores are the host's memory, and a fault elsewhere may write there. So the record has the sum of all bytes of each
//! block in use; a read and a write compare it with the bytes, and are refused with [`Refusal::SumDiffers`] where it is
//! another.
//!
//! ```
//! use ramsummer::{Kind, Pool, Record, Refusal, Share, LARGE, SMALL};
//!
//! let mut pool = Pool::over(Record::fresh(), [0; SMALL], [0; LARGE]);
//! pool.join(0, Share::OPEN)?;
//! let handle = pool.make(0, Kind::Local, 0, 4)?;
//! pool.write(0, handle, 0, b"12.5")?;
//!
//! let (record, mut small, large) = pool.into_parts();
//! small.iter_mut().step_by(32).for_each(|byte| *byte += 1); // one byte of each small block
//! let mut pool = Pool::over(record, small, large);
//! assert_eq!(pool.read(0, handle, &mut [0; 4]), Err(Refusal::SumDiffers));
//! assert_eq!(pool.write(0, handle, 0, b"12.5"), Err(Refusal::SumDiffers));
//! assert_eq!(pool.remaining(0, handle)?.local, 1); // it does not look
//! # Ok::<(), Refusal>(())
//! ```
//!
//! One byte with another value is always noticed, wherever in the block it is, and the object is lost until it goes. Changes
//! that cancel out are not: one byte more by as much as another is less, so that `12.50` and `15.20` have one sum. No other
//! call looks. Who puts an object's bytes into a store by other means than a write, by DMA say, is such a fault himself.
//!
//! # What is proved
//!
//! What the calls do is proved of the library, in the repository that this crate is part of. Of this crate nothing is
//! proved: its calls pass arguments on and hand answers back, and `src/sys.rs` has all of its unsafe code. [`Record::fresh`],
//! [`Record::sized`], `Pool::new`, `Pool::sized` and [`SitePool::in_place`] make the record and decide
//! [`LimitsOutOfRange`](Refusal::LimitsOutOfRange) themselves; a test holds them to the library's entry. [`Pool::put`] is two
//! calls, and [`Pool::get`] refuses what is too short itself.
//!
//! The build links `libramsummer.a` from the repository's `target/staticlib`, where `tools/set-up` writes it,
//! or from the folder that the environment variable `RAMSUMMER_LIB` names (README.md has the rule).

#![no_std]
#![warn(missing_docs)]
#![deny(unsafe_code)]

#[cfg(feature = "alloc")]
extern crate alloc;
#[cfg(feature = "std")]
extern crate std;

mod answer;
mod handle;
pub mod image;
mod kind;
mod limits;
mod peaks;
mod pool;
mod record;
mod refusal;
mod share;
mod site;
mod store;
#[allow(unsafe_code)]
mod sys;
mod tasks;

pub use answer::{Answer, Remaining, Report};
pub use handle::Handle;
pub use kind::Kind;
pub use limits::{Limits, MAX_EXTENSION};
pub use peaks::{Gauged, Peaks};
pub use pool::{Pool, LARGEST_BATCH, LINE, LONGEST};
pub use record::{Record, TaskEntry, EXPIRATIONS, RECORD, STORE_BLOCKS, TASKS};
pub use record::{CLOCK_DEPARTED, CLOCK_GLOBAL, CLOCK_LOCAL, CLOCK_PINNED, MAKER_DEPARTED};
pub use refusal::Refusal;
pub use share::{Holding, Holdings, Quota, Share};
pub use site::SitePool;
pub use store::{LargeStore, SmallStore, Store, LARGE, LARGE_SIZE, SMALL, SMALL_SIZE};
pub use tasks::Tasks;

/// The version of this crate and of the C headers.
pub const VERSION: &str = env!("CARGO_PKG_VERSION");
