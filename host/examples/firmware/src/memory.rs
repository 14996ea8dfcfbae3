//! The pool in a static: all the memory that the program has for readings.

use core::cell::UnsafeCell;
use core::sync::atomic::{AtomicBool, Ordering};
use ramsummer::SitePool;

/// Four readings are in use at most; of large blocks, which the program does not use, a pool has one at least.
pub type Pool = SitePool<8, 1>;

struct Once {
    taken: AtomicBool,
    pool: UnsafeCell<Pool>,
}

// SAFETY: `take` alone leads to the pool, and does so once.
unsafe impl Sync for Once {}

// Room for 16 expirations, and extensions up to 3.
static POOL: Once = Once { taken: AtomicBool::new(false), pool: UnsafeCell::new(Pool::in_place::<16, 3>()) };

/// The pool, for the first who asks. A program with interrupts has a lock instead; the page of the crate `ramsummer` has
/// one.
pub fn take() -> Option<&'static mut Pool> {
    let first = !POOL.taken.swap(true, Ordering::Acquire);
    // SAFETY: this is the only reference that there ever is.
    first.then(|| unsafe { &mut *POOL.pool.get() })
}
