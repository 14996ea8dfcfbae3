//! A pool goes from thread to thread, and behind a mutex many threads share one.
#![cfg(feature = "std")]

use ramsummer::{Gauged, Kind, Pool, Record, Share, SitePool};
use std::sync::Mutex;
use std::thread;

#[test]
fn pools_may_be_sent_and_shared() {
    fn is_send<T: Send>() {}
    fn is_sync<T: Sync>() {}
    is_send::<Record>();
    is_send::<Pool>();
    is_send::<SitePool<16, 4>>();
    is_send::<Gauged<Pool>>();
    is_sync::<Pool>();
    is_sync::<Mutex<Pool>>();
    is_sync::<Mutex<SitePool<16, 4>>>();
}

/// Each of sixteen threads makes, writes, reads and ticks for its own task; all calls are answered as if one came after the
/// other.
#[test]
fn threads_share_a_pool() {
    const ROUNDS: u8 = 50;
    let pool = &Mutex::new(Pool::new());
    (0..16).for_each(|task| pool.lock().unwrap().join(task, Share::OPEN).unwrap());
    thread::scope(|scope| {
        for task in 0..16 {
            scope.spawn(move || {
                for round in 0..ROUNDS {
                    let handle = pool.lock().unwrap().make(task, Kind::Local, 0, 2).unwrap();
                    pool.lock().unwrap().write(task, handle, 0, &[task, round]).unwrap();
                    assert_eq!(pool.lock().unwrap().read_to_vec(task, handle).unwrap(), [task, round]);
                    pool.lock().unwrap().tick(task).unwrap();
                }
            });
        }
    });
    let report = pool.lock().unwrap().report().unwrap();
    assert_eq!((report.small, report.expirations, report.given), (0, 0, 16 * u32::from(ROUNDS)));
}
