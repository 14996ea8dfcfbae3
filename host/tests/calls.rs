//! Each call through the safe interface: what it answers, each of its refusals, and that a refusal changes nothing.
#![cfg(feature = "alloc")]

use ramsummer::{
    Handle, Holdings, Kind, Limits, Pool, Quota, Record, Refusal, Remaining, Share, EXPIRATIONS, LARGE, LARGEST_BATCH,
    LONGEST, MAKER_DEPARTED, RECORD, SMALL, STORE_BLOCKS,
};

/// A pool in which task 0 runs, 1 waits and 2 is absent.
fn pool() -> Pool {
    let mut pool = Pool::new();
    pool.join(0, Share::OPEN).unwrap();
    pool.join(1, Share::OPEN).unwrap();
    pool.block(1).unwrap();
    pool
}

/// Those of its report: small, large, expirations, given.
fn figures(pool: &Pool) -> (u8, u8, u16, u32) {
    let report = pool.report().unwrap();
    (report.small, report.large, report.expirations, report.given)
}

fn left(local: u8, global: u8) -> Remaining {
    let mut left = Remaining::default();
    (left.local, left.global) = (local, global);
    left
}

fn refused<T>(pool: &mut Pool, refusal: Refusal, call: impl FnOnce(&mut Pool) -> Result<T, Refusal>) {
    let before = pool.clone();
    assert_eq!(call(pool).err(), Some(refusal));
    assert!(*pool == before, "{refusal:?} changed the record or a store");
}

#[test]
fn an_object_lasts_until_its_last_expiration() {
    let mut pool = pool();
    let handle = pool.make(0, Kind::Local, 0, 4).unwrap();
    pool.refresh(0, Kind::Global, 0, handle).unwrap();
    pool.write(0, handle, 3, &[7]).unwrap();
    assert_eq!(pool.tick(0), Ok(true));
    assert_eq!(pool.read_to_vec(0, handle).unwrap(), [0, 0, 0, 7]);
    assert_eq!(figures(&pool), (1, 0, 1, 1));
    assert_eq!(pool.tick(0), Ok(true));
    refused(&mut pool, Refusal::ObjectGone, |pool| pool.read_to_vec(0, handle));
    refused(&mut pool, Refusal::ObjectGone, |pool| pool.remaining(0, handle));
    assert_eq!(figures(&pool), (0, 0, 0, 1));
}

#[test]
fn a_put_is_a_make_and_a_write() {
    for (length, prefix) in [(1, 0), (32, 32), (33, 7), (256, 255)] {
        let (mut put, mut made) = (pool(), pool());
        let bytes: Vec<u8> = (1..=length).map(|byte| byte as u8).collect();
        let handle = put.put_with_prefix(0, Kind::Global, 3, &bytes, prefix).unwrap();
        assert_eq!(made.make_with_prefix(0, Kind::Global, 3, length, prefix), Ok(handle));
        made.write(0, handle, 0, &bytes).unwrap();
        assert!(put == made);
    }
}

#[test]
fn a_put_is_refused_as_a_make_is() {
    let mut pool = pool();
    refused(&mut pool, Refusal::NoSuchTask, |pool| pool.put(16, Kind::Local, 0, &[1]));
    refused(&mut pool, Refusal::TaskWaiting, |pool| pool.put(1, Kind::Local, 0, &[1]));
    refused(&mut pool, Refusal::ExtensionTooLong, |pool| pool.put(0, Kind::Local, 31, &[1]));
    for length in [0, LONGEST + 1, 65536, 65540] {
        refused(&mut pool, Refusal::LengthOutOfRange, |pool| pool.put(0, Kind::Local, 0, &vec![1; length]));
    }
    refused(&mut pool, Refusal::PrefixTooLong, |pool| pool.put_with_prefix(0, Kind::Local, 0, &[1, 2], 3));
    for byte in 0..64 {
        pool.put(0, Kind::Local, 0, &[byte]).unwrap();
    }
    refused(&mut pool, Refusal::NoFreeBlock, |pool| pool.put(0, Kind::Local, 0, &[1]));
}

#[test]
fn a_get_is_a_read_of_that_length() {
    let mut pool = pool();
    pool.view(2).unwrap();
    let handle = pool.put_with_prefix(0, Kind::Local, 0, &[1, 2, 3, 4], 2).unwrap();
    assert_eq!(pool.get(0, handle), Ok([1, 2, 3, 4]));
    assert_eq!(pool.get(2, handle), Ok([1, 2]));
    refused(&mut pool, Refusal::BufferTooShort, |pool| pool.get::<3>(0, handle));
    refused(&mut pool, Refusal::OutsideObject, |pool| pool.get::<5>(0, handle));
    refused(&mut pool, Refusal::OutsideObject, |pool| pool.get::<4>(2, handle));
    pool.tick(0).unwrap();
    refused(&mut pool, Refusal::ObjectGone, |pool| pool.get::<4>(0, handle));
}

/// Local expirations count for the task that set them, global ones for every task; the one that is due last tells.
#[test]
fn a_task_is_told_how_long_an_object_stands() {
    let mut pool = pool();
    pool.resume(1).unwrap();
    pool.join(2, Share::OPEN).unwrap();
    let handle = pool.make(0, Kind::Local, 4, 4).unwrap();
    pool.refresh(0, Kind::Local, 1, handle).unwrap();
    pool.refresh(1, Kind::Local, 30, handle).unwrap();
    let told = |pool: &Pool| [0, 1, 2].map(|task| pool.remaining(task, handle).unwrap());
    assert_eq!(told(&pool), [left(5, 0), left(31, 0), left(0, 0)]);
    pool.refresh(2, Kind::Global, 30, handle).unwrap();
    pool.refresh(0, Kind::Global, 0, handle).unwrap();
    let before = pool.clone();
    assert_eq!(told(&pool), [left(5, 32), left(31, 32), left(0, 32)]);
    assert!(pool == before, "the record and the stores stay");
    pool.tick(0).unwrap();
    assert_eq!(told(&pool), [left(4, 32), left(31, 32), left(0, 32)]);
    pool.tick(1).unwrap();
    assert_eq!(pool.tick(2), Ok(true));
    assert_eq!(told(&pool), [left(4, 31), left(30, 31), left(0, 31)]);
}

/// Each gets one, and one that is named twice gets two; they go together.
#[test]
fn objects_are_refreshed_together() {
    let mut pool = pool();
    let scan = [4, 40, 4].map(|length| pool.make(0, Kind::Local, 0, length).unwrap());
    pool.refresh_all(0, Kind::Local, 2, &scan).unwrap();
    pool.refresh_all(0, Kind::Global, 3, &[scan[1], scan[1]]).unwrap();
    assert_eq!(figures(&pool), (2, 1, 8, 3));
    let told = |pool: &Pool| scan.map(|handle| pool.remaining(0, handle).unwrap());
    assert_eq!(told(&pool), [left(3, 0), left(3, 5), left(3, 0)]);
    pool.tick(0).unwrap();
    pool.tick(0).unwrap();
    assert_eq!(told(&pool), [left(1, 0), left(1, 3), left(1, 0)]);
    pool.tick(0).unwrap();
    assert_eq!(figures(&pool), (0, 1, 2, 3));
}

/// One that is refused stands for all, wherever it is; and of several refusals 11 comes first, then 12, then 10.
#[test]
fn all_objects_are_refreshed_or_none() {
    let mut pool = pool();
    let gone = pool.make(0, Kind::Local, 0, 4).unwrap();
    pool.tick(0).unwrap();
    let stands = pool.make(0, Kind::Local, 30, 4).unwrap();
    let never = Handle::from(3);
    for _ in 0..7 {
        for batch in [&[gone][..], &[stands, gone], &[gone, stands, stands]] {
            refused(&mut pool, Refusal::ObjectGone, |pool| pool.refresh_all(0, Kind::Local, 1, batch));
        }
        for batch in [&[never][..], &[stands, never], &[gone, never], &[never, gone], &[stands, Handle::from(0)]] {
            refused(&mut pool, Refusal::HandleNotGiven, |pool| pool.refresh_all(0, Kind::Local, 1, batch));
        }
        pool.refresh_all(0, Kind::Local, 30, &[stands; LARGEST_BATCH]).unwrap();
    }
    // 225 stand: there is room for 31.
    let full = [stands; LARGEST_BATCH];
    refused(&mut pool, Refusal::NoFreeExpiration, |pool| pool.refresh_all(0, Kind::Local, 1, &full));
    pool.refresh_all(0, Kind::Local, 1, &full[1..]).unwrap();
    refused(&mut pool, Refusal::NoFreeExpiration, |pool| pool.refresh_all(0, Kind::Local, 1, &[stands]));
    refused(&mut pool, Refusal::ObjectGone, |pool| pool.refresh_all(0, Kind::Local, 1, &[stands, gone]));
    refused(&mut pool, Refusal::HandleNotGiven, |pool| pool.refresh_all(0, Kind::Local, 1, &[stands, gone, never]));
}

/// After the task, before the extension and the objects; it is the library that counts them.
#[test]
fn the_size_of_a_batch_is_tested() {
    let mut pool = pool();
    let handle = pool.make(0, Kind::Local, 0, 4).unwrap();
    for count in [0, LARGEST_BATCH + 1, 256, 100_000] {
        for batch in [vec![handle; count], vec![Handle::from(9); count]] {
            refused(&mut pool, Refusal::BatchOutOfRange, |pool| pool.refresh_all(0, Kind::Global, 0, &batch));
            refused(&mut pool, Refusal::BatchOutOfRange, |pool| pool.refresh_all(0, Kind::Local, 31, &batch));
            refused(&mut pool, Refusal::TaskWaiting, |pool| pool.refresh_all(1, Kind::Local, 31, &batch));
        }
    }
    refused(&mut pool, Refusal::ExtensionTooLong, |pool| pool.refresh_all(0, Kind::Local, 31, &[Handle::from(9)]));
}

/// Over more time than any other expiration has, and a leave of its maker; then another task releases it.
#[test]
fn a_pinned_object_stands_until_it_is_released() {
    let mut pool = pool();
    pool.resume(1).unwrap();
    let handle = pool.make(1, Kind::Pinned, 0, 4).unwrap();
    pool.write(0, handle, 0, &[1, 2, 3, 4]).unwrap();
    pool.leave(1).unwrap();
    for _ in 0..100 {
        assert_eq!(pool.tick(0), Ok(true));
    }
    assert_eq!(pool.read_to_vec(0, handle).unwrap(), [1, 2, 3, 4]);
    assert_eq!(pool.remaining(0, handle).unwrap(), left(0, 0));
    pool.refresh(0, Kind::Local, 0, handle).unwrap();
    pool.release(0, handle).unwrap();
    assert_eq!(figures(&pool), (1, 0, 1, 1));
    refused(&mut pool, Refusal::NotPinned, |pool| pool.release(0, handle));
    pool.tick(0).unwrap();
    refused(&mut pool, Refusal::ObjectGone, |pool| pool.release(0, handle));
    let alone = pool.make(0, Kind::Pinned, 0, 40).unwrap();
    pool.release(0, alone).unwrap();
    assert_eq!(figures(&pool), (0, 0, 0, 2));
}

#[test]
fn only_a_make_pins() {
    let mut pool = pool();
    let handle = pool.make(0, Kind::Local, 0, 4).unwrap();
    for extension in [1, 30, 31, 255] {
        refused(&mut pool, Refusal::ExtensionTooLong, |pool| pool.make(0, Kind::Pinned, extension, 4));
    }
    for extension in [0, 1, 31] {
        for handle in [handle, Handle::from(9)] {
            refused(&mut pool, Refusal::OnlyMakePins, |pool| pool.refresh(0, Kind::Pinned, extension, handle));
            refused(&mut pool, Refusal::OnlyMakePins, |pool| pool.refresh_all(0, Kind::Pinned, extension, &[handle]));
        }
        refused(&mut pool, Refusal::BatchOutOfRange, |pool| pool.refresh_all(0, Kind::Pinned, extension, &[]));
    }
    refused(&mut pool, Refusal::NotPinned, |pool| pool.release(0, handle));
}

/// A share of both stores.
fn share(small_reserve: u8, small_limit: u8, large_reserve: u8, large_limit: u8) -> Share {
    let [small, large] =
        [(small_reserve, small_limit), (large_reserve, large_limit)].map(|(reserve, limit)| Quota { reserve, limit });
    Share { small, large }
}

/// What a task has made, its reserve and its limit, of each store.
fn told(pool: &Pool, task: u8) -> [(u8, u8, u8); 2] {
    let Holdings { small, large, .. } = pool.share(task).unwrap();
    [small, large].map(|holding| (holding.made, holding.reserve, holding.limit))
}

/// In the order of the tests: the task, its presence, 24 for either store, 25 for either.
#[test]
fn a_join_may_ask_for_too_much() {
    let mut pool = pool();
    for asked in [share(1, 0, 0, 0), share(0, 0, 1, 0), share(255, 254, 0, 255), share(65, 65, 33, 32)] {
        refused(&mut pool, Refusal::ReserveAboveLimit, |pool| pool.join(2, asked));
        refused(&mut pool, Refusal::TaskPresent, |pool| pool.join(1, asked));
        refused(&mut pool, Refusal::NoSuchTask, |pool| pool.join(16, asked));
    }
    for asked in [share(65, 65, 0, 0), share(0, 0, 33, 33), share(255, 255, 255, 255)] {
        refused(&mut pool, Refusal::ReserveNotFree, |pool| pool.join(2, asked));
        refused(&mut pool, Refusal::TaskPresent, |pool| pool.join(0, asked));
    }
    pool.join(2, share(64, 64, 32, 32)).unwrap();
    refused(&mut pool, Refusal::ReserveNotFree, |pool| pool.join(3, share(1, 1, 0, 0)));
    refused(&mut pool, Refusal::ReserveNotFree, |pool| pool.join(3, share(0, 0, 1, 1)));
    pool.join(3, Share::NONE).unwrap();
    assert_eq!([told(&pool, 2), told(&pool, 3)], [[(0, 64, 64), (0, 32, 32)], [(0, 0, 0); 2]]);
}

/// Task 0 has no share to speak of, and 2 has a reserve, which it keeps while it waits.
#[test]
fn a_reserve_is_held_back_and_a_limit_holds() {
    for (length, blocks, asked) in [(32, 64, share(5, 9, 0, 0)), (33, 32, share(0, 0, 5, 9))] {
        let mut pool = pool();
        let store = usize::from(length == 33);
        let make = move |pool: &mut Pool, task| pool.make(task, Kind::Local, 9, length);
        pool.join(2, asked).unwrap();
        pool.block(2).unwrap();
        for _ in 0..blocks - 5 {
            make(&mut pool, 0).unwrap();
        }
        refused(&mut pool, Refusal::NoFreeBlock, |pool| make(pool, 0));
        pool.resume(2).unwrap();
        for made in 1..=5 {
            make(&mut pool, 2).unwrap();
            assert_eq!(told(&pool, 2)[store], (made, 5, 9));
        }
        refused(&mut pool, Refusal::NoFreeBlock, |pool| make(pool, 2));
        // All of task 0 go, and then there is room up to the limit.
        for _ in 0..10 {
            pool.tick(0).unwrap();
        }
        for _ in 0..4 {
            make(&mut pool, 2).unwrap();
        }
        refused(&mut pool, Refusal::AtLimit, |pool| make(pool, 2));
        assert_eq!((told(&pool, 0)[store], told(&pool, 2)[store]), ((0, 0, 255), (9, 5, 9)));
    }
}

/// Also for whoever joins by its number.
#[test]
fn what_a_task_made_counts_for_nobody_once_it_has_left() {
    let mut pool = pool();
    pool.join(2, share(3, 3, 0, 255)).unwrap();
    for length in [4, 4, 40] {
        pool.make(2, Kind::Pinned, 0, length).unwrap();
    }
    assert_eq!(told(&pool, 2), [(2, 3, 3), (1, 0, 255)]);
    pool.leave(2).unwrap();
    assert_eq!(pool.share(2), Ok(Holdings::default()));
    pool.join(2, share(0, 1, 0, 0)).unwrap();
    assert_eq!(told(&pool, 2), [(0, 0, 1), (0, 0, 0)]);
    pool.make(2, Kind::Local, 0, 4).unwrap();
    refused(&mut pool, Refusal::AtLimit, |pool| pool.make(2, Kind::Local, 0, 4));
    refused(&mut pool, Refusal::AtLimit, |pool| pool.make(2, Kind::Local, 0, 40));
    assert_eq!(figures(&pool), (3, 1, 4, 4));
}

/// At its limit where no block is free: 26 comes before 9, and 9 before 10.
#[test]
fn a_limit_is_told_before_a_store_that_is_full() {
    let limits = Limits { small_blocks: 1, large_blocks: 1, expirations: 1, extension: 0 };
    let mut pool = Pool::sized(limits).unwrap();
    pool.join(0, share(0, 1, 0, 1)).unwrap();
    pool.join(1, Share::OPEN).unwrap();
    let make = |pool: &mut Pool, task, length| pool.make(task, Kind::Local, 0, length);
    make(&mut pool, 0, 4).unwrap();
    refused(&mut pool, Refusal::AtLimit, |pool| make(pool, 0, 4));
    refused(&mut pool, Refusal::NoFreeBlock, |pool| make(pool, 1, 4));
    refused(&mut pool, Refusal::NoFreeExpiration, |pool| make(pool, 0, 40));
}

/// A pool in which task 3 views besides.
fn viewed() -> Pool {
    let mut pool = pool();
    pool.view(3).unwrap();
    pool
}

/// What else a running task may do is refused straight after the task's state, before what is wrong with the rest of a call.
#[test]
fn a_viewer_only_reads() {
    let mut pool = viewed();
    let handle = pool.make(0, Kind::Pinned, 0, 4).unwrap();
    for named in [handle, Handle::from(0), Handle::from(9)] {
        for (kind, extension) in [(Kind::Local, 0), (Kind::Global, 31), (Kind::Pinned, 0)] {
            refused(&mut pool, Refusal::OnlyViews, |pool| pool.refresh(3, kind, extension, named));
            refused(&mut pool, Refusal::OnlyViews, |pool| pool.refresh_all(3, kind, extension, &[named]));
            refused(&mut pool, Refusal::OnlyViews, |pool| pool.refresh_all(3, kind, extension, &[named; 33]));
        }
        refused(&mut pool, Refusal::OnlyViews, |pool| pool.write(3, named, 0, &[]));
        refused(&mut pool, Refusal::OnlyViews, |pool| pool.write(3, named, 4, &[1]));
        refused(&mut pool, Refusal::OnlyViews, |pool| pool.release(3, named));
    }
    for (extension, length, prefix) in [(0, 4, 0), (31, 4, 0), (0, 0, 0), (0, 257, 257), (0, 4, 5)] {
        refused(&mut pool, Refusal::OnlyViews, |pool| pool.make_with_prefix(3, Kind::Local, extension, length, prefix));
    }
    refused(&mut pool, Refusal::OnlyViews, |pool| pool.block(3));
    refused(&mut pool, Refusal::OnlyViews, |pool| pool.tick(3));
    refused(&mut pool, Refusal::TaskRunning, |pool| pool.resume(3));
    refused(&mut pool, Refusal::TaskPresent, |pool| pool.join(3, Share::OPEN));
    refused(&mut pool, Refusal::TaskPresent, |pool| pool.view(3));
    refused(&mut pool, Refusal::HandleNotGiven, |pool| pool.read_to_vec(3, Handle::from(9)));
    refused(&mut pool, Refusal::HandleNotGiven, |pool| pool.remaining(3, Handle::from(9)));
    assert_eq!(pool.remaining(3, handle), Ok(left(0, 0)));
    assert_eq!(pool.leave(3), Ok(false));
    refused(&mut pool, Refusal::TaskAbsent, |pool| pool.read_to_vec(3, handle));
}

#[test]
fn who_views_was_absent() {
    let mut pool = viewed();
    for task in [0, 1, 3] {
        refused(&mut pool, Refusal::TaskPresent, |pool| pool.view(task));
    }
    pool.leave(3).unwrap();
    pool.join(3, Share::OPEN).unwrap();
    pool.leave(0).unwrap();
    pool.view(0).unwrap();
    assert_eq!(pool.record().tasks.map(|task| task.state)[..5], [3, 2, 0, 1, 0]);
    assert_eq!(pool.record().shares[..4], [Share::NONE, Share::OPEN, Share::NONE, Share::OPEN]);
    assert_eq!(told(&pool, 0), [(0, 0, 0); 2]);
}

/// None of an object's bytes, some or all; whoever runs reads them all.
#[test]
fn a_viewer_reads_the_prefix() {
    let bytes: [u8; LONGEST] = std::array::from_fn(|place| place as u8 ^ 0x55);
    let mut pool = viewed();
    for length in [1, 2, 31, 32, 33, 255, 256] {
        for prefix in [0, 1, length / 2, length - 1, length] {
            let handle = pool.make_with_prefix(0, Kind::Local, 0, length, prefix).unwrap();
            let (length, prefix) = (usize::from(length), usize::from(prefix));
            pool.write(0, handle, 0, &bytes[..length]).unwrap();
            let mut room = [9; LONGEST + 1];
            assert_eq!(pool.read(3, handle, &mut room), Ok(&bytes[..prefix]));
            assert!(room[prefix..].iter().all(|byte| *byte == 9));
            assert_eq!(pool.read(0, handle, &mut room), Ok(&bytes[..length]));
            // The room has to be for what it reads, and not for the object.
            assert_eq!(pool.read(3, handle, &mut room[..prefix]), Ok(&bytes[..prefix]));
            if prefix > 0 {
                let short = &mut room[..prefix - 1];
                refused(&mut pool, Refusal::BufferTooShort, |pool| pool.read(3, handle, short).map(<[u8]>::len));
            }
        }
        pool.tick(0).unwrap();
    }
    let handle = pool.make(0, Kind::Local, 0, 4).unwrap();
    assert_eq!(pool.read(3, handle, &mut []), Ok(&[][..]));
}

/// 28 comes after the length, and before all that runs out: 8, 26, 9 and 10.
#[test]
fn a_prefix_is_at_most_the_length() {
    let limits = Limits { small_blocks: 1, large_blocks: 1, expirations: 1, extension: 0 };
    let mut pool = Pool::sized(limits).unwrap();
    pool.join(0, share(0, 1, 0, 0)).unwrap();
    pool.join(1, Share::OPEN).unwrap();
    let make = |task, extension, length, prefix| {
        move |pool: &mut Pool| pool.make_with_prefix(task, Kind::Local, extension, length, prefix)
    };
    make(0, 0, 4, 4)(&mut pool).unwrap();
    for (task, length, refusal) in [
        (0, 4, Refusal::AtLimit),
        (0, 40, Refusal::AtLimit),
        (1, 32, Refusal::NoFreeBlock),
        (1, 256, Refusal::NoFreeExpiration),
    ] {
        for prefix in [length + 1, 257, u16::MAX] {
            refused(&mut pool, Refusal::PrefixTooLong, make(task, 0, length, prefix));
            refused(&mut pool, Refusal::ExtensionTooLong, make(task, 1, length, prefix));
            refused(&mut pool, Refusal::LengthOutOfRange, make(task, 0, 0, prefix));
            refused(&mut pool, Refusal::LengthOutOfRange, make(task, 0, 257, prefix));
        }
        for prefix in [0, 1, length] {
            refused(&mut pool, refusal, make(task, 0, length, prefix));
        }
    }
    let (mut record, small, large) = pool.into_parts();
    record.given = u32::MAX;
    let mut pool = Pool::over(record, small, large);
    refused(&mut pool, Refusal::PrefixTooLong, make(1, 0, 4, 5));
    refused(&mut pool, Refusal::HandlesSpent, make(1, 0, 4, 4));
}

/// Its tick is not awaited, and neither with it nor with its leave does the time advance.
#[test]
fn global_time_goes_on_without_a_viewer() {
    let mut pool = viewed();
    assert!(pool.awaited().unwrap().iter().eq([0]));
    assert_eq!((pool.tick(0), pool.tick(0)), (Ok(true), Ok(true)));
    pool.resume(1).unwrap();
    assert_eq!(pool.tick(0), Ok(false));
    pool.view(2).unwrap();
    assert!(pool.awaited().unwrap().iter().eq([1]));
    assert_eq!((pool.leave(2), pool.leave(3), pool.tick(1)), (Ok(false), Ok(false), Ok(true)));
    pool.view(3).unwrap();
    assert_eq!((pool.leave(0), pool.leave(1)), (Ok(false), Ok(false)));
    assert_eq!((pool.leave(3), pool.record().global), (Ok(false), 3));
}

/// Global expirations of a task that views by now count on: who set them has left.
#[test]
fn who_views_has_set_nothing() {
    let mut pool = pool();
    pool.resume(1).unwrap();
    let [local, global] = [Kind::Local, Kind::Global].map(|kind| pool.make_with_prefix(1, kind, 1, 4, 1).unwrap());
    pool.leave(1).unwrap();
    pool.view(1).unwrap();
    refused(&mut pool, Refusal::ObjectGone, |pool| pool.read_to_vec(1, local));
    assert_eq!(pool.remaining(1, global), Ok(left(0, 3)));
    assert_eq!(pool.tick(0), Ok(true));
    assert_eq!((pool.remaining(1, global), pool.read_to_vec(1, global)), (Ok(left(0, 2)), Ok(vec![0])));
}

/// The four numbers, each in its place of the record.
#[test]
fn the_record_has_the_shares() {
    let mut pool = pool();
    pool.join(2, share(1, 2, 3, 4)).unwrap();
    assert_eq!(pool.record().shares[..4], [Share::OPEN, Share::OPEN, share(1, 2, 3, 4), Share::NONE]);
    assert_eq!(pool.record().as_bytes()[152 + 2 * 4..][..4], [1, 2, 3, 4]);
    assert_eq!(told(&pool, 2), [(0, 1, 2), (0, 3, 4)]);
}

#[test]
fn the_calls_say_whether_global_time_advanced() {
    let mut pool = pool();
    pool.resume(1).unwrap();
    pool.join(2, Share::OPEN).unwrap();
    assert_eq!(pool.tick(0), Ok(false));
    assert_eq!(pool.tick(1), Ok(false));
    assert_eq!(pool.block(2), Ok(true));
    assert_eq!(pool.tick(0), Ok(false));
    assert_eq!(pool.leave(1), Ok(true));
    assert_eq!(pool.block(0), Ok(false));
    assert_eq!(pool.record().global, 2);
}

#[test]
fn the_length_chooses_the_store() {
    let mut pool = pool();
    let small = pool.make(0, Kind::Local, 0, 32).unwrap();
    let large = pool.make(0, Kind::Local, 0, 256).unwrap();
    assert_eq!((u32::from(small), u32::from(large)), (1, 2));
    pool.write(0, small, 0, &[1; 32]).unwrap();
    pool.write(0, large, 0, &[2; 256]).unwrap();
    assert_eq!(pool.small().iter().filter(|byte| **byte == 1).count(), 32);
    assert_eq!(pool.large().iter().filter(|byte| **byte == 2).count(), 256);
    assert_eq!(pool.read_to_vec(0, large).unwrap(), [2; 256]);
}

#[test]
fn a_read_fills_the_start_of_its_room() {
    let mut pool = pool();
    let handle = pool.make(0, Kind::Local, 0, 3).unwrap();
    pool.write(0, handle, 0, &[1, 2, 3]).unwrap();
    let mut room = [9; 5];
    assert_eq!(pool.read(0, handle, &mut room), Ok(&[1, 2, 3][..]));
    assert_eq!(room, [1, 2, 3, 9, 9]);
    let mut exact = [9; 3];
    assert_eq!(pool.read(0, handle, &mut exact), Ok(&[1, 2, 3][..]));
    let mut short = [9; 2];
    refused(&mut pool, Refusal::BufferTooShort, |pool| pool.read(0, handle, &mut short).map(<[u8]>::len));
    assert_eq!(short, [9, 9]);
    refused(&mut pool, Refusal::BufferTooShort, |pool| pool.read(0, handle, &mut []).map(<[u8]>::len));
    refused(&mut pool, Refusal::TaskWaiting, |pool| pool.read(1, handle, &mut []).map(<[u8]>::len));
}

/// From then on each read and write is refused, before what is wrong with the write itself, and no other call looks. It is
/// as before once the byte is.
#[test]
fn a_byte_that_is_changed_from_outside_is_noticed() {
    for length in [7, 40] {
        let mut pool = viewed();
        let handle = pool.make_with_prefix(0, Kind::Local, 3, length, 1).unwrap();
        pool.write(0, handle, 0, b"12.50 m").unwrap();
        let whole = pool.clone();
        // Bytes of the object and one behind its end, in whichever block it is.
        for place in [0, 6, 31] {
            pool = changed(pool, length, |block| block[place] ^= 0x80);
            refused(&mut pool, Refusal::SumDiffers, |pool| pool.read_to_vec(0, handle));
            refused(&mut pool, Refusal::SumDiffers, |pool| pool.read(0, handle, &mut []).map(<[u8]>::len));
            refused(&mut pool, Refusal::SumDiffers, |pool| pool.read_to_vec(3, handle));
            refused(&mut pool, Refusal::SumDiffers, |pool| pool.write(0, handle, 0, b"12.50 m"));
            refused(&mut pool, Refusal::SumDiffers, |pool| pool.write(0, handle, 0, &[]));
            refused(&mut pool, Refusal::SumDiffers, |pool| pool.write(0, handle, 0, &[1; LONGEST]));
            refused(&mut pool, Refusal::TaskWaiting, |pool| pool.read_to_vec(1, handle));
            refused(&mut pool, Refusal::NotPinned, |pool| pool.release(0, handle));
            assert_eq!((pool.report(), pool.remaining(0, handle)), (whole.report(), whole.remaining(0, handle)));
            pool = changed(pool, length, |block| block[place] ^= 0x80);
            assert!(pool == whole);
        }
        assert_eq!(pool.read_to_vec(0, handle).unwrap()[..7], *b"12.50 m");
    }
}

/// It lapses like any other, and its block is given out again.
#[test]
fn what_was_changed_from_outside_goes_in_its_time() {
    let mut pool = pool();
    let handle = pool.make(0, Kind::Local, 0, 4).unwrap();
    let mut pool = changed(pool, 4, |block| block[2] = 1);
    refused(&mut pool, Refusal::SumDiffers, |pool| pool.read_to_vec(0, handle));
    pool.refresh(0, Kind::Local, 1, handle).unwrap();
    pool.refresh_all(0, Kind::Local, 1, &[handle]).unwrap();
    pool.tick(0).unwrap();
    refused(&mut pool, Refusal::SumDiffers, |pool| pool.read_to_vec(0, handle));
    pool.tick(0).unwrap();
    refused(&mut pool, Refusal::ObjectGone, |pool| pool.read_to_vec(0, handle));
    for _ in 0..64 {
        let anew = pool.make(0, Kind::Local, 0, 32).unwrap();
        assert_eq!(pool.read_to_vec(0, anew).unwrap(), [0; 32]);
    }
}

/// Nor does a release ask what is in the block.
#[test]
fn changes_that_cancel_out_are_not_noticed() {
    let mut pool = pool();
    let handle = pool.make(0, Kind::Pinned, 0, 5).unwrap();
    pool.write(0, handle, 0, b"12.50").unwrap();
    let mut pool = changed(pool, 5, |block| block.swap(1, 3));
    assert_eq!(pool.read_to_vec(0, handle).unwrap(), b"15.20");
    pool.write(0, handle, 4, b"1").unwrap();
    assert_eq!(pool.read_to_vec(0, handle).unwrap(), b"15.21");
    let mut pool = changed(pool, 5, |block| block[0] += 1);
    refused(&mut pool, Refusal::SumDiffers, |pool| pool.read_to_vec(0, handle));
    pool.release(0, handle).unwrap();
    refused(&mut pool, Refusal::ObjectGone, |pool| pool.read_to_vec(0, handle));
}

/// Every block of the store for this length is changed so, from outside.
fn changed(pool: Pool, length: u16, change: impl Fn(&mut [u8])) -> Pool {
    let (record, mut small, mut large) = pool.into_parts();
    let (store, size) = if length <= 32 { (&mut small, 32) } else { (&mut large, 256) };
    store.chunks_mut(size).for_each(change);
    Pool::over(record, small, large)
}

#[test]
fn tasks_are_tested() {
    let mut pool = pool();
    let handle = pool.make(0, Kind::Local, 0, 3).unwrap();
    refused(&mut pool, Refusal::TaskPresent, |pool| pool.join(0, Share::OPEN));
    refused(&mut pool, Refusal::TaskPresent, |pool| pool.join(1, Share::OPEN));
    refused(&mut pool, Refusal::TaskRunning, |pool| pool.resume(0));
    for (task, refusal) in [(16, Refusal::NoSuchTask), (255, Refusal::NoSuchTask), (2, Refusal::TaskAbsent)] {
        refused(&mut pool, refusal, |pool| pool.leave(task));
        refused(&mut pool, refusal, |pool| pool.resume(task));
    }
    for task in [16, 255] {
        refused(&mut pool, Refusal::NoSuchTask, |pool| pool.join(task, Share::OPEN));
        refused(&mut pool, Refusal::NoSuchTask, |pool| pool.view(task));
        refused(&mut pool, Refusal::NoSuchTask, |pool| pool.share(task));
    }
    for (task, refusal) in [(16, Refusal::NoSuchTask), (2, Refusal::TaskAbsent), (1, Refusal::TaskWaiting)] {
        refused(&mut pool, refusal, |pool| pool.block(task));
        refused(&mut pool, refusal, |pool| pool.tick(task));
        refused(&mut pool, refusal, |pool| pool.make(task, Kind::Local, 0, 1));
        refused(&mut pool, refusal, |pool| pool.refresh(task, Kind::Local, 0, handle));
        refused(&mut pool, refusal, |pool| pool.refresh_all(task, Kind::Local, 0, &[handle]));
        refused(&mut pool, refusal, |pool| pool.read_to_vec(task, handle));
        refused(&mut pool, refusal, |pool| pool.write(task, handle, 0, &[1]));
        refused(&mut pool, refusal, |pool| pool.remaining(task, handle));
        refused(&mut pool, refusal, |pool| pool.release(task, handle));
    }
}

#[test]
fn arguments_are_tested() {
    let mut pool = pool();
    let handle = pool.make(0, Kind::Local, 0, 4).unwrap();
    for kind in [Kind::Local, Kind::Global] {
        refused(&mut pool, Refusal::ExtensionTooLong, |pool| pool.make(0, kind, 31, 1));
        refused(&mut pool, Refusal::ExtensionTooLong, |pool| pool.refresh(0, kind, 31, handle));
        refused(&mut pool, Refusal::ExtensionTooLong, |pool| pool.refresh_all(0, kind, 31, &[handle]));
    }
    for length in [0, 257, u16::MAX] {
        refused(&mut pool, Refusal::LengthOutOfRange, |pool| pool.make(0, Kind::Local, 0, length));
    }
    for number in [0, 2, u32::MAX] {
        let handle = Handle::from(number);
        refused(&mut pool, Refusal::HandleNotGiven, |pool| pool.read_to_vec(0, handle));
        refused(&mut pool, Refusal::HandleNotGiven, |pool| pool.write(0, handle, 0, &[]));
        refused(&mut pool, Refusal::HandleNotGiven, |pool| pool.refresh(0, Kind::Local, 0, handle));
        refused(&mut pool, Refusal::HandleNotGiven, |pool| pool.refresh_all(0, Kind::Local, 0, &[handle]));
        refused(&mut pool, Refusal::HandleNotGiven, |pool| pool.remaining(0, handle));
        refused(&mut pool, Refusal::HandleNotGiven, |pool| pool.release(0, handle));
    }
    pool.write(0, handle, 4, &[]).unwrap();
    refused(&mut pool, Refusal::OutsideObject, |pool| pool.write(0, handle, 4, &[1]));
    refused(&mut pool, Refusal::OutsideObject, |pool| pool.write(0, handle, 0, &[1; 70_000]));
}

#[test]
fn blocks_and_expirations_run_out() {
    let mut pool = pool();
    for length in [32, 33] {
        let blocks = if length == 32 { 64 } else { 32 };
        for _ in 0..blocks {
            pool.make(0, Kind::Local, 1, length).unwrap();
        }
        refused(&mut pool, Refusal::NoFreeBlock, |pool| pool.make(0, Kind::Local, 1, length));
    }
    pool.leave(0).unwrap();
    pool.join(0, Share::OPEN).unwrap();
    let handle = pool.make(0, Kind::Local, 1, 1).unwrap();
    for _ in 1..256 {
        pool.refresh(0, Kind::Global, 30, handle).unwrap();
    }
    refused(&mut pool, Refusal::NoFreeExpiration, |pool| pool.refresh(0, Kind::Local, 1, handle));
    refused(&mut pool, Refusal::NoFreeExpiration, |pool| pool.make(0, Kind::Local, 1, 1));
}

#[test]
fn handles_run_out() {
    let mut record = pool().record().clone();
    record.given = u32::MAX - 1;
    let mut pool = Pool::over(record.into(), vec![0; SMALL].into(), vec![0; LARGE].into());
    assert_eq!(pool.make(0, Kind::Local, 0, 1), Ok(Handle::from(u32::MAX)));
    refused(&mut pool, Refusal::HandlesSpent, |pool| pool.make(0, Kind::Local, 0, 1));
}

#[test]
fn stores_of_another_length_are_refused() {
    for (small, large) in [(SMALL - 1, LARGE), (SMALL, LARGE + 1), (0, 0), (LARGE, SMALL)] {
        let record = pool().record().clone().into();
        let mut pool: Pool = Pool::over(record, vec![0; small].into(), vec![0; large].into());
        let handle = Handle::from(1);
        refused(&mut pool, Refusal::WrongStoreLength, |pool| pool.make(16, Kind::Local, 0, 1));
        refused(&mut pool, Refusal::WrongStoreLength, |pool| pool.read_to_vec(16, handle));
        refused(&mut pool, Refusal::WrongStoreLength, |pool| pool.write(16, handle, 0, &[]));
        refused(&mut pool, Refusal::NoSuchTask, |pool| pool.tick(16));
        refused(&mut pool, Refusal::NoSuchTask, |pool| pool.remaining(16, handle));
        refused(&mut pool, Refusal::NoSuchTask, |pool| pool.release(16, handle));
        refused(&mut pool, Refusal::NoSuchTask, |pool| pool.refresh_all(16, Kind::Local, 0, &[handle]));
    }
}

#[test]
fn a_damaged_record_is_refused_until_it_is_fresh() {
    let damaged = Record::from_bytes(&[0xA5; RECORD]);
    let mut pool = Pool::over(damaged.into(), vec![0; SMALL].into(), vec![0; LARGE].into());
    let handle = Handle::from(1);
    refused(&mut pool, Refusal::NotWellFormed, |pool| pool.join(16, Share::OPEN));
    refused(&mut pool, Refusal::NotWellFormed, |pool| pool.view(16));
    refused(&mut pool, Refusal::NotWellFormed, |pool| pool.leave(16));
    refused(&mut pool, Refusal::NotWellFormed, |pool| pool.block(16));
    refused(&mut pool, Refusal::NotWellFormed, |pool| pool.resume(16));
    refused(&mut pool, Refusal::NotWellFormed, |pool| pool.tick(16));
    refused(&mut pool, Refusal::NotWellFormed, |pool| pool.make(16, Kind::Local, 0, 1));
    refused(&mut pool, Refusal::NotWellFormed, |pool| pool.refresh(16, Kind::Local, 0, handle));
    refused(&mut pool, Refusal::NotWellFormed, |pool| pool.read_to_vec(16, handle));
    refused(&mut pool, Refusal::NotWellFormed, |pool| pool.write(16, handle, 0, &[]));
    refused(&mut pool, Refusal::NotWellFormed, |pool| pool.report());
    refused(&mut pool, Refusal::NotWellFormed, |pool| pool.remaining(16, handle));
    refused(&mut pool, Refusal::NotWellFormed, |pool| pool.share(16));
    refused(&mut pool, Refusal::NotWellFormed, |pool| pool.release(16, handle));
    refused(&mut pool, Refusal::NotWellFormed, |pool| pool.refresh_all(16, Kind::Local, 0, &[]));
    assert_eq!(pool.to_string(), "the record is not well-formed");
    pool.fresh();
    assert_eq!(*pool.record(), Record::fresh());
    pool.join(15, Share::OPEN).unwrap();
}

/// But for its limits a fresh record is all zeros; all zeros are none.
#[test]
fn zeros_are_no_record() {
    let mut record = Record::fresh();
    assert_eq!(record.limits, Limits::STANDARD);
    record.limits = Limits { small_blocks: 0, large_blocks: 0, expirations: 0, extension: 0 };
    assert_eq!(*record.as_bytes(), [0; RECORD]);
    let mut pool = Pool::over(record.into(), vec![0; SMALL].into(), vec![0; LARGE].into());
    refused(&mut pool, Refusal::NotWellFormed, |pool| pool.join(0, Share::OPEN));
}

/// Wherever the library puts an entry.
#[test]
fn the_record_shows_objects_and_expirations() {
    let mut pool = pool();
    pool.tick(0).unwrap();
    pool.resume(1).unwrap();
    pool.tick(1).unwrap();
    let handle = pool.make_with_prefix(1, Kind::Local, 3, 40, 39).unwrap();
    pool.refresh(0, Kind::Global, 4, handle).unwrap();
    let record = pool.record().clone();
    let block = record.handles.iter().position(|number| *number == u32::from(handle)).unwrap();
    assert!((64..96).contains(&block));
    let told = |record: &Record| (record.length(block), record.maker(block), record.prefix(block), record.sum(block));
    assert_eq!((told(&record), record.extents[block]), ((40, 1, 39, 0), 39 << 32 | 1 << 16 | 40));
    let entry = |clock| record.clocks.iter().position(|other| *other == clock).unwrap();
    let (local, global) = (entry(16 + 1), entry(32));
    assert_eq!([record.named[local], record.named[global]], [block as u8; 2]);
    assert_eq!(record.dues[local], record.tasks[1].clock + 3 + 1);
    assert_eq!(record.dues[global], record.global + 4 + 2);
    pool.write(0, handle, 38, &[250, 7]).unwrap();
    assert_eq!(told(pool.record()), (40, 1, 39, 257));
    pool.leave(1).unwrap();
    assert_eq!((pool.record().clocks[local], pool.record().clocks[global]), (0, 32));
    assert_eq!(told(pool.record()), (40, MAKER_DEPARTED, 39, 257));
    pool.leave(0).unwrap();
    pool.join(0, Share::OPEN).unwrap();
    assert_eq!(pool.record().clocks[global], 48);
    let pinned = pool.make(0, Kind::Pinned, 0, 4).unwrap();
    let record = pool.record().clone();
    let entry = record.clocks.iter().position(|clock| *clock == 49).unwrap();
    assert_eq!(record.handles[usize::from(record.named[entry])], u32::from(pinned));
    assert_eq!(record.dues[entry], 0);
}

#[test]
fn what_a_task_has_set_by_global_time_waits_with_it() {
    let mut pool = Pool::new();
    (0..2).for_each(|task| pool.join(task, Share::OPEN).unwrap());
    let (waits, counts) = (pool.make(0, Kind::Global, 0, 4).unwrap(), pool.make(1, Kind::Global, 0, 4).unwrap());
    assert_eq!(pool.tick(1), Ok(false));
    assert_eq!(pool.block(0), Ok(true));
    assert_eq!(pool.tick(1), Ok(true));
    assert_eq!(pool.remaining(1, waits).unwrap().global, 2);
    assert_eq!(pool.remaining(1, counts), Err(Refusal::ObjectGone));
    // It departs, and another of its number waits.
    assert_eq!(pool.leave(0), Ok(false));
    pool.join(0, Share::OPEN).unwrap();
    assert_eq!(pool.block(0), Ok(false));
    assert_eq!(pool.tick(1), Ok(true));
    assert_eq!(pool.remaining(1, waits).unwrap().global, 1);
    assert_eq!(pool.tick(1), Ok(true));
    assert_eq!(pool.remaining(1, waits), Err(Refusal::ObjectGone));
}

#[test]
fn what_else_stands_in_free_entries_has_no_meaning() {
    let mut record = Record::fresh();
    (record.extents, record.named, record.dues) = ([u64::MAX; STORE_BLOCKS], [255; EXPIRATIONS], [7; EXPIRATIONS]);
    let mut pool: Pool = Pool::over(record.into(), vec![0; SMALL].into(), vec![0; LARGE].into());
    pool.join(0, Share::OPEN).unwrap();
    let handle = pool.make(0, Kind::Local, 0, 2).unwrap();
    assert_eq!(pool.read_to_vec(0, handle).unwrap(), [0, 0]);
    assert_eq!(figures(&pool), (1, 0, 1, 1));
    for clock in [1, 15, 16 + 1, 32 + 1, 48, 49, 50, 255] {
        let mut record = Record::fresh();
        record.clocks[9] = clock;
        let mut pool: Pool = Pool::over(record.into(), vec![0; SMALL].into(), vec![0; LARGE].into());
        refused(&mut pool, Refusal::NotWellFormed, |pool| pool.join(0, Share::OPEN));
    }
}

#[test]
fn a_borrowed_pool_works_on_what_it_borrows() {
    let (mut record, mut small, mut large) = (Record::fresh(), [0xEE; SMALL], [0xEE; LARGE]);
    let mut pool = Pool::over(&mut record, &mut small, &mut large);
    pool.join(0, Share::OPEN).unwrap();
    let handle = pool.make(0, Kind::Global, 3, LONGEST as u16).unwrap();
    pool.write(0, handle, 255, &[1]).unwrap();
    assert_eq!(pool.to_string(), "global time 0, small 0, large 1, expirations 1, given 1");
    assert_eq!(record.given, 1);
    assert_eq!(small, [0xEE; SMALL]);
    assert_eq!(large.iter().map(|byte| u32::from(*byte)).sum::<u32>(), 0xEE * (8192 - 256) + 1);
}

#[test]
fn an_owned_pool_hands_its_parts_back() {
    let (record, small, large) = pool().into_parts();
    assert_eq!(record.tasks.map(|task| task.state)[..3], [1, 2, 0]);
    assert_eq!((small.len(), large.len()), (SMALL, LARGE));
}

#[test]
fn a_pool_can_be_printed_and_sent_to_a_thread() {
    let mut pool = Pool::default();
    assert!(format!("{pool:?}").starts_with("Pool { record: Record { tasks: [TaskEntry { state: 0"));
    let pool = std::thread::spawn(move || pool.join(0, Share::OPEN).map(|()| pool)).join().unwrap().unwrap();
    assert_eq!(pool.to_string(), "global time 0, small 0, large 0, expirations 0, given 0");
}

#[cfg(feature = "std")]
#[test]
fn a_refusal_is_an_error() {
    let error: Box<dyn std::error::Error> = Refusal::ObjectGone.into();
    assert_eq!(error.to_string(), "the object is gone: its last expiration has ended");
}
