//! The handles that make the fit test work most are reached by calls from a fresh pool: task 0 makes objects that go at
//! its next tick, and as many as it takes; task 1 makes those that stay, and never ticks, so that global time stands still.

use host_tests::entries::Plain;
use host_tests::host::Host;
use host_tests::library::Library;
use host_tests::memory::Memory;
use host_tests::reading::of_record;
use host_tests::samples::{full, mixed_blocks, renumber, Numbering, NUMBERINGS};
use plain::fit::is_well_formed;
use plain::limits::{BLOCKS, EXPIRATIONS, LARGEST_BATCH, LARGE_SIZE, SMALL_BLOCKS, SMALL_SIZE};
use plain::record::Share;
use plain::work;
use reference::call::{packed, Call, Handles, Kind};
use reference::random::Random;

const LOCAL: u8 = 0;
const GLOBAL: u8 = 1;

/// The blocks of the store of this one, and the length of an object there.
fn store_of(block: usize) -> (std::ops::Range<usize>, u16) {
    if block < SMALL_BLOCKS {
        (0..SMALL_BLOCKS, SMALL_SIZE as u16)
    } else {
        (SMALL_BLOCKS..BLOCKS, LARGE_SIZE as u16)
    }
}

/// By calls alone. The record is tested at the end, and not by each of some millions of calls.
fn reached(numbering: Numbering) -> Memory {
    let mut memory = Memory::fresh(&mut Random::new(1));
    let Memory { pool, small, large } = &mut memory;
    work::join(pool, 0, Share::OPEN).unwrap();
    work::join(pool, 1, Share::OPEN).unwrap();
    for (block, handle) in mixed_blocks().zip(numbering.handles()) {
        let (store, length) = store_of(block);
        let free = |pool: &plain::record::Pool, blocks: std::ops::Range<usize>| {
            pool.handles[blocks].iter().filter(|&&handle| handle == 0).count() as u32
        };
        let (room, before) = (free(pool, store.clone()), free(pool, store.start..block));
        // So many objects go again. The last of them fill the blocks before this one.
        while pool.given + 1 + before < handle {
            for _ in 0..room.min(handle - before - 1 - pool.given) {
                work::make(pool, small, large, (0, LOCAL, 0), (length, 0)).unwrap();
            }
            assert_eq!(work::tick(pool, 0), Ok(false));
        }
        for _ in pool.given + 1..handle {
            work::make(pool, small, large, (0, LOCAL, 0), (length, 0)).unwrap();
        }
        assert_eq!(work::make(pool, small, large, (1, GLOBAL, 30), (length, 0)), Ok(handle));
        assert_eq!(pool.handles[block], handle);
        assert_eq!(work::tick(pool, 0), Ok(false));
    }
    memory
}

/// One after the other they are reached too, but not in this order of the blocks.
#[test]
fn the_samples_are_reached_by_calls() {
    for numbering in NUMBERINGS.into_iter().filter(|&numbering| numbering != Numbering::InTurn) {
        let (reached, mut sample) = (reached(numbering), full(BLOCKS));
        renumber(&mut sample, numbering);
        assert!(is_well_formed(&reached.pool));
        assert_eq!(reached.pool.handles, sample.pool.handles, "{numbering:?}");
        assert_eq!(reached.pool.given, sample.pool.given, "{numbering:?}");
    }
}

/// On each of them, and with one handle twice: the library answers as the plain pool does.
#[test]
fn the_library_and_the_plain_pool_agree() {
    for numbering in NUMBERINGS {
        let mut whole = full(EXPIRATIONS);
        renumber(&mut whole, numbering);
        let compare = |whole: &Memory, call: &Call, refusal: Option<u8>| {
            let (mut library, mut plain) = (Host::<Library>::new(whole.clone()), Host::<Plain>::new(whole.clone()));
            let told = library.call(call);
            assert_eq!(told, plain.call(call), "{numbering:?}, {call:?}");
            assert_eq!(told.err(), refusal, "{numbering:?}, {call:?}");
            if refusal.is_none() {
                assert_eq!(of_record(&library.memory), of_record(&plain.memory));
            }
        };
        compare(&whole, &Call::Report, None);
        compare(&whole, &Call::Tick { task: 1 }, None);
        compare(&whole, &Call::Make { task: 1, kind: Kind::Local, extension: 0, length: 9, prefix: 0 }, Some(9));
        // The objects of each third block, with room for an expiration on each of them.
        let mut room = full(EXPIRATIONS - LARGEST_BATCH);
        renumber(&mut room, numbering);
        let named: Vec<_> = room.pool.handles.iter().copied().step_by(3).collect();
        let none = named[0] + 1_000;
        let gone = [&named[1..], &[none]].concat();
        for (handles, refusal) in [(&named, None), (&gone, Some(if room.pool.given > none { 12 } else { 11 }))] {
            let handles = packed(handles);
            let batch = Call::Batch { task: 1, kind: Kind::Local, extension: 3, handles: Handles(&handles) };
            compare(&room, &batch, refusal);
        }
        for (one, other) in [(0, BLOCKS - 1), (BLOCKS - 1, 0), (40, 41), (17, SMALL_BLOCKS)] {
            let mut damaged = whole.clone();
            damaged.pool.handles[one] = damaged.pool.handles[other];
            compare(&damaged, &Call::Report, Some(15));
            compare(&damaged, &Call::Tick { task: 1 }, Some(15));
        }
    }
}
