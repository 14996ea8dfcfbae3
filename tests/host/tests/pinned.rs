//! Objects that are pinned until they are released, by the library: what a release ends, that no time ends it, and which
//! refusal comes first.

use host_tests::entries::Entries;
use host_tests::host::Host;
use host_tests::library::Library;
use host_tests::memory::Memory;
use host_tests::reading::figures;
use host_tests::samples::{standing_by, Setting};
use plain::limits::{Limits, BLOCKS, EXPIRATIONS, LARGE_BLOCKS, SMALL_BLOCKS, TASKS};
use plain::record::{Pool, PINNED};
use reference::call::{packed, Accepted, Call, Handles, Kind, Lifetime};
use reference::random::Random;
use reference::share::Share;

fn release(host: &mut Host<Library>, task: u8, handle: u32) -> u8 {
    host.told(&Call::Release { task, handle })
}

/// Both stores full and 256 expirations: the first so many objects are pinned, and the rest is on the objects of even number.
fn with_pinned(count: usize) -> Memory {
    standing_by(Limits::STANDARD, TASKS, (SMALL_BLOCKS, LARGE_BLOCKS), EXPIRATIONS, |place| {
        let (kind, extension) = if place < count { (Kind::Pinned, 0) } else { (Kind::Global, 30) };
        Setting { task: (place % TASKS) as u8, kind, extension, object: 2 * place % BLOCKS }
    })
}

fn expirations_on(pool: &Pool, handle: u32) -> usize {
    let on = |(&clock, &named): (&u8, &u8)| clock != 0 && pool.handles[usize::from(named)] == handle;
    pool.clocks.iter().zip(&pool.named).filter(|&entry| on(entry)).count()
}

/// Of each object, by each task in turn: its pinned expiration ends and no other, and where it was the last one the block is
/// free in the same call.
#[test]
fn each_is_released_once() {
    let whole = with_pinned(BLOCKS);
    for handle in 1..=BLOCKS as u32 {
        let mut host = Host::new(whole.clone());
        let others = expirations_on(&whole.pool, handle) - 1;
        assert_eq!(release(&mut host, (handle as usize % TASKS) as u8, handle), 0);
        assert_eq!(expirations_on(&host.memory.pool, handle), others);
        let after = figures(&host.memory.pool);
        let gone = usize::from(others == 0);
        assert_eq!(usize::from(after.small) + usize::from(after.large), BLOCKS - gone);
        assert_eq!(usize::from(after.expirations), EXPIRATIONS - 1);
        assert_eq!(release(&mut host, 0, handle), if others == 0 { 12 } else { 22 });
        // Its room is taken again, by one that is pinned too.
        let length = if handle <= 64 { 32 } else { 256 };
        let make = Call::Make { task: 3, kind: Kind::Pinned, extension: 0, length, prefix: 0 };
        assert_eq!(host.told(&make), if others == 0 { 0 } else { 9 });
    }
}

/// Of records in which some are pinned and some are not.
#[test]
fn what_is_not_pinned_is_22() {
    for count in [0, 1, 40, 95] {
        let whole = with_pinned(count);
        let mut host = Host::new(whole);
        for handle in 1..=BLOCKS as u32 {
            assert_eq!(release(&mut host, 5, handle), if handle as usize <= count { 0 } else { 22 }, "{count}");
        }
        assert!(!host.memory.pool.clocks.contains(&PINNED));
    }
}

/// What clocks and global time read at first.
const STARTS: [u32; 6] = [0, 255, u32::MAX - 31, u32::MAX - 9, u32::MAX - 1, u32::MAX];

/// More ticks and advances than any extension has, a task that waits, one that leaves and one that comes in its place, also
/// where the counters read 0.
#[test]
fn no_time_ends_it() {
    for start in STARTS {
        let mut host = Host::<Library>::new(Memory::fresh(&mut Random::new(3)));
        for task in 0..3 {
            assert_eq!(host.call(&Call::Join { task, share: Share::OPEN }), Ok(Accepted::Done));
            host.memory.pool.tasks[usize::from(task)].clock = start;
        }
        host.memory.pool.global = start;
        for (task, length) in [(0, 4), (1, 256), (2, 32)] {
            assert_eq!(host.told(&Call::Make { task, kind: Kind::Pinned, extension: 0, length, prefix: 0 }), 0);
        }
        assert_eq!(host.told(&Call::Refresh { task: 0, kind: Kind::Global, extension: 0, handle: 3 }), 0);
        for call in [Call::Block { task: 1 }, Call::Leave { task: 2 }, Call::Join { task: 2, share: Share::OPEN }] {
            assert_eq!(host.told(&call), 0);
        }
        for round in 0..40 {
            for task in [0, 2] {
                assert_eq!(host.call(&Call::Tick { task }), Ok(Accepted::Advanced(task == 2)));
            }
            for handle in 1..=3 {
                let global = if handle == 3 { 1u8.saturating_sub(round) } else { 0 };
                let left = Accepted::Remaining(Lifetime { local: 0, global });
                assert_eq!(host.call(&Call::Remaining { task: 0, handle }), Ok(left), "{start}, {round}");
            }
        }
        assert_eq!(host.told(&Call::Leave { task: 0 }), 0);
        assert_eq!(figures(&host.memory.pool).expirations, 3);
        for handle in 1..=3 {
            assert_eq!(release(&mut host, 2, handle), 0);
        }
        assert_eq!(figures(&host.memory.pool).expirations, 0, "{start}");
    }
}

/// Of several faults the first tells: 15, 1, 3, 4, 11, 12, 22.
#[test]
fn the_refusals_of_a_release_in_order() {
    let mut host = Host::new(with_pinned(2));
    host.memory.pool.given = 97;
    assert_eq!(host.told(&Call::Block { task: 1 }), 0);
    assert_eq!(host.told(&Call::Leave { task: 2 }), 0);
    let rows =
        [(16, 0), (255, 1), (2, 0), (2, 1), (1, 0), (1, 1), (0, 0), (0, 98), (0, u32::MAX), (0, 97), (0, 3), (0, 2)];
    let numbers = [1, 1, 3, 3, 4, 4, 11, 11, 11, 12, 22, 0];
    for ((task, handle), number) in rows.into_iter().zip(numbers) {
        assert_eq!(release(&mut host, task, handle), number, "{task}, {handle}");
    }
    host.memory.pool.tasks[5].state = 4;
    let before = host.memory.clone();
    for (task, handle) in rows {
        assert_eq!(Library::release(&mut host.memory.pool, task, handle), 15, "{task}, {handle}");
    }
    assert!(host.memory == before);
}

/// 6 for a make with any extension; 21 for a refresh and a batch, after 20 and before 6, 11, 12 and 10.
#[test]
fn only_a_make_pins_and_with_no_extension() {
    let mut host = Host::<Library>::new(with_pinned(1));
    host.memory.pool.given = 97;
    for extension in 1..=255 {
        for length in [0, 4, 257] {
            let make = Call::Make { task: 0, kind: Kind::Pinned, extension, length, prefix: 0 };
            assert_eq!(host.told(&make), 6, "{extension}");
        }
    }
    let kind = Kind::Pinned;
    for (extension, handle) in [(0, 1), (0, 2), (1, 1), (31, 2), (255, 0), (0, 97), (0, 98)] {
        assert_eq!(host.told(&Call::Refresh { task: 0, kind, extension, handle }), 21);
        for (task, count, number) in [(0, 0, 20), (0, 33, 20), (0, 1, 21), (0, 32, 21), (16, 33, 1)] {
            let handles = packed(&vec![handle; count]);
            let batch = Call::Batch { task, kind, extension, handles: Handles(&handles) };
            assert_eq!(host.told(&batch), number, "{batch:?}");
        }
    }
}
