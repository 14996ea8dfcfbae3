//! Handles that differ and handles that do not, however they lie: the fit test tells, by their last bytes, by its table
//! and by sorting.

use std::collections::BTreeSet;

use plain::fit::{is_well_formed, spread};
use plain::limits::BLOCKS;
use plain::record::{extent_of, Pool, DEPARTED, FRESH, NOBODY};
use reference::random::Random;

/// An object with a global expiration in each block.
fn full() -> Pool {
    let mut pool = Pool { given: u32::MAX, ..FRESH };
    for block in 0..BLOCKS {
        pool.handles[block] = 1 + block as u32;
        pool.extents[block] = extent_of(32 + u16::from(block >= 64), 0, NOBODY);
        (pool.clocks[block], pool.named[block], pool.dues[block]) = (DEPARTED, block as u8, 1);
    }
    pool
}

/// Free blocks have no handle, and those in use each another.
fn check(pool: &Pool) {
    let used: Vec<u32> = pool.handles.into_iter().filter(|&handle| handle != 0).collect();
    let differ = used.iter().collect::<BTreeSet<_>>().len() == used.len();
    assert_eq!(is_well_formed(pool), differ, "{:?}", pool.handles);
}

/// All of them, then with fewer objects, then with one handle twice.
fn check_all(handles: impl Iterator<Item = u32>, random: &mut Random) {
    let mut pool = full();
    for (place, handle) in pool.handles.iter_mut().zip(handles) {
        *place = handle;
    }
    for count in (1..BLOCKS).rev() {
        pool.handles.swap(count, random.below(count + 1));
    }
    check(&pool);
    let mut twice = pool.clone();
    twice.handles[random.below(BLOCKS)] = twice.handles[random.below(BLOCKS)];
    check(&twice);
    for block in (0..BLOCKS).filter(|_| random.one_in(3)) {
        (pool.clocks[block], pool.handles[block]) = (0, 0);
    }
    check(&pool);
}

#[test]
fn of_all_kinds() {
    let mut random = Random::new(3);
    for _ in 0..200 {
        let first = 1 + random.below(1 << 24) as u32;
        check_all(first.., &mut random);
        for step in [2, 255, 256, 257, 4_096, 65_536, 1 << 24] {
            check_all((0..).map(|count| first.wrapping_add(count * step).max(1)), &mut random);
        }
        check_all((first..).filter(|&handle| spread(handle) == spread(first)), &mut random);
        // Many by chance, of few.
        let most = random.pick(&[100, 300, 70_000, 1 << 31]);
        let chance: Vec<u32> = (0..BLOCKS).map(|_| 1 + random.below(most) as u32).collect();
        check_all(chance.into_iter(), &mut random);
    }
}
