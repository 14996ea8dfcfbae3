//! Order 12: pools of a site's own figures. 29 and what it leaves; which records are fit by their figures; 14, 6, 9 and 10.

mod memory;

use memory::Memory;
use plain::calls;
use plain::fit::is_well_formed;
use plain::limits::{Limits, BLOCKS, EXPIRATIONS, LARGE_SIZE, SMALL_BLOCKS, SMALL_SIZE};
use plain::record::{extent_of, fresh, Pool, Share, DEPARTED, FREE, FRESH, GLOBAL, LOCAL, NOBODY, PINNED, RUNNING};

/// A small site.
const SITE: Limits = Limits { small_blocks: 3, large_blocks: 2, expirations: 7, extension: 5 };

/// One of the four figures, with the least and the most of it.
type Figure = fn(&mut Limits) -> &mut u32;
const FIGURES: [(Figure, u32, u32); 4] = [
    (|limits| &mut limits.small_blocks, 1, 64),
    (|limits| &mut limits.large_blocks, 1, 32),
    (|limits| &mut limits.expirations, 1, 256),
    (|limits| &mut limits.extension, 0, 30),
];

fn with(mut limits: Limits, figure: Figure, value: u32) -> Limits {
    *figure(&mut limits) = value;
    limits
}

/// Each figure of any value, beside the others of three sites: 0 within its range and 29 past it, over whatever stood there.
/// The record is zeros but for the figures, and fit exactly where they are allowed.
#[test]
fn figures_in_their_ranges_and_past_them() {
    for (figure, least, most) in FIGURES {
        let far = [1 << 8, 1 << 16, (1 << 16) + 1, (1 << 24) + most, 1 << 31, u32::MAX - 1, u32::MAX];
        for value in (0..=300).chain(far) {
            for limits in [Limits::SMALLEST, SITE, Limits::STANDARD].map(|limits| with(limits, figure, value)) {
                let allowed = (least..=most).contains(&value);
                let mut pool = Pool { given: 9, ..FRESH };
                pool.handles.fill(7);
                assert_eq!(calls::fresh_sized(&mut pool, limits), if allowed { 0 } else { 29 }, "{limits:?}");
                assert_eq!(pool, fresh(limits));
                assert_eq!((limits.is_allowed(), is_well_formed(&pool)), (allowed, allowed), "{limits:?}");
                assert_eq!(calls::join(&mut pool, 0, Share::OPEN), if allowed { 0 } else { 15 }, "{limits:?}");
                assert_eq!(calls::fresh(&mut pool), 0);
                assert_eq!(pool, FRESH);
            }
        }
    }
}

/// An object in this block, with an expiration in this entry that is due so far ahead.
fn one_object(limits: Limits, block: usize, entry: usize, (clock, due): (u8, u32)) -> Pool {
    let mut pool = Pool { given: 1, ..fresh(limits) };
    pool.tasks[3].state = RUNNING;
    let length = if block < SMALL_BLOCKS { 32 } else { 33 };
    (pool.handles[block], pool.extents[block]) = (1, extent_of(length, 0, NOBODY));
    (pool.clocks[entry], pool.named[entry], pool.dues[entry]) = (clock, block as u8, due);
    pool
}

/// In each entry, at each count of expirations.
#[test]
fn entries_past_the_expirations() {
    for (count, entry) in (1..=EXPIRATIONS).flat_map(|count| (0..EXPIRATIONS).map(move |entry| (count, entry))) {
        let limits = Limits { expirations: count as u32, ..SITE };
        let mut pool = one_object(limits, 0, entry, (PINNED, 0));
        assert_eq!(is_well_formed(&pool), entry < count, "{entry} of {count}");
        // What a free one holds has no meaning.
        (pool.clocks[entry], pool.handles[0]) = (FREE, 0);
        assert!(is_well_formed(&pool), "{entry} of {count}");
    }
}

/// In each block of either store, at each count: in use, and named without being in use.
#[test]
fn blocks_past_the_figures() {
    for (count, block) in (1..=SMALL_BLOCKS).flat_map(|count| (0..BLOCKS).map(move |block| (count, block))) {
        let (small_blocks, large_blocks) = (count as u32, count.div_ceil(2) as u32);
        let limits = Limits { small_blocks, large_blocks, ..SITE };
        let mut pool = one_object(limits, block, 0, (DEPARTED, 1));
        let fits = match block.checked_sub(SMALL_BLOCKS) {
            None => block < small_blocks as usize,
            Some(large) => large < large_blocks as usize,
        };
        assert_eq!(is_well_formed(&pool), fits, "{block}, {limits:?}");
        pool.handles[block] = 0;
        assert!(!is_well_formed(&pool), "{block}, {limits:?}");
        pool.clocks[0] = FREE;
        assert!(is_well_formed(&pool), "{block}, {limits:?}");
    }
}

/// At each largest extension: one more unit than it by local time, and two more by global time.
#[test]
fn due_times_past_the_extension() {
    for (extension, units) in (0..=30).flat_map(|extension| (0..=34).map(move |units| (extension, units))) {
        let limits = Limits { extension, ..SITE };
        for (clock, extra) in [(LOCAL + 3, 1), (GLOBAL + 3, 2), (DEPARTED, 2)] {
            let pool = one_object(limits, 0, 0, (clock, units));
            assert_eq!(is_well_formed(&pool), (1..=extension + extra).contains(&units), "{extension}, {units}");
        }
    }
}

/// A pool of these figures, in which task 0 runs.
fn site(limits: Limits) -> Memory {
    let mut memory = Memory::of(fresh(limits));
    assert_eq!(calls::join(&mut memory.pool, 0, Share::OPEN), 0);
    memory
}

#[test]
fn stores_of_other_lengths() {
    let mut memory = site(SITE);
    assert_eq!(memory.make(2, 0, 4), 0);
    let (small, large) = (SITE.small_store(), SITE.large_store());
    assert_eq!((small, large), (96, 512));
    let smalls = [0, 1, small - SMALL_SIZE, small - 1, small + 1, small + SMALL_SIZE, 2048].map(|small| (small, large));
    let larges = [0, 1, large - LARGE_SIZE, large - 1, large + 1, large + LARGE_SIZE, 8192].map(|large| (small, large));
    for (small, large) in smalls.into_iter().chain(larges).chain([(large, small)]) {
        let (mut small, mut large, before) = (vec![0; small], vec![0; large], memory.pool.clone());
        // A task that there is, and one that there is not: 14 comes first.
        for task in [0, 16] {
            assert_eq!(calls::make(&mut memory.pool, &mut small, &mut large, task, 0, 0, 4, 0, &mut 0), 14);
            assert_eq!(calls::read(&memory.pool, &small, &large, task, 1, &mut [0; LARGE_SIZE], &mut 0), 14);
            assert_eq!(calls::write(&mut memory.pool, &mut small, &mut large, task, 1, 0, &[]), 14);
        }
        assert_eq!(memory.pool, before);
    }
    assert_eq!(memory.frame(b"080000000001"), (0, b"0000000000\n".to_vec()));
}

/// As many objects as blocks, in either store, again and again.
#[test]
fn as_many_objects_as_blocks() {
    for (small_blocks, large_blocks) in (1..=64).zip((1..=32).cycle()) {
        let mut memory = site(Limits { small_blocks, large_blocks, expirations: 256, extension: 0 });
        for _ in 0..3 {
            for (count, length) in [(small_blocks, 32), (large_blocks, 33)] {
                (0..count).for_each(|_| assert_eq!(memory.make(0, 0, length), 0, "{small_blocks}, {large_blocks}"));
                assert_eq!(memory.make(0, 0, length), 9, "{small_blocks}, {large_blocks}");
            }
            assert!(is_well_formed(&memory.pool));
            assert_eq!(calls::tick(&mut memory.pool, 0, &mut 0), 0);
        }
    }
}

/// By refreshes and by batches: as many expirations as there is room for, wherever the free entries are.
#[test]
fn as_many_expirations_as_chosen() {
    for expirations in 1..=EXPIRATIONS as u32 {
        let mut memory = site(Limits { expirations, ..SITE });
        assert_eq!(memory.make(2, 0, 4), 0);
        let pool = &mut memory.pool;
        for count in 1..expirations {
            assert_eq!(calls::refresh(pool, 0, 0, u8::from(count % 3 == 0), 1), 0, "{count} of {expirations}");
        }
        assert_eq!(calls::refresh(pool, 0, 0, 0, 1), 10, "{expirations}");
        assert_eq!(calls::refresh_all(pool, 0, 0, 0, &[1]), 10, "{expirations}");
        assert_eq!(calls::tick(pool, 0, &mut 0), 0);
        // One is pinned and each third has a tick more.
        let free = expirations as usize - 1 - (expirations as usize - 1) / 3;
        for count in [free + 1, free].into_iter().filter(|count| (1..=32).contains(count)) {
            let number = if count > free { 10 } else { 0 };
            assert_eq!(calls::refresh_all(pool, 0, 0, 5, &vec![1; count]), number, "{count} of {expirations}");
        }
        while calls::refresh(pool, 0, 1, 5, 1) == 0 {}
        let standing = pool.clocks.iter().filter(|&&clock| clock != FREE).count();
        assert_eq!((standing, is_well_formed(pool)), (expirations as usize, true));
    }
}

/// Up to the largest extension, and what is pinned with none, whatever the figure.
#[test]
fn extensions_up_to_the_largest() {
    for (largest, extension) in (0..=30).flat_map(|largest| (0..=255).map(move |extension| (largest, extension))) {
        let mut memory = site(Limits { extension: u32::from(largest), ..SITE });
        assert_eq!(memory.make(2, 0, 4), 0);
        let number = if extension > largest { 6 } else { 0 };
        assert_eq!(memory.make(1, extension, 4), number, "{extension}, {largest}");
        assert_eq!(memory.make(2, extension, 40), if extension > 0 { 6 } else { 0 }, "{extension}, {largest}");
        assert_eq!(calls::refresh(&mut memory.pool, 0, 0, extension, 1), number, "{extension}, {largest}");
        assert_eq!(calls::refresh_all(&mut memory.pool, 0, 1, extension, &[1]), number, "{extension}, {largest}");
        assert!(is_well_formed(&memory.pool));
    }
}
