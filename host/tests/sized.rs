//! Pools with limits of the site's own: which are allowed, what is refused by them, and that no call changes them.

use lives::{limits, pools_of, Random};
use ramsummer::{Handle, Kind, Limits, Pool, Record, Refusal, Share, SitePool, LARGE_SIZE, LINE, RECORD, SMALL_SIZE};

mod lives;

const SMALLEST: Limits = Limits { small_blocks: 1, large_blocks: 1, expirations: 1, extension: 0 };
const CABLE: Limits = Limits { small_blocks: 16, large_blocks: 4, expirations: 64, extension: 10 };

/// The limits with each of these numbers in the place of one.
fn with(limits: Limits, numbers: [u32; 4]) -> [Limits; 4] {
    let [small_blocks, large_blocks, expirations, extension] = numbers;
    [
        Limits { small_blocks, ..limits },
        Limits { large_blocks, ..limits },
        Limits { expirations, ..limits },
        Limits { extension, ..limits },
    ]
}

/// One of the four is one past an end of its range.
fn past_an_end() -> Vec<Limits> {
    let above = [SMALLEST, CABLE, Limits::STANDARD].map(|limits| with(limits, [65, 33, 257, 31])).concat();
    let below = [SMALLEST, CABLE, Limits::STANDARD].map(|limits| with(limits, [0, 0, 0, u32::MAX])).concat();
    [above, below].concat()
}

/// A pool over this record, with stores of so many bytes.
fn over(record: Record, small: usize, large: usize) -> Pool {
    Pool::over(record.into(), vec![0; small].into(), vec![0; large].into())
}

fn refused<T>(pool: &mut Pool, refusal: Refusal, call: impl FnOnce(&mut Pool) -> Result<T, Refusal>) {
    let before = pool.clone();
    assert_eq!(call(pool).err(), Some(refusal), "{:?}", pool.record().limits);
    assert!(*pool == before, "{refusal:?} changed the record or a store");
}

/// Whatever is called.
fn assert_not_well_formed(pool: &mut Pool) {
    let handle = Handle::from(1);
    refused(pool, Refusal::NotWellFormed, |pool| pool.join(0, Share::OPEN));
    refused(pool, Refusal::NotWellFormed, |pool| pool.leave(0));
    refused(pool, Refusal::NotWellFormed, |pool| pool.block(0));
    refused(pool, Refusal::NotWellFormed, |pool| pool.resume(0));
    refused(pool, Refusal::NotWellFormed, |pool| pool.tick(0));
    refused(pool, Refusal::NotWellFormed, |pool| pool.make(0, Kind::Local, 0, 1));
    refused(pool, Refusal::NotWellFormed, |pool| pool.refresh(0, Kind::Local, 0, handle));
    refused(pool, Refusal::NotWellFormed, |pool| pool.refresh_all(0, Kind::Local, 0, &[handle]));
    refused(pool, Refusal::NotWellFormed, |pool| pool.release(0, handle));
    refused(pool, Refusal::NotWellFormed, |pool| pool.read_to_vec(0, handle));
    refused(pool, Refusal::NotWellFormed, |pool| pool.write(0, handle, 0, &[]));
    refused(pool, Refusal::NotWellFormed, |pool| pool.report());
    refused(pool, Refusal::NotWellFormed, |pool| pool.remaining(0, handle));
    refused(pool, Refusal::NotWellFormed, |pool| pool.awaited());
    refused(pool, Refusal::NotWellFormed, |pool| pool.share(0));
    for line in [&b"010000FF00FF"[..], b"0600000000010000", b"0A"] {
        refused(pool, Refusal::NotWellFormed, |pool| pool.frame(line, &mut [0; LINE]).outcome);
    }
    assert_eq!(pool.frame(b"0A", &mut [0; LINE]).line, b"0F\n");
}

#[test]
fn a_limit_past_an_end_of_its_range_makes_no_pool() {
    for limits in past_an_end() {
        assert!(!limits.is_allowed(), "{limits:?}");
        assert_eq!(Record::sized(limits), Err(Refusal::LimitsOutOfRange));
        assert_eq!(Pool::sized(limits).err(), Some(Refusal::LimitsOutOfRange));
        let mut pool = Pool::new();
        pool.join(0, Share::OPEN).unwrap();
        assert_eq!(pool.fresh_sized(limits), Err(Refusal::LimitsOutOfRange));
        assert_eq!(pool.record().limits, limits);
        assert_not_well_formed(&mut pool);
        pool.fresh();
        assert_eq!(*pool.record(), Record::fresh());
    }
}

#[test]
fn limits_at_an_end_of_their_range_make_one() {
    let ends = [with(CABLE, [1, 1, 1, 0]), with(CABLE, [64, 32, 256, 30])].concat();
    for limits in ends.into_iter().chain([SMALLEST, Limits::STANDARD]) {
        assert!(limits.is_allowed(), "{limits:?}");
        let mut pool = Pool::sized(limits).unwrap();
        pool.join(0, Share::OPEN).unwrap();
        pool.make(0, Kind::Local, limits.extension as u8, 1).unwrap();
    }
}

/// Whatever the record held. Numbers of chance, of which few are limits, are refused by both.
#[test]
fn this_crate_and_the_library_make_the_same_record() {
    let mut random = Random(2);
    let mut bytes = [0; RECORD];
    for limits in limits(2000) {
        random.fill(&mut bytes);
        let mut pool = over(Record::from_bytes(&bytes), 0, 0);
        pool.fresh_sized(limits).unwrap();
        assert_eq!(pool.record().as_bytes(), Record::sized(limits).unwrap().as_bytes());
    }
    for _ in 0..2000 {
        let any = [(); 4].map(|()| random.below(1 << 31) as u32 >> random.below(31));
        let [small_blocks, large_blocks, expirations, extension] = any;
        let limits = Limits { small_blocks, large_blocks, expirations, extension };
        let mut pool = Pool::new();
        assert_eq!(pool.fresh_sized(limits), Record::sized(limits).map(drop));
        assert_eq!(pool.report().is_ok(), limits.is_allowed());
    }
    let mut pool = over(Record::from_bytes(&bytes), 0, 0);
    pool.fresh();
    assert_eq!(pool.record().as_bytes(), Record::fresh().as_bytes());
}

#[test]
fn a_pool_in_place_is_the_one_in_boxes() {
    static IN_PLACE: SitePool<16, 4> = SitePool::in_place::<64, 10>();
    let boxed = Pool::sized(CABLE).unwrap();
    assert_eq!(IN_PLACE.record(), boxed.record());
    assert_eq!((IN_PLACE.small(), IN_PLACE.large()), (boxed.small(), boxed.large()));
    assert_eq!(size_of_val(&IN_PLACE), RECORD + CABLE.small_length() + CABLE.large_length());
    let (mut in_place, mut boxed) = (IN_PLACE.clone(), boxed);
    assert_eq!(in_place.join(3, Share::OPEN), boxed.join(3, Share::OPEN));
    assert_eq!(in_place.make(3, Kind::Local, 10, 200), boxed.make(3, Kind::Local, 10, 200));
    assert_eq!(in_place.record(), boxed.record());
}

#[test]
fn stores_of_other_lengths_are_refused() {
    for limits in limits(100) {
        let (small, large) = (limits.small_length(), limits.large_length());
        let others = [
            (small + SMALL_SIZE, large),
            (small - SMALL_SIZE, large),
            (small, large + LARGE_SIZE),
            (small, large - LARGE_SIZE),
            (small + 1, large),
            (small, large - 1),
            (large, small),
            (0, 0),
        ];
        for (small, large) in others.into_iter().filter(|lengths| *lengths != (small, large)) {
            let mut pool = over(Record::sized(limits).unwrap(), small, large);
            pool.join(0, Share::OPEN).unwrap();
            refused(&mut pool, Refusal::WrongStoreLength, |pool| pool.make(0, Kind::Local, 0, 1));
            refused(&mut pool, Refusal::WrongStoreLength, |pool| pool.read_to_vec(0, Handle::from(1)));
            refused(&mut pool, Refusal::WrongStoreLength, |pool| pool.write(0, Handle::from(1), 0, &[]));
        }
    }
}

/// Fills both stores and then the expirations, as far as these go, and lets all of it lapse.
fn fill_and_empty(limits: Limits) {
    let mut pool = Pool::sized(limits).unwrap();
    pool.join(0, Share::OPEN).unwrap();
    let longest = limits.extension as u8;
    let mut left = limits.expirations;
    for (blocks, length) in [(limits.small_blocks, 32), (limits.large_blocks, 256)] {
        let made = blocks.min(left);
        for _ in 0..made {
            let handle = pool.make(0, Kind::Local, longest, length).unwrap();
            pool.write(0, handle, 0, &vec![7; length.into()]).unwrap();
        }
        left -= made;
        let refusal = if made == blocks { Refusal::NoFreeBlock } else { Refusal::NoFreeExpiration };
        refused(&mut pool, refusal, |pool| pool.make(0, Kind::Local, longest, length));
    }
    refused(&mut pool, Refusal::ExtensionTooLong, |pool| pool.make(0, Kind::Global, longest + 1, 1));
    refused(&mut pool, Refusal::ExtensionTooLong, |pool| pool.refresh(0, Kind::Local, longest + 1, 1.into()));
    for _ in 0..left {
        pool.refresh(0, Kind::Global, longest, 1.into()).unwrap();
    }
    refused(&mut pool, Refusal::NoFreeExpiration, |pool| pool.refresh(0, Kind::Local, longest, 1.into()));
    refused(&mut pool, Refusal::NoFreeExpiration, |pool| pool.refresh_all(0, Kind::Local, 0, &[1.into()]));
    assert_eq!(u32::from(pool.report().unwrap().expirations), limits.expirations);
    empty(&mut pool);
    pool.make(0, Kind::Pinned, 0, 256).unwrap();
}

/// Local expirations go after extension + 1 ticks, and global ones after one more.
fn empty(pool: &mut Pool) {
    let extension = pool.record().limits.extension;
    for _ in 0..extension {
        pool.tick(0).unwrap();
    }
    let before = pool.report().unwrap();
    assert_eq!(u32::from(before.small) + u32::from(before.large), before.given);
    pool.tick(0).unwrap();
    pool.tick(0).unwrap();
    let after = pool.report().unwrap();
    assert_eq!((after.small, after.large, after.expirations), (0, 0, 0));
}

#[test]
fn a_pool_holds_as_much_as_its_limits_say() {
    fill_and_empty(SMALLEST);
    fill_and_empty(CABLE);
    limits(100).for_each(fill_and_empty);
}

/// All that the smallest pool can do: one object, for one tick or pinned.
#[test]
fn the_smallest_pool_fills_and_empties() {
    let mut pool = Pool::sized(SMALLEST).unwrap();
    assert_eq!((pool.small().len(), pool.large().len()), (SMALL_SIZE, LARGE_SIZE));
    pool.join(0, Share::OPEN).unwrap();
    for length in [1, 32, 33, 256] {
        let handle = pool.make(0, Kind::Local, 0, length).unwrap();
        refused(&mut pool, Refusal::ExtensionTooLong, |pool| pool.make(0, Kind::Local, 1, 1));
        refused(&mut pool, Refusal::NoFreeExpiration, |pool| pool.refresh(0, Kind::Local, 0, handle));
        // Of its own store no block is free; the other has one, and no expiration for it.
        let other = if length <= 32 { 33 } else { 32 };
        refused(&mut pool, Refusal::NoFreeBlock, |pool| pool.make(0, Kind::Local, 0, length));
        refused(&mut pool, Refusal::NoFreeExpiration, |pool| pool.make(0, Kind::Local, 0, other));
        pool.write(0, handle, 0, &vec![0x5C; length.into()]).unwrap();
        assert_eq!(pool.read_to_vec(0, handle).unwrap(), vec![0x5C; length.into()]);
        pool.tick(0).unwrap();
        refused(&mut pool, Refusal::ObjectGone, |pool| pool.read_to_vec(0, handle));
    }
    let pinned = pool.make(0, Kind::Pinned, 0, 4).unwrap();
    (0..100).for_each(|_| assert_eq!(pool.tick(0), Ok(true)));
    refused(&mut pool, Refusal::NoFreeBlock, |pool| pool.make(0, Kind::Local, 0, 4));
    pool.release(0, pinned).unwrap();
    assert_eq!(pool.report().unwrap().to_string(), "small 0, large 0, expirations 0, given 5");
}

#[test]
fn no_call_changes_the_limits() {
    for limits in limits(60) {
        for pool in pools_of(limits, 20) {
            assert_eq!(pool.record().limits, limits);
            let report = pool.report().unwrap();
            assert!(u32::from(report.small) <= limits.small_blocks && u32::from(report.large) <= limits.large_blocks);
            assert!(u32::from(report.expirations) <= limits.expirations);
        }
    }
}

/// A pool of the cable with one small and one large object, as its record has them: the places of their blocks and of the
/// expiration of the first.
fn with_two_objects() -> (Record, [usize; 2], usize) {
    let mut pool = Pool::sized(CABLE).unwrap();
    pool.join(0, Share::OPEN).unwrap();
    let handles = [4, 40].map(|length| pool.make(0, Kind::Local, 10, length).unwrap());
    let record = pool.record().clone();
    let place = |handle| record.handles.iter().position(|other| *other == u32::from(handle)).unwrap();
    let blocks = handles.map(place);
    let entry = (0..64).find(|&entry| record.clocks[entry] != 0 && usize::from(record.named[entry]) == blocks[0]);
    (record.clone(), blocks, entry.unwrap())
}

fn is_well_formed(record: &Record) -> bool {
    over(record.clone(), 0, 0).report() != Err(Refusal::NotWellFormed)
}

/// The object of a block stands in another, with its expirations.
fn moved(record: &Record, from: usize, to: usize) -> Record {
    let mut moved = record.clone();
    moved.handles.swap(from, to);
    moved.extents.swap(from, to);
    let entries = moved.clocks.iter().zip(&mut moved.named).filter(|(clock, _)| **clock != 0);
    entries.filter(|(_, block)| usize::from(**block) == from).for_each(|(_, block)| *block = to as u8);
    moved
}

/// Blocks, expirations and due times within the limits are well-formed, and the next ones beyond are not.
#[test]
fn a_record_beyond_its_limits_is_refused() {
    let (record, [small, large], entry) = with_two_objects();
    for (from, to, fits) in [(small, 15, true), (small, 16, false), (small, 63, false)] {
        assert_eq!(is_well_formed(&moved(&record, from, to)), fits, "small block {to}");
    }
    for (from, to, fits) in [(large, 64 + 3, true), (large, 64 + 4, false), (large, 95, false)] {
        assert_eq!(is_well_formed(&moved(&record, from, to)), fits, "large block {to}");
    }
    for (place, fits) in [(63, true), (64, false), (255, false)] {
        let mut other = record.clone();
        other.clocks.swap(entry, place);
        other.named.swap(entry, place);
        other.dues.swap(entry, place);
        assert_eq!(is_well_formed(&other), fits, "expiration {place}");
    }
    for (due, fits) in [(1, true), (11, true), (12, false), (0, false)] {
        let mut other = record.clone();
        other.dues[entry] = due;
        assert_eq!(is_well_formed(&other), fits, "due in {due}");
    }
    let fewer = [Limits { small_blocks: 1, ..CABLE }, Limits { large_blocks: 1, ..CABLE }];
    for (limits, from, to) in [(fewer[0], small, 1), (fewer[1], large, 65)] {
        let mut other = moved(&record, from, to);
        assert!(is_well_formed(&other));
        other.limits = limits;
        assert!(!is_well_formed(&other), "{limits:?}");
    }
}

/// Free blocks and expirations beyond the limits may hold anything but an object or a clock, as those within them.
#[test]
fn what_else_stands_beyond_the_limits_has_no_meaning() {
    let mut record = Record::sized(SMALLEST).unwrap();
    record.extents[1..64].fill(u64::MAX);
    record.extents[65..].fill(u64::MAX);
    record.named[1..].fill(255);
    record.dues[1..].fill(7);
    let mut pool = over(record, SMALL_SIZE, LARGE_SIZE);
    pool.join(0, Share::OPEN).unwrap();
    pool.make(0, Kind::Local, 0, 32).unwrap();
    pool.tick(0).unwrap();
    pool.make(0, Kind::Local, 0, 33).unwrap();
}
