//! Bytes of the stores that something outside changes, by the library: one changed byte makes each read and write of its
//! object refuse with 23 until the object goes, and no other call tells the difference; changes that cancel out pass.

use host_tests::entries::Entries;
use host_tests::host::Host;
use host_tests::library::Library;
use host_tests::memory::Memory;
use host_tests::sites::CABLE;
use plain::limits::{Limits, LARGE_SIZE, SMALL_BLOCKS, SMALL_SIZE};
use plain::record::{length_in, sum_in};
use reference::call::{packed, Accepted, Call, Handles, Kind};
use reference::random::Random;
use reference::share::Share;

const SUM_DIFFERS: u8 = 23;

/// Three tasks run.
const TASKS: u8 = 3;

/// 01's figures, those of a small site, and the smallest that let an object stand in each store.
const SITES: [Limits; 3] = [Limits::STANDARD, CABLE, Limits { expirations: 2, ..Limits::SMALLEST }];

fn read(handle: u32) -> Call<'static> {
    Call::Read { task: 0, handle }
}

/// Of one byte, so that it lies in every object.
fn write(handle: u32) -> Call<'static> {
    Call::Write { task: 1, handle, offset: 0, bytes: &[0xA5] }
}

/// Both stores are full of objects of many lengths: the first made of each store has no byte written, the second has a block
/// full of 255, and the others have bytes of chance. Each stands for as long as it can by global time, and every third is
/// pinned.
fn full(limits: Limits) -> Memory {
    let mut random = Random::new(6);
    let mut host = Host::<Library>::new(Memory::sized(limits, &mut random));
    (0..TASKS).for_each(|task| assert_eq!(host.call(&Call::Join { task, share: Share::OPEN }), Ok(Accepted::Done)));
    for (handle, place) in (1..).zip(host.memory.places()) {
        let (first, shortest, longest) = if place < SMALL_BLOCKS { (0, 1, 32) } else { (SMALL_BLOCKS, 33, 256) };
        let length = match place - first {
            1 => longest,
            _ => shortest + random.below(longest - shortest + 1),
        };
        let longest = limits.extension as u8;
        let (kind, extension) = if place % 3 == 0 { (Kind::Pinned, 0) } else { (Kind::Global, longest) };
        let make = Call::Make { task: (place % 3) as u8, kind, extension, length: length as u16, prefix: 0 };
        assert_eq!(host.call(&make), Ok(Accepted::Handle(handle)));
        let mut bytes = vec![255; length];
        match place - first {
            0 => continue,
            1 => {}
            _ => random.fill(&mut bytes),
        }
        assert_eq!(host.call(&Call::Write { task: 0, handle, offset: 0, bytes: &bytes }), Ok(Accepted::Done));
    }
    host.memory
}

/// The other values that a byte is given: all of them in one block of each store, else the next one, one far off and one of
/// chance.
fn others(random: &mut Random, place: usize, held: u8) -> Vec<u8> {
    let any = held.wrapping_add(1 + random.below(255) as u8);
    match place {
        17 | 80 => (0..=255).filter(|&value| value != held).collect(),
        _ => vec![held.wrapping_add(1), held ^ 0x80, any],
    }
}

/// Each byte of both stores, those behind an object's end too. Read and write of its object are refused, and those of another
/// object are not; put back, it is as if nothing had been.
#[test]
fn every_byte_of_both_stores() {
    SITES.into_iter().for_each(every_byte_of);
}

fn every_byte_of(limits: Limits) {
    let whole = full(limits);
    let mut random = Random::new(7);
    let mut host = Host::<Library>::new(whole.clone());
    let places = whole.places();
    for (turn, &place) in places.iter().enumerate() {
        let handle = whole.pool.handles[place];
        for offset in 0..whole.block(place).len() {
            let held = whole.block(place)[offset];
            for value in others(&mut random, place, held) {
                host.memory.block_mut(place)[offset] = value;
                assert_eq!(host.call(&read(handle)), Err(SUM_DIFFERS), "{place}, {offset}, {value}");
                assert_eq!(host.call(&write(handle)), Err(SUM_DIFFERS), "{place}, {offset}, {value}");
            }
            let other = places[(turn + 1 + random.below(places.len() - 1)) % places.len()];
            assert_eq!(host.call(&read(whole.pool.handles[other])), Ok(Accepted::Bytes(own(&whole, other))));
            host.memory.block_mut(place)[offset] = held;
        }
        assert_eq!(host.call(&read(handle)), Ok(Accepted::Bytes(own(&whole, place))));
    }
    assert!(host.memory == whole);
}

/// The bytes of the object in a block.
fn own(memory: &Memory, place: usize) -> &[u8] {
    &memory.block(place)[..usize::from(length_in(memory.pool.extents[place]))]
}

/// Among all others: 23 until the changed one goes, 12 from then on, and the calls that end it answer as without the change.
#[test]
fn until_it_goes_among_all_others() {
    SITES.into_iter().for_each(until_it_goes);
}

fn until_it_goes(limits: Limits) {
    let whole = full(limits);
    let mut random = Random::new(12);
    let places = whole.places();
    for (turn, &place) in places.iter().enumerate() {
        let handle = whole.pool.handles[place];
        let next = whole.pool.handles[places[(turn + 1) % places.len()]];
        let (mut before, mut after) = (Host::<Library>::new(whole.clone()), Host::<Library>::new(whole.clone()));
        let offset = random.below(whole.block(place).len());
        let byte = &mut after.memory.block_mut(place)[offset];
        *byte = byte.wrapping_add(1 + random.below(255) as u8);
        let ticks = (0..32).flat_map(|_| (0..TASKS).map(|task| Call::Tick { task }));
        for call in std::iter::once(Call::Release { task: 0, handle }).chain(ticks) {
            let number = if after.memory.place(handle).is_some() { SUM_DIFFERS } else { 12 };
            assert_eq!(after.call(&read(handle)), Err(number), "{place}");
            assert_eq!(after.call(&write(handle)), Err(number), "{place}");
            assert_eq!(after.call(&read(next)), before.call(&read(next)), "{place}");
            assert_eq!(after.call(&call), before.call(&call), "{place}, {call:?}");
        }
        assert_eq!(after.call(&read(handle)), Err(12), "{place}");
        assert_eq!(after.memory.pool, before.memory.pool, "{place}");
    }
}

/// All calls but a read and a write of the object: report, remaining life, refreshes, a batch and a release of it; reads and
/// writes of others, and time. They tell the same with the change as without it, and leave the same record.
#[test]
fn all_other_calls_do_not_look() {
    SITES.into_iter().for_each(other_calls_do_not_look);
}

fn other_calls_do_not_look(limits: Limits) {
    let whole = full(limits);
    let mut random = Random::new(8);
    for (turn, place) in whole.places().into_iter().enumerate() {
        let handle = whole.pool.handles[place];
        let offset = random.below(whole.block(place).len());
        let changed = whole.block(place)[offset].wrapping_add(1 + random.below(255) as u8);
        let (mut before, mut after) = (Host::<Library>::new(whole.clone()), Host::<Library>::new(whole.clone()));
        after.memory.block_mut(place)[offset] = changed;
        let others = whole.places().into_iter().map(|other| whole.pool.handles[other]);
        let others: Vec<_> = others.filter(|&other| other != handle).collect();
        let handles = packed(&[others[turn % others.len()], handle, handle]);
        let mut calls = vec![
            Call::Report,
            Call::Remaining { task: 0, handle },
            Call::Remaining { task: 16, handle },
            Call::Refresh { task: 0, kind: Kind::Local, extension: 3, handle },
            Call::Refresh { task: 0, kind: Kind::Pinned, extension: 3, handle },
            Call::Batch { task: 1, kind: Kind::Global, extension: 1, handles: Handles(&handles) },
            Call::Remaining { task: 0, handle },
            Call::Make { task: 0, kind: Kind::Local, extension: 0, length: 4, prefix: 0 },
        ];
        calls.extend(others.iter().flat_map(|&other| [read(other), write(other), read(other)]));
        calls.extend((0..TASKS).map(|task| Call::Tick { task }));
        calls.extend([Call::Block { task: 2 }, Call::Resume { task: 2 }, Call::Leave { task: 2 }, Call::Report]);
        calls.extend([Call::Release { task: 0, handle }, Call::Report]);
        for call in &calls {
            assert_eq!(after.call(call), before.call(call), "{place}, {call:?}");
        }
        assert_eq!(after.memory.pool, before.memory.pool, "{place}");
        after.memory.block_mut(place)[offset] = whole.block(place)[offset];
        assert!(after.memory == before.memory, "{place}");
    }
}

/// By local time, by global time and pinned, small and large: the object is refused with 23 for as long as it stands, a
/// refresh makes it stand longer like any other, and after that it is 12 for ever, also when its block has another object.
#[test]
fn refused_until_it_goes() {
    let kinds = [(Kind::Local, 2), (Kind::Global, 1), (Kind::Pinned, 0)];
    for (kind, extension) in kinds {
        for (length, place) in [(1, 0), (32, 31), (7, 31), (33, 0), (100, 255), (256, 128)] {
            let mut host = Host::<Library>::new(Memory::sized(CABLE, &mut Random::new(9)));
            (0..2).for_each(|task| assert_eq!(host.told(&Call::Join { task, share: Share::OPEN }), 0));
            assert_eq!(host.told(&Call::Make { task: 0, kind, extension, length, prefix: 0 }), 0);
            assert_eq!(host.told(&write(1)), 0);
            let block = host.memory.place(1).expect("it stands");
            host.memory.block_mut(block)[place] ^= 0x40;
            for rounds in 0..3 {
                assert_eq!((host.told(&read(1)), host.told(&write(1))), (23, 23), "{kind:?}, {rounds}");
                if rounds == 1 {
                    assert_eq!(host.told(&Call::Refresh { task: 1, kind: Kind::Local, extension: 1, handle: 1 }), 0);
                }
                (0..2).for_each(|task| assert_eq!(host.told(&Call::Tick { task }), 0));
            }
            let released = host.told(&Call::Release { task: 1, handle: 1 });
            assert_eq!(released, if kind == Kind::Pinned { 0 } else { 12 });
            // Its block is given out again, once all of its store are.
            let blocks = if length <= 32 { CABLE.small_blocks } else { CABLE.large_blocks };
            for count in 0..blocks {
                assert_eq!((host.told(&read(1)), host.told(&write(1))), (12, 12), "{kind:?}, {length}");
                assert_eq!(host.told(&Call::Make { task: 1, kind: Kind::Global, extension: 9, length, prefix: 0 }), 0);
                assert_eq!(host.told(&read(2 + count)), 0);
            }
            assert_ne!(host.memory.pool.handles[block], 0);
            assert_eq!((host.told(&read(1)), host.told(&write(1))), (12, 12), "{kind:?}, {length}");
        }
    }
}

/// One byte up by as much as another goes down, wherever both are: what is read is what stands there, and a write goes on.
#[test]
fn changes_that_cancel_out_pass() {
    let whole = full(Limits::STANDARD);
    let mut random = Random::new(10);
    let mut met = 0;
    for place in whole.places() {
        let handle = whole.pool.handles[place];
        for _ in 0..50 {
            let mut host = Host::<Library>::new(whole.clone());
            let block = host.memory.block_mut(place);
            let (up, down) = (random.below(block.len()), random.below(block.len()));
            let most = block[down].min(255 - block[up]);
            if up == down || most == 0 {
                continue;
            }
            let by = 1 + random.below(usize::from(most)) as u8;
            (block[up], block[down]) = (block[up] + by, block[down] - by);
            let changed = host.memory.clone();
            assert_eq!(host.call(&read(handle)), Ok(Accepted::Bytes(own(&changed, place))), "{place}");
            // The host tests that the sum is that of the bytes then.
            assert_eq!(host.call(&write(handle)), Ok(Accepted::Done), "{place}");
            assert!(host.call(&read(handle)).is_ok(), "{place}");
            // One of the two alone is noticed.
            let mut host = Host::<Library>::new(changed);
            host.memory.block_mut(place)[down] = whole.block(place)[down];
            assert_eq!(host.call(&read(handle)), Err(SUM_DIFFERS), "{place}");
            met += 1;
        }
    }
    assert!(met > 2_000, "{met}");
}

/// Each bit of each sum in the record: it is as if a byte were changed. The record is well-formed with any sum.
#[test]
fn every_bit_of_a_sum() {
    let whole = full(Limits::STANDARD);
    let mut host = Host::<Library>::new(whole.clone());
    let report = format!("{:?}", host.call(&Call::Report));
    let places = whole.places();
    for (turn, &place) in places.iter().enumerate() {
        for bit in 48..64 {
            host.memory.pool.extents[place] ^= 1 << bit;
            let handle = whole.pool.handles[place];
            assert_eq!(host.call(&read(handle)), Err(SUM_DIFFERS), "{place}, {bit}");
            assert_eq!(host.call(&write(handle)), Err(SUM_DIFFERS), "{place}, {bit}");
            assert_eq!(format!("{:?}", host.call(&Call::Report)), report);
            let other = places[(turn + bit) % places.len()];
            assert_eq!(host.call(&read(whole.pool.handles[other])), Ok(Accepted::Bytes(own(&whole, other))));
            host.memory.pool.extents[place] ^= 1 << bit;
        }
    }
    assert!(host.memory == whole);
}

/// The largest sum there is, 65,280, reached and left byte by byte, and the smallest.
#[test]
fn sums_from_the_smallest_to_the_largest() {
    let mut host = Host::<Library>::new(Memory::fresh(&mut Random::new(11)));
    assert_eq!(host.told(&Call::Join { task: 0, share: Share::OPEN }), 0);
    for (handle, length, largest) in [(1, 32, 32 * 255), (2, 256, 65_280)] {
        let make = Call::Make { task: 0, kind: Kind::Pinned, extension: 0, length, prefix: 0 };
        assert_eq!(host.call(&make), Ok(Accepted::Handle(handle)));
        let place = host.memory.place(handle).expect("it stands");
        for (byte, sum) in [(255, largest), (0, 0)] {
            for offset in (0..length).map(|offset| offset as u8) {
                assert_eq!(host.told(&Call::Write { task: 0, handle, offset, bytes: &[byte] }), 0);
                assert!(host.call(&read(handle)).is_ok());
            }
            assert_eq!(sum_in(host.memory.pool.extents[place]), sum);
        }
        let all = vec![255; usize::from(length)];
        for (bytes, sum) in [(&all[..], largest), (&[], largest), (&all, largest)] {
            assert_eq!(host.told(&Call::Write { task: 0, handle, offset: 0, bytes }), 0);
            assert_eq!(sum_in(host.memory.pool.extents[place]), sum);
        }
    }
}

/// A read without room for its answer, with so many bytes of the small store.
fn read_without_room(memory: &mut Memory, store: usize, task: u8, handle: u32) -> u8 {
    let Memory { pool, small, large } = memory;
    Library::read(pool, &small[..store], large, task, handle, &mut [], &mut 0)
}

/// A write of no byte, with so many bytes of the small store.
fn write_nothing(memory: &mut Memory, store: usize, task: u8, handle: u32) -> u8 {
    let Memory { pool, small, large } = memory;
    Library::write(pool, &mut small[..store], large, task, handle, 0, &[])
}

/// Of several faults the first tells: 15, 14, 1, 3, 4, 11, 12, 23, and then 255 of a read and 13 of a write.
#[test]
fn the_refusals_in_order() {
    for limits in [Limits::STANDARD, CABLE] {
        let mut host = Host::<Library>::new(full(limits));
        let (places, right) = (host.memory.places(), limits.small_store());
        let gone = 1 + places.len() as u32;
        host.memory.pool.given = gone;
        assert_eq!(host.told(&Call::Block { task: 1 }), 0);
        // A byte of each block but the first of each store.
        host.memory.small.iter_mut().step_by(SMALL_SIZE).skip(1).for_each(|byte| *byte ^= 1);
        host.memory.large.iter_mut().step_by(LARGE_SIZE).skip(1).for_each(|byte| *byte ^= 1);
        let [small, large, changed, last] =
            [0, SMALL_BLOCKS, 1, places[places.len() - 1]].map(|place| host.memory.pool.handles[place]);
        let none = [(16, changed), (3, changed), (1, changed), (0, 0), (0, 1 + gone), (0, gone)];
        let rows = [&none[..], &[(0, changed), (2, last), (0, small), (0, large)]].concat();
        let numbers = [1, 3, 4, 11, 11, 12, 23, 23, 0, 0];
        for (&(task, handle), number) in rows.iter().zip(numbers) {
            let or = |last: u8| if number == 0 { last } else { number };
            assert_eq!(host.told(&Call::Read { task, handle }), number, "{task}, {handle}");
            assert_eq!(read_without_room(&mut host.memory, right, task, handle), or(255), "{task}, {handle}");
            assert_eq!(read_without_room(&mut host.memory, right - 1, task, handle), 14, "{task}, {handle}");
            assert_eq!(write_nothing(&mut host.memory, right, task, handle), number, "{task}, {handle}");
            assert_eq!(write_nothing(&mut host.memory, right - 1, task, handle), 14, "{task}, {handle}");
            for offset in [1, 255] {
                let write = Call::Write { task, handle, offset, bytes: &[7; 256] };
                assert_eq!(host.told(&write), or(13), "{write:?}");
            }
        }
        host.memory.pool.tasks[5].state = 4;
        for (task, handle) in rows {
            assert_eq!(read_without_room(&mut host.memory, right - 1, task, handle), 15, "{task}, {handle}");
            assert_eq!(write_nothing(&mut host.memory, right - 1, task, handle), 15, "{task}, {handle}");
        }
    }
}
