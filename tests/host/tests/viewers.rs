//! Viewers and prefixes (order 10): the rows of the reference; 27 and 28 against all that may be wrong besides, each by its
//! entry and as a frame; reads of every prefix; a viewer that has set expirations; and over lists of calls that all a viewer
//! is told is the same, whatever was written behind prefixes.

#[path = "../../reference/tests/rows/mod.rs"]
mod rows;
#[path = "../../reference/tests/rows/viewers.rs"]
mod viewer_rows;

use host_tests::entries::{Entries, Plain};
use host_tests::host::{Host, Told};
use host_tests::library::Library;
use host_tests::memory::Memory;
use host_tests::reading::of_record;
use host_tests::sites::{self, CABLE};
use plain::limits::Limits;
use plain::record::{prefix_in, Quota, GLOBAL, LOCAL, VIEWING};
use reference::call::{packed, Accepted, Call, Handles, Kind, Lifetime};
use reference::frame::decode;
use reference::generate::{self, sized_script_of, Profile};
use reference::random::Random;
use reference::script::lines;
use reference::share::Share;
use rows::check_answers;
use viewer_rows::check_all;

const RUNS: u8 = 0;
const WAITS: u8 = 1;
const VIEWS: u8 = 2;
const ABSENT: u8 = 3;

/// An object that is gone, one that is pinned, and a handle that was never given.
const GONE: u32 = 1;
const STANDS: u32 = 2;
const NEVER: u32 = 9;

/// A task in each state, and an object of 4 bytes with a prefix of 2 after one that is gone.
fn host(limits: Limits) -> Host<Library> {
    let mut host = Host::new(Memory::sized(limits, &mut Random::new(1)));
    host.check(&[
        (Call::Join { task: RUNS, share: Share::OPEN }, 0),
        (Call::Join { task: WAITS, share: Share::OPEN }, 0),
        (Call::Block { task: WAITS }, 0),
        (Call::View { task: VIEWS }, 0),
        (make(RUNS, Kind::Local, 4, 2), 0),
        (Call::Tick { task: RUNS }, 0),
        (make(RUNS, Kind::Pinned, 4, 2), 0),
    ]);
    host
}

fn make(task: u8, kind: Kind, length: u16, prefix: u16) -> Call<'static> {
    Call::Make { task, kind, extension: 0, length, prefix }
}

/// The rows of the reference.
#[test]
fn rows() {
    check_all(|limits, name, rows| {
        let mut host = Host::<Library>::new(Memory::sized(sites::of(limits), &mut Random::new(1)));
        check_answers(name, rows, |line| host.answer(line));
    });
}

// The tests and their order.

/// What only a running task may, with each argument right and with each wrong.
fn only_running(task: u8) -> Vec<Call<'static>> {
    let batch = |handles: &[u32]| Handles(packed(handles).leak());
    let mut calls = vec![Call::Block { task }, Call::Tick { task }];
    for handle in [STANDS, GONE, NEVER, 0] {
        for (kind, extension) in [(Kind::Local, 0), (Kind::Global, 31), (Kind::Pinned, 0)] {
            calls.push(Call::Refresh { task, kind, extension, handle });
            calls.push(Call::Batch { task, kind, extension, handles: batch(&[STANDS, handle]) });
            calls.push(Call::Batch { task, kind, extension, handles: batch(&[handle; 33]) });
            calls.push(Call::Batch { task, kind, extension, handles: batch(&[]) });
        }
        calls.push(Call::Write { task, handle, offset: 0, bytes: &[] });
        calls.push(Call::Write { task, handle, offset: 4, bytes: &[1] });
        calls.push(Call::Release { task, handle });
    }
    for (extension, length, prefix) in [(0, 4, 0), (31, 4, 0), (0, 0, 1), (0, 257, 0), (0, 4, 5), (0, 40, 41)] {
        calls.push(Call::Make { task, kind: Kind::Local, extension, length, prefix });
    }
    calls
}

/// 27 straight after the task's state: after 1, 3 and 4, and before all else that is wrong, also where the pool is full, all
/// handles are given or a byte was changed.
#[test]
fn a_viewer_changes_nothing() {
    let mut host = host(Limits::SMALLEST);
    let block = host.memory.place(STANDS).expect("it stands");
    host.memory.block_mut(block)[3] ^= 1;
    for given in [2, u32::MAX] {
        host.memory.pool.given = given;
        for (task, number) in [(VIEWS, 27), (WAITS, 4), (ABSENT, 3), (16, 1)] {
            only_running(task).iter().for_each(|call| assert_eq!(host.told(call), number, "{call:?}"));
        }
    }
    host.memory.pool.tasks[5].state = 4;
    only_running(VIEWS).iter().for_each(|call| assert_eq!(host.told(call), 15, "{call:?}"));
    [ABSENT, VIEWS, 16].into_iter().for_each(|task| assert_eq!(host.told(&Call::View { task }), 15, "{task}"));
}

/// 14 comes before it, in the two that look at the stores.
#[test]
fn a_store_of_wrong_length_comes_first() {
    let mut host = host(CABLE);
    host.memory.small.push(0);
    for call in only_running(VIEWS) {
        let number = if matches!(call, Call::Make { .. } | Call::Write { .. }) { 14 } else { 27 };
        assert_eq!(host.told(&call), number, "{call:?}");
    }
    assert_eq!(host.told(&Call::Read { task: VIEWS, handle: STANDS }), 14);
}

/// 6, 7, 28, 8, as each that comes before it is mended; 26, 9 and 10 are told of a prefix that fits.
#[test]
fn a_prefix_longer_than_its_object() {
    for (length, longest) in [(1, 32), (4, 32), (32, 32), (33, 256), (255, 256), (256, 256)] {
        let mut host = host(Limits { small_blocks: 2, ..Limits::SMALLEST });
        let with = |extension, length, prefix| Call::Make { task: RUNS, kind: Kind::Local, extension, length, prefix };
        for prefix in [length + 1, longest + 1, 257, 1 << 8 | length, 1 << 15, u16::MAX] {
            if prefix > length {
                let of = |extension, length| with(extension, length, prefix);
                host.check(&[(of(1, 0), 6), (of(0, 0), 7), (of(0, 257), 7), (of(0, length), 28)]);
            }
        }
        // One expiration stands, and no more may.
        host.check(&[(with(0, length, length), 10), (with(0, length, 0), 10)]);
        // The task has made the small object, and may make no more.
        host.memory.pool.shares[usize::from(RUNS)] =
            plain::record::Share { small: Quota { reserve: 0, limit: 1 }, large: Quota::NONE };
        host.check(&[(with(0, length, length), 26), (with(0, length, length + 1), 28)]);
        host.memory.pool.given = u32::MAX;
        host.check(&[(with(0, length, length), 8), (with(0, length, length + 1), 28)]);
    }
}

// Reads.

/// Bytes of which no two neighbours are the same.
fn bytes(length: u16) -> Vec<u8> {
    (0..length).map(|place| (place * 7 + 1) as u8).collect()
}

/// Every prefix of an object of every length from the ends of its range, at every count of room: exactly as many bytes as
/// the prefix, none and all among them; a running task reads all.
#[test]
fn a_viewer_reads_exactly_the_prefix() {
    let mut host = host(CABLE);
    for length in [1, 2, 31, 32, 33, 255, 256] {
        let bytes = bytes(length);
        for prefix in 0..=length {
            assert_eq!(host.told(&make(RUNS, Kind::Local, length, prefix)), 0);
            let handle = host.memory.pool.given;
            assert_eq!(host.told(&Call::Write { task: RUNS, handle, offset: 0, bytes: &bytes }), 0);
            let shown = &bytes[..usize::from(prefix)];
            assert_eq!(host.call(&Call::Read { task: VIEWS, handle }), Ok(Accepted::Bytes(shown)));
            assert_eq!(host.call(&Call::Read { task: RUNS, handle }), Ok(Accepted::Bytes(&bytes)));
            assert_eq!(line_of(&mut host, VIEWS, handle), shown);
            assert_eq!(line_of(&mut host, RUNS, handle), bytes);
            assert_eq!(host.told(&Call::Tick { task: RUNS }), 0);
        }
    }
}

/// The bytes of a read by a frame.
fn line_of(host: &mut Host<Library>, task: u8, handle: u32) -> Vec<u8> {
    let call = Call::Read { task, handle };
    let (number, answer) = host.line(format!("08{task:02X}{handle:08X}").as_bytes(), Some(&call));
    assert_eq!(number, 0);
    let digits = std::str::from_utf8(&answer[2..answer.len() - 1]).expect("digits");
    let byte = |at: usize| u8::from_str_radix(&digits[at..at + 2], 16).expect("two digits");
    (0..digits.len()).step_by(2).map(byte).collect()
}

/// Room for the prefix is enough, though the object is longer.
#[test]
fn a_viewer_needs_room_for_the_prefix() {
    let mut host = host(CABLE);
    for (room, number, expected) in [(0, 255, 7), (1, 255, 7), (2, 0, 2), (3, 0, 2), (4, 0, 2)] {
        let (mut out, mut count) = (vec![9; room], 7);
        let Memory { pool, small, large } = &mut host.memory;
        assert_eq!(Library::read(pool, small, large, VIEWS, STANDS, &mut out, &mut count), number, "{room}");
        assert_eq!(count, expected);
        assert!(out.iter().skip(2).all(|&byte| byte == 9));
    }
}

/// 23 is of the whole block: also where the byte is behind the prefix, or behind the object.
#[test]
fn a_viewer_is_told_of_a_byte_that_it_does_not_see() {
    for (length, prefix) in [(4, 0), (4, 2), (32, 31), (40, 0), (40, 40), (256, 1)] {
        let mut host = host(CABLE);
        assert_eq!(host.told(&make(RUNS, Kind::Local, length, prefix)), 0);
        let handle = host.memory.pool.given;
        let place = host.memory.place(handle).expect("it stands");
        let read = Call::Read { task: VIEWS, handle };
        for at in 0..host.memory.block(place).len() {
            host.memory.block_mut(place)[at] ^= 0x10;
            host.check(&[(read, 23), (Call::Remaining { task: VIEWS, handle }, 0)]);
            host.memory.block_mut(place)[at] ^= 0x10;
            assert_eq!(host.told(&read), 0);
        }
    }
}

/// No list of calls leads to such a record, but it is well-formed. A global one counts on, a local one goes by the viewer's
/// clock, which stands, and ends with its leave.
#[test]
fn a_viewer_may_have_set_expirations() {
    let life = |local, global| Ok(Accepted::Remaining(Lifetime { local, global }));
    for (kind, told) in [(Kind::Local, [life(2, 0); 3]), (Kind::Global, [life(0, 2), life(0, 1), Err(12)])] {
        let mut host = host(Limits::STANDARD);
        host.check(&[(make(RUNS, kind, 4, 2), 0)]);
        let mut memory = host.memory;
        for clock in memory.pool.clocks.iter_mut().filter(|clock| [LOCAL + RUNS, GLOBAL + RUNS].contains(clock)) {
            *clock += VIEWS - RUNS;
        }
        let (mut library, mut plain) = (Host::<Library>::new(memory.clone()), Host::<Plain>::new(memory));
        let mut both = |call: &Call, expected: Told| {
            assert_eq!(library.call(call), expected, "{call:?}");
            assert_eq!(plain.call(call), expected, "{call:?}, plain");
            assert_eq!(of_record(&library.memory), of_record(&plain.memory), "{call:?}");
        };
        for told in told {
            both(&Call::Remaining { task: VIEWS, handle: STANDS + 1 }, told);
            both(&Call::Tick { task: RUNS }, Ok(Accepted::Advanced(true)));
        }
        both(&Call::Leave { task: VIEWS }, Ok(Accepted::Advanced(false)));
        both(&Call::Remaining { task: RUNS, handle: STANDS + 1 }, Err(12));
    }
}

// Two runs that differ only in bytes written behind prefixes.

/// How often the lists met what: writes that differ, reads of viewers and of running tasks, and those of the latter whose
/// bytes differ.
#[derive(Debug, Default)]
struct Census {
    changed: usize,
    viewed: usize,
    read: usize,
    read_otherwise: usize,
}

fn prefix_of(memory: &Memory, handle: u32) -> usize {
    let place = (handle != 0).then(|| memory.place(handle)).flatten();
    place.map_or(0, |place| usize::from(prefix_in(memory.pool.extents[place])))
}

/// The call, a write with other bytes behind the prefix of its object. They need room.
fn otherwise<'a>(call: Call<'a>, memory: &Memory, random: &mut Random, room: &'a mut Vec<u8>) -> Call<'a> {
    let Call::Write { task, handle, offset, bytes } = call else { return call };
    let start = prefix_of(memory, handle).saturating_sub(usize::from(offset));
    room.extend(bytes);
    room.iter_mut().skip(start).for_each(|byte| *byte ^= random.below(256) as u8);
    Call::Write { task, handle, offset, bytes: room }
}

/// The prefix of the object that a task reads which does not view: of its answer no more is the same.
fn seen_of(call: &Call, memory: &Memory) -> Option<usize> {
    let Call::Read { task, handle } = *call else { return None };
    let views = memory.pool.tasks.get(usize::from(task)).is_some_and(|task| task.state == VIEWING);
    (!views).then(|| prefix_of(memory, handle))
}

/// All answers are the same but for the bytes of running tasks' reads, and those are in the prefix.
fn compare(call: &Call, first: Told, second: Told, seen: Option<usize>, census: &mut Census) {
    match (seen, first, second) {
        (Some(prefix), Ok(Accepted::Bytes(first)), Ok(Accepted::Bytes(second))) => {
            assert_eq!((first.len(), &first[..prefix]), (second.len(), &second[..prefix]), "{call:?}");
            census.read += 1;
            census.read_otherwise += usize::from(first != second);
        }
        (_, first, second) => {
            assert_eq!(first, second, "{call:?}");
            census.viewed += usize::from(matches!(first, Ok(Accepted::Bytes(_))));
        }
    }
}

/// Makes each call of the list on two pools, whose stores held other bytes at first.
fn run<E: Entries>(seed: u64, census: &mut Census) {
    let limits = generate::limits(seed);
    let only = (seed % 2 == 1).then_some(Profile::Viewers);
    let script = sized_script_of(limits, only, seed, 60_000);
    let (mut random, mut room) = (Random::new(seed), vec![0; script.len()]);
    let mut pair = [0, 1].map(|_| Host::<E>::new(Memory::sized(sites::of(limits), &mut random)));
    for line in lines(&script) {
        let Ok(call) = decode(line, &mut room) else { continue };
        let ([first, second], mut bytes) = (&mut pair, Vec::new());
        let other = otherwise(call, &first.memory, &mut random, &mut bytes);
        census.changed += usize::from(call != other);
        let seen = seen_of(&call, &first.memory);
        compare(&call, first.call(&call), second.call(&other), seen, census);
    }
}

#[test]
fn what_is_written_behind_prefixes_is_not_seen() {
    let (mut library, mut plain) = (Census::default(), Census::default());
    for seed in 0..40 {
        run::<Library>(seed, &mut library);
        run::<Plain>(seed, &mut plain);
    }
    println!("{library:?}");
    assert!(library.changed > 1_000 && library.viewed > 1_000 && library.read > 1_000 && library.read_otherwise > 300);
    assert_eq!(plain.viewed, library.viewed);
}

/// The claim needs that nothing is changed from outside: a byte behind the prefix that is, is told to a viewer, by 23.
#[test]
fn a_change_from_outside_is_seen() {
    let (mut whole, mut changed) = (host(CABLE), host(CABLE));
    let place = changed.memory.place(STANDS).expect("it stands");
    changed.memory.block_mut(place)[3] ^= 1;
    let read = Call::Read { task: VIEWS, handle: STANDS };
    assert_eq!((whole.told(&read), changed.told(&read)), (0, 23));
}
