//! Where the library says 14, 19 and 255 and where it does not, in which order, and the last handle. After each
//! refusal memory and parameters are as before.

use host_tests::entries::Entries;
use host_tests::host::Host;
use host_tests::library::Library;
use host_tests::memory::Memory;
use host_tests::samples::{full, full_of, standing, standing_of};
use host_tests::sites::CABLE;
use plain::calls::ANSWER_ROOM;
use plain::limits::{Limits, LARGE_SIZE, SMALL_SIZE};
use reference::call::{Accepted, Call, Kind};
use reference::random::Random;
use reference::share::Share;

const UNTOLD: u32 = 0xA5A5_A5A5;
const COUNT_UNTOLD: usize = UNTOLD as usize;

/// 01's figures, and those of a small site.
const SITES: [Limits; 2] = [Limits::STANDARD, CABLE];

/// The lengths of the stores.
fn right(limits: Limits) -> (usize, usize) {
    (limits.small_store(), limits.large_store())
}

/// Lengths that are wrong: by a byte, by a block, those of another site, and the two changed over.
fn wrong(limits: Limits) -> Vec<(usize, usize)> {
    let (small, large) = right(limits);
    let of_small = [0, 1, small - SMALL_SIZE, small - 1, small + 1, small + SMALL_SIZE].map(|small| (small, large));
    let of_large = [0, 1, large - LARGE_SIZE, large - 1, large + 1, large + LARGE_SIZE].map(|large| (small, large));
    let other = SITES.into_iter().find(|&other| other != limits).map(right);
    of_small.into_iter().chain(of_large).chain(other).chain([(large, small)]).collect()
}

/// Each of them, with its site.
fn all_wrong() -> impl Iterator<Item = (Limits, (usize, usize))> {
    SITES.into_iter().flat_map(|limits| wrong(limits).into_iter().map(move |stores| (limits, stores)))
}

/// Five objects stand, with ten expirations.
fn five(limits: Limits) -> Memory {
    standing_of(limits, 16, (3, 2), 10)
}

/// A full record but for the state of one task, which is none.
fn damaged(limits: Limits) -> Memory {
    let mut memory = full_of(limits, (limits.small_blocks + limits.large_blocks) as usize);
    memory.pool.tasks[3].state = 4;
    memory
}

/// Makes an object of 4 bytes, with these stores.
fn make(memory: &mut Memory, (small, large): (usize, usize), task: u8, kind: u8) -> u8 {
    let (mut small, mut large, mut handle) = (vec![7; small], vec![7; large], UNTOLD);
    let before = memory.pool.clone();
    let number = Library::make(&mut memory.pool, &mut small, &mut large, task, kind, 3, 4, 4, &mut handle);
    assert!(number != 0 && memory.pool == before && handle == UNTOLD);
    assert!(small.iter().chain(&large).all(|&byte| byte == 7));
    number
}

/// Reads object 1.
fn read(memory: &mut Memory, (small, large): (usize, usize), task: u8) -> u8 {
    let (small, large) = (vec![7; small], vec![7; large]);
    let (mut out, mut count) = ([9; 256], COUNT_UNTOLD);
    let before = memory.pool.clone();
    let number = Library::read(&mut memory.pool, &small, &large, task, 1, &mut out, &mut count);
    assert!(number != 0 && memory.pool == before && count == COUNT_UNTOLD && out == [9; 256]);
    number
}

/// Writes two bytes of object 1.
fn write(memory: &mut Memory, (small, large): (usize, usize), task: u8) -> u8 {
    let (mut small, mut large) = (vec![7; small], vec![7; large]);
    let before = memory.pool.clone();
    let number = Library::write(&mut memory.pool, &mut small, &mut large, task, 1, 0, &[1, 2]);
    assert!(number != 0 && memory.pool == before);
    assert!(small.iter().chain(&large).all(|&byte| byte == 7));
    number
}

/// One line, with these stores and this room for the answer. None that is asked here makes or writes, so the stores stay.
fn frame(memory: &mut Memory, (small, large): (usize, usize), line: &[u8], room: usize) -> (u8, Vec<u8>) {
    let (mut small, mut large) = (vec![7; small], vec![7; large]);
    let (mut out, mut count) = (vec![9; room], COUNT_UNTOLD);
    let number = Library::frame(&mut memory.pool, &mut small, &mut large, line, &mut out, &mut count);
    assert!(small.iter().chain(&large).all(|&byte| byte == 7), "{line:?} changes a store");
    if number == 255 {
        assert!(count == COUNT_UNTOLD && out.iter().all(|&byte| byte == 9));
        return (number, Vec::new());
    }
    assert!(out[count..].iter().all(|&byte| byte == 9));
    out.truncate(count);
    (number, out)
}

#[test]
fn a_store_of_wrong_length_is_14() {
    for (limits, stores) in all_wrong() {
        let mut memory = five(limits);
        // A task that there is, and one that there is not: 14 comes first.
        for task in [0, 16] {
            assert_eq!(make(&mut memory, stores, task, 0), 14);
            assert_eq!(read(&mut memory, stores, task), 14);
            assert_eq!(write(&mut memory, stores, task), 14);
        }
        for line in [&b"0600000300040000"[..], b"080000000001", b"09000000000100AA"] {
            let before = memory.pool.clone();
            assert_eq!(frame(&mut memory, stores, line, ANSWER_ROOM), (14, b"0E\n".to_vec()));
            assert_eq!(memory.pool, before);
        }
    }
}

#[test]
fn a_record_that_is_not_well_formed_is_15_before_14() {
    for (limits, stores) in all_wrong() {
        let mut memory = damaged(limits);
        assert_eq!(make(&mut memory, stores, 0, 0), 15);
        assert_eq!(read(&mut memory, stores, 0), 15);
        assert_eq!(write(&mut memory, stores, 0), 15);
        for line in [
            &b"0600000300040000"[..],
            b"080000000001",
            b"09000000000100AA",
            b"0A",
            b"0B0000000001",
            b"0C000000",
            b"0D0000000001",
            b"0E10",
        ] {
            assert_eq!(frame(&mut memory, stores, line, ANSWER_ROOM), (15, b"0F\n".to_vec()));
        }
    }
}

#[test]
fn calls_that_touch_no_store_do_not_look() {
    for (limits, stores) in all_wrong() {
        let mut memory = five(limits);
        let mut told = |line: &[u8]| frame(&mut memory, stores, line, ANSWER_ROOM);
        assert_eq!(told(b"0202"), (0, b"0000\n".to_vec()));
        assert_eq!(told(b"0E02"), (0, b"00\n".to_vec()));
        assert_eq!(told(b"0202"), (0, b"0000\n".to_vec()));
        assert_eq!(told(b"010200FF00FF"), (0, b"00\n".to_vec()));
        assert_eq!(told(b"0300"), (0, b"0000\n".to_vec()));
        assert_eq!(told(b"0400"), (0, b"00\n".to_vec()));
        assert_eq!(told(b"0500"), (0, b"0000\n".to_vec()));
        assert_eq!(told(b"0700010300000001"), (0, b"00\n".to_vec()));
        // The local one of task 0, which has ticked once, and a global one of task 5.
        assert_eq!(told(b"0B0000000001"), (0, b"00050C\n".to_vec()));
        // One of the ten expirations left with its setter, and one is new.
        assert_eq!(told(b"0A"), (0, b"000302000A00000005\n".to_vec()));
        assert_eq!(told(b"0C000103000000010000000500000001"), (0, b"00\n".to_vec()));
        assert_eq!(told(b"0A"), (0, b"000302000D00000005\n".to_vec()));
        assert_eq!(told(b"0D0000000001"), (22, b"16\n".to_vec()));
        assert_eq!(told(b"0700020300000001"), (21, b"15\n".to_vec()));
        assert_eq!(told(b"0C0002FF00000001"), (21, b"15\n".to_vec()));
    }
}

#[test]
fn an_unknown_kind_is_19_before_all_else() {
    for kind in 3..=255 {
        for (mut memory, stores) in [(five(CABLE), right(CABLE)), (damaged(CABLE), (2047, 1))] {
            for task in [0, 16] {
                assert_eq!(make(&mut memory, stores, task, kind), 19);
                let before = memory.clone();
                assert_eq!(Library::refresh(&mut memory.pool, task, kind, 31, 0), 19);
                for handles in [&[][..], &[1], &[0; 33]] {
                    assert_eq!(Library::refresh_all(&mut memory.pool, task, kind, 31, handles), 19);
                }
                assert!(memory == before);
            }
        }
    }
    for line in [&b"061003030004FFFF"[..], b"071003FF00000000", b"0C1003FF"] {
        assert_eq!(frame(&mut damaged(CABLE), (1, 1), line, ANSWER_ROOM), (19, b"13\n".to_vec()));
    }
}

/// Whatever the list is, a pointer and a count of any size among them.
#[test]
fn a_batch_of_any_size() {
    for task in [0, 16] {
        for count in [0, 1, 32, 33, 34, 63, 64, 65, 255, 256, 257, 65_536, 1_000_000] {
            let handles = vec![1; count];
            let mut memory = five(Limits::STANDARD);
            let before = memory.clone();
            let number = Library::refresh_all(&mut memory.pool, task, 0, 30, &handles);
            assert_eq!(
                number,
                if task > 15 {
                    1
                } else if (1..=32).contains(&count) {
                    0
                } else {
                    20
                },
                "{count}"
            );
            assert!((memory == before) == (number != 0), "{count}");
            let mut memory = damaged(Limits::STANDARD);
            let before = memory.clone();
            assert_eq!(Library::refresh_all(&mut memory.pool, task, 1, 31, &handles), 15, "{count}");
            assert!(memory == before, "{count}");
        }
    }
}

#[test]
fn a_read_needs_room_for_the_object() {
    let mut memory = full(96);
    // Handle 1 has 32 bytes, handle 65 has 256.
    for (handle, size) in [(1, 32), (65, 256)] {
        for room in [0, 1, size - 1, size, size + 1] {
            let before = memory.clone();
            let (mut out, mut count) = (vec![9; room], COUNT_UNTOLD);
            let Memory { pool, small, large } = &mut memory;
            let number = Library::read(pool, small, large, 0, handle, &mut out, &mut count);
            assert!(memory == before);
            if room < size {
                assert!(number == 255 && count == COUNT_UNTOLD && out.iter().all(|&byte| byte == 9));
            } else {
                assert!(number == 0 && count == size && out[size..].iter().all(|&byte| byte == 9));
                assert_eq!(out[..size], memory.block(handle as usize - 1)[..size]);
            }
        }
    }
}

/// Room is asked for after all tests of the rules.
#[test]
fn a_refused_read_needs_no_room() {
    let mut memory = standing(16, (1, 0), 1);
    memory.pool.given = 2;
    let mut told = |task: u8, handle: u32| {
        let Memory { pool, small, large } = &mut memory;
        Library::read(pool, small, large, task, handle, &mut [], &mut 0)
    };
    assert_eq!((told(16, 1), told(0, 3), told(0, 0), told(0, 2), told(0, 1)), (1, 11, 11, 12, 255));
}

#[test]
fn a_frame_needs_room_for_any_answer() {
    let mut memory = five(CABLE);
    let before = memory.clone();
    for room in [0, 1, 515, ANSWER_ROOM - 1] {
        // Whatever the line is, it is not looked at.
        for line in [&b"0500"[..], b"0A", b"xyz", b""] {
            assert_eq!(frame(&mut memory, right(CABLE), line, room).0, 255);
            assert!(memory == before);
        }
    }
    for room in [ANSWER_ROOM, ANSWER_ROOM + 1, 5_000] {
        assert_eq!(frame(&mut memory, right(CABLE), b"0A", room), (0, b"000302000A00000005\n".to_vec()));
    }
}

#[test]
fn lines_of_any_length() {
    let mut memory = five(CABLE);
    let mut told = |line: &[u8]| frame(&mut memory, right(CABLE), line, ANSWER_ROOM).0;
    for count in [263, 264, 265, 1_000, 50_000] {
        let digits = vec![b'0'; 2 * count];
        let with = |operation: &[u8]| [operation, &digits[2..]].concat();
        // A write of 256 bytes to handle 0 is a call, a longer one is none.
        assert_eq!(told(&with(b"09")), if count == 263 { 11 } else { 18 });
        assert_eq!(told(&with(b"06")), 18);
        assert_eq!(told(&with(b"0A")), 18);
        assert_eq!(told(&with(b"0B")), 18);
        // A batch may have as many objects as fill the line.
        assert_eq!(told(&with(b"0C")), if count % 4 == 0 { 20 } else { 18 });
        assert_eq!(told(&with(b"0D")), 18);
        assert_eq!(told(&with(b"0E")), 18);
        assert_eq!(told(&with(b"0F")), 17);
        assert_eq!(told(&digits), 17);
        assert_eq!(told(&digits[1..]), 16);
        for operation in [b"09", b"0C"] {
            let mut other = with(operation);
            *other.last_mut().unwrap() = b'a';
            assert_eq!(told(&other), 16);
        }
    }
}

#[test]
fn the_last_handle() {
    let mut memory = Memory::fresh(&mut Random::new(2));
    memory.pool.given = u32::MAX - 1;
    let mut host = Host::<Library>::new(memory);
    let make = |length| Call::Make { task: 0, kind: Kind::Local, extension: 0, length, prefix: 0 };
    assert_eq!(host.call(&Call::Join { task: 0, share: Share::OPEN }), Ok(Accepted::Done));
    assert_eq!(host.call(&make(4)), Ok(Accepted::Handle(u32::MAX)));
    assert_eq!(host.call(&make(4)), Err(8));
    // After a bad length, and before a full store.
    assert_eq!(host.call(&make(257)), Err(7));
    assert_eq!(host.call(&Call::Read { task: 0, handle: u32::MAX }), Ok(Accepted::Bytes(&[0; 4])));
    let mut full = full(96);
    full.pool.given = u32::MAX;
    assert_eq!(Host::<Library>::new(full).call(&make(4)), Err(8));
}

/// The scope paper's edge 13.
#[test]
fn a_local_expiration_set_at_the_last_clock() {
    let mut host = Host::<Library>::new(Memory::fresh(&mut Random::new(2)));
    assert_eq!(host.call(&Call::Join { task: 0, share: Share::OPEN }), Ok(Accepted::Done));
    host.memory.pool.tasks[0].clock = u32::MAX;
    let make = Call::Make { task: 0, kind: Kind::Local, extension: 0, length: 4, prefix: 0 };
    assert_eq!(host.call(&make), Ok(Accepted::Handle(1)));
    assert_eq!(host.call(&Call::Tick { task: 0 }), Ok(Accepted::Advanced(true)));
    assert_eq!(host.memory.pool.tasks[0].clock, 0);
    assert_eq!(host.call(&Call::Read { task: 0, handle: 1 }), Err(12));
}
