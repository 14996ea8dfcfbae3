//! Objects refreshed together, by the library: what a batch sets, that a fault in any place keeps it from setting anything,
//! how much room it asks for, and counters that go round meanwhile.

use host_tests::entries::Plain;
use host_tests::host::Host;
use host_tests::library::Library;
use host_tests::memory::Memory;
use host_tests::reading::{figures, of_record};
use host_tests::samples::{after, full, standing};
use plain::limits::{EXPIRATIONS, LARGEST_BATCH};
use plain::record::RUNNING;
use reference::call::{packed, Accepted, Call, Handles, Kind, Lifetime};
use reference::frame::encode;
use reference::generate::Profile;
use reference::random::Random;
use reference::share::Share;

/// The number of the answer, by the entry and by a frame; both leave the same. The host tests that a refusal leaves all.
fn batch(host: &mut Host<Library>, task: u8, (kind, extension): (Kind, u8), handles: &[u32]) -> u8 {
    let handles = packed(handles);
    let call = Call::Batch { task, kind, extension, handles: Handles(&handles) };
    let mut line = Vec::new();
    encode(&call, &mut line);
    line.pop();
    let mut framed = Host::<Library>::new(host.memory.clone());
    let number = host.call(&call).err().unwrap_or(0);
    assert_eq!(framed.line(&line, Some(&call)), (number, format!("{number:02X}\n").as_bytes()), "{call:?}");
    if number == 0 {
        assert_eq!(of_record(&host.memory), of_record(&framed.memory), "{call:?}");
    }
    number
}

/// The handles of the objects that stand.
fn handles(memory: &Memory) -> Vec<u32> {
    memory.pool.handles.into_iter().filter(|&handle| handle != 0).collect()
}

/// What a batch sets, as many refreshes set, on records of all kinds: one after the other, and the objects in any order.
#[test]
fn as_so_many_refreshes() {
    let mut random = Random::new(7);
    let samples = [standing(16, (1, 0), 3), standing(5, (3, 2), 10), full(96), full(224)];
    let lists = (40..60).map(|seed| after(Profile::Everyday, seed, 700));
    let (mut objects, mut twice) = (0, 0);
    for whole in samples.into_iter().chain(lists) {
        let Some(task) = whole.pool.tasks.iter().position(|task| task.state == RUNNING) else { continue };
        let (task, standing) = (task as u8, handles(&whole));
        for _ in 0..20 {
            let count = 1 + random.below(LARGEST_BATCH);
            let named: Vec<_> = (0..count).map(|_| random.pick(&standing)).collect();
            let (kind, extension) = (random.pick(&[Kind::Local, Kind::Global]), random.below(31) as u8);
            let (mut together, mut singly) = (Host::new(whole.clone()), Host::<Plain>::new(whole.clone()));
            assert_eq!(batch(&mut together, task, (kind, extension), &named), 0);
            for &handle in &named {
                assert_eq!(singly.call(&Call::Refresh { task, kind, extension, handle }), Ok(Accepted::Done));
            }
            assert_eq!(of_record(&together.memory), of_record(&singly.memory));
            objects += count;
            twice += usize::from((1..count).any(|place| named[..place].contains(&named[place])));
        }
    }
    assert!(objects > 5_000 && twice > 100, "{objects} {twice}");
}

/// In each place of a batch of each size, one that is gone, one that was never given, and both.
#[test]
fn a_fault_in_any_place() {
    let mut whole = full(96);
    whole.pool.given = 200;
    let mut host = Host::new(whole);
    let (gone, never) = (150, [0, 201, u32::MAX]);
    for count in 1..=LARGEST_BATCH {
        let named: Vec<u32> = (0..count as u32).map(|place| 96 - 3 * place).collect();
        for place in 0..count {
            let with = |faults: &[(usize, u32)]| {
                let mut named = named.clone();
                faults.iter().for_each(|&(place, handle)| named[place] = handle);
                named
            };
            let dated = (Kind::Local, 3);
            assert_eq!(batch(&mut host, 0, dated, &with(&[(place, gone)])), 12);
            let never = never[place % never.len()];
            assert_eq!(batch(&mut host, 0, dated, &with(&[(place, never)])), 11);
            for other in (0..count).filter(|&other| other != place) {
                assert_eq!(batch(&mut host, 0, dated, &with(&[(other, gone), (place, never)])), 11);
            }
        }
    }
    assert_eq!(figures(&host.memory.pool).expirations, 96);
}

/// With each count of expirations standing near the most, batches of each size.
#[test]
fn as_many_as_there_is_room_for() {
    for room in 0..=LARGEST_BATCH + 1 {
        let whole = full(EXPIRATIONS - room);
        for count in 0..=LARGEST_BATCH + 1 {
            let named: Vec<u32> = (0..count as u32).map(|place| 1 + place % 7).collect();
            let mut host = Host::new(whole.clone());
            let number = match count {
                0 | 33 => 20,
                _ if count > room => 10,
                _ => 0,
            };
            assert_eq!(batch(&mut host, 3, (Kind::Global, 4), &named), number, "{count} of {room}");
            let set = if number == 0 { count } else { 0 };
            assert_eq!(usize::from(figures(&host.memory.pool).expirations), EXPIRATIONS - room + set);
        }
    }
}

/// What clocks and global time read at first.
const STARTS: [u32; 6] = [0, 255, u32::MAX - 31, u32::MAX - 9, u32::MAX - 1, u32::MAX];

/// A scan of two tasks: it lives on together, and goes together.
#[test]
fn where_the_counters_go_round() {
    for start in STARTS {
        let mut host = Host::<Library>::new(Memory::fresh(&mut Random::new(3)));
        for task in 0..2 {
            assert_eq!(host.call(&Call::Join { task, share: Share::OPEN }), Ok(Accepted::Done));
            host.memory.pool.tasks[usize::from(task)].clock = start.wrapping_sub(u32::from(task));
        }
        host.memory.pool.global = start;
        for (handle, length) in [(1, 4), (2, 40), (3, 4), (4, 256)] {
            let make = Call::Make { task: 0, kind: Kind::Local, extension: 0, length, prefix: 0 };
            assert_eq!(host.call(&make), Ok(Accepted::Handle(handle)));
        }
        assert_eq!(batch(&mut host, 0, (Kind::Local, 9), &[4, 1, 3, 2]), 0);
        assert_eq!(batch(&mut host, 1, (Kind::Local, 30), &[3, 1, 2, 4]), 0);
        assert_eq!(batch(&mut host, 1, (Kind::Global, 30), &[1, 2, 3, 4]), 0);
        for round in 0..32u8 {
            for handle in 1..=4 {
                let mut told =
                    |task| host.call(&Call::Remaining { task, handle }).map(|accepted| format!("{accepted:?}"));
                let left = |local| {
                    let lifetime = Lifetime { local, global: 32 - round };
                    Ok(format!("{:?}", Accepted::Remaining(lifetime)))
                };
                assert_eq!(told(0), left(10u8.saturating_sub(round)), "start {start}, round {round}");
                assert_eq!(told(1), left(31 - round.min(31)), "start {start}, round {round}");
            }
            assert_eq!(host.call(&Call::Tick { task: 0 }), Ok(Accepted::Advanced(false)));
            assert_eq!(host.call(&Call::Tick { task: 1 }), Ok(Accepted::Advanced(true)));
        }
        assert_eq!(figures(&host.memory.pool).expirations, 0);
        assert_eq!(batch(&mut host, 0, (Kind::Local, 0), &[1, 2, 3, 4]), 12, "start {start}");
    }
}

/// Of several faults the first tells: 15, 1, 3, 4, 20, 6, 11, 12, 10.
#[test]
fn the_refusals_in_order() {
    let mut host = Host::<Library>::new(standing(2, (1, 0), 255));
    host.memory.pool.given = 2;
    assert_eq!(host.call(&Call::Block { task: 1 }), Ok(Accepted::Advanced(false)));
    let (none, many) = (&[][..], &[0; 33][..]);
    let rows: [(u8, u8, &[u32], u8); 18] = [
        (16, 31, none, 1),
        (255, 31, many, 1),
        (2, 31, none, 3),
        (15, 31, many, 3),
        (1, 31, none, 4),
        (1, 31, many, 4),
        (0, 31, none, 20),
        (0, 30, none, 20),
        (0, 31, many, 20),
        (0, 30, &[1; 33], 20),
        (0, 31, &[0, 2], 6),
        (0, 255, &[1], 6),
        (0, 30, &[2, 3], 11),
        (0, 30, &[1, 0], 11),
        (0, 30, &[1, 2], 12),
        (0, 30, &[2; 32], 12),
        (0, 30, &[1, 1], 10),
        (0, 30, &[1; 32], 10),
    ];
    for (task, extension, named, number) in rows {
        assert_eq!(batch(&mut host, task, (Kind::Local, extension), named), number, "{task} {extension} {named:?}");
    }
    let mut damaged = Host::<Library>::new(host.memory.clone());
    damaged.memory.pool.tasks[5].state = 4;
    for (task, extension, named, _) in rows {
        assert_eq!(batch(&mut damaged, task, (Kind::Global, extension), named), 15, "{task} {extension} {named:?}");
    }
    assert_eq!(batch(&mut host, 0, (Kind::Local, 30), &[1]), 0);
    assert_eq!(batch(&mut host, 0, (Kind::Local, 30), &[1]), 10);
}
