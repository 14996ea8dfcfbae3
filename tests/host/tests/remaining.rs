//! How long an object has left, by the library: several local and global expirations of several tasks on one object,
//! with counters that go round meanwhile and with some that do not. What is told is the same.

use host_tests::entries::Plain;
use host_tests::host::Host;
use host_tests::library::Library;
use host_tests::memory::Memory;
use reference::call::{Accepted, Call, Kind, Lifetime};
use reference::frame::decode;
use reference::random::Random;
use reference::share::Share;

/// What global time reads at first.
const STARTS: [u32; 7] = [0, 255, u32::MAX - 40, u32::MAX - 31, u32::MAX - 9, u32::MAX - 1, u32::MAX];

/// What a task's clock reads more than that at first.
const AHEAD: [u32; 3] = [0, 3, u32::MAX - 6];

/// Tasks 0 to 2 run, and nothing goes by their clocks yet.
fn starting_at(global: u32) -> Host<Library> {
    let mut host = Host::<Plain>::new(Memory::fresh(&mut Random::new(3)));
    for task in 0..AHEAD.len() as u8 {
        assert_eq!(host.call(&Call::Join { task, share: Share::OPEN }), Ok(Accepted::Done));
    }
    host.memory.pool.global = global;
    for (task, ahead) in host.memory.pool.tasks.iter_mut().zip(AHEAD) {
        task.clock = global.wrapping_add(ahead);
    }
    Host::new(host.memory)
}

/// Both figures, or the number of the refusal.
fn told(host: &mut Host<Library>, task: u8, handle: u32) -> Result<(u8, u8), u8> {
    host.call(&Call::Remaining { task, handle }).map(|accepted| match accepted {
        Accepted::Remaining(Lifetime { local, global }) => (local, global),
        other => panic!("{other:?}"),
    })
}

/// On object 1, the longest neither first nor last.
const SET: [(u8, Kind, u8); 9] = [
    (0, Kind::Local, 4),
    (1, Kind::Local, 29),
    (0, Kind::Global, 3),
    (0, Kind::Local, 9),
    (1, Kind::Local, 30),
    (1, Kind::Global, 30),
    (0, Kind::Local, 9),
    (2, Kind::Global, 0),
    (1, Kind::Local, 0),
];

fn with_all_set(global: u32) -> Host<Library> {
    let mut host = starting_at(global);
    let (task, kind, extension) = SET[0];
    assert_eq!(host.call(&Call::Make { task, kind, extension, length: 4, prefix: 0 }), Ok(Accepted::Handle(1)));
    for (task, kind, extension) in SET.into_iter().skip(1) {
        assert_eq!(host.call(&Call::Refresh { task, kind, extension, handle: 1 }), Ok(Accepted::Done));
    }
    host
}

/// Down to the last unit, tick by tick: a tick moves what is left by the task's own clock, and the last of a round what
/// is left by global time.
#[test]
fn several_expirations_of_several_tasks() {
    for start in STARTS {
        let mut host = with_all_set(start);
        for round in 0..32u8 {
            for ticked in 0..3u8 {
                let left = |task: u8, most: u8| most.saturating_sub(round + u8::from(task < ticked));
                for (task, most) in [(0, 10), (1, 31), (2, 0)] {
                    let expected = (left(task, most), 32 - round);
                    assert_eq!(told(&mut host, task, 1), Ok(expected), "start {start}, round {round}, task {task}");
                }
                assert_eq!(host.call(&Call::Tick { task: ticked }), Ok(Accepted::Advanced(ticked == 2)));
            }
        }
        assert_eq!(host.memory.pool.global, start.wrapping_add(32));
        assert_eq!(told(&mut host, 0, 1), Err(12), "start {start}");
    }
}

/// Frames and their answers, worked out by hand. The call by its own entry tells the same as its frame.
#[test]
fn tasks_that_wait_and_leave() {
    for start in STARTS {
        let mut host = starting_at(start);
        for (frame, answer) in ROWS {
            let mut room = [0; 8];
            let call = decode(frame.as_bytes(), &mut room).expect("a call");
            let (_, line) = host.line(frame.as_bytes(), Some(&call));
            assert_eq!(line.trim_ascii_end(), answer.as_bytes(), "start {start}, {frame}");
            if let Call::Remaining { task, handle } = call {
                let figures = told(&mut host, task, handle);
                let text = figures.map_or_else(|number| format!("{number:02X}"), |(l, g)| format!("00{l:02X}{g:02X}"));
                assert_eq!(text, answer, "start {start}, {frame}, by its entry");
            }
        }
    }
}

const ROWS: [(&str, &str); 36] = [
    ("0600000600040000", "0000000001"),
    ("0701000200000001", "00"),
    ("0702010500000001", "00"),
    ("0B0000000001", "000707"),
    ("0B0100000001", "000307"),
    ("0B0200000001", "000007"),
    // Task 1 waits: its clock stands, and global time goes on.
    ("0301", "0000"),
    ("0500", "0000"),
    ("0502", "0001"),
    ("0500", "0000"),
    ("0502", "0001"),
    ("0B0100000001", "04"),
    ("0401", "00"),
    ("0B0100000001", "000305"),
    ("0B0000000001", "000505"),
    // The setter of the global one waits, and it is put off.
    ("0302", "0000"),
    ("0500", "0000"),
    ("0501", "0001"),
    ("0B0000000001", "000405"),
    ("0B0100000001", "000205"),
    // The setter leaves, and it stands and counts on.
    ("0202", "0000"),
    ("010200FF00FF", "00"),
    ("0302", "0000"),
    ("0B0200000001", "04"),
    ("0B0000000001", "000405"),
    // Task 0 leaves with its local one, and comes back to the others.
    ("0200", "0000"),
    ("010000FF00FF", "00"),
    ("0B0000000001", "000005"),
    ("0700001E00000001", "00"),
    ("0B0000000001", "001F05"),
    // With the last of what task 1 set, its own figure is 0 and the object stands.
    ("0501", "0000"),
    ("0B0100000001", "000105"),
    ("0501", "0000"),
    ("0B0100000001", "000005"),
    ("0500", "0001"),
    ("0B0000000001", "001E04"),
];

/// Of several faults the first tells: 15, 1, 3, 4, 11, 12. The host tests that a refusal tells nothing else.
#[test]
fn the_refusals_in_order() {
    let mut host = starting_at(u32::MAX);
    let make = Call::Make { task: 0, kind: Kind::Local, extension: 0, length: 4, prefix: 0 };
    assert_eq!(host.call(&make), Ok(Accepted::Handle(1)));
    assert_eq!(host.call(&Call::Tick { task: 0 }), Ok(Accepted::Advanced(false)));
    assert_eq!(host.call(&make), Ok(Accepted::Handle(2)));
    assert_eq!(host.call(&Call::Block { task: 1 }), Ok(Accepted::Advanced(false)));
    let asked = [(16, 0), (255, 2), (3, 0), (15, 2), (1, 0), (1, 2), (0, 0), (0, 3), (0, u32::MAX), (0, 1), (0, 2)];
    let numbers = [1, 1, 3, 3, 4, 4, 11, 11, 11, 12, 0];
    for ((task, handle), number) in asked.into_iter().zip(numbers) {
        assert_eq!(told(&mut host, task, handle).err().unwrap_or(0), number, "task {task}, handle {handle}");
    }
    host.memory.pool.tasks[5].state = 4;
    for (task, handle) in asked {
        assert_eq!(told(&mut host, task, handle), Err(15), "task {task}, handle {handle}");
    }
}
