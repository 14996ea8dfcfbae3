//! How much stack a call may take, on records with few and many expirations, accepted and refused, of 01's figures and of a
//! small site.

use std::hint::black_box;

use host_tests::cases::{all, Case};
use host_tests::desk::{Action, Arguments, Entry, Subject};
use host_tests::extremes;
use host_tests::samples::standing_of;
use host_tests::sites::CABLE;
use host_tests::stack::depth;
use plain::record::{PINNED, WAITING};

const KB: usize = 1024;

/// What a call may take: the goal of docs/BUDGET.md.
const LIMIT: usize = 8 * KB;
/// The five events as frames miss it since order 9. The line and the answer of a frame are its caller's, and not in it.
const FRAME_LIMIT: usize = 9 * KB;

fn limit(entry: Entry) -> usize {
    if entry == Entry::Frame {
        FRAME_LIMIT
    } else {
        LIMIT
    }
}

fn deepest(cases: &[Case], entry: Entry, subject: Subject) -> usize {
    let of_entry = cases.iter().filter(|case| case.entry == entry);
    let depths = of_entry.filter_map(|case| case.action(subject).map(|action| depth(case, action)));
    depths.max().unwrap_or(0)
}

/// Each call on a small site, where it is accepted: a block of each store is free, task 1 waits, task 15 is absent, and the
/// first object is pinned.
fn on_a_small_site(entry: Entry) -> Case {
    let mut memory = standing_of(CABLE, 15, (15, 3), 60);
    memory.pool.tasks[1].state = WAITING;
    (memory.pool.clocks[0], memory.pool.dues[0]) = (PINNED, 0);
    let task = match entry {
        Entry::Join | Entry::View => 15,
        Entry::Resume => 1,
        _ => 0,
    };
    let (bytes, line) = (vec![7; 32], b"09000000000100A5".to_vec());
    let handles = vec![1; 4];
    let arguments =
        Arguments { task, extension: 10, size: 256, handle: 1, handles, bytes, line, ..Arguments::default() };
    Case { name: "small site", entry, expirations: 60, numbering: None, memory, arguments, answer: 0 }
}

#[test]
fn a_call_stays_within_its_limit() {
    let small = Entry::ALL.into_iter().map(on_a_small_site);
    let cases: Vec<_> = all().into_iter().chain(extremes::usual()).chain(extremes::all()).chain(small).collect();
    let mut too_deep = Vec::new();
    for entry in Entry::ALL {
        let [library, plain] = [Subject::Library, Subject::Plain].map(|subject| deepest(&cases, entry, subject));
        println!("{}: {library} bytes, plain {plain}", entry.name());
        too_deep.extend((library > limit(entry)).then(|| entry.name()));
    }
    assert!(too_deep.is_empty(), "more stack than their limits: {too_deep:?}");
}

/// The measure itself, on functions that fill so many bytes of their frame.
#[test]
fn the_paint_tells_the_depth() {
    #[inline(never)]
    fn fill<const SIZE: usize>() -> u8 {
        let mut bytes = [7u8; SIZE];
        black_box(&mut bytes);
        0
    }
    let case = all().into_iter().find(|case| case.answer == 0).expect("a case");
    let actions: [(Action, usize); 3] =
        [(|_, _| fill::<1_000>(), 1_000), (|_, _| fill::<8_000>(), 8_000), (|_, _| fill::<40_000>(), 40_000)];
    for (action, size) in actions {
        let depth = depth(&case, action);
        assert!((size..size + 300).contains(&depth), "{depth} for {size}");
    }
}
