//! Order 12: figures that a site chooses. Which it may choose, rows worked out by hand, and that they decide nothing
//! but 6, 9, 10 and 25.

#[macro_use]
mod rows;

use reference::call::{Model, Refusal};
use reference::generate::{limits, sized_script};
use reference::heap::Heap;
use reference::ledger::Ledger;
use reference::limits::Limits;
use reference::script::calls;
use rows::{check_in, Row, ACCEPTED};

const fn chosen(small_blocks: usize, large_blocks: usize, expirations: usize, extension: usize) -> Limits {
    Limits { small_blocks, large_blocks, expirations, extension }
}

/// What the ledger and the heap tell of figures, which is the same.
fn told(limits: Limits) -> Result<(), Refusal> {
    let told = Ledger::sized(limits).map(|_| ());
    assert_eq!(told, Heap::sized(limits).map(|_| ()));
    assert_eq!(told.is_ok(), limits.is_allowed());
    told
}

#[test]
fn the_ends_of_each_range() {
    for inside in [chosen(1, 1, 1, 0), chosen(64, 32, 256, 30), chosen(64, 1, 1, 0), chosen(1, 32, 1, 0)] {
        assert_eq!(told(inside), Ok(()), "{inside:?}");
    }
    for outside in [
        chosen(0, 1, 1, 0),
        chosen(65, 1, 1, 0),
        chosen(1, 0, 1, 0),
        chosen(1, 33, 1, 0),
        chosen(1, 1, 0, 0),
        chosen(1, 1, 257, 0),
        chosen(1, 1, 1, 31),
        chosen(0, 0, 0, 0),
        chosen(usize::MAX, usize::MAX, usize::MAX, usize::MAX),
    ] {
        assert_eq!(told(outside), Err(Refusal::LimitsOutOfRange), "{outside:?}");
    }
    assert_eq!(Refusal::LimitsOutOfRange as u8, 29);
}

#[test]
fn in_words() {
    for (words, limits) in [
        ("64,32,256,30", Limits::STANDARD),
        ("1,1,1,0", Limits::SMALLEST),
        ("1,2,4,5", chosen(1, 2, 4, 5)),
        ("10,20,100,9", chosen(10, 20, 100, 9)),
    ] {
        assert_eq!(words.parse(), Ok(limits), "{words}");
    }
    for words in [
        "",
        "1",
        "1,1,1",
        "1,1,1,0,0",
        "1,1,1,",
        ",1,1,0",
        "0,1,1,0",
        "65,1,1,0",
        "1,1,1,31",
        "01,1,1,0",
        "+1,1,1,0",
        "1,1,1,-0",
        "1, 1,1,0",
        "1,1,1,0\n",
        "one,1,1,0",
        "1;1;1;0",
        "18446744073709551617,1,1,0",
    ] {
        assert_eq!(words.parse::<Limits>(), Err(Refusal::LimitsOutOfRange), "{words:?}");
    }
}

#[test]
fn rows() {
    for (limits, name, rows) in ROWS {
        check_in(*limits, name, rows);
    }
}

/// A list has the same answers with the scope paper's figures, up to a 6, 9, 10 or 25 that those do not give.
#[test]
fn figures_decide_nothing_else() {
    let mut parted = [0; 4];
    for seed in 0..800 {
        let (limits, script) = (limits(seed), sized_script(limits(seed), seed));
        let mut room = vec![0; script.len() / 2];
        let (mut site, mut standard) = (Ledger::of(limits), Ledger::fresh());
        for call in calls(&script, &mut room) {
            let (told, expected) = (site.call(&call), standard.call(&call));
            if told == expected {
                continue;
            }
            match told {
                Err(Refusal::ExtensionTooLong) => parted[0] += 1,
                Err(Refusal::NoFreeBlock) => parted[1] += 1,
                Err(Refusal::ExpirationsFull) => parted[2] += 1,
                Err(Refusal::ReserveNotFree) => parted[3] += 1,
                _ => panic!("{call:?}: {told:?} and not {expected:?}, {limits:?}"),
            }
            break;
        }
    }
    println!("first by 6, 9, 10, 25: {parted:?}");
    assert!(parted.iter().all(|&count| count > 20), "{parted:?}");
}

const ROWS: &[(Limits, &str, &[Row])] = &[
    (
        chosen(1, 2, 4, 5),
        "each figure is the bound of what it is named for",
        &[
            (1, "010000FF00FF", "00"),
            (1, "0600000600200000", "06"),
            (1, "0600000500200000", "0000000001"),
            (1, "0600000500010000", "09"),
            (1, "0600010500210000", "0000000002"),
            (1, "0600020001000000", "0000000003"),
            (1, "0600000000210000", "09"),
            (1, "0700010600000001", "06"),
            (1, "0C00000600000002", "06"),
            (1, "0C0000000000000100000002", "0A"),
            (1, "0C00000000000002", "00"),
            (1, "0700000000000001", "0A"),
            (1, "0C00000000000001", "0A"),
            (1, "0A", "000102000400000003"),
            (1, "0B0000000001", "000600"),
            (1, "0B0000000002", "000107"),
            (1, "0D0000000003", "00"),
            (1, "0600000000210000", "0000000004"),
            (1, "0A", "000102000400000004"),
        ],
    ),
    (
        chosen(1, 2, 4, 5),
        "a block and an expiration come back",
        &[
            (1, "010000FF00FF", "00"),
            (1, "0600000000200000", "0000000001"),
            (3, "0700000500000001", "00"),
            (1, "0600000000210000", "0A"),
            (1, "0500", "0001"),
            (1, "0600000000010000", "09"),
            (1, "0600000000210000", "0000000002"),
            (1, "0700000000000002", "0A"),
            (5, "0500", "0001"),
            (1, "0A", "000000000000000002"),
            (1, "0600000000010000", "0000000003"),
        ],
    ),
    (
        chosen(1, 2, 4, 5),
        "local with the largest extension: stands after 5 ticks, gone after 6",
        &[
            (1, "010000FF00FF", "00"),
            (1, "0600000500010000", "0000000001"),
            (5, "0500", "0001"),
            (1, "080000000001", "0000"),
            (1, "0B0000000001", "000100"),
            (1, "0500", "0001"),
            (1, "080000000001", "0C"),
        ],
    ),
    (
        chosen(1, 2, 4, 5),
        "global with the largest extension: stands after 6 advances, gone after 7",
        &[
            (1, "010000FF00FF", "00"),
            (1, "0600010500010000", "0000000001"),
            (6, "0500", "0001"),
            (1, "080000000001", "0000"),
            (1, "0B0000000001", "000001"),
            (1, "0500", "0001"),
            (1, "080000000001", "0C"),
        ],
    ),
    (
        chosen(1, 2, 4, 5),
        "a setter that waits puts its expirations off, whatever the largest extension is",
        &[
            (1, "010000FF00FF", "00"),
            (1, "010100FF00FF", "00"),
            (1, "0600010500010000", "0000000001"),
            (1, "0300", "0000"),
            (20, "0501", "0001"),
            (1, "0B0100000001", "000007"),
            (1, "0400", "00"),
        ],
    ),
    (
        chosen(1, 2, 4, 5),
        "tests in their order: 6, 7, 9, 10, and of a batch 20, 6, 11, 12, 10",
        &[
            (1, "010000FF00FF", "00"),
            (1, "0600000000010000", "0000000001"),
            (1, "0500", "0001"),
            (1, "0600000500010000", "0000000002"),
            (3, "0700000500000002", "00"),
            (1, "0600000600000000", "06"),
            (1, "0600000500000000", "07"),
            (1, "0600000600010000", "06"),
            (1, "0600000500010000", "09"),
            (1, "0600000500210000", "0A"),
            (1, "0600020100210000", "06"),
            (1, "0C000006", "14"),
            (1, "0C00000600000003", "06"),
            (1, "0C0000050000000100000003", "0B"),
            (1, "0C0000050000000200000001", "0C"),
            (1, "0C00000500000002", "0A"),
            (1, "0A", "000100000400000002"),
        ],
    ),
    (
        chosen(1, 2, 4, 5),
        "a batch of more objects than expirations can stand",
        &[
            (1, "010000FF00FF", "00"),
            (1, "0600000500010000", "0000000001"),
            (1, "0C0000000000000100000001000000010000000100000001", "0A"),
            (1, concat!("0C000000", thirty_two!("00000001")), "0A"),
            (1, "0C00000000000001000000010000000100000001", "0A"),
            (1, "0C000000000000010000000100000001", "00"),
            (1, "0A", "000100000400000001"),
        ],
    ),
    (
        chosen(1, 1, 1, 0),
        "the smallest pool",
        &[
            (1, "010000FF00FF", "00"),
            (1, "0600000100040000", "06"),
            (1, "0600000000040000", "0000000001"),
            (1, "0600000000040000", "09"),
            (1, "0600000000210000", "0A"),
            (1, "0700000000000001", "0A"),
            (1, "0700000100000001", "06"),
            (1, "0C00010000000001", "0A"),
            (1, "0A", "000100000100000001"),
            (1, "0500", "0001"),
            (1, "0600010000210000", "0000000002"),
            (1, "0600000000210000", "09"),
            (1, "0600000000040000", "0A"),
            (1, "0500", "0001"),
            (1, "0B0000000002", "000001"),
            (1, "0500", "0001"),
            (1, "080000000002", "0C"),
            (1, "0600020000040000", "0000000003"),
            (9, "0500", "0001"),
            (1, "0600000000210000", "0A"),
            (1, "0D0000000003", "00"),
            (1, "0600000000210000", "0000000004"),
        ],
    ),
    (
        chosen(4, 4, 2, 0),
        "fewer expirations than blocks: 10, and never 9",
        &[
            (1, "010000FF00FF", "00"),
            (2, "0600000000040000", ACCEPTED),
            (2, "0600000000040000", "0A"),
            (2, "0600000000210000", "0A"),
            (1, "0A", "000200000200000002"),
            (1, "0500", "0001"),
            (1, "0600020000210000", "0000000003"),
            (1, "0600010000040000", "0000000004"),
            (1, "0600000000040000", "0A"),
            (1, "0A", "000101000200000004"),
        ],
    ),
    (
        chosen(3, 1, 256, 30),
        "each store has its own figure, with no spilling over",
        &[
            (1, "010000FF00FF", "00"),
            (3, "0600001E00200000", ACCEPTED),
            (1, "0600001E00200000", "09"),
            (1, "0600001E00210000", "0000000004"),
            (1, "0600001E00210000", "09"),
            (1, "0600001F00210000", "06"),
            (252, "0700001E00000001", "00"),
            (1, "0700001E00000001", "0A"),
            (1, "0600001E00200000", "09"),
            (1, "0A", "000301010000000004"),
        ],
    ),
];
