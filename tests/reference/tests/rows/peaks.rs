//! Order 11 in rows, for the ledger and the plain sheet: each script with the answers that a pool gives it as it is written,
//! and with its peaks.

use reference::ledger::Usage;
use reference::limits::Limits;

use super::rows::{Row, ACCEPTED};

const fn chosen(small_blocks: usize, large_blocks: usize, expirations: usize, extension: usize) -> Limits {
    Limits { small_blocks, large_blocks, expirations, extension }
}

/// A small block, a large one, two expirations and no extension.
const FEW: Limits = chosen(1, 1, 2, 0);

/// Small objects, large objects and expirations.
type Peaks = (usize, usize, usize);

pub fn check_all(check: impl Fn(Limits, &str, &[Row], Usage)) {
    for &(limits, name, rows, (small, large, expirations)) in ROWS {
        check(limits, name, rows, Usage { small, large, expirations });
    }
}

/// The lines of rows.
pub fn script(rows: &[Row]) -> String {
    rows.iter().map(|(times, line, _)| format!("{line}\n").repeat(*times)).collect()
}

const ROWS: &[(Limits, &str, &[Row], Peaks)] = &[
    (Limits::STANDARD, "a limit of 0 is none", &[(1, "010000000000", "00"), (1, "0600000000010000", "1A")], (1, 0, 1)),
    (
        Limits::STANDARD,
        "nothing is held back for another",
        &[(1, "010040FF00FF", "00"), (1, "010100FF00FF", "00"), (1, "0601000000010000", "09")],
        (1, 0, 1),
    ),
    (
        Limits::STANDARD,
        "65 objects do not fit, though the pool meets neither 9 nor 10",
        &[(1, "010000400000", "00"), (64, "0600020000010000", ACCEPTED), (1, "0600020000010000", "1A")],
        (65, 0, 65),
    ),
    (Limits::STANDARD, "24 is never given", &[(1, "010002010000", "18"), (1, "0600000000210000", "03")], (0, 1, 1)),
    (
        Limits::STANDARD,
        "25 is never given",
        &[(1, "010040FF20FF", "00"), (1, "010101FF00FF", "19"), (1, "0601020000210000", "03")],
        (0, 1, 1),
    ),
    (
        Limits::STANDARD,
        "12 is given: a refresh of what is gone sets nothing",
        &[
            (1, "010000FF00FF", "00"),
            (1, "0600000000010000", "0000000001"),
            (1, "0500", "0001"),
            (2, "0700000000000001", "0C"),
            (1, "0600000000010000", "0000000002"),
        ],
        (1, 0, 1),
    ),
    (
        Limits::STANDARD,
        "each peak has its own moment, and what is refused does not count",
        &[
            (1, "010000FF00FF", "00"),
            (1, "0600010000200000", "0000000001"),
            (1, "0600000000200000", "0000000002"),
            (1, "0C000000000000010000000100000002", "00"),
            (1, "0600001F00210000", "06"),
            (1, "0600000001010000", "07"),
            (1, "0600000000210022", "1C"),
            (1, "0500", "0001"),
            (1, "0C0000000000000100000002", "0C"),
            (1, "0500", "0001"),
            (1, "0600020000210000", "0000000003"),
            (1, "0E01", "00"),
            (1, "0601000000210000", "1B"),
            (1, "0D0000000003", "00"),
            (1, "0A", "000000000000000003"),
        ],
        (2, 1, 5),
    ),
    (Limits::STANDARD, "no call", &[(2, "", "11"), (1, "010000FF00F", "10"), (1, "060000000001", "12")], (0, 0, 0)),
    (
        Limits::STANDARD,
        "calls that leave nothing",
        &[(1, "0A", "000000000000000000"), (1, "0600000000010000", "03"), (1, "0B1000000001", "01")],
        (0, 0, 0),
    ),
    (
        Limits::STANDARD,
        "26 is not given at 255 objects of a task either",
        &[(1, "010000FF00FF", "00"), (64, "0600020000010000", ACCEPTED), (236, "0600020000010000", "09")],
        (300, 0, 300),
    ),
    (
        FEW,
        "just large enough, in each figure",
        &[(1, "010000FF00FF", "00"), (1, "0600020000200000", ACCEPTED), (1, "0600020000210000", ACCEPTED)],
        (1, 1, 2),
    ),
    (
        FEW,
        "too few small blocks",
        &[(1, "010000FF00FF", "00"), (1, "0600020000200000", ACCEPTED), (1, "0600020000200000", "09")],
        (2, 0, 2),
    ),
    (
        FEW,
        "too few large blocks",
        &[(1, "010000FF00FF", "00"), (1, "0600020000210000", ACCEPTED), (1, "0600020000210000", "09")],
        (0, 2, 2),
    ),
    (
        FEW,
        "too few expirations; the largest extension is the pool's",
        &[
            (1, "010000FF00FF", "00"),
            (1, "0600000000200000", "0000000001"),
            (1, "0700000100000001", "06"),
            (1, "0700000000000001", "00"),
            (1, "0700010000000001", "0A"),
        ],
        (1, 0, 3),
    ),
];
