//! What each call of the library may take of the plain pool's instructions, with 256 expirations standing.

use host_tests::cases::Case;

/// What every call is to come to.
pub const GOAL: f64 = 1.2;

/// What takes more, or far less, than every call is to: its ratio when this was written, rounded up to the next 0.05 that
/// leaves 0.01 free, since the plain pool's own count varies so much from build to build. Handles that are alike the library
/// tells apart in as many steps on any bytes, and the plain pool by a table that other handles fill in one place.
const LIMITS: [(&str, f64); 6] = [
    ("tick, 96 objects, handles alike modulo 256", 1.55),
    ("make 32, 95 objects, handles alike modulo 256", 1.6),
    ("tick, 96 objects, handles alike modulo 65536", 2.2),
    ("make 32, 95 objects, handles alike modulo 65536", 2.2),
    ("tick, 96 objects, handles on one place of plain's table", 0.7),
    ("make 32, 95 objects, handles on one place of plain's table", 0.7),
];

/// What a limit leaves to the machine: another C library copies in other instructions.
const SLACK: f64 = 0.1;

/// The limit of a case by its name.
pub fn of(name: &str) -> f64 {
    SLACK + LIMITS.iter().find(|(other, _)| *other == name).map_or(GOAL, |&(_, limit)| limit)
}

/// A case's name, with its numbering where that is what it is about.
pub fn name(case: &Case) -> String {
    let numbering = case.numbering.map_or_else(String::new, |numbering| format!(", handles {}", numbering.name()));
    format!("{}{numbering}", case.name)
}
