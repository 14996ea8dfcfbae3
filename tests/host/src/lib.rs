//! The linked library as tests and measures use it: its entries, a host that makes calls and watches what they
//! touch, the record read as a ledger, the figures of sites, records to begin from, the cases that are measured,
//! instructions by callgrind, and the depth of the stack.
//!
//! `RAMSUMMER_LIB` names the folder of another library than the repository's own, as host/README.md says:
//!
//! ```text
//! RAMSUMMER_LIB=FOLDER cargo test --offline
//! RAMSUMMER_LIB=FOLDER cargo run --release --offline --bin cost
//! RAMSUMMER_LIB=FOLDER cargo run --release --offline --bin budget
//! ```

pub mod callgrind;
pub mod cases;
pub mod desk;
pub mod entries;
pub mod extremes;
pub mod host;
pub mod library;
pub mod malloc;
pub mod measures;
pub mod memory;
pub mod reading;
pub mod samples;
pub mod sites;
pub mod stack;
