//! The work of the calls on a well-formed record: the tests but 15 in the rules' order, then the change in place.
//! A refusal is its number.

mod objects;
mod tasks;

pub use objects::{make, read, refresh, refresh_all, release, remaining, report, write, Figures, Lifetime};
pub use tasks::{awaited, block, join, leave, resume, share, tick, view, Holding, Holdings};
