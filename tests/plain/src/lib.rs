//! A plain Rust pool over the very record of the proved library, by the same rules and with the same answers,
//! written for speed and changed in place. It is the measure for the cost of the proved library, and a second
//! opinion beside the reference's ledger: on every rule, and on a record that is damaged.
//!
//! `calls` has the calls as a host makes them: the test of well-formedness first, then the work. `work` has the
//! work alone, for records that are known to be well-formed; `plan` steps a cable plan on it. `sheet` works out the room
//! that a script needs, and has nothing of these.

#![forbid(unsafe_code)]
#![no_std]

pub mod calls;
pub mod fit;
pub mod frames;
pub mod limits;
pub mod plan;
pub mod record;
pub mod refusals;
pub mod shares;
pub mod sheet;
pub mod work;
