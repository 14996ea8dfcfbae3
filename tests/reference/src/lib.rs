//! A reference for the short-term memory pool: its rules as a plain ledger, the unbounded heap that the ledger is held
//! against, the call frames, scripts to compare a pool with, bytes changed from outside, the room that a script needs, a
//! cable plan tried on paper, and a script or a plan explained, in words and as a picture. All of it but the plan is for
//! pools of any figures that a site may choose (order 12); where none are given, they are the scope paper's.
//!
//! Names and the scope paper's words for them: local time, a task's own clock; global time, the common
//! time; ticked, marked; expiration, a date; handle, an object's number; unbounded heap, the endless heap;
//! expiration book, the date book; prefix, an object's head (order 10).

#![forbid(unsafe_code)]

pub mod block;
pub mod call;
pub mod damage;
pub mod draft;
pub mod expiration;
pub mod explain;
pub mod frame;
pub mod generate;
pub mod heap;
pub mod ledger;
pub mod limits;
pub mod longest;
pub mod outside;
pub mod peaks;
pub mod plan;
pub mod program;
pub mod random;
pub mod script;
pub mod share;
pub mod tasks;

#[cfg(test)]
mod late_starts;
