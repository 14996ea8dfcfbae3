//! What the calls answer that have more to say than a number: report, remaining and frame.

use crate::Refusal;
use core::fmt;

/// The figures of a report.
#[derive(Clone, Copy, Debug, Default, PartialEq, Eq)]
#[non_exhaustive]
pub struct Report {
    /// Objects that stand in the small store, as many as it has blocks at most.
    pub small: u8,
    /// Objects that stand in the large store, as many as it has blocks at most.
    pub large: u8,
    /// Expirations that stand, as many as the pool's [limit](crate::Limits) at most.
    pub expirations: u16,
    /// Handles given so far.
    pub given: u32,
}

impl fmt::Display for Report {
    /// The figures on one line, such as `small 2, large 0, expirations 3, given 7`.
    fn fmt(&self, f: &mut fmt::Formatter<'_>) -> fmt::Result {
        let Report { small, large, expirations, given } = self;
        write!(f, "small {small}, large {large}, expirations {expirations}, given {given}")
    }
}

/// How long an object stands without a refresh. It is gone when both figures have come to 0, unless another task has a
/// local expiration on it, or it is pinned: what pins it adds to neither figure.
#[derive(Clone, Copy, Debug, Default, PartialEq, Eq)]
#[non_exhaustive]
pub struct Remaining {
    /// The asking task's ticks until the last of its local expirations is due; 0 where it has none.
    pub local: u8,
    /// The advances of global time until the last global expiration is due, whoever set it, where its setter does not
    /// wait meanwhile; 0 where there is none.
    pub global: u8,
}

/// The answer to a frame: whether its call was carried out, and the answer line, which says that too.
#[derive(Clone, Copy, Debug, PartialEq, Eq)]
#[non_exhaustive]
pub struct Answer<'out> {
    /// Whether the frame's call was carried out.
    pub outcome: Result<(), Refusal>,
    /// The answer line with its LF; empty where the outcome is [`Refusal::BufferTooShort`].
    pub line: &'out [u8],
}
