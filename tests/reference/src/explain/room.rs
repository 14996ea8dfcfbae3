//! Order 11: the room that a script needs, and the line at which it would outgrow its pool.

use super::Line;
use crate::ledger::Usage;
use crate::limits::Limits;

/// What a script needs of one figure of its pool.
pub struct Need {
    limit: usize,
    peak: usize,
    /// The first line after which more would stand than the pool has room for, from 1; none where the peak fits.
    pub past: Option<usize>,
}

/// Of small objects, large objects and expirations.
pub fn needs(limits: Limits, lines: &[Line]) -> [Need; 3] {
    [
        need(limits.small_blocks, lines, |usage| usage.small),
        need(limits.large_blocks, lines, |usage| usage.large),
        need(limits.expirations, lines, |usage| usage.expirations),
    ]
}

fn need(limit: usize, lines: &[Line], figure: fn(Usage) -> usize) -> Need {
    let mut values = lines.iter().map(|line| figure(line.after.roomy));
    let peak = values.clone().max().unwrap_or(0);
    Need { limit, peak, past: values.position(|value| value > limit).map(|place| place + 1) }
}

impl Need {
    /// `peak 76, past 64 at line 188`.
    pub fn words(&self) -> String {
        let Need { limit, peak, past } = self;
        match past {
            None => format!("peak {peak}, within {limit}"),
            Some(line) => format!("peak {peak}, past {limit} at line {line}"),
        }
    }
}
