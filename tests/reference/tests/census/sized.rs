//! Order 12: calls that the figures of a pool decide, where they are less than the scope paper's.

use reference::call::{Call, Figures, Kind};
use reference::limits::{Limits, Store};

const STANDARD: Limits = Limits::STANDARD;

/// A call and its answer, and what stands before it.
pub struct Seen<'a> {
    pub call: &'a Call<'a>,
    /// 0 if it was accepted.
    pub number: usize,
    pub limits: Limits,
    pub figures: Figures,
}

impl Seen<'_> {
    fn makes(&self, number: usize) -> bool {
        matches!(self.call, Call::Make { .. }) && self.number == number
    }

    fn refreshes(&self, number: usize) -> bool {
        matches!(self.call, Call::Refresh { .. }) && self.number == number
    }

    fn batches(&self, number: usize) -> bool {
        matches!(self.call, Call::Batch { .. }) && self.number == number
    }

    /// The extension of a call that sets expirations which have one.
    fn extension(&self) -> Option<usize> {
        match *self.call {
            Call::Make { kind, extension, .. }
            | Call::Refresh { kind, extension, .. }
            | Call::Batch { kind, extension, .. }
                if kind != Kind::Pinned =>
            {
                Some(extension.into())
            }
            _ => None,
        }
    }

    /// The figure refuses it with 6, and the scope paper's does not.
    fn extends_too_far(&self) -> bool {
        self.number == 6 && self.extension().is_some_and(|extension| extension <= STANDARD.extension)
    }

    /// It is the largest, and the scope paper's is larger.
    fn extends_most(&self) -> bool {
        self.limits.extension < STANDARD.extension && self.extension() == Some(self.limits.extension)
    }

    fn has_extension_0_alone(&self) -> bool {
        self.limits.extension == 0 && self.extension().is_some()
    }

    /// How many expirations it would set.
    fn count(&self) -> usize {
        self.call.objects().len().max(1)
    }

    fn room(&self) -> usize {
        self.limits.expirations - usize::from(self.figures.expirations)
    }

    fn has_fewer_expirations(&self) -> bool {
        self.limits.expirations < STANDARD.expirations
    }

    /// It takes the last of fewer expirations.
    fn takes_the_last(&self) -> bool {
        self.number == 0 && self.has_fewer_expirations() && self.count() == self.room()
    }

    /// The blocks of this store that are free before a make in it, if they are fewer than the scope paper's.
    fn free(&self, store: Store) -> Option<usize> {
        let Call::Make { length, .. } = *self.call else { return None };
        let standing = [self.figures.small, self.figures.large][store as usize];
        let blocks = self.limits.blocks(store);
        let looked_at = Store::holding(length) == Ok(store) && blocks < STANDARD.blocks(store);
        looked_at.then(|| blocks - usize::from(standing))
    }

    fn is_smallest(&self) -> bool {
        self.limits == Limits::SMALLEST
    }
}

type Situation = (&'static str, fn(&Seen) -> bool);
pub type Met = super::Met<{ SITUATIONS.len() }>;

pub const SITUATIONS: [Situation; 27] = [
    ("make, 6 below 30", |seen| seen.makes(6) && seen.extends_too_far()),
    ("refresh, 6 below 30", |seen| seen.refreshes(6) && seen.extends_too_far()),
    ("batch, 6 below 30", |seen| seen.batches(6) && seen.extends_too_far()),
    ("made with the largest extension", |seen| seen.makes(0) && seen.extends_most()),
    ("refreshed with the largest extension", |seen| seen.refreshes(0) && seen.extends_most()),
    ("a batch with the largest extension", |seen| seen.batches(0) && seen.extends_most()),
    ("extension 0 is the largest: made", |seen| seen.has_extension_0_alone() && seen.makes(0)),
    ("extension 0 is the largest: refreshed", |seen| seen.has_extension_0_alone() && seen.refreshes(0)),
    ("extension 0 is the largest: 1 gives 6", |seen| {
        seen.has_extension_0_alone() && seen.number == 6 && seen.extension() == Some(1)
    }),
    ("the last small block taken", |seen| seen.makes(0) && seen.free(Store::Small) == Some(1)),
    ("the last large block taken", |seen| seen.makes(0) && seen.free(Store::Large) == Some(1)),
    ("9 in fewer small blocks", |seen| seen.makes(9) && seen.free(Store::Small) == Some(0)),
    ("9 in fewer large blocks", |seen| seen.makes(9) && seen.free(Store::Large) == Some(0)),
    ("6 before 9", |seen| {
        let full = [Store::Small, Store::Large].iter().any(|&store| seen.free(store) == Some(0));
        seen.makes(6) && seen.extends_too_far() && full
    }),
    ("9 before 10", |seen| seen.makes(9) && seen.room() == 0),
    ("the last expiration taken by a make", |seen| seen.makes(0) && seen.takes_the_last()),
    ("the last expiration taken by a refresh", |seen| seen.refreshes(0) && seen.takes_the_last()),
    ("the last expirations taken by a batch", |seen| seen.batches(0) && seen.count() > 1 && seen.takes_the_last()),
    ("make, 10 below 256", |seen| seen.makes(10) && seen.has_fewer_expirations()),
    ("refresh, 10 below 256", |seen| seen.refreshes(10) && seen.has_fewer_expirations()),
    ("batch, 10 below 256", |seen| seen.batches(10) && seen.has_fewer_expirations()),
    ("a batch has room for some and not for all", |seen| {
        seen.batches(10) && seen.has_fewer_expirations() && seen.room() > 0
    }),
    ("a batch of more than all expirations", |seen| seen.batches(10) && seen.count() > seen.limits.expirations),
    ("10 where there are more blocks than expirations", |seen| {
        seen.makes(10) && seen.limits.expirations < seen.limits.small_blocks + seen.limits.large_blocks
    }),
    ("the smallest pool, made", |seen| seen.is_smallest() && seen.makes(0)),
    ("the smallest pool, 9", |seen| seen.is_smallest() && seen.makes(9)),
    ("the smallest pool, 10", |seen| seen.is_smallest() && seen.makes(10)),
];

/// Counts the call.
pub fn note(met: &mut Met, seen: &Seen) {
    met.note(&SITUATIONS, seen);
}
