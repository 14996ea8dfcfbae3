//! Order 6: bytes that something outside changes. No call does, so that no script meets 23; calls with such changes between
//! them do.

use crate::block::Block;
use crate::call::{Call, Model};
use crate::ledger::Ledger;
use crate::random::Random;

/// A byte of an object's block gets this value, and the sum stays.
#[derive(Clone, Copy, Debug, PartialEq, Eq)]
pub struct Change {
    pub handle: u32,
    pub place: usize,
    pub byte: u8,
}

/// A model into whose blocks something outside can write.
pub trait Exposed: Model + Clone {
    /// The place is in the object's block. Where there is no such object, nothing changes.
    fn disturb(&mut self, change: Change);
}

/// One call in so many has changes before it.
const RARE: usize = 16;

/// Changes of chance between calls.
pub struct Changes {
    random: Random,
    /// What the changed bytes were, the last one last.
    former: Vec<Change>,
}

impl Changes {
    pub fn new(seed: u64) -> Changes {
        Changes { random: Random::new(seed), former: Vec::new() }
    }

    /// What changes before this call, if anything does: one byte, two that cancel, two of chance, or one back again.
    pub fn before(&mut self, call: &Call, ledger: &Ledger) -> Vec<Change> {
        if !self.random.one_in(RARE) {
            return Vec::new();
        }
        let Some(handle) = self.object(call, ledger) else { return Vec::new() };
        let Some(block) = ledger.block_of(handle) else { return Vec::new() };
        let changes = match self.random.below(8) {
            0 | 1 => self.cancelling(handle, block),
            2 => vec![self.one(handle, block), self.one(handle, block)],
            3 | 4 => self.back_again(handle),
            _ => vec![self.one(handle, block)],
        };
        self.former.extend(changes.iter().map(|change| Change { byte: block.bytes[change.place], ..*change }));
        changes
    }

    /// Mostly one that the call names, else any that stands.
    fn object(&mut self, call: &Call, ledger: &Ledger) -> Option<u32> {
        let named = call.objects().into_iter().find(|&handle| ledger.block_of(handle).is_some());
        if named.is_some() && !self.random.one_in(4) {
            return named;
        }
        let handles: Vec<_> = ledger.handles().collect();
        if handles.is_empty() {
            return None;
        }
        Some(self.random.pick(&handles))
    }

    /// One byte of a block, of the object or beyond it: to any other value, to the next one, and now and then to its own.
    pub fn one(&mut self, handle: u32, block: &Block) -> Change {
        let (length, size) = (usize::from(block.length), block.bytes.len());
        let inside = self.random.below(length);
        let any = self.random.below(size);
        let place = self.random.pick(&[inside, any, 0, length - 1, length.min(size - 1), size - 1]);
        let other = 1 + self.random.below(255) as u8;
        let more = self.random.pick(&[other, other, other, 1, 255, 0]);
        Change { handle, place, byte: block.bytes[place].wrapping_add(more) }
    }

    /// One byte goes up by as much as another goes down. There are none in a block of zeros.
    pub fn cancelling(&mut self, handle: u32, block: &Block) -> Vec<Change> {
        let places =
            |holds: fn(u8) -> bool| (0..block.bytes.len()).filter(|&place| holds(block.bytes[place])).collect();
        let (down, up): (Vec<_>, Vec<_>) = (places(|byte| byte > 0), places(|byte| byte < 255));
        if down.is_empty() || up.is_empty() {
            return Vec::new();
        }
        let (down, up) = (self.random.pick(&down), self.random.pick(&up));
        if down == up {
            return Vec::new();
        }
        let most = block.bytes[down].min(255 - block.bytes[up]);
        let by = 1 + self.random.below(usize::from(most)) as u8;
        let change = |place: usize, byte: u8| Change { handle, place, byte };
        vec![change(down, block.bytes[down] - by), change(up, block.bytes[up] + by)]
    }

    fn back_again(&mut self, handle: u32) -> Vec<Change> {
        let last = self.former.iter().rposition(|former| former.handle == handle);
        last.map(|place| self.former.remove(place)).into_iter().collect()
    }
}
