//! Order 11: the room that a script needs, worked out from its calls. A number such as K1 is a rule's in docs/RULES.md.

use crate::call::{Call, Model, Refusal};
use crate::frame::decode;
use crate::ledger::{Ledger, Usage};
use crate::limits::Limits;
use crate::script::{lines, LIMIT};
use crate::share::Share;

/// K1: how a script is read: every reserve as 0 and every limit as 255, before any test.
pub fn as_read<'a>(call: &Call<'a>) -> Call<'a> {
    match *call {
        Call::Join { task, .. } => Call::Join { task, share: Share::OPEN },
        other => other,
    }
}

/// K4: the most of each figure after any call, each by itself; 0 where there is no call. Of the pool's figures only the
/// largest extension matters.
pub fn peaks(limits: Limits, script: &[u8]) -> Usage {
    let (mut roomy, mut peaks) = (Ledger::roomy(limits), Usage::default());
    let mut room = vec![0; script.len() / 2];
    for line in lines(script) {
        // A frame that yields no call changes nothing, and neither does a call that is refused.
        if let Ok(call) = decode(line, &mut room) {
            _ = roomy.call(&as_read(&call));
            peaks = peaks.most(roomy.usage());
        }
    }
    peaks
}

/// Whether a pool of these figures, with the script read so, meets neither 9 nor 10. It does not exactly where the peaks
/// fit (K6).
pub fn has_room(limits: Limits, script: &[u8]) -> bool {
    let (mut pool, mut room) = (Ledger::of(limits), vec![0; script.len() / 2]);
    let mut answers = lines(script).filter_map(|line| {
        let call = decode(line, &mut room).ok()?;
        pool.call(&as_read(&call)).err()
    });
    !answers.any(|refusal| matches!(refusal, Refusal::NoFreeBlock | Refusal::ExpirationsFull))
}

/// What the program prints of a script.
pub fn output(script: &[u8]) -> Vec<u8> {
    if script.len() > LIMIT {
        return b"script too long\n".to_vec();
    }
    let Usage { small, large, expirations } = peaks(Limits::STANDARD, script);
    format!("{small} {large} {expirations}\n").into_bytes()
}

impl Usage {
    /// Of each figure the larger one.
    pub fn most(self, other: Usage) -> Usage {
        Usage {
            small: self.small.max(other.small),
            large: self.large.max(other.large),
            expirations: self.expirations.max(other.expirations),
        }
    }

    /// K5: whether a pool of these figures has the room.
    pub fn fits(self, limits: Limits) -> bool {
        self.small <= limits.small_blocks && self.large <= limits.large_blocks && self.expirations <= limits.expirations
    }
}
