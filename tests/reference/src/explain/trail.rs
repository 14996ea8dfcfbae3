//! Who set each expiration and where, how often it was put off, and with which of them each object went. The ledger keeps
//! none of this.

use std::collections::BTreeMap;

use crate::expiration::{Expiration, Setter};
use crate::limits::TASKS;
use crate::tasks::Tasks;

/// An expiration with its origin. Lines count from 1.
#[derive(Clone, Copy, Debug)]
pub struct Set {
    pub setter: u8,
    pub line: usize,
    pub expiration: Expiration,
    /// How many advances have put it off.
    pub put_off: usize,
}

impl Set {
    /// Whether its setter departed.
    pub fn is_departed(&self) -> bool {
        matches!(self.expiration, Expiration::Global { setter: Setter::Departed, .. })
    }
}

/// The line at which an object went, and the last of its expirations.
#[derive(Clone, Copy, Debug)]
pub struct Gone {
    pub line: usize,
    pub last: Set,
}

#[derive(Debug, Default)]
pub struct Trail {
    standing: BTreeMap<u32, Vec<Set>>,
    /// Who made each standing object, of those whose maker has not left.
    makers: BTreeMap<u32, u8>,
    gone: BTreeMap<u32, Gone>,
    released: BTreeMap<u32, usize>,
}

impl Trail {
    /// The handles of the standing objects, in order.
    pub fn handles(&self) -> impl Iterator<Item = u32> + '_ {
        self.standing.keys().copied()
    }

    /// How many expirations an object has.
    pub fn count(&self, handle: u32) -> usize {
        self.standing.get(&handle).map_or(0, Vec::len)
    }

    /// Since when an object is gone, and with what.
    pub fn gone(&self, handle: u32) -> Option<Gone> {
        self.gone.get(&handle).copied()
    }

    /// The line at which an object was released.
    pub fn released(&self, handle: u32) -> Option<usize> {
        self.released.get(&handle).copied()
    }

    pub fn set(&mut self, handle: u32, set: Set) {
        self.standing.entry(handle).or_default().push(set);
    }

    pub fn made(&mut self, handle: u32, maker: u8) {
        self.makers.insert(handle, maker);
    }

    /// How many of the standing objects each task has made.
    pub fn held(&self) -> [u8; TASKS] {
        let mut held = [0; TASKS];
        self.makers.values().for_each(|&maker| held[usize::from(maker)] += 1);
        held
    }

    /// From its leave on the leaver is departed, and its objects are nobody's. Tells how many global expirations it has set.
    pub fn depart(&mut self, leaver: u8) -> usize {
        self.makers.retain(|_, maker| *maker != leaver);
        let sets = self.standing.values_mut().flatten();
        sets.filter_map(|set| set.expiration.depart(leaver).then_some(())).count()
    }

    /// Puts off what an advance puts off, and gives the handles of the objects.
    pub fn put_off(&mut self, tasks: &Tasks) -> Vec<u32> {
        let put_off = |set: &mut Set| {
            let more = usize::from(set.expiration.put_off(tasks));
            set.put_off += more;
            more
        };
        let some = |sets: &mut Vec<Set>| sets.iter_mut().map(put_off).sum::<usize>() > 0;
        self.standing.iter_mut().filter_map(|(&handle, sets)| some(sets).then_some(handle)).collect()
    }

    /// Ends what pins an object at this line. Gives its handle if it goes with it.
    pub fn release(&mut self, line: usize, handle: u32) -> Vec<u32> {
        self.released.insert(handle, line);
        self.end(line, |object, one| object == handle && one.is_pinned())
    }

    /// Ends these expirations of these objects at this line. Gives the handles of the objects that go with their last one; where several
    /// end together, the one that was set last is the last.
    pub fn end(&mut self, line: usize, ends: impl Fn(u32, &Expiration) -> bool) -> Vec<u32> {
        let (mut went, gone, makers) = (Vec::new(), &mut self.gone, &mut self.makers);
        self.standing.retain(|&handle, sets| {
            let newest = sets.last().copied();
            sets.retain(|set| !ends(handle, &set.expiration));
            if let (true, Some(last)) = (sets.is_empty(), newest) {
                went.push(handle);
                makers.remove(&handle);
                gone.insert(handle, Gone { line, last });
            }
            !sets.is_empty()
        });
        went
    }
}
