//! The ledger, as the scope paper says it. A number such as O3 is a rule's in docs/RULES.md. Nothing here is
//! arranged for speed: what a rule asks of the objects is looked up among all of them.

use crate::block::Block;
use crate::call::{Accepted, Answer, Figures, Handles, Kind, Lifetime, Model, Refusal};
use crate::expiration::{remaining, Expiration, Remaining};
use crate::limits::{check_batch, check_prefix, check_refreshing, Limits, Store, STORES};
use crate::outside::{Change, Exposed};
use crate::share::{Maker, Room, Share};
use crate::tasks::Tasks;

#[derive(Clone, Debug, PartialEq, Eq)]
pub struct Ledger {
    limits: Limits,
    /// Order 11: whether it has room for all, so that 9, 10, 25 and 26 are never given.
    is_roomy: bool,
    /// The sixteen tasks, and global time.
    tasks: Tasks,
    given: u32,
    /// In order of handle.
    objects: Vec<Object>,
}

/// O1, and its maker by order 9.
#[derive(Clone, Debug, PartialEq, Eq)]
struct Object {
    handle: u32,
    maker: Maker,
    block: Block,
    expirations: Vec<Expiration>,
}

/// How many small objects, large objects and expirations stand; or the most of each, each by itself.
#[derive(Clone, Copy, Debug, Default, PartialEq, Eq)]
pub struct Usage {
    pub small: usize,
    pub large: usize,
    pub expirations: usize,
}

/// A standing object as it is compared.
#[derive(Clone, Debug, PartialEq, Eq)]
pub struct Standing {
    pub handle: u32,
    pub maker: Maker,
    pub block: Block,
    pub expirations: Vec<Remaining>,
}

/// Each call makes its tests in the paper's order and changes nothing before the last of them.
impl Model for Ledger {
    /// 29, else T5 and O9: nothing is there yet.
    fn sized(limits: Limits) -> Result<Ledger, Refusal> {
        limits.check()?;
        Ok(Ledger::with(limits))
    }

    /// 1, 2, and order 9: 24, 25 in either store.
    fn join(&mut self, task: u8, share: Share) -> Answer<'static> {
        self.tasks.check_absent(task)?;
        share.check()?;
        self.check_reserves(task, share)?;
        self.tasks.join(task, share)?;
        Ok(Accepted::Done)
    }

    /// T12, E9 and E21: the task's local expirations end, and of its global ones and of its objects it is departed.
    fn leave(&mut self, task: u8) -> Answer<'static> {
        let advanced = self.tasks.leave(task)?;
        self.objects.iter_mut().for_each(|object| object.maker.depart(task));
        self.end(|expiration, _| expiration.is_local_of(task));
        self.change(|expiration, _| _ = expiration.depart(task));
        self.expire(advanced);
        Ok(Accepted::Advanced(advanced))
    }

    fn block(&mut self, task: u8) -> Answer<'static> {
        let advanced = self.tasks.block(task)?;
        self.expire(advanced);
        Ok(Accepted::Advanced(advanced))
    }

    fn resume(&mut self, task: u8) -> Answer<'static> {
        self.tasks.resume(task)?;
        Ok(Accepted::Done)
    }

    fn tick(&mut self, task: u8) -> Answer<'static> {
        let advanced = self.tasks.tick(task)?;
        self.expire(advanced);
        Ok(Accepted::Advanced(advanced))
    }

    /// R40, with 28 before 8 and 26 before 9, then O12 to O14: a new object, all zeros, with one expiration.
    fn make(&mut self, task: u8, kind: Kind, extension: u8, length: u16, prefix: u16) -> Answer<'static> {
        self.tasks.check_running(task)?;
        self.limits.check_extension(kind, extension)?;
        let store = Store::holding(length)?;
        check_prefix(prefix, length)?;
        self.check_handles()?;
        self.check_block(task, store)?;
        self.check_expirations(1)?;
        // One above the last, so that the new object is the last in order.
        self.given += 1;
        self.objects.push(Object {
            handle: self.given,
            maker: Maker::Task(task),
            block: Block::zeroed(length, prefix, store),
            expirations: vec![Expiration::set(&self.tasks, task, kind, extension)],
        });
        Ok(Accepted::Handle(self.given))
    }

    /// R41, then O17: one expiration more.
    fn refresh(&mut self, task: u8, kind: Kind, extension: u8, handle: u32) -> Answer<'static> {
        self.tasks.check_running(task)?;
        check_refreshing(kind)?;
        self.limits.check_extension(kind, extension)?;
        let place = self.check_standing(handle)?;
        self.check_expirations(1)?;
        let expiration = Expiration::set(&self.tasks, task, kind, extension);
        self.objects[place].expirations.push(expiration);
        Ok(Accepted::Done)
    }

    /// R42, and O18: all bytes of the object, or those that a viewer sees.
    fn read(&self, task: u8, handle: u32) -> Answer<'_> {
        let reader = self.tasks.check_awake(task)?;
        let place = self.check_standing(handle)?;
        self.objects[place].block.read(reader).map(Accepted::Bytes)
    }

    /// R43, and what the block does.
    fn write(&mut self, task: u8, handle: u32, offset: u8, bytes: &[u8]) -> Answer<'static> {
        self.tasks.check_running(task)?;
        let place = self.check_standing(handle)?;
        self.objects[place].block.write(offset, bytes)?;
        Ok(Accepted::Done)
    }

    fn report(&self) -> Answer<'static> {
        Ok(Accepted::Report(self.figures()))
    }

    /// Order 1: 1, 3, 4, 11, 12. Of the local expirations only the asking task's count, of the global ones all.
    fn remaining(&self, task: u8, handle: u32) -> Answer<'static> {
        self.tasks.check_awake(task)?;
        let place = self.check_standing(handle)?;
        let mut most = Lifetime { local: 0, global: 0 };
        for left in remaining(&self.objects[place].expirations, &self.tasks) {
            match left {
                Remaining::Local { setter, units } if setter == task => most.local = most.local.max(units as u8),
                Remaining::Local { .. } | Remaining::Pinned => {}
                Remaining::Global { units, .. } => most.global = most.global.max(units as u8),
            }
        }
        Ok(Accepted::Remaining(most))
    }

    /// Order 2: 1, 3, 4, 27, 20, 21, 6, then 11 by any of the objects, 12 by any, and 10 by all together. Then one expiration
    /// more for each, so that an object named twice gets two.
    fn batch(&mut self, task: u8, kind: Kind, extension: u8, handles: Handles) -> Answer<'static> {
        self.tasks.check_running(task)?;
        check_batch(handles.count())?;
        check_refreshing(kind)?;
        self.limits.check_extension(kind, extension)?;
        handles.iter().try_for_each(|handle| self.check_given(handle))?;
        let places = handles.iter().map(|handle| self.check_standing(handle)).collect::<Result<Vec<_>, _>>()?;
        self.check_expirations(handles.count())?;
        for place in places {
            let expiration = Expiration::set(&self.tasks, task, kind, extension);
            self.objects[place].expirations.push(expiration);
        }
        Ok(Accepted::Done)
    }

    /// R48, then E24: what pins the object ends. It stands on where another expiration does.
    fn release(&mut self, task: u8, handle: u32) -> Answer<'static> {
        self.tasks.check_running(task)?;
        let place = self.check_standing(handle)?;
        let expirations = &mut self.objects[place].expirations;
        let pin = expirations.iter().position(Expiration::is_pinned).ok_or(Refusal::NotPinned)?;
        expirations.remove(pin);
        if expirations.is_empty() {
            self.objects.remove(place);
        }
        Ok(Accepted::Done)
    }

    /// Order 10: 1, 2.
    fn view(&mut self, task: u8) -> Answer<'static> {
        self.tasks.view(task)?;
        Ok(Accepted::Done)
    }
}

impl Ledger {
    /// A fresh one of any figures, also of those that no site may choose.
    pub fn with(limits: Limits) -> Ledger {
        Ledger { limits, is_roomy: false, tasks: Tasks::default(), given: 0, objects: Vec::new() }
    }

    /// Order 11: a fresh one with room for all. Of the figures only the largest extension bounds it.
    pub fn roomy(limits: Limits) -> Ledger {
        Ledger { is_roomy: true, ..Ledger::with(limits) }
    }

    // What it holds.

    /// Order 12: they stay as they are chosen.
    pub fn limits(&self) -> Limits {
        self.limits
    }

    pub fn tasks(&self) -> &Tasks {
        &self.tasks
    }

    /// O24: what report counts. Where there is room for all, the numbers may be cut: no report is asked for there.
    pub fn figures(&self) -> Figures {
        let Usage { small, large, expirations } = self.usage();
        Figures { small: small as u8, large: large as u8, expirations: expirations as u16, given: self.given }
    }

    /// What stands.
    pub fn usage(&self) -> Usage {
        Usage {
            small: self.standing_in(Store::Small).count(),
            large: self.standing_in(Store::Large).count(),
            expirations: self.expirations(),
        }
    }

    /// One store, by its standing objects.
    pub fn room(&self, store: Store) -> Room {
        let makers = self.standing_in(store).map(|object| object.maker).collect();
        Room { blocks: self.limits.blocks(store), makers, quotas: self.tasks.quotas(store) }
    }

    /// The handles of the standing objects, in order.
    pub fn handles(&self) -> impl ExactSizeIterator<Item = u32> + '_ {
        self.objects.iter().map(|object| object.handle)
    }

    /// The block of a standing object.
    pub fn block_of(&self, handle: u32) -> Option<&Block> {
        self.find(handle).map(|place| &self.objects[place].block)
    }

    /// The length of a standing object.
    pub fn length(&self, handle: u32) -> Option<usize> {
        self.block_of(handle).map(|block| usize::from(block.length))
    }

    /// The expirations of a standing object; none of another.
    pub fn expirations_of(&self, handle: u32) -> &[Expiration] {
        self.find(handle).map_or(&[], |place| &self.objects[place].expirations)
    }

    /// The handles of the objects that are pinned, in order.
    pub fn pinned(&self) -> impl Iterator<Item = u32> + '_ {
        let is_pinned = |object: &&Object| object.expirations.iter().any(Expiration::is_pinned);
        self.objects.iter().filter(is_pinned).map(|object| object.handle)
    }

    /// The standing objects in order of handle.
    pub fn standing(&self) -> Vec<Standing> {
        let show = |object: &Object| Standing {
            handle: object.handle,
            maker: object.maker,
            block: object.block.clone(),
            expirations: remaining(&object.expirations, &self.tasks),
        };
        self.objects.iter().map(show).collect()
    }

    // Expirations that change and that go.

    /// E8, E11: what is due ends, after a tick and after an advance. E20: what an advance puts off is put off first.
    fn expire(&mut self, advanced: bool) {
        if advanced {
            self.change(|expiration, tasks| _ = expiration.put_off(tasks));
        }
        self.end(|expiration, tasks| expiration.is_due(tasks));
    }

    fn change(&mut self, change: impl Fn(&mut Expiration, &Tasks)) {
        let expirations = self.objects.iter_mut().flat_map(|object| &mut object.expirations);
        expirations.for_each(|expiration| change(expiration, &self.tasks));
    }

    /// Ends these expirations, and with its last one an object (O3).
    fn end(&mut self, ends: impl Fn(&Expiration, &Tasks) -> bool) {
        let tasks = &self.tasks;
        self.objects.retain_mut(|object| {
            object.expirations.retain(|expiration| !ends(expiration, tasks));
            !object.expirations.is_empty()
        });
    }

    // Tests.

    /// 8, by O15.
    fn check_handles(&self) -> Result<(), Refusal> {
        if self.given == u32::MAX {
            return Err(Refusal::AllHandlesGiven);
        }
        Ok(())
    }

    /// 25, in either store.
    fn check_reserves(&self, task: u8, share: Share) -> Result<(), Refusal> {
        if self.is_roomy {
            return Ok(());
        }
        STORES.iter().try_for_each(|&store| self.room(store).check_reserve(task, share.of(store).reserve))
    }

    /// 26, 9.
    fn check_block(&self, task: u8, store: Store) -> Result<(), Refusal> {
        if self.is_roomy {
            return Ok(());
        }
        let room = self.room(store);
        room.check_limit(task)?;
        room.check_block(task)
    }

    /// 10, by E14: no room for so many more.
    fn check_expirations(&self, more: usize) -> Result<(), Refusal> {
        if !self.is_roomy && self.expirations() + more > self.limits.expirations {
            return Err(Refusal::ExpirationsFull);
        }
        Ok(())
    }

    /// 11.
    fn check_given(&self, handle: u32) -> Result<(), Refusal> {
        if handle == 0 || handle > self.given {
            return Err(Refusal::HandleNotGiven);
        }
        Ok(())
    }

    /// 11, 12, else its place in the list.
    fn check_standing(&self, handle: u32) -> Result<usize, Refusal> {
        self.check_given(handle)?;
        self.find(handle).ok_or(Refusal::ObjectGone)
    }

    fn find(&self, handle: u32) -> Option<usize> {
        self.objects.iter().position(|object| object.handle == handle)
    }

    /// The objects of this store.
    fn standing_in(&self, store: Store) -> impl Iterator<Item = &Object> {
        self.objects.iter().filter(move |object| Store::holding(object.block.length) == Ok(store))
    }

    /// How many expirations stand in all, equal ones each for itself (E13).
    fn expirations(&self) -> usize {
        self.objects.iter().map(|object| object.expirations.len()).sum()
    }
}

impl Exposed for Ledger {
    fn disturb(&mut self, change: Change) {
        if let Some(place) = self.find(change.handle) {
            self.objects[place].block.bytes[change.place] = change.byte;
        }
    }
}

/// For late starts, which no script lives to see.
#[cfg(test)]
impl Ledger {
    pub fn tasks_mut(&mut self) -> &mut Tasks {
        &mut self.tasks
    }

    pub fn given_mut(&mut self) -> &mut u32 {
        &mut self.given
    }
}
