//! The unbounded heap (endless heap) and the expiration book (date book): what the pool's answers
//! would be if nothing ever went, and whether all use was in time and in bounds.

use std::collections::{BTreeMap, BTreeSet};

use crate::block::Block;
use crate::call::{Accepted, Answer, Call, Handles, Kind, Model, Refusal};
use crate::expiration::{remaining, Expiration};
use crate::ledger::{Ledger, Standing};
use crate::limits::{check_batch, check_prefix, check_refreshing, Limits, Store, STORES};
use crate::outside::{Change, Exposed};
use crate::share::{Maker, Room, Share};
use crate::tasks::Tasks;

/// Objects for ever, and no refusal 9, 10, 12, 25 or 26 (H3, H5). `objects[h - 1]` is the object of handle h.
#[derive(Clone, Debug, PartialEq, Eq)]
pub struct Heap {
    limits: Limits,
    tasks: Tasks,
    objects: Vec<Object>,
    /// The handles whose pinned expiration is left.
    pinned: BTreeSet<u32>,
}

#[derive(Clone, Debug, PartialEq, Eq)]
struct Object {
    maker: Maker,
    block: Block,
}

impl Model for Heap {
    fn sized(limits: Limits) -> Result<Heap, Refusal> {
        limits.check()?;
        Ok(Heap { limits, tasks: Tasks::default(), objects: Vec::new(), pinned: BTreeSet::new() })
    }

    /// Order 9: 1, 2, 24.
    fn join(&mut self, task: u8, share: Share) -> Answer<'static> {
        self.tasks.check_absent(task)?;
        share.check()?;
        self.tasks.join(task, share).map(|()| Accepted::Done)
    }

    /// Order 9: the leaver is departed as the maker of all its objects.
    fn leave(&mut self, task: u8) -> Answer<'static> {
        let advanced = self.tasks.leave(task)?;
        self.objects.iter_mut().for_each(|object| object.maker.depart(task));
        Ok(Accepted::Advanced(advanced))
    }

    fn block(&mut self, task: u8) -> Answer<'static> {
        self.tasks.block(task).map(Accepted::Advanced)
    }

    fn resume(&mut self, task: u8) -> Answer<'static> {
        self.tasks.resume(task).map(|()| Accepted::Done)
    }

    fn tick(&mut self, task: u8) -> Answer<'static> {
        self.tasks.tick(task).map(Accepted::Advanced)
    }

    fn make(&mut self, task: u8, kind: Kind, extension: u8, length: u16, prefix: u16) -> Answer<'static> {
        self.tasks.check_running(task)?;
        self.limits.check_extension(kind, extension)?;
        let store = Store::holding(length)?;
        check_prefix(prefix, length)?;
        if self.objects.len() == u32::MAX as usize {
            return Err(Refusal::AllHandlesGiven);
        }
        self.objects.push(Object { maker: Maker::Task(task), block: Block::zeroed(length, prefix, store) });
        let handle = self.objects.len() as u32;
        if kind == Kind::Pinned {
            self.pinned.insert(handle);
        }
        Ok(Accepted::Handle(handle))
    }

    fn refresh(&mut self, task: u8, kind: Kind, extension: u8, handle: u32) -> Answer<'static> {
        self.tasks.check_running(task)?;
        check_refreshing(kind)?;
        self.limits.check_extension(kind, extension)?;
        self.check_given(handle)?;
        Ok(Accepted::Done)
    }

    fn read(&self, task: u8, handle: u32) -> Answer<'_> {
        let reader = self.tasks.check_awake(task)?;
        let place = self.check_given(handle)?;
        self.objects[place].block.read(reader).map(Accepted::Bytes)
    }

    fn write(&mut self, task: u8, handle: u32, offset: u8, bytes: &[u8]) -> Answer<'static> {
        self.tasks.check_running(task)?;
        let place = self.check_given(handle)?;
        self.objects[place].block.write(offset, bytes)?;
        Ok(Accepted::Done)
    }

    /// Not compared, so whatever is answered.
    fn report(&self) -> Answer<'static> {
        Ok(Accepted::Done)
    }

    /// Not compared either.
    fn remaining(&self, _: u8, _: u32) -> Answer<'static> {
        Ok(Accepted::Done)
    }

    /// Order 2: 1, 3, 4, 27, 20, 21, 6, 11, and like a refresh it changes nothing.
    fn batch(&mut self, task: u8, kind: Kind, extension: u8, handles: Handles) -> Answer<'static> {
        self.tasks.check_running(task)?;
        check_batch(handles.count())?;
        check_refreshing(kind)?;
        self.limits.check_extension(kind, extension)?;
        for handle in handles.iter() {
            self.check_given(handle)?;
        }
        Ok(Accepted::Done)
    }

    /// Order 5: 1, 3, 4, 27, 11, 22. The object stays, and is pinned no longer.
    fn release(&mut self, task: u8, handle: u32) -> Answer<'static> {
        self.tasks.check_running(task)?;
        self.check_given(handle)?;
        if !self.pinned.remove(&handle) {
            return Err(Refusal::NotPinned);
        }
        Ok(Accepted::Done)
    }

    /// Order 10: 1, 2.
    fn view(&mut self, task: u8) -> Answer<'static> {
        self.tasks.view(task).map(|()| Accepted::Done)
    }
}

impl Heap {
    /// Of these it is bounded by the largest extension alone.
    pub fn limits(&self) -> Limits {
        self.limits
    }

    /// Who made the object, also where it would be gone.
    pub fn maker(&self, handle: u32) -> Option<Maker> {
        self.check_given(handle).ok().map(|place| self.objects[place].maker)
    }

    /// Refusal 11, else the object's place.
    fn check_given(&self, handle: u32) -> Result<usize, Refusal> {
        let handle = handle as usize;
        if handle == 0 || handle > self.objects.len() {
            return Err(Refusal::HandleNotGiven);
        }
        Ok(handle - 1)
    }
}

/// Order 6: no list of calls meets 23 on the heap, as on the ledger, since every call keeps the sums.
impl Exposed for Heap {
    fn disturb(&mut self, change: Change) {
        if let Ok(place) = self.check_given(change.handle) {
            self.objects[place].block.bytes[change.place] = change.byte;
        }
    }
}

/// The expiration book: the objects that have an expiration, and the pool's figures.
#[derive(Clone, Debug, PartialEq, Eq)]
struct Book {
    limits: Limits,
    objects: BTreeMap<u32, Entry>,
}

#[derive(Clone, Debug, PartialEq, Eq)]
struct Entry {
    length: u16,
    expirations: Vec<Expiration>,
}

impl Book {
    fn of(limits: Limits) -> Book {
        Book { limits, objects: BTreeMap::new() }
    }

    /// H9 to H13, H23: whether a call that the heap does not refuse, or refuses with 13 or 22, is a use out of time
    /// or bounds. Asked before the book follows the call, with the tasks as they were before it. Order 2: all objects of a
    /// batch stand, and there is room for an expiration on each. Order 9: 25, 26 and 9 by the ledger's rules. Order 10: a
    /// viewer's read is a use like any other. Order 12: room and blocks go by the pool's figures.
    fn is_out(&self, call: &Call, tasks: &Tasks, heap: &[Object]) -> bool {
        let room = |store: Store| self.room(store, tasks, heap);
        match *call {
            Call::Join { task, share } => {
                STORES.iter().any(|&store| room(store).check_reserve(task, share.of(store).reserve).is_err())
            }
            Call::Make { task, length, .. } => {
                let is_out = |room: Room| room.check_limit(task).is_err() || room.check_block(task).is_err();
                Store::holding(length).is_ok_and(|store| is_out(room(store))) || !self.has_room(1)
            }
            Call::Refresh { handle, .. } => self.is_gone(handle) || !self.has_room(1),
            Call::Batch { handles, .. } => {
                handles.iter().any(|handle| self.is_gone(handle)) || !self.has_room(handles.count())
            }
            Call::Read { handle, .. } | Call::Write { handle, .. } | Call::Release { handle, .. } => {
                self.is_gone(handle)
            }
            _ => false,
        }
    }

    /// Follows an accepted call, from the heap's answer and its tasks.
    fn follow(&mut self, call: &Call, tasks: &Tasks, Told { handle, advanced }: Told) {
        match *call {
            Call::Leave { task } => {
                self.keep(|expiration| !expiration.is_local_of(task));
                self.change(|expiration| _ = expiration.depart(task));
                self.expire(tasks, advanced);
            }
            Call::Block { .. } | Call::Tick { .. } => self.expire(tasks, advanced),
            Call::Make { task, kind, extension, length, .. } => {
                let expirations = vec![Expiration::set(tasks, task, kind, extension)];
                self.objects.insert(handle, Entry { length, expirations });
            }
            Call::Refresh { task, kind, extension, handle } => {
                self.set(handle, Expiration::set(tasks, task, kind, extension));
            }
            Call::Batch { task, kind, extension, handles } => {
                handles.iter().for_each(|handle| self.set(handle, Expiration::set(tasks, task, kind, extension)));
            }
            Call::Release { handle, .. } => self.release(handle),
            _ => {}
        }
    }

    fn set(&mut self, handle: u32, expiration: Expiration) {
        self.objects.entry(handle).and_modify(|entry| entry.expirations.push(expiration));
    }

    /// With its last expiration the object goes.
    fn release(&mut self, handle: u32) {
        self.objects.entry(handle).and_modify(|entry| entry.expirations.retain(|one| !one.is_pinned()));
        self.keep(|_| true);
    }

    /// As in the ledger: what an advance puts off is put off, and then what is due goes.
    fn expire(&mut self, tasks: &Tasks, advanced: bool) {
        if advanced {
            self.change(|expiration| _ = expiration.put_off(tasks));
        }
        self.keep(|expiration| !expiration.is_due(tasks));
    }

    fn change(&mut self, change: impl Fn(&mut Expiration)) {
        self.objects.values_mut().flat_map(|entry| &mut entry.expirations).for_each(change);
    }

    /// Keeps these expirations, and the objects that still have one.
    fn keep(&mut self, stays: impl Fn(&Expiration) -> bool) {
        self.objects.retain(|_, entry| {
            entry.expirations.retain(&stays);
            !entry.expirations.is_empty()
        });
    }

    fn is_gone(&self, handle: u32) -> bool {
        !self.objects.contains_key(&handle)
    }

    /// Room for so many expirations more.
    fn has_room(&self, more: usize) -> bool {
        let expirations: usize = self.objects.values().map(|entry| entry.expirations.len()).sum();
        expirations + more <= self.limits.expirations
    }

    /// One store, by the objects that stand in the book.
    fn room(&self, store: Store, tasks: &Tasks, heap: &[Object]) -> Room {
        let standing = self.objects.iter().filter(|(_, entry)| Store::holding(entry.length) == Ok(store));
        let makers = standing.map(|(&handle, _)| heap[handle as usize - 1].maker).collect();
        Room { blocks: self.limits.blocks(store), makers, quotas: tasks.quotas(store) }
    }
}

/// What the book takes from an answer of the heap: the handle that a make gave, and whether global time advanced.
#[derive(Clone, Copy, Debug, Default)]
struct Told {
    handle: u32,
    advanced: bool,
}

impl Told {
    fn by(accepted: Accepted) -> Told {
        match accepted {
            Accepted::Handle(handle) => Told { handle, ..Told::default() },
            Accepted::Advanced(advanced) => Told { advanced, ..Told::default() },
            _ => Told::default(),
        }
    }
}

/// The heap with its book beside it.
#[derive(Clone, Debug, PartialEq, Eq)]
pub struct Judge {
    heap: Heap,
    book: Book,
}

impl Judge {
    /// With figures that are allowed.
    pub fn of(limits: Limits) -> Judge {
        Judge { heap: Heap::of(limits), book: Book::of(limits) }
    }

    /// Feeds one call; false if it is a use out of time or bounds, after which nothing more is to be told.
    pub fn is_in_time(&mut self, call: &Call) -> bool {
        let before = self.heap.tasks.clone();
        let told = self.heap.call(call).map(Told::by);
        let is_out = || self.book.is_out(call, &before, &self.heap.objects);
        match told {
            Ok(_) | Err(Refusal::RangeAboveLength | Refusal::NotPinned) if is_out() => return false,
            Ok(told) => self.book.follow(call, &self.heap.tasks, told),
            Err(_) => {}
        }
        true
    }

    /// The tasks and times of the heap.
    pub fn tasks(&self) -> &Tasks {
        &self.heap.tasks
    }

    /// The objects that have an expiration in the book, with their blocks on the heap, in order of handle.
    pub fn standing(&self) -> Vec<Standing> {
        let show = |(&handle, entry): (&u32, &Entry)| Standing {
            handle,
            maker: self.heap.objects[handle as usize - 1].maker,
            block: self.heap.objects[handle as usize - 1].block.clone(),
            expirations: remaining(&entry.expirations, &self.heap.tasks),
        };
        self.book.objects.iter().map(show).collect()
    }
}

/// The index of the first use in the list that is out of time or bounds; none if all use is in.
pub fn first_use_out(limits: Limits, calls: &[Call]) -> Option<usize> {
    let mut judge = Judge::of(limits);
    calls.iter().position(|call| !judge.is_in_time(call))
}

/// The index of the first call that is compared and that the ledger and the heap answer differently.
pub fn first_difference(limits: Limits, calls: &[Call]) -> Option<usize> {
    let (mut ledger, mut heap) = (Ledger::of(limits), Heap::of(limits));
    calls.iter().position(|call| call.is_compared() && ledger.call(call) != heap.call(call))
}
