//! Lists of calls that stay in time because of how they are made, or go out once. In each round all
//! use comes first and then every task ticks once, so that each clock, and global time, is the number
//! of the round. But for one task that may wait for the round: what it has set lasts a round longer, by
//! its clock, which stands, and by global time, since it is put off. The bounds are the figures of the
//! pool that the list is for, and what its tasks have joined with: all with neither reserve nor limit, or all but task 0
//! with some.

use reference::call::{packed, Call, Handles, Kind};
use reference::limits::{Limits, Store, LARGEST_BATCH, STORES};
use reference::random::Random;
use reference::share::{Quota, Share};

pub type List = Vec<Call<'static>>;

/// What writes write: parts of these.
static BYTES: [u8; 257] = bytes();

const fn bytes() -> [u8; 257] {
    let mut bytes = [0; 257];
    let mut place = 0;
    while place < bytes.len() {
        bytes[place] = (place * 37 + 11) as u8;
        place += 1;
    }
    bytes
}

pub fn some_bytes(random: &mut Random, count: usize) -> &'static [u8] {
    let start = random.below(BYTES.len() - count);
    &BYTES[start..start + count]
}

/// Handles that a list has for as long as the test runs.
pub fn kept(handles: &[u32]) -> Handles<'static> {
    Handles(packed(handles).leak())
}

pub fn random_kind(random: &mut Random) -> Kind {
    random.pick(&[Kind::Local, Kind::Global])
}

#[derive(Clone, Copy)]
struct Planned {
    handle: u32,
    maker: u8,
    length: u16,
}

/// An expiration: the place of its object, who has set it, and the last round in which it stands.
struct Lasting {
    place: usize,
    setter: u8,
    last: usize,
}

/// The number that views where it is no task's.
const VIEWER: u8 = 15;

/// The last round of what is pinned.
const FOR_EVER: usize = usize::MAX;

/// All open; or reserves for all but task 0, which leave it a block of each store, and limits.
fn shares(limits: Limits, tasks: u8, random: &mut Random) -> Vec<Share> {
    let mut shares = vec![Share::OPEN; usize::from(tasks)];
    if random.one_in(2) {
        return shares;
    }
    let [mut small, mut large] = STORES.map(|store| limits.blocks(store) - 1);
    for share in &mut shares[1..] {
        share.small = quota(&mut small, random);
        share.large = quota(&mut large, random);
    }
    shares
}

/// A reserve of what is left.
fn quota(left: &mut usize, random: &mut Random) -> Quota {
    let few = random.below(1 + (*left).min(4));
    let reserve = if random.one_in(8) { *left } else { few };
    *left -= reserve;
    let limit = random.pick(&[reserve, reserve + 1, reserve + 3, 255, 255]);
    Quota { reserve: reserve as u8, limit: limit as u8 }
}

pub struct Plan {
    limits: Limits,
    random: Random,
    pub list: List,
    tasks: u8,
    /// Who views, if anybody does.
    viewer: Option<u8>,
    /// What each of them has joined with.
    shares: Vec<Share>,
    round: usize,
    given: u32,
    objects: Vec<Planned>,
    expirations: Vec<Lasting>,
}

impl Plan {
    pub fn new(limits: Limits, seed: u64) -> Plan {
        let mut random = Random::new(seed);
        let tasks = 1 + random.below(16) as u8;
        let shares = shares(limits, tasks, &mut random);
        let viewer = (tasks < VIEWER && random.one_in(2)).then_some(VIEWER);
        let joins = (0..).zip(&shares).map(|(task, &share)| Call::Join { task, share });
        let list = joins.chain(viewer.map(|task| Call::View { task })).collect();
        let (objects, expirations) = (Vec::new(), Vec::new());
        Plan { limits, random, list, tasks, viewer, shares, round: 0, given: 0, objects, expirations }
    }

    pub fn rounds(&mut self, count: usize) {
        for _ in 0..count {
            for _ in 0..self.random.below(10) {
                self.step();
            }
            if self.tasks > 1 && self.random.one_in(3) {
                self.end_round_waiting();
            } else {
                self.end_round();
            }
        }
    }

    fn end_round(&mut self) {
        let first = self.random.below(16) as u8 % self.tasks;
        self.list.extend((0..self.tasks).map(|step| Call::Tick { task: (first + step) % self.tasks }));
        self.next_round();
    }

    /// One task waits from before the ticks on, or brings the advance by its block.
    fn end_round_waiting(&mut self) {
        let task = self.task();
        let ticks = (1..self.tasks).map(|step| Call::Tick { task: (task + step) % self.tasks });
        let block = [Call::Block { task }];
        if self.random.one_in(2) {
            self.list.extend(block.into_iter().chain(ticks));
        } else {
            self.list.extend(ticks.chain(block));
        }
        self.list.push(Call::Resume { task });
        let put_off = |one: &&mut Lasting| one.setter == task && one.last != FOR_EVER;
        self.expirations.iter_mut().filter(put_off).for_each(|one| one.last += 1);
        self.next_round();
    }

    fn next_round(&mut self) {
        self.round += 1;
        let round = self.round;
        self.expirations.retain(|one| one.last >= round);
    }

    fn step(&mut self) {
        match self.random.below(16) {
            0..=2 => self.make(),
            3 | 4 => self.refresh(),
            5 | 6 => self.read(),
            7 | 8 => self.write(),
            9 => self.block_and_resume(),
            10 => self.batch(),
            11 => self.make_pinned(),
            12 | 13 => self.release(),
            _ => self.left_aside(),
        }
    }

    fn task(&mut self) -> u8 {
        self.random.below(usize::from(self.tasks)) as u8
    }

    /// The last round before an expiration set now: its local clock or global time passes it then.
    fn last(&self, kind: Kind, extension: u8) -> usize {
        match kind {
            Kind::Local => self.round + usize::from(extension),
            Kind::Global => self.round + usize::from(extension) + 1,
            Kind::Pinned => FOR_EVER,
        }
    }

    fn set(&mut self, place: usize, setter: u8, kind: Kind, extension: u8) {
        let last = self.last(kind, extension);
        self.expirations.push(Lasting { place, setter, last });
    }

    fn stands(&self, place: usize) -> bool {
        self.expirations.iter().any(|one| one.place == place)
    }

    fn standing(&self, store: Store) -> usize {
        let objects = self.objects.iter().enumerate();
        objects.filter(|&(place, object)| self.stands(place) && Store::holding(object.length) == Ok(store)).count()
    }

    /// How many of the standing objects of a store a task has made.
    fn made(&self, task: u8, store: Store) -> usize {
        let is_its = |object: &Planned| object.maker == task && Store::holding(object.length) == Ok(store);
        (0..self.objects.len()).filter(|&place| self.stands(place) && is_its(&self.objects[place])).count()
    }

    /// The blocks of a store that are left for a task: the free ones that no other task's reserve needs.
    fn left(&self, task: u8, store: Store) -> usize {
        let unmet = |other: u8| {
            let reserve = usize::from(self.shares[usize::from(other)].of(store).reserve);
            reserve.saturating_sub(self.made(other, store))
        };
        let held_back: usize = (0..self.tasks).filter(|&other| other != task).map(unmet).sum();
        self.limits.blocks(store) - self.standing(store) - held_back
    }

    fn is_below_limit(&self, task: u8, store: Store) -> bool {
        self.made(task, store) < usize::from(self.shares[usize::from(task)].of(store).limit)
    }

    fn may_make(&self, task: u8, store: Store) -> bool {
        self.is_below_limit(task, store) && self.left(task, store) > 0
    }

    fn has_room(&self, more: usize) -> bool {
        self.expirations.len() + more <= self.limits.expirations
    }

    fn longest(&self) -> u8 {
        self.limits.extension as u8
    }

    fn extension(&mut self) -> u8 {
        self.random.below(self.limits.extension + 1) as u8
    }

    /// The place of an object that may be used in this round.
    fn any_standing(&mut self) -> Option<usize> {
        let places: Vec<_> = (0..self.objects.len()).filter(|&place| self.stands(place)).collect();
        (!places.is_empty()).then(|| self.random.pick(&places))
    }

    fn make(&mut self) {
        let (kind, extension) = (random_kind(&mut self.random), self.extension());
        self.make_if_free(kind, extension);
    }

    fn make_pinned(&mut self) {
        self.make_if_free(Kind::Pinned, 0);
    }

    fn make_if_free(&mut self, kind: Kind, extension: u8) {
        let task = self.task();
        let length = 1 + self.random.below(256) as u16;
        let store = if length <= 32 { Store::Small } else { Store::Large };
        if self.may_make(task, store) && self.has_room(1) {
            self.make_now(task, kind, extension, length);
        }
    }

    fn make_now(&mut self, task: u8, kind: Kind, extension: u8, length: u16) {
        let prefix = self.random.below(usize::from(length) + 1) as u16;
        self.list.push(Call::Make { task, kind, extension, length, prefix });
        self.given += 1;
        self.set(self.objects.len(), task, kind, extension);
        self.objects.push(Planned { handle: self.given, maker: task, length });
    }

    fn refresh(&mut self) {
        let (task, kind) = (self.task(), random_kind(&mut self.random));
        let extension = self.extension();
        if self.has_room(1) {
            if let Some(place) = self.any_standing() {
                self.refresh_now(place, task, kind, extension);
            }
        }
    }

    fn refresh_now(&mut self, place: usize, task: u8, kind: Kind, extension: u8) {
        self.list.push(Call::Refresh { task, kind, extension, handle: self.objects[place].handle });
        self.set(place, task, kind, extension);
    }

    /// Some objects that stand, one or the other of them named twice.
    fn batch(&mut self) {
        let (task, kind) = (self.task(), random_kind(&mut self.random));
        let extension = self.extension();
        let count = 1 + self.random.below(LARGEST_BATCH);
        let places: Vec<_> = (0..count).filter_map(|_| self.any_standing()).collect();
        if !places.is_empty() && self.has_room(count) {
            self.batch_now(&places, task, kind, extension);
        }
    }

    fn batch_now(&mut self, places: &[usize], task: u8, kind: Kind, extension: u8) {
        places.iter().for_each(|&place| self.set(place, task, kind, extension));
        let handles: Vec<_> = places.iter().map(|&place| self.objects[place].handle).collect();
        self.list.push(Call::Batch { task, kind, extension, handles: kept(&handles) });
    }

    /// Of any object that stands: where it is not pinned, or no longer, a release refused with 22 is a use like any other.
    fn release(&mut self) {
        let task = self.task();
        let pinned = self.expirations.iter().find(|one| one.last == FOR_EVER).map(|one| one.place);
        let any = self.any_standing();
        if let Some(place) = pinned.filter(|_| self.random.one_in(2)).or(any) {
            self.release_now(place, task);
        }
    }

    fn release_now(&mut self, place: usize, task: u8) {
        self.list.push(Call::Release { task, handle: self.objects[place].handle });
        self.expirations.retain(|one| one.place != place || one.last != FOR_EVER);
    }

    /// By a task or by the viewer.
    fn reader(&mut self) -> u8 {
        let task = self.task();
        self.viewer.filter(|_| self.random.one_in(2)).unwrap_or(task)
    }

    fn read(&mut self) {
        let task = self.reader();
        if let Some(place) = self.any_standing() {
            self.list.push(Call::Read { task, handle: self.objects[place].handle });
        }
    }

    /// In range or not: a write refused with 13 is a use like any other.
    fn write(&mut self) {
        let task = self.task();
        if let Some(place) = self.any_standing() {
            let Planned { handle, length, .. } = self.objects[place];
            let offset = self.random.below(usize::from(length)) as u8;
            let count = self.random.below(usize::from(length) - usize::from(offset) + 2);
            let bytes = some_bytes(&mut self.random, count.min(256));
            self.list.push(Call::Write { task, handle, offset, bytes });
        }
    }

    /// Before any tick of the round no task is marked, so this moves no time.
    fn block_and_resume(&mut self) {
        let task = self.task();
        self.list.extend([Call::Block { task }, Call::Resume { task }]);
    }

    /// A call that the heap refuses.
    fn left_aside(&mut self) {
        let (task, kind, extension) = (self.task(), Kind::Local, self.longest());
        let handle = self.random.pick(&[0, self.given + 1, u32::MAX]);
        // Gone or not, other objects of a batch do not count beside a handle that was never given.
        let any = 1 + self.random.below(self.given.max(1) as usize) as u32;
        let (first, later) = (kept(&[handle, any]), kept(&[any, any, handle]));
        // Of a task that is not there, or of none: 24 or 1.
        let above = Share { large: Quota { reserve: 3, limit: 2 }, ..Share::OPEN };
        // Of a viewer, 27, 5 or 2; or of no task, 1.
        let viewer = self.viewer.unwrap_or(16);
        let call = self.random.pick(&[
            Call::View { task },
            Call::View { task: viewer },
            Call::Resume { task: viewer },
            Call::Tick { task: viewer },
            Call::Block { task: viewer },
            Call::Make { task: viewer, kind, extension, length: 1, prefix: 0 },
            Call::Refresh { task: viewer, kind, extension, handle: any },
            Call::Batch { task: viewer, kind, extension, handles: kept(&[any]) },
            Call::Write { task: viewer, handle: any, offset: 0, bytes: &BYTES[..1] },
            Call::Release { task: viewer, handle: any },
            Call::Make { task, kind, extension, length: 1, prefix: 2 },
            Call::Tick { task: 16 },
            Call::Join { task, share: Share::OPEN },
            Call::Join { task, share: above },
            Call::Join { task: self.tasks, share: above },
            Call::Resume { task },
            Call::Make { task, kind, extension: extension + 1, length: 1, prefix: 0 },
            Call::Make { task, kind, extension, length: 257, prefix: 0 },
            Call::Make { task, kind: Kind::Pinned, extension: 1, length: 1, prefix: 0 },
            Call::Refresh { task, kind: Kind::Pinned, extension: 0, handle: any },
            Call::Batch { task, kind: Kind::Pinned, extension: 0, handles: kept(&[any]) },
            Call::Release { task, handle },
            Call::Refresh { task, kind, extension, handle },
            Call::Read { task, handle },
            Call::Write { task, handle, offset: 255, bytes: &BYTES },
            Call::Batch { task, kind, extension, handles: first },
            Call::Batch { task, kind, extension, handles: later },
            Call::Batch { task, kind, extension: extension + 1, handles: kept(&[any]) },
            Call::Batch { task, kind, extension, handles: kept(&[]) },
            Call::Batch { task, kind, extension, handles: kept(&[any; 33]) },
        ]);
        self.list.push(call);
    }

    /// One use out of time or bounds; the index it has in the list.
    pub fn go_out(&mut self) -> usize {
        let store = self.random.pick(&STORES);
        match self.random.below(8) {
            0 => self.use_gone(),
            1 if self.can_fill(Store::Small) => self.one_block_more(Store::Small, [1, 32]),
            2 if self.can_fill(Store::Large) => self.one_block_more(Store::Large, [33, 256]),
            1..=3 => self.one_expiration_more(),
            4 => self.batch_without_room(),
            5 if self.tasks < VIEWER => self.reserve_too_much(store),
            _ => self.one_more_than_limit(store),
        }
        self.list.len() - 1
    }

    /// Gone by time, or by its release.
    fn use_gone(&mut self) {
        let (task, kind) = (self.task(), random_kind(&mut self.random));
        let extension = self.extension();
        self.make_room();
        let task = if self.may_make(task, Store::Small) { task } else { 0 };
        let place = self.objects.len();
        if self.random.one_in(3) {
            self.make_now(task, Kind::Pinned, 0, 4);
            self.release_now(place, task);
        } else {
            self.make_now(task, kind, extension, 4);
        }
        while self.stands(place) {
            self.end_round();
        }
        let handle = self.objects[place].handle;
        self.make_now(task, kind, extension, 4);
        let reader = self.reader();
        let call = self.random.pick(&[
            Call::Batch { task, kind, extension, handles: kept(&[handle]) },
            Call::Batch { task, kind, extension, handles: kept(&[handle, self.given]) },
            Call::Batch { task, kind, extension, handles: kept(&[self.given, self.given, handle]) },
            Call::Read { task: reader, handle },
            Call::Release { task, handle },
            Call::Refresh { task, kind, extension, handle },
            Call::Write { task, handle, offset: 4, bytes: &[] },
            Call::Write { task, handle, offset: 4, bytes: &[1] },
        ]);
        self.list.push(call);
    }

    /// There are expirations for objects in all blocks.
    fn can_fill(&self, store: Store) -> bool {
        self.limits.blocks(store) <= self.limits.expirations
    }

    fn one_block_more(&mut self, store: Store, ends: [u16; 2]) {
        self.make_room();
        while self.may_make(0, store) {
            let length = self.random.pick(&ends);
            self.make_now(0, Kind::Global, self.longest().min(3), length);
        }
        self.list.push(Call::Make { task: 0, kind: Kind::Local, extension: 0, length: ends[0], prefix: 0 });
    }

    /// A task that is not there would have a block more than is left for it.
    fn reserve_too_much(&mut self, store: Store) {
        let quota = Quota { reserve: self.left(self.tasks, store) as u8 + 1, limit: 255 };
        let share = match store {
            Store::Small => Share { small: quota, ..Share::OPEN },
            Store::Large => Share { large: quota, ..Share::OPEN },
        };
        self.list.push(Call::Join { task: self.tasks, share });
    }

    /// The task with the lowest limit makes what it may, and one object more.
    fn one_more_than_limit(&mut self, store: Store) {
        self.make_room();
        let limit = |task: &u8| self.shares[usize::from(*task)].of(store).limit;
        let task = (0..self.tasks).min_by_key(limit).unwrap_or(0);
        let length = if store == Store::Small { 32 } else { 33 };
        while self.may_make(task, store) && self.has_room(1) {
            self.make_now(task, Kind::Global, 0, length);
        }
        self.list.push(Call::Make { task, kind: Kind::Pinned, extension: 0, length, prefix: 0 });
    }

    fn one_expiration_more(&mut self) {
        let handle = self.fill_up_to(self.limits.expirations);
        let call = self.random.pick(&[
            Call::Refresh { task: 0, kind: Kind::Local, extension: 0, handle },
            Call::Make { task: 0, kind: Kind::Local, extension: 0, length: 1, prefix: 0 },
            Call::Batch { task: 0, kind: Kind::Local, extension: 0, handles: kept(&[handle]) },
        ]);
        self.list.push(call);
    }

    /// One object more than there is room for.
    fn batch_without_room(&mut self) {
        let count = 1 + self.random.below(LARGEST_BATCH);
        let handle = self.fill_up_to((self.limits.expirations + 1).saturating_sub(count));
        let handles = kept(&vec![handle; count]);
        self.list.push(Call::Batch { task: 0, kind: Kind::Local, extension: 0, handles });
    }

    /// Has so many expirations stand, one at least, all on one object; its handle.
    fn fill_up_to(&mut self, expirations: usize) -> u32 {
        self.make_room();
        self.make_now(0, Kind::Local, self.longest(), 1);
        let (place, extension) = (self.objects.len() - 1, self.longest().min(7));
        while self.expirations.len() < expirations {
            let kind = random_kind(&mut self.random);
            if self.expirations.len() + LARGEST_BATCH <= expirations && self.random.one_in(4) {
                self.batch_now(&[place; LARGEST_BATCH], 0, kind, extension);
            } else {
                self.refresh_now(place, 0, kind, extension);
            }
        }
        self.objects[place].handle
    }

    /// Lets everything lapse that is not pinned, and that is released.
    fn make_room(&mut self) {
        while let Some(place) = self.expirations.iter().find(|one| one.last == FOR_EVER).map(|one| one.place) {
            self.release_now(place, 0);
        }
        while !self.expirations.is_empty() {
            self.end_round();
        }
    }
}
