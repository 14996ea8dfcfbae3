//! A script being written: lines, calls and arguments, led by a ledger that follows what is written. Its figures are
//! those of the pool that the script is for.

use crate::call::{packed, Call, Handles, Kind, Model, Refusal};
use crate::damage::{damage, noise};
use crate::frame::{decode, encode};
use crate::ledger::Ledger;
use crate::limits::{Limits, Store, LARGEST_BATCH, LONGEST, LONGEST_SMALL, STORES, TASKS};
use crate::random::Random;
use crate::share::{Quota, Share};
use crate::tasks::{State, Tasks};

/// At the ends of the stores' ranges, and beyond them.
const EDGE_LENGTHS: [u16; 9] = [0, 1, 32, 33, 256, 257, 0x0120, 40_000, 65_535];

pub struct Draft {
    pub random: Random,
    pub script: Vec<u8>,
    ledger: Ledger,
    /// Keeps all use in time and in bounds.
    in_time: bool,
}

impl Draft {
    pub fn new(random: Random, limits: Limits, in_time: bool) -> Draft {
        Draft { random, script: Vec::new(), ledger: Ledger::with(limits), in_time }
    }

    pub fn limits(&self) -> Limits {
        self.ledger.limits()
    }

    /// The largest extension.
    pub fn longest(&self) -> u8 {
        self.limits().extension as u8
    }

    /// This extension, or the largest where that is less.
    pub fn cut(&self, extension: u8) -> u8 {
        extension.min(self.longest())
    }

    /// One of these extensions, or the largest where that is less.
    pub fn cut_one(&mut self, extensions: &[u8]) -> u8 {
        let extension = self.random.pick(extensions);
        self.cut(extension)
    }

    // Lines.

    /// Does the call on the ledger and writes it. A script that stays in time leaves out what is not and is
    /// compared; a refused call has changed nothing.
    pub fn call(&mut self, call: &Call) {
        if !self.is_left_out(call) {
            encode(call, &mut self.script);
        }
    }

    fn is_left_out(&mut self, call: &Call) -> bool {
        let out = [
            Refusal::NoFreeBlock,
            Refusal::ExpirationsFull,
            Refusal::ObjectGone,
            Refusal::ReserveNotFree,
            Refusal::AtLimit,
        ];
        let answer = self.ledger.call(call);
        self.in_time && call.is_compared() && answer.is_err_and(|refusal| out.contains(&refusal))
    }

    /// Writes any line, and follows it if it is a call after all.
    fn line(&mut self, line: &[u8]) {
        let mut room = vec![0; line.len() / 2];
        let left_out = decode(line, &mut room).is_ok_and(|call| self.is_left_out(&call));
        if !left_out {
            self.script.extend(line);
            self.script.push(b'\n');
        }
    }

    /// The line of some call with a fault in it.
    pub fn damaged_line(&mut self) {
        let task = self.random.below(3) as u8;
        let handle = self.handle();
        let bytes = [self.random.byte()];
        let handles = vec![handle.to_be_bytes(); self.random.below(4)];
        let extension = self.cut(3);
        let share = self.any_share(task);
        let prefix = self.random.pick(&[0, 4, 10]);
        let call = self.random.pick(&[
            Call::Join { task, share },
            Call::Tick { task },
            Call::Make { task, kind: Kind::Local, extension, length: 10, prefix },
            Call::Refresh { task, kind: Kind::Global, extension, handle },
            Call::Read { task, handle },
            Call::Write { task, handle, offset: 0, bytes: &bytes },
            Call::Report,
            Call::Remaining { task, handle },
            Call::Batch { task, kind: Kind::Global, extension, handles: Handles(&handles) },
            Call::Release { task, handle },
            Call::View { task },
        ]);
        let mut line = Vec::new();
        encode(&call, &mut line);
        line.pop();
        damage(&mut line, &mut self.random);
        self.line(&line);
    }

    /// Lines of chance; the noise may hold an LF.
    pub fn noise(&mut self) {
        let line = noise(&mut self.random);
        for part in line.split(|&byte| byte == b'\n') {
            self.line(part);
        }
    }

    // Calls.

    pub fn any_call(&mut self) {
        match self.random.below(100) {
            0..=23 => self.tick(),
            24..=38 => self.make(),
            39..=46 => self.refresh(),
            47..=49 => self.batch(),
            50..=61 => self.read(),
            62..=73 => self.write(),
            74..=77 => self.remaining(),
            78..=79 => self.release(),
            80..=83 => self.block(),
            84..=89 => self.resume(),
            90..=91 => self.leave(),
            92..=96 => self.join(),
            97 => self.view(),
            _ => self.call(&Call::Report),
        }
    }

    fn tick(&mut self) {
        let task = self.task();
        self.call(&Call::Tick { task });
    }

    fn block(&mut self) {
        let task = self.task();
        self.call(&Call::Block { task });
    }

    fn leave(&mut self) {
        let task = self.task();
        self.call(&Call::Leave { task });
    }

    fn join(&mut self) {
        let task = self.random.pick(&[0, 1, 2, 3, 4, 15, 16]);
        self.join_of(task);
    }

    fn view(&mut self) {
        let task = self.random.pick(&[1, 2, 3, 4, 14, 15, 16]);
        self.call(&Call::View { task });
    }

    /// A waiting task if there is one.
    fn resume(&mut self) {
        let any = self.random.below(TASKS) as u8;
        let task = self.find_task(Tasks::is_waiting).unwrap_or(any);
        self.call(&Call::Resume { task });
    }

    fn make(&mut self) {
        let (task, (kind, extension)) = (self.task(), self.lasting());
        let length = self.length();
        let prefix = self.prefix(length);
        self.call(&Call::Make { task, kind, extension, length, prefix });
    }

    fn refresh(&mut self) {
        let (task, (kind, extension)) = (self.task(), self.lasting());
        let handle = self.handle();
        self.call(&Call::Refresh { task, kind, extension, handle });
    }

    /// A few objects that stand, or some that may not.
    pub fn batch(&mut self) {
        let (task, (kind, extension)) = (self.task(), self.lasting());
        let count = match self.random.below(12) {
            0 => self.random.pick(&[0, LARGEST_BATCH, LARGEST_BATCH + 1]),
            _ => 1 + self.random.below(8),
        };
        let any = self.random.one_in(3);
        let handles = if any { (0..count).map(|_| self.handle()).collect() } else { self.standing_handles(count) };
        self.batch_by(task, kind, extension, &handles);
    }

    fn batch_by(&mut self, task: u8, kind: Kind, extension: u8, handles: &[u32]) {
        let handles = packed(handles);
        self.call(&Call::Batch { task, kind, extension, handles: Handles(&handles) });
    }

    fn read(&mut self) {
        let (task, handle) = (self.task(), self.handle());
        self.call(&Call::Read { task, handle });
    }

    fn remaining(&mut self) {
        let (task, handle) = (self.task(), self.handle());
        self.call(&Call::Remaining { task, handle });
    }

    /// Of a pinned object as a rule.
    fn release(&mut self) {
        let (task, any) = (self.task(), self.handle());
        let handle = if self.random.one_in(4) { any } else { self.pinned_handle().unwrap_or(any) };
        self.call(&Call::Release { task, handle });
    }

    fn write(&mut self) {
        let (task, handle) = (self.task(), self.handle());
        let length = self.ledger.length(handle).unwrap_or(32);
        let inside = self.random.below(length);
        let (offset, count) = match self.random.below(24) {
            0 => (length, 0),
            1 => (length, 1),
            2 => (0, length),
            3 => (0, length + 1),
            4 => (length - 1, 1),
            5 => (length - 1, 2),
            6 => (0, self.random.pick(&[0, 256, 257])),
            _ => (inside, 1 + self.random.below((length - inside).min(12))),
        };
        self.write_at(task, handle, offset.min(255) as u8, count);
    }

    fn write_at(&mut self, task: u8, handle: u32, offset: u8, count: usize) {
        let mut bytes = [0; 257];
        self.random.fill(&mut bytes[..count]);
        let bytes = &bytes[..count];
        // One byte too many is a fault of the frame and no call.
        if count > 256 {
            let mut line = Vec::new();
            encode(&Call::Write { task, handle, offset, bytes }, &mut line);
            return self.line(&line[..line.len() - 1]);
        }
        self.call(&Call::Write { task, handle, offset, bytes });
    }

    /// A refresh, of one object or several, a release, a read or a write.
    pub fn any_use(&mut self) {
        match self.random.below(11) {
            0 | 1 => self.refresh(),
            2 | 3 => self.batch(),
            4 | 5 => self.read(),
            6 => self.release(),
            _ => self.write(),
        }
    }

    /// An object of a length at the end of a store's range, written at its own ends.
    pub fn edge_object(&mut self) {
        let length = self.random.pick(&[1, 32, 33, 256, 256]);
        let Some(handle) = self.make_now(self.cut(1), length) else { return };
        let (task, length) = (self.runner(), usize::from(length));
        let ends = [(0, length), (0, 0), (length - 1, 1), (length - 1, 2), (length, 0), (length, 1), (0, length + 1)];
        for _ in 0..2 {
            let (offset, count) = self.random.pick(&ends);
            self.write_at(task, handle, offset.min(255) as u8, count);
        }
        self.read_now(handle);
    }

    /// Every argument at an end of its range or just past it.
    pub fn edge_call(&mut self) {
        let task = self.random.pick(&[0, 0, 0, 1, 15, 16, 255]);
        let kind = self.random.pick(&[Kind::Local, Kind::Global, Kind::Pinned]);
        let extension = self.edge_extension();
        let length = self.random.pick(&EDGE_LENGTHS);
        let prefix = self.edge_prefix(length);
        let newest = self.ledger.figures().given;
        let strange = self.strange_handle();
        let handle = self.random.pick(&[1, newest, strange]);
        let offset = self.random.pick(&[0, 1, 31, 32, 33, 255]);
        let count = self.random.pick(&[0, 1, 31, 32, 33, 255, 256, 257]);
        let times = self.random.pick(&[0, 1, 2, LARGEST_BATCH, LARGEST_BATCH + 1]);
        let share = Share { small: self.edge_quota(Store::Small), large: self.edge_quota(Store::Large) };
        match self.random.below(17) {
            0 => self.call(&Call::Join { task, share }),
            1 => self.call(&Call::Leave { task }),
            2 => self.call(&Call::Block { task }),
            3 => self.call(&Call::Resume { task }),
            4 => self.call(&Call::Tick { task }),
            5..=7 => self.call(&Call::Make { task, kind, extension, length, prefix }),
            8 => self.call(&Call::Refresh { task, kind, extension, handle }),
            9 => self.call(&Call::Read { task, handle }),
            10 | 11 => self.write_at(task, handle, offset, count),
            12 => self.call(&Call::Remaining { task, handle }),
            13 => self.batch_by(task, kind, extension, &vec![handle; times]),
            14 => self.call(&Call::Release { task, handle }),
            15 => self.call(&Call::View { task }),
            _ => self.call(&Call::Report),
        }
    }

    // Calls by running tasks on standing objects.

    /// Brings the first so many tasks to run.
    pub fn gather(&mut self, tasks: usize) {
        for task in 0..tasks as u8 {
            match self.state(task) {
                State::Running => {}
                State::Waiting => self.call(&Call::Resume { task }),
                State::Viewing | State::Absent => self.join_anew(task),
            }
        }
    }

    fn state(&self, task: u8) -> State {
        self.ledger.tasks().entries()[usize::from(task)].state
    }

    /// The task leaves, if it is there, and joins with neither a reserve nor a limit.
    pub fn join_anew(&mut self, task: u8) {
        self.leave_if_there(task);
        self.call(&Call::Join { task, share: Share::OPEN });
    }

    /// The task joins, with any share.
    pub fn join_of(&mut self, task: u8) {
        let share = self.any_share(task);
        self.call(&Call::Join { task, share });
    }

    /// Every task that is there leaves.
    pub fn leave_all(&mut self) {
        (0..TASKS as u8).for_each(|task| self.leave_if_there(task));
    }

    pub fn leave_if_there(&mut self, task: u8) {
        if self.is_there(task) {
            self.call(&Call::Leave { task });
        }
    }

    pub fn is_there(&self, task: u8) -> bool {
        self.state(task) != State::Absent
    }

    /// A task that waits resumes, and another one blocks.
    pub fn block_or_resume(&mut self, task: u8) {
        let waits = self.ledger.tasks().is_waiting(task);
        self.call(&if waits { Call::Resume { task } } else { Call::Block { task } });
    }

    /// How many blocks of a store are left for this task: without an object, and not held back for another.
    pub fn left(&self, task: u8, store: Store) -> u8 {
        let room = self.ledger.room(store);
        (room.blocks - room.taken(task)) as u8
    }

    /// By how much the task's objects fall short of its reserve.
    pub fn lack(&self, task: u8, store: Store) -> usize {
        self.ledger.room(store).unmet(task)
    }

    /// An object that is gone after the task's next tick.
    pub fn make_local(&mut self, task: u8, store: Store) {
        let length = self.length_in(store);
        self.make_by(task, Kind::Local, 0, length);
    }

    /// The task makes an object in this store, of any kind that is gone soon or pinned.
    pub fn make_of(&mut self, task: u8, store: Store) {
        let length = self.length_in(store);
        let extension = self.up_to(self.cut(1));
        let (kind, extension) = match self.random.below(6) {
            0 | 1 => (Kind::Pinned, 0),
            2 | 3 => (Kind::Global, extension),
            _ => (Kind::Local, extension),
        };
        self.make_by(task, kind, extension, length);
    }

    /// With too long an extension, no length or too long a prefix, whatever is left for the task.
    pub fn make_in_vain(&mut self, task: u8, store: Store) {
        let (long, some) = (self.longest() + 1, self.length_in(store));
        let (extension, length, prefix) = self.random.pick(&[
            (long, some, 0),
            (long, some, some + 1),
            (0, 0, 0),
            (0, 257, 258),
            (long, 257, 0),
            (0, some, some + 1),
            (0, some, u16::MAX),
        ]);
        self.call(&Call::Make { task, kind: Kind::Global, extension, length, prefix });
    }

    /// Every running task ticks, so that global time advances.
    pub fn round(&mut self) {
        (0..TASKS as u8).for_each(|task| self.tick_if_running(task));
    }

    /// Every running task but one ticks, so that global time waits for it alone.
    pub fn round_but(&mut self, awaited: u8) {
        (0..TASKS as u8).filter(|&task| task != awaited).for_each(|task| self.tick_if_running(task));
    }

    fn tick_if_running(&mut self, task: u8) {
        if self.ledger.tasks().is_running(task) {
            self.call(&Call::Tick { task });
        }
    }

    /// The handle of a new object of some length that goes to this store, if it is made.
    pub fn make_in(&mut self, store: Store, extension: u8) -> Option<u32> {
        let length = self.length_in(store);
        self.make_now(extension, length)
    }

    pub fn make_now(&mut self, extension: u8, length: u16) -> Option<u32> {
        let (task, kind) = (self.runner(), self.kind());
        self.make_by(task, kind, extension, length)
    }

    /// The handle of a new object that goes by global time, if this task makes it.
    pub fn make_global(&mut self, task: u8, extension: u8) -> Option<u32> {
        let length = self.length();
        self.make_by(task, Kind::Global, extension, length)
    }

    /// The handle of a new object that is pinned, if a running task makes it.
    pub fn make_pinned(&mut self, store: Store) -> Option<u32> {
        let (task, length) = (self.runner(), self.length_in(store));
        self.make_by(task, Kind::Pinned, 0, length)
    }

    /// An extension is none of a pinned object, whatever its length is.
    pub fn make_pinned_too_long(&mut self) {
        let (task, length) = (self.runner(), self.length());
        let longest = self.longest();
        let extension = self.random.pick(&[1, 2, longest.max(1), longest + 1, 255]);
        self.call(&Call::Make { task, kind: Kind::Pinned, extension, length, prefix: 0 });
    }

    fn make_by(&mut self, task: u8, kind: Kind, extension: u8, length: u16) -> Option<u32> {
        let (before, prefix) = (self.ledger.figures().given, self.prefix_within(length));
        self.call(&Call::Make { task, kind, extension, length, prefix });
        let given = self.ledger.figures().given;
        (given > before).then_some(given)
    }

    pub fn refresh_standing(&mut self, extension: u8) {
        let (task, kind) = (self.runner(), self.kind());
        let handle = self.standing_handle().unwrap_or(0);
        self.call(&Call::Refresh { task, kind, extension, handle });
    }

    /// One of the first so many tasks refreshes the object.
    pub fn refresh_by(&mut self, tasks: usize, extension: u8, handle: u32) {
        let (task, kind) = (self.random.below(tasks) as u8, self.kind());
        self.call(&Call::Refresh { task, kind, extension, handle });
    }

    /// A running task would pin one object or several by a refresh, such as stand and others.
    pub fn refresh_pinning(&mut self, count: usize) {
        let (task, kind) = (self.runner(), Kind::Pinned);
        let longest = self.longest();
        let extension = self.random.pick(&[0, 0, 1, longest, longest + 1]);
        let (handle, standing) = (self.handle(), self.standing_handles(count));
        let any: Vec<_> = (0..count).map(|_| self.handle()).collect();
        self.call(&Call::Refresh { task, kind, extension, handle });
        self.batch_by(task, kind, extension, &standing);
        self.batch_by(task, kind, extension, &any);
    }

    /// A running task releases the object.
    pub fn release_now(&mut self, handle: u32) {
        let task = self.runner();
        self.call(&Call::Release { task, handle });
    }

    /// Something that is pinned, if there is any.
    pub fn release_pinned(&mut self) {
        let handle = self.pinned_handle().unwrap_or(0);
        self.release_now(handle);
    }

    /// All that is pinned.
    pub fn release_all(&mut self) {
        let pinned: Vec<_> = self.ledger.pinned().collect();
        pinned.into_iter().for_each(|handle| self.release_now(handle));
    }

    /// The handles of so many new objects, of either store, as far as they are made.
    pub fn scan(&mut self, count: usize, extension: u8) -> Vec<u32> {
        let mut scan = Vec::new();
        for _ in 0..count {
            let store = self.random.pick(&[Store::Small, Store::Small, Store::Large]);
            scan.extend(self.make_in(store, extension));
        }
        scan
    }

    /// A running task refreshes them all.
    pub fn batch_now(&mut self, extension: u8, handles: &[u32]) {
        let (task, kind) = (self.runner(), self.kind());
        self.batch_by(task, kind, extension, handles);
    }

    /// So many objects that stand, some of them more than once if they are few.
    pub fn batch_standing(&mut self, count: usize, extension: u8) {
        let handles = self.standing_handles(count);
        self.batch_now(extension, &handles);
    }

    /// So many objects that stand, and in the places of some of them others that are gone, were never given or are
    /// there twice.
    pub fn batch_mixed(&mut self, count: usize, extension: u8) {
        let mut handles = self.standing_handles(count);
        for _ in 0..(1 + self.random.below(3)).min(count) {
            let (gone, strange, again) = (self.gone_handle(), self.strange_handle(), self.random.pick(&handles));
            let place = self.random.below(count);
            handles[place] = self.random.pick(&[gone, strange, again]);
        }
        self.batch_now(extension, &handles);
    }

    /// The last object that was made.
    pub fn newest(&self) -> u32 {
        self.ledger.figures().given
    }

    /// How many expirations more there is room for.
    pub fn room(&self) -> usize {
        self.limits().expirations - usize::from(self.ledger.figures().expirations)
    }

    /// A running task asks for one of these objects.
    pub fn ask_for(&mut self, objects: &[u32]) {
        let (task, handle) = (self.runner(), if objects.is_empty() { 0 } else { self.random.pick(objects) });
        self.ask_by(task, handle);
    }

    /// The task reads the object, or asks what remains to it.
    fn ask_by(&mut self, task: u8, handle: u32) {
        let call = self.random.pick(&[Call::Read { task, handle }, Call::Remaining { task, handle }]);
        self.call(&call);
    }

    pub fn read_now(&mut self, handle: u32) {
        let task = self.runner();
        self.call(&Call::Read { task, handle });
    }

    /// Each of the first so many tasks asks what remains to the object.
    pub fn remaining_to_each(&mut self, tasks: usize, handle: u32) {
        for task in 0..tasks as u8 {
            self.call(&Call::Remaining { task, handle });
        }
    }

    pub fn write_whole(&mut self, handle: u32) {
        let task = self.runner();
        let length = self.ledger.length(handle).unwrap_or(0);
        self.write_at(task, handle, 0, length);
    }

    // Viewers.

    /// A viewer reads an object or asks what remains to it, as a rule one that stands.
    pub fn view_any(&mut self, viewer: u8) {
        let (newest, any, strange) = (self.newest(), self.handle(), self.strange_handle());
        let handle = self.random.pick(&[newest, newest, newest, newest, any, any, any, strange]);
        self.ask_by(viewer, handle);
    }

    /// A viewer tries what only a task may, with any arguments.
    pub fn act_in_vain(&mut self, viewer: u8) {
        let (task, (kind, extension)) = (viewer, self.lasting());
        let (handle, length, offset) = (self.handle(), self.length(), self.random.pick(&[0, 0, 0, 255]));
        let (within, beyond) = (self.prefix_within(length), self.prefix_beyond(length));
        let (prefix, count) = (self.random.pick(&[within, beyond]), self.random.pick(&[0, 1, 3, LARGEST_BATCH + 1]));
        let (newest, any) = (self.newest(), (0..count).map(|_| self.handle()).collect::<Vec<_>>());
        let handles = packed(&any);
        let call = self.random.pick(&[
            Call::Block { task },
            Call::Tick { task },
            Call::Make { task, kind, extension, length, prefix },
            Call::Refresh { task, kind, extension, handle },
            Call::Batch { task, kind, extension, handles: Handles(&handles) },
            Call::Write { task, handle, offset, bytes: &[7] },
            Call::Write { task, handle, offset: 0, bytes: &[] },
            Call::Write { task, handle: newest, offset, bytes: &[7, 7] },
            Call::Release { task, handle },
        ]);
        self.call(&call);
    }

    /// A running task makes an object and writes it about the end of what a viewer sees, who reads it.
    pub fn show(&mut self, viewer: u8, store: Store) {
        let (any, longest) = (self.length_in(store), store.block_size() as u16);
        let length = self.random.pick(&[any, longest]);
        let Some(handle) = self.make_now(self.cut(4), length) else { return };
        (0..2).for_each(|_| self.write_about_prefix(handle));
        self.call(&Call::Read { task: viewer, handle });
    }

    /// Up to the prefix's end, across it or from it on.
    fn write_about_prefix(&mut self, handle: u32) {
        let (task, block) = (self.runner(), self.ledger.block_of(handle));
        let (length, prefix) = block.map_or((0, 0), |block| (usize::from(block.length), usize::from(block.prefix)));
        let across = (prefix.saturating_sub(1), (prefix + 1).min(length));
        let (start, end) = self.random.pick(&[(0, length), (0, prefix), across, (prefix, length)]);
        self.write_at(task, handle, start.min(255) as u8, end - start);
    }

    /// The task makes an object of which viewers would see more than there is.
    pub fn show_too_much(&mut self, task: u8, store: Store) {
        let length = self.length_in(store);
        let prefix = self.prefix_beyond(length);
        self.call(&Call::Make { task, kind: Kind::Global, extension: 0, length, prefix });
    }

    // Shares.

    /// Open as a rule.
    fn any_share(&mut self, task: u8) -> Share {
        if !self.random.one_in(4) {
            return Share::OPEN;
        }
        Share { small: self.any_quota(task, Store::Small), large: self.any_quota(task, Store::Large) }
    }

    /// Up to what is left, or past it, with a limit that is above the reserve as a rule.
    pub fn any_quota(&mut self, task: u8, store: Store) -> Quota {
        let left = self.left(task, store);
        let some = self.up_to(left);
        let reserve = self.random.pick(&[0, 0, 0, 1, 2, 3, some, left, left + 1]);
        let limit = self.any_limit(reserve);
        Quota { reserve, limit }
    }

    pub fn any_limit(&mut self, reserve: u8) -> u8 {
        let more = reserve + self.random.below(4) as u8;
        self.random.pick(&[u8::MAX, u8::MAX, reserve, reserve, more, more, more, reserve.saturating_sub(1)])
    }

    /// Numbers at the ends of their range, and about the blocks that there are.
    fn edge_quota(&mut self, store: Store) -> Quota {
        let blocks = self.limits().blocks(store) as u8;
        let ends = [0, 0, 0, 0, 0, 1, blocks - 1, blocks, blocks + 1, 127, 128, 254, 255];
        let (reserve, limit) = (self.random.pick(&ends), self.random.pick(&ends));
        Quota { reserve, limit: self.random.pick(&[u8::MAX, u8::MAX, limit]) }
    }

    /// Joins that are refused: a reserve above its limit, in one store or both, and more than is left.
    pub fn join_in_vain(&mut self, task: u8) {
        let above = |reserve: u8| Quota { reserve, limit: reserve.saturating_sub(1) };
        let [small, large] = STORES.map(|store| self.left(task, store));
        let past = |left: u8| Quota { reserve: left + 1, limit: u8::MAX };
        let number = 1 + self.random.below(64) as u8;
        let share = self.random.pick(&[
            Share { small: above(number), large: Quota::OPEN },
            Share { small: Quota::OPEN, large: above(number) },
            Share { small: above(number), large: above(number) },
            Share { small: past(small), large: above(number) },
            Share { small: above(number), large: past(large) },
            Share { small: past(small), large: Quota::OPEN },
            Share { small: Quota::OPEN, large: past(large) },
            Share { small: past(small), large: past(large) },
        ]);
        let task = if self.random.one_in(8) { self.random.pick(&[16, 255]) } else { task };
        self.call(&Call::Join { task, share });
    }

    // Arguments.

    /// A running task as a rule.
    fn task(&mut self) -> u8 {
        match self.random.below(40) {
            0 => self.random.pick(&[15, 16, 255]),
            1..=3 => self.random.below(TASKS) as u8,
            4 => self.find_task(Tasks::is_viewing).unwrap_or(15),
            _ => self.runner(),
        }
    }

    /// A running task if there is one.
    fn runner(&mut self) -> u8 {
        self.find_task(Tasks::is_running).unwrap_or(0)
    }

    /// Some task that is as wanted, looking from any task on.
    fn find_task(&mut self, wanted: fn(&Tasks, u8) -> bool) -> Option<u8> {
        let first = self.random.below(TASKS);
        let mut tasks = (first..first + TASKS).map(|task| (task % TASKS) as u8);
        tasks.find(|&task| wanted(self.ledger.tasks(), task))
    }

    fn kind(&mut self) -> Kind {
        self.random.pick(&[Kind::Local, Kind::Global])
    }

    /// Kind and extension: pinned now and then, with no extension as a rule.
    fn lasting(&mut self) -> (Kind, u8) {
        let longest = self.longest();
        match self.random.below(12) {
            0 => (Kind::Pinned, self.random.pick(&[0, 0, 0, 0, 1, longest, longest + 1, 255])),
            _ => (self.kind(), self.extension()),
        }
    }

    fn extension(&mut self) -> u8 {
        let short = self.cut(3);
        match self.random.below(12) {
            0 => self.edge_extension(),
            1..=5 => self.up_to(self.longest()),
            _ => self.up_to(short),
        }
    }

    /// At the ends of the range, or past it.
    fn edge_extension(&mut self) -> u8 {
        let longest = self.longest();
        self.random.pick(&[0, longest, longest + 1, 255])
    }

    /// Any extension up to this one.
    pub fn up_to(&mut self, extension: u8) -> u8 {
        self.random.below(usize::from(extension) + 1) as u8
    }

    fn length(&mut self) -> u16 {
        match self.random.below(8) {
            0 => self.random.pick(&EDGE_LENGTHS),
            1 | 2 => 33 + self.random.below(224) as u16,
            _ => 1 + self.random.below(32) as u16,
        }
    }

    fn length_in(&mut self, store: Store) -> u16 {
        match store {
            Store::Small => 1 + self.random.below(32) as u16,
            Store::Large => 33 + self.random.below(224) as u16,
        }
    }

    /// Too long now and then.
    fn prefix(&mut self, length: u16) -> u16 {
        if self.random.one_in(12) {
            return self.prefix_beyond(length);
        }
        self.prefix_within(length)
    }

    /// None, all of the object, or a part.
    fn prefix_within(&mut self, length: u16) -> u16 {
        let part = self.random.below(usize::from(length) + 1) as u16;
        self.random.pick(&[0, length, part, part])
    }

    /// Longer than the object, by one or more, within its block or not.
    fn prefix_beyond(&mut self, length: u16) -> u16 {
        let next = length.saturating_add(1);
        let longer = self.random.pick(&[next, next, LONGEST_SMALL, LONGEST, u16::MAX]);
        longer.max(next)
    }

    /// At an end of the object, or of the range.
    fn edge_prefix(&mut self, length: u16) -> u16 {
        self.random.pick(&[0, 1, length.saturating_sub(1), length, length, length.saturating_add(1), LONGEST, u16::MAX])
    }

    /// A standing handle as a rule, else one of the last, any that was given (most are gone), or none
    /// that was.
    fn handle(&mut self) -> u32 {
        match self.random.below(16) {
            0 => self.strange_handle(),
            1 => self.recent_handle(u32::MAX),
            2..=4 => self.recent_handle(8),
            _ => self.standing_handle().unwrap_or_else(|| self.recent_handle(1)),
        }
    }

    /// One of the last so many that were given.
    fn recent_handle(&mut self, span: u32) -> u32 {
        let given = self.ledger.figures().given;
        given - self.random.below(span.min(given).max(1) as usize) as u32
    }

    /// None that was given, or one that a look at too few of its bytes takes for a given one.
    fn strange_handle(&mut self) -> u32 {
        let given = self.ledger.figures().given;
        self.random.pick(&[0, given + 1, given << 8, given | 0x0001_0000, given | 0x0100_0000, u32::MAX])
    }

    /// One that was given and is gone, if a few guesses find it; else 0.
    fn gone_handle(&mut self) -> u32 {
        let guesses: [u32; 8] = std::array::from_fn(|_| self.recent_handle(u32::MAX));
        guesses.into_iter().find(|&handle| self.ledger.length(handle).is_none()).unwrap_or(0)
    }

    /// So many standing ones, in any order; 0 where none stands.
    fn standing_handles(&mut self, count: usize) -> Vec<u32> {
        (0..count).map(|_| self.standing_handle().unwrap_or(0)).collect()
    }

    /// Some object that is pinned, if one is.
    fn pinned_handle(&mut self) -> Option<u32> {
        let pinned: Vec<_> = self.ledger.pinned().collect();
        (!pinned.is_empty()).then(|| self.random.pick(&pinned))
    }

    fn standing_handle(&mut self) -> Option<u32> {
        let count = self.ledger.handles().len();
        if count == 0 {
            return None;
        }
        let place = self.random.below(count);
        self.ledger.handles().nth(place)
    }
}
