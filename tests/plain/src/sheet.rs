//! Order 11: the peaks of a script once more, a second opinion beside the ledger's. They are worked out on a sheet that
//! counts down: a row for each expiration that was ever set, with the units that it has left. There is no time, no due
//! number and no byte of an object, and no row is used again, so that an object is the place of its handle.

use crate::frames::{decode, lines, Request, LONGEST_FRAME};
use crate::limits::{GLOBAL_EXTRA, LARGEST_BATCH, LARGE_SIZE, LOCAL_EXTRA, LONGEST_SCRIPT, PINNING, SMALL_SIZE, TASKS};
use crate::record::{is_global, ABSENT, DEPARTED, GLOBAL, LOCAL, PINNED, RUNNING, VIEWING, WAITING};

/// A make has 16 digits, and an expiration 8 at least.
const MOST_OBJECTS: usize = LONGEST_SCRIPT / 16;
const MOST_EXPIRATIONS: usize = LONGEST_SCRIPT / 8;

/// The most that stood after any call, each by itself.
#[derive(Clone, Copy, Debug, Default, PartialEq, Eq)]
pub struct Peaks {
    pub small: usize,
    pub large: usize,
    pub expirations: usize,
}

/// An expiration: by whose clock it goes and who has set it, as in the record; the place of its object; and what it has
/// left, 0 once it has ended.
#[derive(Clone, Copy)]
struct Row {
    clock: u8,
    object: u16,
    units: u8,
}

struct Sheet {
    /// The largest extension.
    longest: u8,
    states: [u16; TASKS],
    ticked: [bool; TASKS],
    rows: [Row; MOST_EXPIRATIONS],
    /// How many rows were set.
    set: usize,
    are_small: [bool; MOST_OBJECTS],
    /// How many handles were given.
    given: usize,
    peaks: Peaks,
}

/// The peaks of a script that is no longer than the limit.
pub fn peaks(longest: u8, script: &[u8]) -> Peaks {
    let mut sheet = Sheet {
        longest,
        states: [ABSENT; TASKS],
        ticked: [false; TASKS],
        rows: [Row { clock: PINNED, object: 0, units: 0 }; MOST_EXPIRATIONS],
        set: 0,
        are_small: [false; MOST_OBJECTS],
        given: 0,
        peaks: Peaks::default(),
    };
    let mut room = [0; LONGEST_FRAME + 1];
    for line in lines(script) {
        if let Ok(request) = decode(line, &mut room) {
            sheet.take(request);
        }
    }
    sheet.peaks
}

impl Sheet {
    /// Whatever would be refused but for want of room changes nothing. What reads, writes and asks moves no figure.
    fn take(&mut self, request: Request) {
        match request {
            Request::Join(task, _) if self.is(task, ABSENT) => self.enter(task, RUNNING),
            Request::View(task) if self.is(task, ABSENT) => self.enter(task, VIEWING),
            Request::Resume(task) if self.is(task, WAITING) => self.enter(task, RUNNING),
            Request::Leave(task) if self.is_present(task) => {
                self.enter(task, ABSENT);
                self.depart(task);
                self.advance();
            }
            Request::Block(task) if self.is(task, RUNNING) => {
                self.enter(task, WAITING);
                self.advance();
            }
            Request::Tick(task) if self.is(task, RUNNING) => {
                self.ticked[usize::from(task)] = true;
                self.spend(|clock| clock == LOCAL + task);
                self.advance();
            }
            Request::Make(task, kind, extension, length, prefix) if self.is(task, RUNNING) => {
                self.make(task, kind, extension, length, prefix);
            }
            Request::Refresh(task, kind, extension, handle) if self.is(task, RUNNING) => {
                self.refresh(task, kind, extension, &[handle.to_be_bytes()]);
            }
            Request::Batch(task, kind, extension, handles) if self.is(task, RUNNING) => {
                self.refresh(task, kind, extension, handles);
            }
            Request::Release(task, handle) if self.is(task, RUNNING) => self.release(handle),
            _ => {}
        }
    }

    // Tasks.

    fn is(&self, task: u8, state: u16) -> bool {
        self.states.get(usize::from(task)) == Some(&state)
    }

    fn is_present(&self, task: u8) -> bool {
        self.states.get(usize::from(task)).is_some_and(|&state| state != ABSENT)
    }

    /// The task is there, or is not, in this state; it has not ticked.
    fn enter(&mut self, task: u8, state: u16) {
        self.states[usize::from(task)] = state;
        self.ticked[usize::from(task)] = false;
    }

    /// Where some task runs, and every one that runs has ticked, a unit of the global expirations is spent, but for those
    /// whose setter waits.
    fn advance(&mut self) {
        let mut running = (0..TASKS).filter(|&task| self.states[task] == RUNNING).peekable();
        if running.peek().is_none() || !running.all(|task| self.ticked[task]) {
            return;
        }
        self.ticked = [false; TASKS];
        let states = self.states;
        let waits = |clock: u8| clock != DEPARTED && states[usize::from(clock - GLOBAL)] == WAITING;
        self.spend(|clock| is_global(clock) && !waits(clock));
    }

    // Rows.

    fn standing(&self) -> impl Iterator<Item = &Row> {
        self.rows[..self.set].iter().filter(|row| row.units > 0)
    }

    /// A unit of what goes by these clocks.
    fn spend(&mut self, goes_by: impl Fn(u8) -> bool) {
        for row in &mut self.rows[..self.set] {
            row.units = row.units.saturating_sub(u8::from(goes_by(row.clock)));
        }
    }

    /// What the leaver has set: its local expirations end, and its global ones have nobody to wait for.
    fn depart(&mut self, leaver: u8) {
        for row in &mut self.rows[..self.set] {
            if row.clock == LOCAL + leaver {
                row.units = 0;
            } else if row.clock == GLOBAL + leaver {
                row.clock = DEPARTED;
            }
        }
    }

    /// One more. What is pinned is never spent.
    fn set(&mut self, task: u8, kind: u8, extension: u8, object: u16) {
        let (clock, units) = match kind {
            0 => (LOCAL + task, extension + LOCAL_EXTRA as u8),
            1 => (GLOBAL + task, extension + GLOBAL_EXTRA as u8),
            _ => (PINNED, 1),
        };
        self.rows[self.set] = Row { clock, object, units };
        self.set += 1;
    }

    // Objects.

    fn make(&mut self, task: u8, kind: u8, extension: u8, length: u16, prefix: u16) {
        let longest = if kind == PINNING { 0 } else { self.longest };
        if extension > longest || !(1..=LARGE_SIZE as u16).contains(&length) || prefix > length {
            return;
        }
        self.are_small[self.given] = length <= SMALL_SIZE as u16;
        self.set(task, kind, extension, self.given as u16);
        self.given += 1;
        self.count_objects();
        self.count_expirations();
    }

    /// All or none.
    fn refresh(&mut self, task: u8, kind: u8, extension: u8, handles: &[[u8; 4]]) {
        let object = |bytes: &[u8; 4]| u32::from_be_bytes(*bytes).checked_sub(1);
        let stands = |object: Option<u32>| {
            object.is_some_and(|object| self.standing().any(|row| u32::from(row.object) == object))
        };
        let is_allowed = (1..=LARGEST_BATCH).contains(&handles.len()) && kind != PINNING && extension <= self.longest;
        if !is_allowed || !handles.iter().map(object).all(stands) {
            return;
        }
        for object in handles.iter().filter_map(object) {
            self.set(task, kind, extension, object as u16);
        }
        self.count_expirations();
    }

    /// Of an object that is not pinned nothing ends.
    fn release(&mut self, handle: u32) {
        for row in &mut self.rows[..self.set] {
            if row.clock == PINNED && u32::from(row.object) + 1 == handle {
                row.units = 0;
            }
        }
    }

    // Peaks. No other call than a make raises the count of objects, and none but this, a refresh and a batch that of
    // expirations.

    fn count_objects(&mut self) {
        let mut stands = [false; MOST_OBJECTS];
        self.standing().for_each(|row| stands[usize::from(row.object)] = true);
        let count =
            |small: bool| stands.iter().zip(&self.are_small).filter(|&(&stands, &is)| stands && is == small).count();
        let (small, large) = (count(true), count(false));
        self.peaks.small = self.peaks.small.max(small);
        self.peaks.large = self.peaks.large.max(large);
    }

    fn count_expirations(&mut self) {
        self.peaks.expirations = self.peaks.expirations.max(self.standing().count());
    }
}
