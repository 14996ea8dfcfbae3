//! Sixteen threads, one for each task, and a pool behind one mutex. The sensor of one task is dead for a while, and a
//! watchdog finds it. examples/threads.c is the same in C.
//!
//! The pool has no lock of its own, and each of its calls that changes it asks for `&mut`: a `Mutex` gives that. A thread
//! that has ticked waits until global time advances, so that each round every task that runs makes one reading. Which thread
//! comes first is the scheduler's choice. What is printed does not depend on it: it is printed at an advance, or where
//! only one thread can go on.
//!
//! A thread at a dead sensor does not tick, and global time stands for all. The watchdog, the main thread, asks for whom
//! global time waits. Where each of these tasks is at a sensor it calls block for them, and the others go on. When the
//! sensor answers, its driver calls resume.

use ramsummer::{Handle, Kind, Pool, Refusal, Share};
use std::ops::Range;
use std::sync::{Condvar, Mutex, MutexGuard};
use std::{process, thread};

const TASKS: u8 = 16;
const READER: u8 = 0;
const WAITER: u8 = 7;
const ROUNDS: u32 = 8;
const DEAD: Range<u32> = 2..6; // the global times at which the sensor of WAITER gives nothing

/// A reading of each task; none of one that waits.
type Scan = [Option<Handle>; TASKS as usize];

/// The pool, and what its threads share beside it.
struct Logger {
    pool: Pool,
    /// The readings of this round and of the last, by global time.
    scans: [Scan; 2],
    /// How many of the last round READER has found as they were written.
    whole: usize,
    /// For each task whether its thread waits for a sensor.
    at_sensor: [bool; TASKS as usize],
    finished: u8,
}

/// All of it is behind the one mutex.
struct Site {
    logger: Mutex<Logger>,
    changed: Condvar,
}

fn main() {
    let none = [None; TASKS as usize];
    let mut logger = Logger { pool: Pool::new(), scans: [none; 2], whole: 0, at_sensor: [false; 16], finished: 0 };
    // All join before the first ticks, or global time would advance without the others.
    (0..TASKS).for_each(|task| done(logger.pool.join(task, Share::OPEN)));
    let site = &Site { logger: Mutex::new(logger), changed: Condvar::new() };
    thread::scope(|scope| {
        (0..TASKS).for_each(|task| _ = scope.spawn(move || run(site, task)));
        watch(site);
    });
    let logger = site.lock();
    println!("{} threads are done, and {} objects stand", logger.finished, logger.objects());
}

/// A refusal would be a fault of this program.
fn done<T>(answer: Result<T, Refusal>) -> T {
    answer.unwrap_or_else(|refusal| {
        println!("refused with {}: {refusal}", refusal.number());
        process::exit(1)
    })
}

fn run(site: &Site, task: u8) {
    let (mut logger, mut last) = (site.lock(), None);
    while logger.time() < ROUNDS {
        if task == WAITER && DEAD.contains(&logger.time()) {
            logger = await_sensor(site, logger, task);
            logger.find(task, last);
        }
        let now = logger.time();
        last = Some(logger.make_reading(task));
        if task == READER {
            logger.read_last_round();
        }
        logger.tick(task);
        site.changed.notify_all();
        logger = site.wait_while(logger, |logger| logger.time() == now);
    }
    logger.finished += 1;
    site.changed.notify_all();
}

fn await_sensor<'a>(site: &'a Site, mut logger: MutexGuard<'a, Logger>, task: u8) -> MutexGuard<'a, Logger> {
    logger.at_sensor[usize::from(task)] = true;
    site.changed.notify_all();
    site.wait_while(logger, |logger| logger.at_sensor[usize::from(task)])
}

/// A watchdog asks at intervals; this one is woken by every change, so that no clock has a part in what is printed.
fn watch(site: &Site) {
    let mut logger = site.lock();
    while logger.finished < TASKS {
        let awaited = done(logger.pool.awaited());
        if !awaited.is_empty() && awaited.iter().all(|task| logger.at_sensor[usize::from(task)]) {
            awaited.iter().for_each(|task| logger.block(task));
            site.changed.notify_all();
        } else {
            logger = site.wait(logger);
        }
    }
}

impl Site {
    fn lock(&self) -> MutexGuard<'_, Logger> {
        self.logger.lock().expect("no thread has panicked")
    }

    /// Until something has changed.
    fn wait<'a>(&self, logger: MutexGuard<'a, Logger>) -> MutexGuard<'a, Logger> {
        self.changed.wait(logger).expect("no thread has panicked")
    }

    fn wait_while<'a>(
        &self,
        logger: MutexGuard<'a, Logger>,
        mut holds: impl FnMut(&Logger) -> bool,
    ) -> MutexGuard<'a, Logger> {
        self.changed.wait_while(logger, |logger| holds(logger)).expect("no thread has panicked")
    }
}

impl Logger {
    fn time(&self) -> u32 {
        self.pool.record().global
    }

    fn objects(&self) -> u8 {
        done(self.pool.report()).small
    }

    fn this_round(&mut self) -> &mut Scan {
        let place = self.time() % 2;
        &mut self.scans[place as usize]
    }

    fn last_round(&self) -> &Scan {
        &self.scans[((self.time() + 1) % 2) as usize]
    }

    fn make_reading(&mut self, task: u8) -> Handle {
        let reading = [task, self.time() as u8];
        let handle = done(self.pool.put(task, Kind::Global, 0, &reading));
        self.this_round()[usize::from(task)] = Some(handle);
        handle
    }

    /// They stand until this round ends.
    fn read_last_round(&mut self) {
        let (scan, time) = (*self.last_round(), self.time() as u8);
        let readings = (0..TASKS).zip(scan).filter_map(|(task, handle)| Some((task, handle?)));
        let is_whole =
            |&(task, handle): &(u8, Handle)| done(self.pool.get(READER, handle)) == [task, time.wrapping_sub(1)];
        self.whole = readings.filter(is_whole).count();
    }

    /// A task's own last reading was put off at each advance, and is there.
    fn find(&mut self, task: u8, last: Option<Handle>) {
        let [_, time] = done(self.pool.get(task, last.expect("a reading of the rounds before")));
        println!("         task {task} goes on, and finds its reading of round {}", time + 1);
    }

    fn tick(&mut self, task: u8) {
        if done(self.pool.tick(task)) {
            self.end_round();
        }
    }

    fn block(&mut self, task: u8) {
        println!("watchdog: global time {} waits for task {task}, which waits for its sensor", self.time());
        if done(self.pool.block(task)) {
            self.end_round();
        }
    }

    /// Whoever brings the advance ends the round for all.
    fn end_round(&mut self) {
        let (round, made) = (self.time(), self.last_round().iter().flatten().count());
        let (whole, objects) = (self.whole, self.objects());
        println!("round {round}: {made:2} readings, {whole:2} of the last one read, {objects} objects stand");
        *self.this_round() = [None; TASKS as usize];
        if round == DEAD.end {
            self.answer(WAITER);
        }
    }

    /// The driver of a sensor that answers: its task runs again.
    fn answer(&mut self, task: u8) {
        self.at_sensor[usize::from(task)] = false;
        done(self.pool.resume(task));
        println!("         the sensor of task {task} answers");
    }
}
