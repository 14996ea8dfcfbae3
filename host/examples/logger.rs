//! A logger of sixteen tasks, and the weekend on which the sensor of one is dead. examples/logger.c is the same in C.
//!
//! Each cycle every task makes a block for its reading, task 0 reads them all, and every task ticks. The readings are
//! for another task, so their expirations are global: due once every running task has ticked twice. Task 0 also keeps
//! the last scan that is whole, with a reading of every sensor: it refreshes all of them by one call, and only where they
//! would be gone at the next look. Nobody refreshes the request of the task whose sensor is dead: it is put off for as long
//! as the task waits, and is there when the task comes back. And the calibration of the site must not lapse at
//! all: it is pinned, and released when the site is taken down.
//!
//! At the end one task is chatty, and would take all blocks. What stops it are the shares of the others, and its own: a
//! reserve is held back for a task, and a limit is the most that it has.

use ramsummer::{Gauged, Handle, Kind, Pool, Quota, Refusal, Share};
use std::ops::RangeInclusive;
use std::process::ExitCode;

const TASKS: u8 = 16;
const READER: u8 = 0;
const CHATTY: u8 = 3;
const WAITER: u8 = 7;
const CYCLES: u8 = 10;
const DEAD: RangeInclusive<u8> = 3..=8; // the cycles in which the sensor of WAITER gives nothing
const READINGS: usize = 4 * 16 + 6 * 15; // of all cycles
const ZERO: u16 = 250; // where the gauge begins, in centimetres

/// A reading of each task.
type Scan = [Handle; TASKS as usize];

/// The pool with its peaks, the newest reading of each task, the last ones that are all of one cycle, what WAITER asks its
/// sensor, and the calibration.
struct Logger {
    pool: Gauged<Pool>,
    newest: Scan,
    whole: Scan,
    request: Handle,
    calibration: Handle,
}

fn main() -> ExitCode {
    if weekend() && chatter() {
        ExitCode::SUCCESS
    } else {
        ExitCode::FAILURE
    }
}

/// The fault and its cure.
fn weekend() -> bool {
    println!("Task {WAITER} waits for its sensor without block:");
    let fault = log(false);
    println!("Task {WAITER} calls block before it waits:");
    let cure = log(true);
    (fault, cure) == (Err(Refusal::NoFreeBlock), Ok(READINGS))
}

/// A task that talks too much, and what stops it.
fn chatter() -> bool {
    println!("Task {CHATTY} is chatty. It makes readings until it is refused, and then each other task makes one:");
    let (reserve, limit) = (Quota { reserve: 2, ..Quota::OPEN }, Quota { limit: 8, ..Quota::OPEN });
    let taken = chat("all join open", Quota::OPEN, Quota::OPEN);
    let held_back = chat("a reserve of 2 for each other", reserve, Quota::OPEN);
    let stopped = chat("and a limit of 8 for task 3", reserve, limit);
    let told = [(Refusal::NoFreeBlock, 0), (Refusal::NoFreeBlock, 15), (Refusal::AtLimit, 15)];
    [taken, held_back, stopped] == told.map(Ok)
}

/// CHATTY makes readings until it is refused, and then each other task makes one. They have these quotas of small blocks.
/// Gives the refusal, and how many of the others find a block.
fn chat(shares: &str, of_others: Quota, of_chatty: Quota) -> Result<(Refusal, usize), Refusal> {
    let mut pool = Pool::new();
    for task in 0..TASKS {
        let small = if task == CHATTY { of_chatty } else { of_others };
        pool.join(task, Share { small, ..Share::OPEN })?;
    }
    let mut make = |task| pool.make(task, Kind::Global, 0, 4);
    let refusal = loop {
        if let Err(refusal) = make(CHATTY) {
            break refusal;
        }
    };
    let others = (0..TASKS).filter(|&task| task != CHATTY && make(task).is_ok()).count();
    let (made, number) = (pool.share(CHATTY)?.small.made, refusal.number());
    println!("{shares}: task {CHATTY} made {made}, refused with {number}; the others made {others}");
    Ok((refusal, others))
}

/// From a fresh pool; at the end the most that stood at a time, which is what the pool has to have room for.
fn log(with_block: bool) -> Result<usize, Refusal> {
    let (pool, none) = (Gauged::over(Pool::new()), Handle::from(0));
    let scan = [none; TASKS as usize];
    let mut logger = Logger { pool, newest: scan, whole: scan, request: none, calibration: none };
    let total = log_all(&mut logger, with_block);
    println!("peaks: {}", logger.pool.peaks());
    total
}

/// All cycles, up to the first refusal. Gives the count of readings.
fn log_all(logger: &mut Logger, with_block: bool) -> Result<usize, Refusal> {
    for task in 0..TASKS {
        logger.pool.join(task, Share::OPEN)?;
    }
    calibrate(logger)?;
    let mut total = 0;
    for cycle in 1..=CYCLES {
        if with_block {
            wait_or_go_on(logger, cycle)?;
        }
        let (read, refreshed) = run(logger, cycle).inspect_err(|refusal| print_refusal(cycle, *refusal))?;
        print_cycle(&logger.pool, cycle, read, refreshed)?;
        total += read;
    }
    take_down(logger)?;
    Ok(total)
}

/// Nobody refreshes it, and no time ends it.
fn calibrate(Logger { pool, calibration, .. }: &mut Logger) -> Result<(), Refusal> {
    *calibration = pool.put(READER, Kind::Pinned, 0, &ZERO.to_be_bytes())?;
    Ok(())
}

/// The calibration is as on the first day, and its block comes back.
fn take_down(Logger { pool, calibration, .. }: &mut Logger) -> Result<(), Refusal> {
    let zero = u16::from_be_bytes(pool.get(READER, *calibration)?);
    println!("          the calibration stands: the gauge begins at {zero} cm");
    pool.release(READER, *calibration)?;
    println!("          it is released: {} blocks in use", pool.report()?.small);
    Ok(())
}

/// The cure: global time goes on without a task that waits. Its request would last two advances; while it waits it lasts.
fn wait_or_go_on(Logger { pool, request, .. }: &mut Logger, cycle: u8) -> Result<(), Refusal> {
    if cycle == *DEAD.start() {
        *request = pool.put(WAITER, Kind::Global, 0, &[cycle])?;
        pool.block(WAITER)?;
    } else if cycle == DEAD.end() + 1 {
        pool.resume(WAITER)?;
        let [asked] = pool.get(WAITER, *request)?;
        println!("          task {WAITER} resumes and finds its request of cycle {asked}");
    }
    Ok(())
}

/// One cycle of the tasks at work. Gives how many readings task 0 has read as they were written, and whether it has
/// refreshed the last whole scan.
fn run(Logger { pool, newest, whole, .. }: &mut Logger, cycle: u8) -> Result<(usize, bool), Refusal> {
    let at_work = |task: &u8| *task != WAITER || !DEAD.contains(&cycle);
    for task in (0..TASKS).filter(at_work) {
        newest[usize::from(task)] = pool.put(task, Kind::Global, 0, &reading(task, cycle))?;
    }
    let mut read = 0;
    for task in (0..TASKS).filter(at_work) {
        read += usize::from(pool.get(READER, newest[usize::from(task)])? == reading(task, cycle));
    }
    if read == newest.len() {
        *whole = *newest;
    }
    let refreshed = keep(pool, whole)?;
    for task in (0..TASKS).filter(at_work) {
        pool.tick(task)?;
    }
    Ok((read, refreshed))
}

/// Task 0 looks at the scan once a cycle, and refreshes it where it would be gone an advance later. None of its readings
/// goes before that of task 0, which does not wait; so that one tells for all.
fn keep(pool: &mut Gauged<Pool>, scan: &Scan) -> Result<bool, Refusal> {
    let would_go = pool.remaining(READER, scan[0])?.global <= 1;
    if would_go {
        pool.refresh_all(READER, Kind::Global, 1, scan)?;
    }
    Ok(would_go)
}

/// What a sensor says: the task, the cycle, and the water level in centimetres.
fn reading(task: u8, cycle: u8) -> [u8; 4] {
    let level = 1000 + 20 * u16::from(task) + u16::from(cycle);
    let [high, low] = level.to_be_bytes();
    [task, cycle, high, low]
}

fn print_cycle(pool: &Pool, cycle: u8, read: usize, refreshed: bool) -> Result<(), Refusal> {
    let (time, blocks) = (pool.record().global, pool.report()?.small);
    let kept = if refreshed { ", the last whole scan refreshed" } else { "" };
    println!("cycle {cycle:2}: {read} readings, global time {time:2}, {blocks} blocks in use{kept}");
    watch(pool)
}

/// The watchdog, once a cycle: task 0 has ticked, so that it is awaited again only where global time has advanced since.
fn watch(pool: &Pool) -> Result<(), Refusal> {
    let awaited = pool.awaited()?;
    if !awaited.contains(READER) {
        awaited.iter().for_each(|task| println!("          global time waits for task {task}"));
    }
    Ok(())
}

fn print_refusal(cycle: u8, refusal: Refusal) {
    println!("cycle {cycle:2}: refused with {}, {refusal}", refusal.number());
}
