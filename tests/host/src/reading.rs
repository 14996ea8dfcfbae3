//! A record and its stores read as a ledger, and a ledger read in the same way, so that the two compare: the figures of the
//! site, clocks by 32 bits, the tasks' shares, an object's maker, and its expirations by kind, setter and units left, in no
//! order. Places are not compared.

use plain::limits::{Limits, BLOCKS, SMALL_BLOCKS, TASKS};
use plain::record::{length_in, maker_in, prefix_in, sum_in, Pool, Share};
use plain::record::{ABSENT, DEPARTED, FREE, GLOBAL, LOCAL, NOBODY, PINNED, RUNNING, WAITING};
use reference::block::Block;
use reference::call::Figures;
use reference::expiration::{Remaining, Setter};
use reference::ledger::{Ledger, Standing};
use reference::share::Maker;
use reference::tasks::{State, Task};

use crate::memory::Memory;
use crate::sites;

#[derive(Debug, PartialEq, Eq)]
pub struct Reading {
    limits: Limits,
    tasks: Vec<(State, bool, u32)>,
    shares: Vec<Share>,
    global: u32,
    given: u32,
    /// In order of handle.
    standing: Vec<Standing>,
}

/// How far the clocks of a record are ahead of a ledger's: a record may start late, a ledger starts at 0.
#[derive(Clone, Debug, Default)]
pub struct Ahead {
    pub clocks: [u32; TASKS],
    pub global: u32,
}

/// What a record stands for that is well-formed.
pub fn of_record(memory: &Memory) -> Reading {
    let Pool { limits, tasks, shares, global, given, .. } = &memory.pool;
    let state = |state: u16| match state {
        ABSENT => State::Absent,
        RUNNING => State::Running,
        WAITING => State::Waiting,
        _ => State::Viewing,
    };
    Reading {
        limits: *limits,
        tasks: tasks.iter().map(|task| (state(task.state), task.ticked != 0, task.clock)).collect(),
        shares: shares.to_vec(),
        global: *global,
        given: *given,
        standing: standing(memory),
    }
}

fn standing(memory: &Memory) -> Vec<Standing> {
    let pool = &memory.pool;
    let mut expirations: Vec<Vec<Remaining>> = vec![Vec::new(); pool.handles.len()];
    for ((&clock, &block), due) in pool.clocks.iter().zip(&pool.named).zip(&pool.dues) {
        let units = |now: u32| u64::from(due.wrapping_sub(now));
        let remaining = match clock {
            FREE => continue,
            PINNED => Remaining::Pinned,
            DEPARTED => Remaining::Global { setter: Setter::Departed, units: units(pool.global) },
            GLOBAL.. => Remaining::Global { setter: Setter::Task(clock - GLOBAL), units: units(pool.global) },
            _ => {
                let setter = clock - LOCAL;
                Remaining::Local { setter, units: units(pool.tasks[usize::from(setter)].clock) }
            }
        };
        expirations[usize::from(block)].push(remaining);
    }
    let mut standing: Vec<Standing> = Vec::new();
    for (place, mut expirations) in expirations.into_iter().enumerate() {
        let handle = pool.handles[place];
        if handle != 0 {
            expirations.sort();
            let extent = pool.extents[place];
            let maker = match maker_in(extent) {
                NOBODY => Maker::Departed,
                task => Maker::Task(task),
            };
            let (length, prefix, sum) = (length_in(extent), prefix_in(extent), sum_in(extent));
            let block = Block { length, prefix, bytes: bytes_of(memory, place), sum };
            standing.push(Standing { handle, maker, block, expirations });
        }
    }
    standing.sort_by_key(|object| object.handle);
    standing
}

/// The bytes of a block, which are not compared where a store has another length than the figures say.
fn bytes_of(memory: &Memory, place: usize) -> Vec<u8> {
    let limits = memory.pool.limits;
    let are_whole = (memory.small.len(), memory.large.len()) == (limits.small_store(), limits.large_store());
    if are_whole {
        memory.block(place).to_vec()
    } else {
        Vec::new()
    }
}

/// What a ledger says, with its clocks so far ahead.
pub fn of_ledger(ledger: &Ledger, ahead: &Ahead) -> Reading {
    let task = |(task, ahead): (&Task, &u32)| (task.state, task.ticked, (task.clock as u32).wrapping_add(*ahead));
    Reading {
        limits: sites::of(ledger.limits()),
        tasks: ledger.tasks().entries().iter().zip(&ahead.clocks).map(task).collect(),
        shares: ledger.tasks().entries().iter().map(|task| sites::share_of(task.share)).collect(),
        global: (ledger.tasks().global() as u32).wrapping_add(ahead.global),
        given: ledger.figures().given,
        standing: ledger.standing(),
    }
}

/// The figures that a report of this record tells.
pub fn figures(pool: &Pool) -> Figures {
    let used = |places: std::ops::Range<usize>| pool.handles[places].iter().filter(|&&handle| handle != 0).count();
    Figures {
        small: used(0..SMALL_BLOCKS) as u8,
        large: used(SMALL_BLOCKS..BLOCKS) as u8,
        expirations: pool.clocks.iter().filter(|&&clock| clock != FREE).count() as u16,
        given: pool.given,
    }
}
