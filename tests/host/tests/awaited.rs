//! For whom global time waits: library and plain pool tell what the reference ledger says, and global time advances in
//! exactly the calls that empty this set while some task runs.

use host_tests::entries::{Entries, Plain};
use host_tests::host::Host;
use host_tests::library::Library;
use host_tests::memory::Memory;
use reference::call::{Call, Model};
use reference::frame::decode;
use reference::generate::script_of;
use reference::ledger::Ledger;
use reference::random::Random;
use reference::script::lines;
use reference::tasks::{State, Task};

/// What the number holds before it is told.
const UNTOLD: u16 = 0xA5A5;

/// The number and the tasks; the record stays.
fn told<E: Entries>(host: &mut Host<E>) -> (u8, u16) {
    let before = host.memory.pool.clone();
    let mut tasks = UNTOLD;
    let number = E::awaited(&mut host.memory.pool, &mut tasks);
    assert_eq!(host.memory.pool, before);
    (number, tasks)
}

fn awaited(ledger: &Ledger) -> u16 {
    let bit = |(place, task): (usize, &Task)| u16::from(task.state == State::Running && !task.ticked) << place;
    ledger.tasks().entries().iter().enumerate().map(bit).sum()
}

fn some_runs(ledger: &Ledger) -> bool {
    ledger.tasks().entries().iter().any(|task| task.state == State::Running)
}

/// The task that an advance may follow on this call.
fn tested(call: &Call) -> Option<u8> {
    match *call {
        Call::Tick { task } | Call::Block { task } | Call::Leave { task } => Some(task),
        _ => None,
    }
}

#[test]
fn over_lists_of_calls() {
    let mut advances = 0;
    for seed in 0..20 {
        let script = script_of(None, seed, 50_000);
        let mut room = vec![0; script.len()];
        let memory = Memory::fresh(&mut Random::new(seed));
        let (mut library, mut plain) = (Host::<Library>::new(memory.clone()), Host::<Plain>::new(memory));
        let mut ledger = Ledger::fresh();
        for line in lines(&script) {
            let Ok(call) = decode(line, &mut room) else { continue };
            let (before, global) = (awaited(&ledger), ledger.tasks().global());
            let accepted = ledger.call(&call).is_ok();
            assert_eq!((library.call(&call).is_ok(), plain.call(&call).is_ok()), (accepted, accepted), "{call:?}");
            assert_eq!(told(&mut library), (0, awaited(&ledger)), "{call:?}");
            assert_eq!(told(&mut plain), (0, awaited(&ledger)), "{call:?}, plain");
            let empties = accepted && tested(&call).is_some_and(|task| before == 1 << task) && some_runs(&ledger);
            assert_eq!(ledger.tasks().global(), global + u64::from(empties), "{call:?}");
            advances += u64::from(empties);
        }
    }
    assert!(advances > 500, "{advances}");
}

#[test]
fn of_a_record_that_is_not_well_formed() {
    let mut memory = Memory::fresh(&mut Random::new(1));
    memory.pool.tasks[5].state = 4;
    assert_eq!(told(&mut Host::<Library>::new(memory.clone())), (15, UNTOLD));
    assert_eq!(told(&mut Host::<Plain>::new(memory)), (15, UNTOLD));
}
