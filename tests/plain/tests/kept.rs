//! The plain pool and the ledger: the same answers, and the same kept after each call, all that is compared of it.

mod memory;
#[allow(dead_code)]
#[path = "../../host/src/reading.rs"]
mod reading;
#[allow(dead_code)]
#[path = "../../host/src/sites.rs"]
mod sites;

use memory::Memory;
use plain::fit::is_well_formed;
use reading::{of_ledger, of_record, Ahead};
use reference::call::Model;
use reference::frame::{decode, encode_answer};
use reference::generate::{sized_script_of, PROFILES};
use reference::ledger::Ledger;
use reference::limits::Limits;
use reference::script::lines;

/// In short scripts of each profile, at 01's figures and at others.
#[test]
fn the_same() {
    let mut count = 0;
    for profile in PROFILES {
        for (seed, limits) in memory::sites(0..16) {
            count += compare(limits, &sized_script_of(limits, Some(profile), seed, 6_000));
        }
    }
    println!("{count} calls");
    assert!(count > 100_000, "{count}");
}

/// How many calls were compared.
fn compare(limits: Limits, script: &[u8]) -> usize {
    let (mut memory, mut ledger) = (Memory::beside(limits), Ledger::of(limits));
    let (mut room, mut count) = (vec![0; script.len()], 0);
    for line in lines(script) {
        let Ok(call) = decode(line, &mut room) else { continue };
        let mut answer = Vec::new();
        encode_answer(&ledger.call(&call), &mut answer);
        assert_eq!(memory.frame(line).1, answer, "{call:?}");
        assert_eq!(of_record(&memory), of_ledger(&ledger, &Ahead::default()), "{call:?}");
        assert!(is_well_formed(&memory.pool), "{call:?}");
        count += 1;
    }
    count
}
