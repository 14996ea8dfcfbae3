//! Records that are well-formed, to damage, to misuse and to measure on.

use plain::fit::spread;
use plain::limits::{Limits, BLOCKS, LARGE_SIZE, SMALL_SIZE, TASKS};
use reference::call::{Call, Kind};
use reference::frame::decode;
use reference::generate::{sized_script_of, Profile};
use reference::limits;
use reference::random::Random;
use reference::script::lines;
use reference::share::Share;

use crate::entries::Plain;
use crate::host::Host;
use crate::memory::Memory;
use crate::sites;

/// All tasks run, both stores are full, and so many expirations stand, from 96 to 256. The handles are 1 to 96 in
/// the order of the blocks.
pub fn full(expirations: usize) -> Memory {
    full_of(Limits::STANDARD, expirations)
}

/// The same of a site: as many objects as it has blocks, and at least as many expirations.
pub fn full_of(limits: Limits, expirations: usize) -> Memory {
    let blocks = (limits.small_blocks as usize, limits.large_blocks as usize);
    assert!(blocks.0 + blocks.1 <= expirations, "each object has an expiration");
    standing_of(limits, TASKS, blocks, expirations)
}

/// So many tasks run, so many small and large objects stand, and so many expirations in all, set by the tasks in turn,
/// local and global. None goes within five ticks.
pub fn standing(tasks: usize, objects: (usize, usize), expirations: usize) -> Memory {
    standing_of(Limits::STANDARD, tasks, objects, expirations)
}

/// The same of a site; where its largest extension is less, they go as much earlier.
pub fn standing_of(limits: Limits, tasks: usize, objects: (usize, usize), expirations: usize) -> Memory {
    standing_by(limits, tasks, objects, expirations, |count| Setting {
        task: (count % tasks) as u8,
        kind: if count % 2 == 0 { Kind::Local } else { Kind::Global },
        extension: (5 + count % 26).min(limits.extension as usize) as u8,
        object: count % (objects.0 + objects.1),
    })
}

/// One expiration: by which task, and how; and on which object, by its count, where it makes none.
pub struct Setting {
    pub task: u8,
    pub kind: Kind,
    pub extension: u8,
    pub object: usize,
}

/// So many tasks run, so many small and large objects stand, each made with one of the first of these expirations, and with a
/// prefix of its own.
pub fn standing_by(
    limits: Limits,
    tasks: usize,
    (small, large): (usize, usize),
    expirations: usize,
    setting: impl Fn(usize) -> Setting,
) -> Memory {
    let mut host = Host::<Plain>::new(Memory::sized(limits, &mut Random::new(1)));
    let mut done = |call: Call| assert!(host.call(&call).is_ok(), "{call:?}");
    for task in 0..tasks as u8 {
        done(Call::Join { task, share: Share::OPEN });
    }
    for count in 0..expirations {
        let Setting { task, kind, extension, object } = setting(count);
        done(if count < small + large {
            let length = if count < small { SMALL_SIZE } else { LARGE_SIZE } as u16;
            let prefix = (count % (usize::from(length) + 1)) as u16;
            Call::Make { task, kind, extension, length, prefix }
        } else {
            Call::Refresh { task, kind, extension, handle: 1 + object as u32 }
        });
    }
    host.memory
}

/// What stands after so many lines of a list, by the plain pool.
pub fn after(profile: Profile, seed: u64, count: usize) -> Memory {
    after_of(limits::Limits::STANDARD, profile, seed, count)
}

/// The same of a site.
pub fn after_of(limits: limits::Limits, profile: Profile, seed: u64, count: usize) -> Memory {
    let script = sized_script_of(limits, Some(profile), seed, 100_000);
    let mut room = vec![0; script.len()];
    let mut host = Host::<Plain>::new(Memory::sized(sites::of(limits), &mut Random::new(seed)));
    for line in lines(&script).take(count) {
        if let Ok(call) = decode(line, &mut room) {
            let _ = host.call(&call);
        }
    }
    host.memory
}

/// How the objects of a record are numbered. Whether two handles are one is the part of the fit test that depends on it.
/// A host can reach each of these from a fresh pool, since it makes as many objects in between as it likes, and has some
/// of them stay: tests/numbering.rs does.
#[derive(Clone, Copy, Debug, PartialEq, Eq)]
pub enum Numbering {
    /// One after the other.
    InTurn,
    /// Alike modulo this number, so that their last bytes are the same.
    Alike(u32),
    /// All on one place of the table that the plain pool puts them into where their last bytes are not enough.
    OnOnePlace,
}

/// The usual one first.
pub const NUMBERINGS: [Numbering; 4] =
    [Numbering::InTurn, Numbering::Alike(256), Numbering::Alike(65_536), Numbering::OnOnePlace];

impl Numbering {
    /// In words.
    pub fn name(self) -> String {
        match self {
            Numbering::InTurn => "one after the other".to_string(),
            Numbering::Alike(modulus) => format!("alike modulo {modulus}"),
            Numbering::OnOnePlace => "on one place of plain's table".to_string(),
        }
    }

    /// The handles, lowest first.
    pub fn handles(self) -> Vec<u32> {
        let place = spread(FIRST);
        let handles: Box<dyn Iterator<Item = u32>> = match self {
            Numbering::InTurn => Box::new(FIRST..),
            Numbering::Alike(modulus) => Box::new((FIRST..).step_by(modulus as usize)),
            Numbering::OnOnePlace => Box::new((FIRST..).filter(move |&handle| spread(handle) == place)),
        };
        handles.take(BLOCKS).collect()
    }
}

const FIRST: u32 = 7;

/// The blocks in an order that is none of their numbers: a sorted table would be quick to sort.
pub fn mixed_blocks() -> impl Iterator<Item = usize> {
    (0..BLOCKS).map(|count| count * 37 % BLOCKS)
}

/// Gives the objects of a record these handles, in the order of [`mixed_blocks`].
pub fn renumber(memory: &mut Memory, numbering: Numbering) {
    let pool = &mut memory.pool;
    for (block, handle) in mixed_blocks().zip(numbering.handles()) {
        if pool.handles[block] != 0 {
            pool.handles[block] = handle;
            pool.given = pool.given.max(handle);
        }
    }
}
