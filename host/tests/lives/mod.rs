//! Pools that calls lead to, the same in each run.

#![allow(dead_code)] // Each test uses what it needs.

use ramsummer::{Handle, Kind, Limits, Pool, Quota, Share};

/// Numbers that look random and are the same in each run.
pub struct Random(pub u64);

impl Random {
    pub fn below(&mut self, bound: u64) -> u64 {
        self.0 = self.0.wrapping_mul(6_364_136_223_846_793_005).wrapping_add(1_442_695_040_888_963_407);
        (self.0 >> 33) % bound
    }

    pub fn fill(&mut self, bytes: &mut [u8]) {
        bytes.iter_mut().for_each(|byte| *byte = self.below(256) as u8);
    }
}

/// Limits of so many pools: the smallest, the largest, and then some of chance.
pub fn limits(count: usize) -> impl Iterator<Item = Limits> {
    let mut random = Random(12);
    let mut upto = move |most: u32| 1 + random.below(most.into()) as u32;
    let most = Limits::STANDARD;
    let ends = [Limits { small_blocks: 1, large_blocks: 1, expirations: 1, extension: 0 }, most];
    let chosen = std::iter::repeat_with(move || Limits {
        small_blocks: upto(most.small_blocks),
        large_blocks: upto(most.large_blocks),
        expirations: upto(most.expirations),
        extension: upto(most.extension + 1) - 1,
    });
    ends.into_iter().chain(chosen).take(count)
}

/// A small reserve and a limit of each store; of every third task none.
fn share(random: &mut Random) -> Share {
    if random.below(3) == 0 {
        return Share::OPEN;
    }
    let mut quota = || Quota { reserve: random.below(4) as u8, limit: 3 + random.below(20) as u8 };
    Share { small: quota(), large: quota() }
}

/// One call, which may be refused.
fn call(pool: &mut Pool, random: &mut Random) {
    let task = random.below(16) as u8;
    let kind = if random.below(2) == 0 { Kind::Local } else { Kind::Global };
    let extension = random.below(u64::from(pool.record().limits.extension) + 1) as u8;
    let length = 1 + random.below(64) as u16;
    let prefix = random.below(u64::from(length) + 1) as u16;
    let handle = Handle::from(pool.record().given.saturating_sub(random.below(90) as u32));
    let _ = match random.below(19) {
        0..=1 => pool.join(task, share(random)),
        2 => pool.leave(task).map(drop),
        3 => pool.block(task).map(drop),
        4 => pool.resume(task),
        5..=6 => pool.tick(task).map(drop),
        7..=10 => pool.make_with_prefix(task, kind, extension, length, prefix).map(drop),
        16 if random.below(4) == 0 => pool.make(task, Kind::Pinned, 0, length).map(drop),
        16..=17 => pool.release(task, handle),
        18 => pool.view(task),
        11..=13 => pool.write(task, handle, 0, &task.to_le_bytes()),
        _ => pool.refresh(task, kind, extension, handle),
    };
}

/// Pools that calls lead to from a fresh one, each 20 calls after the last.
pub fn pools(count: usize) -> impl Iterator<Item = Pool> {
    pools_of(Limits::STANDARD, count)
}

/// The same from one with these limits.
pub fn pools_of(limits: Limits, count: usize) -> impl Iterator<Item = Pool> {
    let (mut pool, mut random) = (Pool::sized(limits).unwrap(), Random(7));
    (0..count).map(move |_| {
        (0..20).for_each(|_| call(&mut pool, &mut random));
        pool.clone()
    })
}
