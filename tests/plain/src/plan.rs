//! Order 13: a cable plan once more, a second opinion beside the ledger's, on the plain pool. A text is read byte by byte, and
//! the end of a poll is worked out when it begins: there is no rule that asks in each step whether it ends.

use crate::limits::{Limits, SMALL_SIZE, TASKS};
use crate::record::{Pool, Quota, Share, FRESH};
use crate::work;

/// The most bytes of a text, and the steps of a run.
pub const LONGEST_PLAN: usize = 432;
pub const STEPS: u32 = 10_000;

/// What all join with.
const SHARE: Share = Share { small: Quota { reserve: 0, limit: 64 }, large: Quota { reserve: 0, limit: 32 } };

/// The number of a local kind.
const LOCAL_KIND: u8 = 0;

/// The five numbers of a channel in their order: period, reply, silence, wait, extension.
type Numbers = [u16; 5];

/// The least and the most of each.
const LEAST: Numbers = [1, 1, 0, 0, 0];
const MOST: Numbers = [u16::MAX, u16::MAX, u16::MAX, u16::MAX, 30];

pub struct Plan {
    lines: [Numbers; TASKS],
    count: usize,
}

impl Plan {
    pub fn channels(&self) -> &[Numbers] {
        &self.lines[..self.count]
    }
}

/// The plan of a text, or none where it is bad.
pub fn read(text: &[u8]) -> Option<Plan> {
    let mut plan = Plan { lines: [[0; 5]; TASKS], count: 0 };
    let (mut place, mut digits) = (0, 0);
    for &byte in text {
        let line = plan.lines.get_mut(plan.count)?;
        match byte {
            b'0'..=b'9' => {
                let number = line.get_mut(place)?;
                // A zero in front of another digit.
                if digits > 0 && *number == 0 {
                    return None;
                }
                *number = number.checked_mul(10)?.checked_add(u16::from(byte - b'0'))?;
                digits += 1;
            }
            b' ' if digits > 0 => (place, digits) = (place + 1, 0),
            b'\n' if digits > 0 && place == 4 && is_channel(line) => {
                plan.count += 1;
                (place, digits) = (0, 0);
            }
            _ => return None,
        }
    }
    let is_whole = place == 0 && digits == 0 && plan.count > 0;
    is_whole.then_some(plan)
}

fn is_channel(numbers: &Numbers) -> bool {
    (0..5).all(|place| (LEAST[place]..=MOST[place]).contains(&numbers[place]))
}

/// What a channel counts, and how often it was its turn to begin.
#[derive(Clone, Copy, Debug, Default, PartialEq, Eq)]
pub struct Counts {
    pub replies: u32,
    pub give_ups: u32,
    pub refusals: u32,
    pub open: u32,
    pub turns: u32,
}

/// How an open poll will end.
#[derive(Clone, Copy)]
enum End {
    Never,
    Reply(u32),
    GiveUp(u32),
}

/// The end of a poll that begins now: the earlier of the two that come, the reply where they are equal.
fn end_of([_, reply, silent, wait, _]: Numbers, now: u32) -> End {
    let (replied, given_up) = (now + u32::from(reply), now + u32::from(wait));
    let comes = replied < u32::from(silent);
    match (comes, wait) {
        (false, 0) => End::Never,
        (true, 0) => End::Reply(replied),
        (true, _) if replied <= given_up => End::Reply(replied),
        _ => End::GiveUp(given_up),
    }
}

/// A plan under way on the pool, with the handle and the end of each open poll.
struct Cable {
    pool: Pool,
    small: [u8; Limits::STANDARD.small_store()],
    large: [u8; Limits::STANDARD.large_store()],
    polls: [Option<(u32, End)>; TASKS],
    counts: [Counts; TASKS],
}

/// The counts of all channels after so many steps; or the refusal of a call that is no make, which no plan brings about.
pub fn run(plan: &Plan, steps: u32) -> Result<[Counts; TASKS], u8> {
    let mut cable = Cable {
        pool: FRESH,
        small: [0; Limits::STANDARD.small_store()],
        large: [0; Limits::STANDARD.large_store()],
        polls: [None; TASKS],
        counts: [Counts::default(); TASKS],
    };
    (0..plan.count).try_for_each(|task| work::join(&mut cable.pool, task as u8, SHARE))?;
    for now in 0..steps {
        plan.channels().iter().enumerate().try_for_each(|(task, &numbers)| cable.turn(task, numbers, now))?;
    }
    Ok(cable.counts)
}

impl Cable {
    fn turn(&mut self, task: usize, numbers: Numbers, now: u32) -> Result<(), u8> {
        match self.polls[task] {
            None if now.is_multiple_of(u32::from(numbers[0])) => self.begin(task, numbers, now),
            Some((handle, End::Reply(at))) if at == now => self.end(task, Some(handle)),
            Some((_, End::GiveUp(at))) if at == now => self.end(task, None),
            _ => Ok(()),
        }
    }

    fn begin(&mut self, task: usize, numbers: Numbers, now: u32) -> Result<(), u8> {
        let (count, number, extension) = (&mut self.counts[task], task as u8, numbers[4] as u8);
        count.turns += 1;
        let (what, extent) = ((number, LOCAL_KIND, extension), (SMALL_SIZE as u16, 0));
        let Ok(handle) = work::make(&mut self.pool, &mut self.small, &mut self.large, what, extent) else {
            count.refusals += 1;
            return work::tick(&mut self.pool, number).map(drop);
        };
        count.open = 1;
        self.polls[task] = Some((handle, end_of(numbers, now)));
        work::block(&mut self.pool, number).map(drop)
    }

    /// By a reply, which is written to what was made, or by giving up.
    fn end(&mut self, task: usize, reply: Option<u32>) -> Result<(), u8> {
        let (count, number) = (&mut self.counts[task], task as u8);
        work::resume(&mut self.pool, number)?;
        match reply {
            Some(handle) => {
                work::write(&mut self.pool, &mut self.small, &mut self.large, number, handle, (0, &[1]))?;
                count.replies += 1;
            }
            None => count.give_ups += 1,
        }
        count.open = 0;
        self.polls[task] = None;
        work::tick(&mut self.pool, number).map(drop)
    }
}
