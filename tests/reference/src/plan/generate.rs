//! Plans of chance, and texts that are none. Each kind of plan is made for a situation that bites: blocks that run out,
//! silence in the middle, replies and give-ups at one step, polls that stay open.

use super::{Channel, STEPS};
use crate::limits::TASKS;
use crate::random::Random;

/// What a plan is made for.
#[derive(Clone, Copy, Debug, PartialEq, Eq)]
pub enum Sort {
    /// More objects than blocks.
    Crowded,
    /// Channels that fall silent on the way, some of them with w = 0.
    Silent,
    /// Replies and give-ups at one step, or one step apart, around the step from which a channel is silent.
    Tied,
    /// Long waits and periods that do not divide each other.
    Slow,
    /// Every number at an end of its range, or near it.
    Extreme,
}

pub const SORTS: [Sort; 5] = [Sort::Crowded, Sort::Silent, Sort::Tied, Sort::Slow, Sort::Extreme];

/// What is wrong with a text.
#[derive(Clone, Copy, Debug, PartialEq, Eq)]
pub enum Fault {
    Nothing,
    NoLastLf,
    EmptyLine,
    LineAfterTheLast,
    FourNumbers,
    SixNumbers,
    TwoBlanks,
    BlankBefore,
    BlankBehind,
    Tab,
    CarriageReturn,
    LeadingZero,
    NumberMissing,
    Sign,
    Letter,
    NoText,
    TooLarge,
    FarTooLarge,
    PeriodZero,
    ReplyZero,
    ExtensionTooLong,
    SeventeenLines,
    TooLong,
}

pub const FAULTS: [Fault; 23] = [
    Fault::Nothing,
    Fault::NoLastLf,
    Fault::EmptyLine,
    Fault::LineAfterTheLast,
    Fault::FourNumbers,
    Fault::SixNumbers,
    Fault::TwoBlanks,
    Fault::BlankBefore,
    Fault::BlankBehind,
    Fault::Tab,
    Fault::CarriageReturn,
    Fault::LeadingZero,
    Fault::NumberMissing,
    Fault::Sign,
    Fault::Letter,
    Fault::NoText,
    Fault::TooLarge,
    Fault::FarTooLarge,
    Fault::PeriodZero,
    Fault::ReplyZero,
    Fault::ExtensionTooLong,
    Fault::SeventeenLines,
    Fault::TooLong,
];

/// The text of a seed: one in five has a fault, each in its turn.
pub fn text(seed: u64) -> Vec<u8> {
    match seed % 5 {
        0 => faulty(FAULTS[(seed / 5) as usize % FAULTS.len()], seed),
        _ => written(&plan(SORTS[seed as usize % 7 % SORTS.len()], seed)).into_bytes(),
    }
}

pub fn written(plan: &[Channel]) -> String {
    plan.iter().map(Channel::to_string).collect()
}

/// A plan of this sort.
pub fn plan(sort: Sort, seed: u64) -> Vec<Channel> {
    let mut random = Random::new(seed);
    let count = match sort {
        Sort::Crowded => TASKS - random.below(8),
        _ => 1 + random.below(TASKS),
    };
    (0..count).map(|_| channel(sort, &mut random)).collect()
}

fn channel(sort: Sort, random: &mut Random) -> Channel {
    let from = |random: &mut Random, least: usize, most: usize| (least + random.below(most - least + 1)) as u16;
    let period = match sort {
        Sort::Crowded => from(random, 20, 150),
        Sort::Slow => from(random, 50, 3_000),
        Sort::Extreme => random.pick(&[1, 2, 3_333, 4_999, 5_000, 9_998, 9_999, 10_000, 10_001, 65_535]),
        _ => from(random, 10, 400),
    };
    let reply = match sort {
        Sort::Slow => from(random, 1, 4_000),
        Sort::Extreme => random.pick(&[1, 2, 9_998, 9_999, 10_000, 65_534, 65_535]),
        _ => from(random, 1, 60),
    };
    let silent = match sort {
        Sort::Extreme => random.pick(&[0, 1, 2, 9_999, 10_000, 65_535]),
        Sort::Silent => from(random, 0, STEPS as usize),
        // At a step at which a poll that began on time would be replied to, or one beside it.
        Sort::Tied => period * from(random, 0, 20) + reply + from(random, 0, 2),
        _ => random.pick(&[65_535, 65_535, 5_000]),
    };
    let wait = match sort {
        Sort::Tied => random.pick(&[reply, reply, reply - 1, reply + 1, 0]),
        Sort::Extreme => random.pick(&[0, 1, 9_999, 10_000, 65_535]),
        Sort::Slow => random.pick(&[0, 5_000, 700, 100]),
        _ => match random.below(4) {
            0 => 0,
            _ => from(random, 1, 80),
        },
    };
    let extension = match sort {
        Sort::Crowded => from(random, 3, 30),
        Sort::Extreme => random.pick(&[0, 1, 29, 30]),
        _ => from(random, 0, 30),
    };
    Channel { period, reply, silent, wait, extension: extension as u8 }
}

/// A text with this fault alone.
pub fn faulty(fault: Fault, seed: u64) -> Vec<u8> {
    let mut random = Random::new(seed);
    let sort = random.pick(&SORTS);
    let mut plan = plan(sort, seed);
    let place = random.below(plan.len());
    // The five numbers of one line.
    let mut words = plan[place].to_string().trim_end().split(' ').map(str::to_string).collect::<Vec<_>>();
    let any = random.below(words.len());
    let mut between = " ";
    let mut end = "\n";
    match fault {
        Fault::Nothing => return Vec::new(),
        Fault::NoLastLf => return written(&plan).trim_end().as_bytes().to_vec(),
        Fault::LineAfterTheLast => return (written(&plan) + "\n").into_bytes(),
        Fault::SeventeenLines => {
            plan.resize(TASKS + 1, plan[place]);
            return written(&plan).into_bytes();
        }
        Fault::TooLong => return written(&plan).repeat(TASKS + 30).into_bytes(),
        Fault::NoText => return [written(&plan).as_bytes(), &[0xFF, b'\n']].concat(),
        Fault::EmptyLine => words.clear(),
        Fault::FourNumbers => _ = words.remove(any),
        Fault::SixNumbers => words.push("1".to_string()),
        Fault::TwoBlanks => between = "  ",
        Fault::BlankBefore => words[0].insert(0, ' '),
        Fault::BlankBehind => end = " \n",
        Fault::Tab => between = "\t",
        Fault::CarriageReturn => end = "\r\n",
        Fault::LeadingZero => words[any].insert(0, '0'),
        Fault::NumberMissing => words[any].clear(),
        Fault::Sign => words[any].insert(0, random.pick(&['+', '-'])),
        Fault::Letter => words[any].push(random.pick(&['a', 'F', '.', '_'])),
        Fault::TooLarge => words[random.below(4)] = "65536".to_string(),
        Fault::FarTooLarge => words[any] = random.pick(&["100000", "4294967297", "18446744073709551617"]).to_string(),
        Fault::PeriodZero => words[0] = "0".to_string(),
        Fault::ReplyZero => words[1] = "0".to_string(),
        Fault::ExtensionTooLong => words[4] = random.pick(&["31", "32", "255", "256", "65535"]).to_string(),
    }
    let line = words.join(between) + end;
    [written(&plan[..place]), line, written(&plan[place + 1..])].concat().into_bytes()
}
