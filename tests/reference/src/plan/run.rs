//! A plan under way: the ledger, and of each channel the poll that is open and what was counted.

use super::Channel;
use crate::call::{Accepted, Answer, Call, Kind, Model};
use crate::ledger::Ledger;
use crate::limits::LONGEST_SMALL;
use crate::share::{Quota, Share};

/// G3: what all join with.
const SHARE: Share = Share { small: Quota { reserve: 0, limit: 64 }, large: Quota { reserve: 0, limit: 32 } };

/// The step in which it began, and the handle of what was made.
#[derive(Clone, Copy, Debug, PartialEq, Eq)]
pub struct Poll {
    pub begun: u32,
    pub handle: u32,
}

/// G4: a channel under way.
#[derive(Clone, Copy, Debug, PartialEq, Eq)]
pub struct Track {
    pub channel: Channel,
    pub poll: Option<Poll>,
    pub replies: u32,
    pub give_ups: u32,
    pub refusals: u32,
    /// The turns that it began with no poll open at a step divisible by p: counted apart from the others.
    pub turns: u32,
}

/// What a channel did in its turn.
#[derive(Clone, Copy, Debug, PartialEq, Eq)]
pub enum Turn {
    Rested,
    Begun,
    Refused,
    Replied,
    GaveUp,
}

/// G10.
#[derive(Clone, Copy, Debug, PartialEq, Eq)]
pub struct Figures {
    pub replies: u32,
    pub give_ups: u32,
    pub refusals: u32,
    pub open: u32,
}

impl Figures {
    pub fn sum(self) -> u32 {
        self.replies + self.give_ups + self.refusals + self.open
    }
}

/// G9: a plan so many steps on.
#[derive(Clone, Debug, PartialEq, Eq)]
pub struct Run {
    pub ledger: Ledger,
    pub tracks: Vec<Track>,
    /// The next one.
    pub step: u32,
    /// The calls that were refused, but for makes. G12: there are none.
    pub refused: u32,
}

impl Run {
    /// G3: before step 0. Channel i is task i.
    pub fn of(plan: &[Channel]) -> Run {
        let track = |&channel| Track { channel, poll: None, replies: 0, give_ups: 0, refusals: 0, turns: 0 };
        let tracks: Vec<_> = plan.iter().map(track).collect();
        let mut run = Run { ledger: Ledger::fresh(), tracks, step: 0, refused: 0 };
        (0..plan.len()).for_each(|task| run.call(Call::Join { task: task as u8, share: SHARE }));
        run
    }

    /// G8: all channels have their turn, in the order of their tasks. Tells what each did.
    pub fn step(&mut self) -> Vec<Turn> {
        let turns = (0..self.tracks.len()).map(|task| self.turn(task as u8)).collect();
        self.step += 1;
        turns
    }

    pub fn figures(&self) -> Vec<Figures> {
        self.tracks.iter().map(Track::figures).collect()
    }

    /// G5: at most one of these.
    fn turn(&mut self, task: u8) -> Turn {
        let (Track { channel, poll, .. }, step) = (*self.track(task), self.step);
        match poll {
            None if step.is_multiple_of(u32::from(channel.period)) => self.begin(task, channel),
            Some(poll) if channel.is_replied(poll, step) => self.reply(task, poll),
            Some(poll) if channel.gives_up(poll, step) => self.give_up(task),
            _ => Turn::Rested,
        }
    }

    /// G6: 32 bytes with an own date and head 0; then it blocks. A refused make is counted, and the channel ticks.
    fn begin(&mut self, task: u8, channel: Channel) -> Turn {
        self.track(task).turns += 1;
        let (length, extension) = (LONGEST_SMALL, channel.extension);
        match self.ledger.make(task, Kind::Local, extension, length, 0) {
            Ok(Accepted::Handle(handle)) => {
                self.track(task).poll = Some(Poll { begun: self.step, handle });
                self.call(Call::Block { task });
                Turn::Begun
            }
            _ => {
                self.track(task).refusals += 1;
                self.call(Call::Tick { task });
                Turn::Refused
            }
        }
    }

    fn reply(&mut self, task: u8, poll: Poll) -> Turn {
        self.call(Call::Resume { task });
        self.call(Call::Write { task, handle: poll.handle, offset: 0, bytes: &[1] });
        self.call(Call::Tick { task });
        self.track(task).poll = None;
        self.track(task).replies += 1;
        Turn::Replied
    }

    fn give_up(&mut self, task: u8) -> Turn {
        self.call(Call::Resume { task });
        self.call(Call::Tick { task });
        self.track(task).poll = None;
        self.track(task).give_ups += 1;
        Turn::GaveUp
    }

    fn track(&mut self, task: u8) -> &mut Track {
        &mut self.tracks[usize::from(task)]
    }

    /// A call that is not refused, by G12.
    fn call(&mut self, call: Call) {
        let answer: Answer = self.ledger.call(&call);
        self.refused += u32::from(answer.is_err());
    }
}

impl Channel {
    /// r steps after it began, if that step is before s.
    fn is_replied(self, poll: Poll, step: u32) -> bool {
        step == poll.begun + u32::from(self.reply) && step < u32::from(self.silent)
    }

    /// w steps after it began; never where w is 0.
    fn gives_up(self, poll: Poll, step: u32) -> bool {
        self.wait != 0 && step == poll.begun + u32::from(self.wait)
    }
}

impl Track {
    pub fn figures(&self) -> Figures {
        let Track { replies, give_ups, refusals, .. } = *self;
        Figures { replies, give_ups, refusals, open: u32::from(self.poll.is_some()) }
    }
}
