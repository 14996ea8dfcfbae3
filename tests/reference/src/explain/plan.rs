//! A cable plan in words: what each channel is told to do, and what came of it.

use super::phrases::counted;
use crate::limits::Limits;
use crate::plan::{Channel, Figures, Run, Turn, STEPS};

/// What a plan's run was, from step 0 to 9,999.
pub struct Course {
    pub lanes: Vec<Lane>,
    /// How many small blocks are in use after each step.
    pub blocks: Vec<u64>,
}

/// What a channel did, by steps.
pub struct Lane {
    pub channel: Channel,
    pub figures: Figures,
    /// From the step in which a poll began to that in which it ended, or to the run's end.
    pub polls: Vec<(u32, u32)>,
    pub replies: Vec<u32>,
    pub give_ups: Vec<u32>,
    pub refusals: Vec<u32>,
}

impl Course {
    pub fn of(plan: &[Channel]) -> Course {
        let mut run = Run::of(plan);
        let mut course =
            Course { lanes: run.tracks.iter().map(|track| Lane::of(track.channel)).collect(), blocks: Vec::new() };
        for step in 0..STEPS {
            let turns = run.step();
            course.lanes.iter_mut().zip(turns).for_each(|(lane, turn)| lane.note(step, turn));
            course.blocks.push(run.ledger.usage().small as u64);
        }
        course.lanes.iter_mut().zip(run.figures()).for_each(|(lane, figures)| lane.figures = figures);
        course
    }

    /// The most blocks in use, and the first step after which they are.
    pub fn peak(&self) -> (u64, usize) {
        let most = self.blocks.iter().copied().max().unwrap_or(0);
        (most, self.blocks.iter().position(|&blocks| blocks == most).unwrap_or(0))
    }

    pub fn title(&self) -> String {
        format!("A cable plan of {}, steps 0 to {}", counted(self.lanes.len(), "channel"), STEPS - 1)
    }

    /// All channels, and the blocks.
    pub fn in_words(&self) -> String {
        let mut text = self.title() + "\n";
        for (task, lane) in self.lanes.iter().enumerate() {
            text += &format!("channel {task}: {}\n    {}\n", lane.orders(), lane.outcome());
        }
        let (most, step) = self.peak();
        text + &format!(
            "small blocks in use: at most {most} of {}, first after step {step}\n",
            Limits::STANDARD.small_blocks
        )
    }
}

impl Lane {
    fn of(channel: Channel) -> Lane {
        let figures = Figures { replies: 0, give_ups: 0, refusals: 0, open: 0 };
        let none = Vec::new;
        Lane { channel, figures, polls: Vec::new(), replies: none(), give_ups: none(), refusals: none() }
    }

    fn note(&mut self, step: u32, turn: Turn) {
        match turn {
            Turn::Rested => return,
            Turn::Begun => return self.polls.push((step, STEPS)),
            Turn::Refused => return self.refusals.push(step),
            Turn::Replied => self.replies.push(step),
            Turn::GaveUp => self.give_ups.push(step),
        }
        if let Some((_, end)) = self.polls.last_mut() {
            *end = step;
        }
    }

    /// The numbers of the plan.
    pub fn orders(&self) -> String {
        let Channel { period, reply, silent, wait, extension } = self.channel;
        let silence =
            if u32::from(silent) < STEPS { format!("silent from {silent}") } else { "never silent".to_string() };
        let end = if wait == 0 { "never gives up".to_string() } else { format!("gives up after {wait}") };
        format!("polls every {period}, reply after {reply}, {silence}, {end}, extension {extension}")
    }

    /// Its four figures, and since when a poll is open.
    pub fn outcome(&self) -> String {
        let Figures { replies, give_ups, refusals, open } = self.figures;
        let since =
            self.polls.last().filter(|_| open > 0).map_or(String::new(), |(begun, _)| format!(" since {begun}"));
        let replies = if replies == 1 { "1 reply".to_string() } else { format!("{replies} replies") };
        let (give_ups, refusals) = (counted(give_ups as usize, "give-up"), counted(refusals as usize, "refusal"));
        format!("{replies}, {give_ups}, {refusals}, {open} open{since}")
    }
}
