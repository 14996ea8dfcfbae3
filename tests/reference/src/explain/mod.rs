//! A script in words, as a picture and as a table: what each line asks and is told, why a call is refused and what would
//! have been needed, for whom global time waits, and when and with what an object went; all of it summed up, with the room
//! that the script needs. And a cable plan, in words and as a picture.

mod answers;
mod frames;
mod phrases;
mod picture;
mod plan;
mod refusals;
mod room;
mod story;
mod summary;
mod table;
mod trail;
mod watch;

use crate::call::{Call, Figures, Refusal};
use crate::frame::decode;
use crate::ledger::Usage;
use crate::limits::{Limits, TASKS};
use crate::script::lines;
use crate::tasks::Task;
pub use picture::{picture, plan_picture};
pub use plan::Course;
pub use story::Story;
pub use summary::summary;
pub use table::table;
use watch::Watch;

/// One line of a script, carried out.
pub struct Line {
    pub words: String,
    /// None where the frame yields no call.
    pub asked: Option<Asked>,
    pub refusal: Option<Refusal>,
    pub after: Moment,
}

/// Who calls, and for what.
pub struct Asked {
    pub task: Option<u8>,
    pub operation: &'static str,
}

/// What stands after a line.
pub struct Moment {
    pub figures: Figures,
    /// Order 11: what would stand with no reserve, no limit and room for all.
    pub roomy: Usage,
    /// How many of the objects are pinned.
    pub pinned: Pinned,
    /// How many of the objects each task has made since it joined.
    pub held: [u8; TASKS],
    pub global: u64,
    pub tasks: [Task; TASKS],
}

#[derive(Clone, Copy, Default)]
pub struct Pinned {
    pub small: u8,
    pub large: u8,
}

impl Line {
    /// The number of its answer.
    pub fn number(&self) -> u8 {
        self.refusal.map_or(0, |refusal| refusal as u8)
    }

    /// The task whose call of this name is accepted here.
    fn accepted(&self, operation: &str) -> Option<usize> {
        let asked = self.asked.as_ref().filter(|asked| self.refusal.is_none() && asked.operation == operation)?;
        asked.task.map(usize::from)
    }
}

/// Carries out a script on a fresh ledger of these figures.
pub fn explain(limits: Limits, script: &[u8]) -> Vec<Line> {
    let mut watch = Watch::of(limits);
    let mut room = vec![0; script.len() / 2];
    lines(script).map(|line| one(&mut watch, line, &mut room)).collect()
}

fn one(watch: &mut Watch, line: &[u8], room: &mut [u8]) -> Line {
    watch.line += 1;
    let (words, asked, refusal) = match decode(line, room) {
        Err(refusal) => (frames::refused(line, refusal), None, Some(refusal)),
        Ok(call) => {
            let (words, refusal) = carry_out(watch, &call);
            (words, Some(Asked { task: call.task(), operation: frames::operation(&call) }), refusal)
        }
    };
    Line { words, asked, refusal, after: watch.moment() }
}

fn carry_out(watch: &mut Watch, call: &Call) -> (String, Option<Refusal>) {
    let (told, refusal) = match watch.call(call) {
        Ok(change) => (answers::told(watch, call, &change), None),
        Err(refusal) => (refusals::reason(watch, call, refusal), Some(refusal)),
    };
    debug_assert!(watch.trail.handles().eq(watch.ledger.handles()), "the trail has the ledger's objects");
    (format!("{}: {told}", answers::asked(call)), refusal)
}

/// All lines in words, each with its number and with what became of it.
pub fn in_words(lines: &[Line]) -> String {
    let width = lines.len().to_string().len();
    let mut text = String::new();
    for (number, line) in (1..).zip(lines) {
        let answer = line.refusal.map_or("done".into(), |refusal| format!("refused {}", refusal as u8));
        text += &format!("{number:width$}  {answer:10}  {}\n", line.words);
    }
    text
}
