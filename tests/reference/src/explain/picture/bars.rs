//! The tasks' states as bars over the lines, and their ticks.

use super::scale::{Columns, LEFT};
use super::svg::{Anchor, Path, Svg};
use crate::explain::Line;
use crate::tasks::{State, Task};

pub const ROW: f64 = 15.0;
const BAR: f64 = 10.0;
pub const TICK: &str = "fill=\"none\" stroke=\"#000000\" stroke-width=\"1.6\"";

/// What a bar shows. Of the running tasks, global time waits for those that have not ticked.
#[derive(Clone, Copy, PartialEq, Eq)]
pub enum Shown {
    Absent,
    Awaited,
    Ticked,
    Waiting,
    Viewing,
}

pub const ALL: [Shown; 5] = [Shown::Absent, Shown::Awaited, Shown::Ticked, Shown::Waiting, Shown::Viewing];

impl Shown {
    fn of(task: &Task) -> Shown {
        match task.state {
            State::Absent => Shown::Absent,
            State::Running if task.ticked => Shown::Ticked,
            State::Running => Shown::Awaited,
            State::Waiting => Shown::Waiting,
            State::Viewing => Shown::Viewing,
        }
    }

    pub fn name(self) -> &'static str {
        match self {
            Shown::Absent => "task absent",
            Shown::Awaited => "running, its tick awaited",
            Shown::Ticked => "running, ticked",
            Shown::Waiting => "waiting",
            Shown::Viewing => "viewing",
        }
    }

    pub fn style(self) -> &'static str {
        match self {
            Shown::Absent => "fill=\"#aaaaaa\"",
            Shown::Awaited => "fill=\"#2a5f9e\"",
            Shown::Ticked => "fill=\"#c3daf0\"",
            Shown::Waiting => "fill=\"url(#hatched)\" stroke=\"#7a4a00\" stroke-width=\"0.6\"",
            Shown::Viewing => "fill=\"none\" stroke=\"#2a5f9e\" stroke-width=\"1.2\"",
        }
    }

    /// Its bar in a row. An absent task has a thin one.
    pub fn bar(self, path: &mut Path, top: f64, from: f64, to: f64) {
        match self {
            Shown::Absent => path.rectangle(from, top + BAR / 2.0 - 0.5, to - from, 1.0),
            _ => path.rectangle(from, top, to - from, BAR),
        }
    }
}

/// The pattern of the waiting ones.
pub const HATCHED: &str = "<defs><pattern id=\"hatched\" width=\"5\" height=\"5\" patternUnits=\"userSpaceOnUse\">\
    <rect width=\"5\" height=\"5\" fill=\"#fff0cc\"/>\
    <path d=\"M-1 1L1 -1M0 5L5 0M4 6L6 4\" stroke=\"#7a4a00\" stroke-width=\"1.3\"/></pattern></defs>";

/// The tasks that are there at some line.
pub fn present(lines: &[Line]) -> Vec<usize> {
    let is_present = |task: &usize| lines.iter().any(|line| line.after.tasks[*task].state != State::Absent);
    (0..crate::limits::TASKS).filter(is_present).collect()
}

/// A row for each of these tasks, from `top` on.
pub fn bars(svg: &mut Svg, lines: &[Line], top: f64, tasks: &[usize]) {
    let (columns, mut paths) = (Columns(lines.len()), ALL.map(|_| Path::default()));
    for (row, &task) in tasks.iter().enumerate() {
        let top = bar_top(top, row);
        svg.text(LEFT - 8.0, top + BAR - 1.0, 11, Anchor::End, &task.to_string());
        let states: Vec<_> = lines.iter().map(|line| Shown::of(&line.after.tasks[task])).collect();
        let mut place = 0;
        for run in states.chunk_by(|a, b| a == b) {
            let end = place + run.len();
            run[0].bar(&mut paths[run[0] as usize], top, columns.edge(place), columns.edge(end));
            place = end;
        }
    }
    for (shown, path) in ALL.iter().zip(&paths) {
        svg.path(shown.style(), path);
    }
}

fn bar_top(top: f64, row: usize) -> f64 {
    top + ROW * row as f64 + (ROW - BAR) / 2.0
}

/// A mark for each tick, one a pixel at most: what a tick brings with an advance is no other bar.
pub fn ticks(svg: &mut Svg, lines: &[Line], top: f64, tasks: &[usize]) {
    let (columns, mut path) = (Columns(lines.len()), Path::default());
    for (row, &task) in tasks.iter().enumerate() {
        let is_tick = |(_, line): &(usize, &Line)| line.accepted("tick") == Some(task);
        let mut places: Vec<_> =
            lines.iter().enumerate().filter(is_tick).map(|(place, _)| columns.edge(place)).collect();
        places.dedup_by_key(|x| x.round());
        places.into_iter().for_each(|x| tick(&mut path, x, bar_top(top, row)));
    }
    svg.path(TICK, &path);
}

/// A little higher than the bar whose top this is.
pub fn tick(path: &mut Path, x: f64, top: f64) {
    path.line((x, top - 2.0), (x, top + BAR + 2.0));
}
