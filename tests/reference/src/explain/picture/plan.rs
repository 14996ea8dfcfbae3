//! A cable plan as a picture: the blocks in use, and of each channel the open polls as bars with rows of marks under them, over
//! the steps.

use super::curves::{curve, frame, GRID, SMALL};
use super::legend::item;
use super::scale::{Columns, Panel, LEFT, RIGHT};
use super::svg::{Anchor, Path, Svg};
use crate::explain::plan::{Course, Lane};
use crate::limits::Limits;
use crate::plan::STEPS;

const OPEN: &str = "fill=\"url(#hatched)\" stroke=\"#7a4a00\" stroke-width=\"0.6\"";
const REPLIES: &str = "fill=\"none\" stroke=\"#2a5f9e\" stroke-width=\"1.2\"";
const GIVE_UPS: &str = "fill=\"none\" stroke=\"#d9730d\" stroke-width=\"1.2\"";
const REFUSALS: &str = "fill=\"none\" stroke=\"#b00020\" stroke-width=\"1.2\"";

/// Of a lane: its words, its bar, and three rows of marks.
const WORDS: f64 = 15.0;
const BAR: f64 = 9.0;
const MARK: f64 = 5.0;
const ROW: f64 = 6.0;
const LANE: f64 = WORDS + BAR + 3.0 * ROW + 10.0;

/// The steps of which a column of the blocks' panel shows the most.
const TOGETHER: usize = 10;

const AXIS: Columns = Columns(STEPS as usize);

pub fn plan_picture(course: &Course) -> String {
    let mut svg = Svg::default();
    svg.raw(super::HATCHED);
    svg.text(LEFT, 28.0, 18, Anchor::Start, &course.title());
    svg.group("legend", |svg| legend(svg, 50.0));
    let mut bottom = blocks(&mut svg, course, 96.0) + 22.0;
    svg.group("channels", |svg| {
        for (task, lane) in course.lanes.iter().enumerate() {
            channel(svg, task, lane, bottom);
            bottom += LANE;
        }
    });
    svg.group("steps", |svg| steps(svg, bottom));
    svg.finish(bottom + 40.0, &course.title(), &course.in_words().replace('\n', ".\n"))
}

fn legend(svg: &mut Svg, y: f64) {
    let mut bar = Path::default();
    bar.rectangle(LEFT, y - BAR / 2.0, 28.0, BAR);
    let mut x = item(svg, LEFT, y, OPEN, &bar, "poll open");
    for (style, name) in
        [(REPLIES, "reply (first row)"), (GIVE_UPS, "give-up (second row)"), (REFUSALS, "refusal (third row)")]
    {
        let mut mark = Path::default();
        [6.0, 14.0, 22.0].iter().for_each(|place| mark.line((x + place, y - MARK / 2.0), (x + place, y + MARK / 2.0)));
        x = item(svg, x, y, style, &mark, name);
    }
}

/// The panel of blocks. Gives where it ends.
fn blocks(svg: &mut Svg, course: &Course, top: f64) -> f64 {
    let ((most, _), limit) = (course.peak(), Limits::STANDARD.small_blocks);
    let panel = Panel::within(top, 110.0, most, limit);
    svg.group("blocks", |svg| {
        let name = format!("Small blocks in use (the most of each {TOGETHER} steps): at most {most} of {limit}");
        svg.text(LEFT, top - 8.0, 13, Anchor::Start, &name);
        let mut grid = Path::default();
        for value in (0..=panel.most).step_by(panel.step as usize) {
            grid.line((LEFT, panel.y(value)), (RIGHT, panel.y(value)));
            svg.text(LEFT - 8.0, panel.y(value) + 4.0, 12, Anchor::End, &value.to_string());
        }
        marks().for_each(|step| grid.line((AXIS.edge(step), top), (AXIS.edge(step), panel.bottom())));
        svg.path(GRID, &grid);
        let values = course.blocks.chunks(TOGETHER).map(|together| together.iter().copied().max().unwrap_or(0));
        curve(svg, &panel, SMALL, values);
        frame(svg, top, panel.height);
    });
    panel.bottom()
}

/// Its numbers and its figures, and under them what it did.
fn channel(svg: &mut Svg, task: usize, lane: &Lane, top: f64) {
    svg.text(LEFT - 8.0, top + WORDS + BAR - 1.0, 12, Anchor::End, &task.to_string());
    svg.text(LEFT, top + WORDS - 5.0, 10, Anchor::Start, &format!("{}: {}", lane.orders(), lane.outcome()));
    let top = top + WORDS;
    let mut bars = Path::default();
    for (from, to) in merged(&lane.polls) {
        bars.rectangle(from, top, to - from, BAR);
    }
    svg.path(OPEN, &bars);
    let rows = [(REPLIES, &lane.replies), (GIVE_UPS, &lane.give_ups), (REFUSALS, &lane.refusals)];
    for (row, (style, at)) in rows.into_iter().enumerate() {
        row_of_marks(svg, style, at, top + BAR + 2.0 + ROW * row as f64);
    }
}

/// Bars with less than half a pixel between are one.
fn merged(polls: &[(u32, u32)]) -> Vec<(f64, f64)> {
    let mut bars: Vec<(f64, f64)> = Vec::new();
    for &(begun, ended) in polls {
        let (from, to) = (AXIS.edge(begun as usize), AXIS.edge(ended as usize));
        match bars.last_mut() {
            Some((_, end)) if from - *end < 0.5 => *end = to,
            _ => bars.push((from, to)),
        }
    }
    bars
}

/// One a pixel at most.
fn row_of_marks(svg: &mut Svg, style: &str, at: &[u32], top: f64) {
    let mut places: Vec<_> = at.iter().map(|&step| AXIS.edge(step as usize)).collect();
    places.dedup_by_key(|x| x.round());
    let mut path = Path::default();
    places.into_iter().for_each(|x| path.line((x, top), (x, top + MARK)));
    svg.path(style, &path);
}

/// The steps that the axis marks, and the end.
fn marks() -> impl Iterator<Item = usize> {
    std::iter::once(0).chain(AXIS.marks())
}

fn steps(svg: &mut Svg, top: f64) {
    let mut line = Path::default();
    line.line((LEFT, top), (RIGHT, top));
    for step in marks() {
        line.line((AXIS.edge(step), top), (AXIS.edge(step), top + 4.0));
        svg.text(AXIS.edge(step), top + 16.0, 12, Anchor::Middle, &step.to_string());
    }
    svg.path(GRID, &line);
    svg.text((LEFT + RIGHT) / 2.0, top + 34.0, 13, Anchor::Middle, "Step (number)");
}
