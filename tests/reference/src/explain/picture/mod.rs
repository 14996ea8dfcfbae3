//! A script or a plan as a picture: an SVG file that needs nothing else, made for a width of 1,000 pixels.

mod bars;
mod captions;
mod curves;
mod legend;
mod marks;
mod plan;
mod room;
mod scale;
mod svg;

use super::phrases::counted;
use super::room::needs;
use super::story::Story;
use super::summary::{peaks, refusals, room, standstill, title};
use super::Line;
use crate::limits::Limits;
use bars::{bars, present, ticks, HATCHED, ROW};
use curves::{area, axis, baseline, curve, frame, grid, EXPIRATIONS, GLOBAL, LARGE, PINNED, SMALL};
use marks::Labels;
pub use plan::plan_picture;
use scale::{Columns, Panel, LEFT, RIGHT};
use svg::{Anchor, Svg};

/// From a panel's end to the top of the next one: room for its name.
const APART: f64 = 34.0;

/// What a picture is made of.
pub struct Sheet<'a> {
    lines: &'a [Line],
    story: &'a Story,
}

/// Standing objects, expirations and global time after each line, the room that is needed, the tasks' states, and the
/// refusals. The figures are those of the script's pool; the story's lines are lines of the script.
pub fn picture(limits: Limits, story: &Story, lines: &[Line]) -> String {
    let (mut svg, sheet) = (Svg::default(), Sheet { lines, story });
    svg.raw(HATCHED);
    let bottom = head(&mut svg, &sheet);
    let bottom = figures(&mut svg, limits, &sheet, bottom + 30.0);
    let bottom = tasks(&mut svg, bottom + APART, &sheet);
    let bottom = refused(&mut svg, bottom + APART, lines);
    let height = line_axis(&mut svg, Columns(lines.len()), bottom);
    svg.finish(height, &heading(&sheet), &description(limits, &sheet))
}

/// The story's title, or what can be said of any script.
fn heading(sheet: &Sheet) -> String {
    if sheet.story.title.is_empty() {
        return title(sheet.lines);
    }
    sheet.story.title.clone()
}

/// The picture for who does not see it.
fn description(limits: Limits, sheet: &Sheet) -> String {
    let mut sentences = vec![title(sheet.lines)];
    sentences.extend(sheet.story.captions.iter().map(|caption| format!("Line {}: {}", caption.line, caption.words)));
    sentences.extend(peaks(limits, sheet.lines));
    sentences.extend(room(limits, sheet.lines));
    sentences.extend(refusals(sheet.lines));
    sentences.push(standstill(sheet.lines));
    sentences.join(".\n") + "."
}

/// Titles, captions, the legend and the captions' numbers. This and the next ones give where they end.
fn head(svg: &mut Svg, sheet: &Sheet) -> f64 {
    let mut bottom = 28.0;
    svg.text(LEFT, bottom, 18, Anchor::Start, &heading(sheet));
    if !sheet.story.title.is_empty() {
        bottom += 20.0;
        svg.text(LEFT, bottom, 13, Anchor::Start, &title(sheet.lines));
    }
    svg.group("story", |svg| bottom = captions::captions(svg, sheet, bottom + 8.0));
    svg.group("legend", |svg| bottom = legend::legend(svg, bottom + 16.0));
    svg.group("marks", |svg| bottom = captions::numbers(svg, sheet, bottom + 4.0));
    bottom
}

/// The four panels of figures, from `top` on, with the room that the script needs under three of them.
fn figures(svg: &mut Svg, limits: Limits, sheet: &Sheet, top: f64) -> f64 {
    let after = || sheet.lines.iter().map(|line| &line.after);
    let small = || after().map(|after| u64::from(after.figures.small));
    let large = || after().map(|after| u64::from(after.figures.large));
    let expirations = || after().map(|after| u64::from(after.figures.expirations));
    let global = || after().map(|after| after.global);
    let [small_need, large_need, expirations_need] = needs(limits, sheet.lines);
    let columns = Columns(sheet.lines.len());

    let mut bottom = top;
    let panel = Panel::within(top, 128.0, most(small()), limits.small_blocks);
    svg.group("small-objects", |svg| {
        axis(svg, sheet, &panel, &reached("Small objects (count)", most(small()), limits.small_blocks));
        area(svg, &panel, PINNED, after().map(|after| after.pinned.small.into()));
        curve(svg, &panel, SMALL, small());
        bottom = room::under(svg, &panel, columns, &small_need);
    });

    let panel = Panel::within(bottom + APART, 64.0, most(large()), limits.large_blocks);
    svg.group("large-objects", |svg| {
        axis(svg, sheet, &panel, &reached("Large objects (count)", most(large()), limits.large_blocks));
        area(svg, &panel, PINNED, after().map(|after| after.pinned.large.into()));
        curve(svg, &panel, LARGE, large());
        bottom = room::under(svg, &panel, columns, &large_need);
    });

    let panel = Panel::within(bottom + APART, 80.0, most(expirations()), limits.expirations);
    svg.group("expirations", |svg| {
        axis(svg, sheet, &panel, &reached("Expirations (count)", most(expirations()), limits.expirations));
        curve(svg, &panel, EXPIRATIONS, expirations());
        bottom = room::under(svg, &panel, columns, &expirations_need);
    });

    let panel = Panel::up_to(bottom + APART, 64.0, most(global()));
    svg.group("global-time", |svg| {
        axis(svg, sheet, &panel, "Global time (advances)");
        curve(svg, &panel, GLOBAL, global());
    });
    panel.bottom()
}

fn most(values: impl Iterator<Item = u64>) -> u64 {
    values.max().unwrap_or(0)
}

/// The name of a panel, with what is reached of a limit.
fn reached(name: &str, most: u64, limit: usize) -> String {
    format!("{name}: at most {most} of {limit}")
}

fn tasks(svg: &mut Svg, top: f64, sheet: &Sheet) -> f64 {
    let tasks = present(sheet.lines);
    let height = ROW * tasks.len().max(1) as f64;
    let name = match tasks.len() {
        0 => "Tasks (number): none joins".into(),
        count => format!("Tasks (number): the states of {}", counted(count, "task")),
    };
    svg.group("tasks", |svg| {
        svg.text(LEFT, top - 8.0, 13, Anchor::Start, &name);
        grid(svg, sheet, top, top + height);
        bars(svg, sheet.lines, top, &tasks);
        captions::through(svg, sheet, top, top + height);
        ticks(svg, sheet.lines, top, &tasks);
        frame(svg, top, height);
    });
    top + height
}

fn refused(svg: &mut Svg, top: f64, lines: &[Line]) -> f64 {
    let labels = Labels::of(lines);
    svg.group("refusals", |svg| {
        svg.text(LEFT, top - 8.0, 13, Anchor::Start, &labels.name);
        marks::crosses(svg, lines, &labels, top + 10.0);
        baseline(svg, top + labels.height());
    });
    top + labels.height()
}

fn line_axis(svg: &mut Svg, columns: Columns, top: f64) -> f64 {
    svg.group("lines", |svg| {
        for line in columns.marks() {
            svg.text(columns.middle(line - 1), top + 16.0, 12, Anchor::Middle, &line.to_string());
        }
        svg.text((LEFT + RIGHT) / 2.0, top + 36.0, 13, Anchor::Middle, "Line of the script (number)");
    });
    top + 48.0
}
