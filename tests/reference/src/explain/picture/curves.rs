//! The panels of figures over the lines.

use super::scale::{Columns, Panel, LEFT, RIGHT};
use super::svg::{Anchor, Path, Svg};
use super::{captions, marks, Sheet};

pub const SMALL: &str = "fill=\"none\" stroke=\"#0b3c6f\" stroke-width=\"2.2\"";
pub const LARGE: &str = "fill=\"none\" stroke=\"#d9730d\" stroke-width=\"2.2\" stroke-dasharray=\"7 3\"";
pub const EXPIRATIONS: &str = "fill=\"none\" stroke=\"#2b6b2b\" stroke-width=\"2.6\" stroke-dasharray=\"2 1\"";
pub const GLOBAL: &str = "fill=\"none\" stroke=\"#9a5cc4\" stroke-width=\"3.4\"";
pub const PINNED: &str = "fill=\"#e3c9a8\"";
pub const GRID: &str = "fill=\"none\" stroke=\"#dddddd\" stroke-width=\"1\"";
const FRAME: &str = "fill=\"none\" stroke=\"#888888\" stroke-width=\"1\"";

/// The name above a panel, and its axis with the values of its steps.
pub fn axis(svg: &mut Svg, sheet: &Sheet, panel: &Panel, name: &str) {
    svg.text(LEFT, panel.top - 8.0, 13, Anchor::Start, name);
    grid(svg, sheet, panel.top, panel.bottom());
    let mut across = Path::default();
    for value in (0..=panel.most).step_by(panel.step as usize) {
        let y = panel.y(value);
        across.line((LEFT, y), (RIGHT, y));
        svg.text(LEFT - 8.0, y + 4.0, 12, Anchor::End, &value.to_string());
    }
    svg.path(GRID, &across);
    frame(svg, panel.top, panel.height);
}

/// The lines that the axis marks, those that are refused, and those of the story.
pub fn grid(svg: &mut Svg, sheet: &Sheet, top: f64, bottom: f64) {
    let (columns, mut grid) = (Columns(sheet.lines.len()), Path::default());
    for line in columns.marks() {
        grid.line((columns.middle(line - 1), top), (columns.middle(line - 1), bottom));
    }
    svg.path(GRID, &grid);
    marks::through(svg, sheet.lines, top, bottom);
    captions::through(svg, sheet, top, bottom);
}

pub fn frame(svg: &mut Svg, top: f64, height: f64) {
    let mut frame = Path::default();
    frame.rectangle(LEFT, top, RIGHT - LEFT, height);
    svg.path(FRAME, &frame);
}

/// Where labels may go past the right end.
pub fn baseline(svg: &mut Svg, y: f64) {
    let mut line = Path::default();
    line.line((LEFT, y), (RIGHT, y));
    svg.path(FRAME, &line);
}

/// One figure: after each line the value that it has then.
pub fn curve(svg: &mut Svg, panel: &Panel, style: &str, values: impl ExactSizeIterator<Item = u64>) {
    svg.path(style, &steps(panel, values).unwrap_or_default());
}

/// The same, filled down to 0; nothing where it never is more.
pub fn area(svg: &mut Svg, panel: &Panel, style: &str, values: impl ExactSizeIterator<Item = u64> + Clone) {
    if values.clone().all(|value| value == 0) {
        return;
    }
    let mut path = steps(panel, values).unwrap_or_default();
    path.along(panel.bottom());
    path.across(LEFT);
    svg.path(style, &path);
}

/// From the left end to the right one; none where there is no value.
fn steps(panel: &Panel, values: impl ExactSizeIterator<Item = u64>) -> Option<Path> {
    let (columns, mut path, mut former) = (Columns(values.len()), Path::default(), None);
    for (place, value) in values.enumerate() {
        match former {
            None => path.go('M', (LEFT, panel.y(value))),
            Some(former) if former != value => {
                path.across(columns.edge(place));
                path.along(panel.y(value));
            }
            Some(_) => {}
        }
        former = Some(value);
    }
    path.across(RIGHT);
    former.map(|_| path)
}
