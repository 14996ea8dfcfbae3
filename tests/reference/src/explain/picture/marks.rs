//! Refusals: a cross for each, and words for them; where there is no room for words, numbers.

use super::scale::Columns;
use super::svg::{text_width, Anchor, Path, Svg, WIDTH};
use crate::call::Refusal;
use crate::explain::summary::times;
use crate::explain::Line;

pub const CROSS: &str = "fill=\"none\" stroke=\"#b00020\" stroke-width=\"2\"";
const THROUGH: &str = "fill=\"none\" stroke=\"#b00020\" stroke-width=\"0.7\" stroke-opacity=\"0.45\"";
const SIZE: u32 = 11;
/// Between two labels, and between two rows of them.
const GAP: f64 = 6.0;
const ROW: f64 = 15.0;
/// The most rows of words.
const ROWS: usize = 3;
/// The most numbers of a label.
const MOST: usize = 2;
/// The most lines through a panel.
const MOST_THROUGH: usize = 80;

/// Refusals that have one label: lines in a row are refused with one number, or there is no room for two.
struct Label {
    start: f64,
    /// The place of the last one's line, from 0.
    last: usize,
    count: usize,
    refusals: Vec<Refusal>,
}

impl Label {
    /// `12 x refusal 9: no free block`, of a label that has one number.
    fn words(&self) -> String {
        times(self.count, self.refusals[0])
    }

    /// `9`, `9 x 12` for twelve of them, or the first of several numbers.
    fn numbers(&self) -> String {
        match self.refusals[..] {
            [number] if self.count == 1 => (number as u8).to_string(),
            [number] => format!("{} x {}", self.count, number as u8),
            _ => {
                let first: Vec<_> = self.refusals.iter().take(MOST).map(|&one| (one as u8).to_string()).collect();
                first.join(", ") + if self.refusals.len() > MOST { ", ..." } else { "" }
            }
        }
    }

    /// Whether the next refused line is in a row with these.
    fn goes_on(&self, place: usize, refusal: Refusal) -> bool {
        self.last + 1 == place && self.refusals == [refusal]
    }

    fn is_near(&self, start: f64) -> bool {
        start < self.start + text_width(&self.numbers(), SIZE) + GAP
    }

    /// A number stands once.
    fn add(&mut self, place: usize, refusal: Refusal) {
        (self.last, self.count) = (place, self.count + 1);
        if !self.refusals.contains(&refusal) {
            self.refusals.push(refusal);
        }
    }
}

/// The places of the refused lines, from 0, and the refusals.
fn refusals(lines: &[Line]) -> impl Iterator<Item = (usize, Refusal)> + '_ {
    lines.iter().enumerate().filter_map(|(place, line)| Some((place, line.refusal?)))
}

/// From left to right; those that are near each other have one where it is asked for.
fn labels(lines: &[Line], join_near: bool) -> Vec<Label> {
    let (columns, mut labels) = (Columns(lines.len()), Vec::<Label>::new());
    for (place, refusal) in refusals(lines) {
        let start = columns.middle(place) - text_width("9", SIZE) / 2.0;
        match labels.last_mut() {
            Some(label) if label.goes_on(place, refusal) || (join_near && label.is_near(start)) => {
                label.add(place, refusal);
            }
            _ => labels.push(Label { start, last: place, count: 1, refusals: vec![refusal] }),
        }
    }
    labels
}

/// A text with its left end and its row.
struct Placed {
    start: f64,
    row: usize,
    words: String,
}

/// The labels: in words, each in the first row that has room for it, or else in numbers; and the name above them.
pub struct Labels {
    pub name: String,
    placed: Vec<Placed>,
}

impl Labels {
    pub fn of(lines: &[Line]) -> Labels {
        match in_words(lines) {
            Some(placed) => Labels { name: "Refusals (number)".into(), placed },
            None => Labels { name: format!("Refusals (number): {}", commonest(lines)), placed: in_numbers(lines) },
        }
    }

    /// How high they are, with the crosses.
    pub fn height(&self) -> f64 {
        19.0 + ROW * (1 + self.placed.iter().map(|label| label.row).max().unwrap_or(0)) as f64
    }
}

/// None where there is no room.
fn in_words(lines: &[Line]) -> Option<Vec<Placed>> {
    let (mut ends, mut placed) = ([0.0; ROWS], Vec::new());
    for label in labels(lines, false) {
        let words = label.words();
        let width = text_width(&words, SIZE);
        let start = label.start.min(WIDTH - GAP - width);
        let row = ends.iter().position(|&end| end <= start)?;
        ends[row] = start + width + GAP;
        placed.push(Placed { start, row, words });
    }
    Some(placed)
}

fn in_numbers(lines: &[Line]) -> Vec<Placed> {
    let labels = labels(lines, true).into_iter();
    labels.map(|label| Placed { start: label.start, row: 0, words: label.numbers() }).collect()
}

/// The two refusals that come most often, in words.
fn commonest(lines: &[Line]) -> String {
    let mut all: Vec<_> = refusals(lines).map(|(_, refusal)| refusal).collect();
    all.sort_by_key(|&refusal| refusal as u8);
    let mut counts: Vec<_> = all.chunk_by(|a, b| a == b).map(|same| (same.len(), same[0])).collect();
    counts.sort_by_key(|&(count, _)| std::cmp::Reverse(count));
    let words: Vec<_> = counts.iter().take(MOST).map(|&(count, refusal)| times(count, refusal)).collect();
    words.join(", ") + if counts.len() > MOST { ", ..." } else { "" }
}

/// The places of the crosses, one a pixel at most.
fn places(lines: &[Line]) -> Vec<f64> {
    let columns = Columns(lines.len());
    let mut places: Vec<f64> = refusals(lines).map(|(place, _)| columns.middle(place)).collect();
    places.dedup_by_key(|x| x.round());
    places
}

/// Thin lines through a panel, unless they are so many that they hide it.
pub fn through(svg: &mut Svg, lines: &[Line], top: f64, bottom: f64) {
    let (places, mut path) = (places(lines), Path::default());
    if places.len() <= MOST_THROUGH {
        places.into_iter().for_each(|x| path.line((x, top), (x, bottom)));
    }
    svg.path(THROUGH, &path);
}

/// The row of crosses, and below it the labels.
pub fn crosses(svg: &mut Svg, lines: &[Line], labels: &Labels, y: f64) {
    let mut path = Path::default();
    places(lines).into_iter().for_each(|x| path.cross((x, y)));
    svg.path(CROSS, &path);
    for Placed { start, row, words } in &labels.placed {
        svg.text(*start, y + 18.0 + ROW * *row as f64, SIZE, Anchor::Start, words);
    }
}
