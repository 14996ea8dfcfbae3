//! The story of a picture: its captions in a list, and for each a number and a dashed line at its line of the script.

use super::scale::{Columns, LEFT, RIGHT};
use super::svg::{Anchor, Path, Svg};
use super::Sheet;

const CIRCLE: &str = "fill=\"#ffffff\" stroke=\"#222222\" stroke-width=\"1.2\"";
const DASHED: &str = "fill=\"none\" stroke=\"#222222\" stroke-width=\"1\" stroke-dasharray=\"4 3\"";
const STEM: &str = "fill=\"none\" stroke=\"#222222\" stroke-width=\"1\"";
const RADIUS: f64 = 8.0;
/// From one number to the next: at least so much.
const APART: f64 = 2.0 * RADIUS + 3.0;
const ROW: f64 = 19.0;

/// The list, from `y` on. Gives where it ends.
pub fn captions(svg: &mut Svg, sheet: &Sheet, y: f64) -> f64 {
    for (place, caption) in sheet.story.captions.iter().enumerate() {
        let middle = y + ROW * (place as f64 + 0.5);
        number(svg, LEFT + RADIUS, middle, place);
        let words = format!("line {}: {}", caption.line, caption.words);
        svg.text(LEFT + 2.0 * RADIUS + 8.0, middle + 4.5, 13, Anchor::Start, &words);
    }
    y + ROW * sheet.story.captions.len() as f64
}

/// The numbers above the panels, each with a stem that leads to its line. Gives where they end.
pub fn numbers(svg: &mut Svg, sheet: &Sheet, y: f64) -> f64 {
    let lines = places(sheet);
    if lines.is_empty() {
        return y;
    }
    let mut stems = Path::default();
    for (place, (x, &line)) in spread(&lines).into_iter().zip(&lines).enumerate() {
        number(svg, x, y + RADIUS, place);
        stems.line((x, y + 2.0 * RADIUS), (line, y + 2.0 * RADIUS + 6.0));
    }
    svg.path(STEM, &stems);
    y + 2.0 * RADIUS + 6.0
}

/// Dashed lines through a panel.
pub fn through(svg: &mut Svg, sheet: &Sheet, top: f64, bottom: f64) {
    let mut path = Path::default();
    places(sheet).into_iter().for_each(|x| path.line((x, top), (x, bottom)));
    svg.path(DASHED, &path);
}

/// Where the lines of the captions are, from left to right.
fn places(sheet: &Sheet) -> Vec<f64> {
    let columns = Columns(sheet.lines.len());
    sheet.story.captions.iter().map(|caption| columns.middle(caption.line - 1)).collect()
}

/// The same, so far apart that no number hides another: first to the right, then back where the last ones are outside.
fn spread(places: &[f64]) -> Vec<f64> {
    let (mut spread, mut least) = (places.to_vec(), LEFT);
    for x in &mut spread {
        *x = x.max(least);
        least = *x + APART;
    }
    let mut most = RIGHT;
    for x in spread.iter_mut().rev() {
        *x = x.min(most);
        most = *x - APART;
    }
    spread
}

fn number(svg: &mut Svg, x: f64, y: f64, place: usize) {
    svg.circle(CIRCLE, (x, y), RADIUS);
    svg.text(x, y + 4.0, 11, Anchor::Middle, &(place + 1).to_string());
}

#[cfg(test)]
mod tests {
    use super::*;

    #[test]
    fn numbers_are_apart() {
        assert_eq!(spread(&[100.0, 300.0]), [100.0, 300.0]);
        for places in [vec![LEFT; 9], vec![RIGHT; 9], vec![100.0, 101.0, 102.0, RIGHT - 1.0, RIGHT]] {
            let spread = spread(&places);
            assert!(spread.windows(2).all(|two| two[1] - two[0] >= APART - 0.01), "{spread:?}");
            assert!(spread.iter().all(|x| (LEFT..=RIGHT).contains(x)), "{spread:?}");
        }
    }
}
