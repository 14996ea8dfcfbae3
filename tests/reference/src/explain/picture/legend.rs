//! What the lines, bars and marks mean.

use super::bars::{tick, ALL, TICK};
use super::curves::{EXPIRATIONS, GLOBAL, LARGE, PINNED, SMALL};
use super::marks::CROSS;
use super::scale::LEFT;
use super::svg::{text_width, Anchor, Path, Svg};

const CURVES: [(&str, &str); 4] =
    [(SMALL, "small objects"), (LARGE, "large objects"), (EXPIRATIONS, "expirations"), (GLOBAL, "global time")];

const SAMPLE: f64 = 28.0;
const SIZE: u32 = 12;
const GAP: f64 = 22.0;

/// Two rows, from this middle of the first on. Gives where they end.
pub fn legend(svg: &mut Svg, y: f64) -> f64 {
    let mut x = LEFT;
    for (style, name) in CURVES {
        let mut line = Path::default();
        line.line((x, y), (x + SAMPLE, y));
        x = item(svg, x, y, style, &line, name);
    }
    let mut area = Path::default();
    area.rectangle(x, y - 5.0, SAMPLE, 10.0);
    x = item(svg, x, y, PINNED, &area, "of them pinned");
    let mut cross = Path::default();
    cross.cross((x + SAMPLE / 2.0, y));
    item(svg, x, y, CROSS, &cross, "refused");

    let (mut x, y) = (LEFT, y + 20.0);
    for shown in ALL {
        let mut bar = Path::default();
        shown.bar(&mut bar, y - 5.0, x, x + SAMPLE);
        x = item(svg, x, y, shown.style(), &bar, shown.name());
    }
    let mut mark = Path::default();
    tick(&mut mark, x + SAMPLE / 2.0, y - 5.0);
    item(svg, x, y, TICK, &mark, "tick");
    y + 10.0
}

/// A sample and its name. Gives where the next one starts.
pub fn item(svg: &mut Svg, x: f64, y: f64, style: &str, sample: &Path, name: &str) -> f64 {
    svg.path(style, sample);
    let start = x + SAMPLE + 6.0;
    svg.text(start, y + 4.0, SIZE, Anchor::Start, name);
    start + text_width(name, SIZE) + GAP
}

#[cfg(test)]
mod tests {
    use super::super::bars::Shown;
    use super::*;

    /// How light a style's colour is, from 0 to 1.
    fn lightness(style: &str) -> f64 {
        let (_, colour) = style.split_once('#').unwrap();
        let part = |place| f64::from(u8::from_str_radix(&colour[place..place + 2], 16).unwrap()) / 255.0;
        0.3 * part(0) + 0.59 * part(2) + 0.11 * part(4)
    }

    fn dashes(style: &str) -> Option<&str> {
        style.split_once("stroke-dasharray").map(|(_, dashes)| dashes)
    }

    #[test]
    fn without_colours_they_still_differ() {
        let differ = |a, b| dashes(a) != dashes(b) || (lightness(a) - lightness(b)).abs() > 0.25;
        for (place, (style, name)) in CURVES.iter().enumerate() {
            assert!(CURVES[..place].iter().all(|(other, _)| differ(style, other)), "{name}");
        }
        // An absent task has a thin bar, a waiting one is hatched, and a viewer's is empty.
        assert!(differ(Shown::Awaited.style(), Shown::Ticked.style()));
        assert!(Shown::Waiting.style().contains("hatched"));
        assert!(Shown::Viewing.style().contains("none"));
    }
}
