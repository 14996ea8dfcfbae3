//! Order 11: under a curve the room that the script needs, and a mark where it would outgrow the pool.

use super::scale::{Columns, Panel, LEFT};
use super::svg::{Anchor, Path, Svg};
use crate::explain::room::Need;

const MARK: &str = "fill=\"#222222\"";

/// Half the width of the mark, and its height.
const HALF: f64 = 5.0;
const HEIGHT: f64 = 8.0;

/// Gives where it ends.
pub fn under(svg: &mut Svg, panel: &Panel, columns: Columns, need: &Need) -> f64 {
    let top = panel.bottom();
    let mark = need.past.map(|line| triangle((columns.middle(line - 1), top + 1.0)));
    svg.path(MARK, &mark.unwrap_or_default());
    let sign = if need.past.is_some() { " (triangle)" } else { "" };
    svg.text(LEFT, top + 20.0, 12, Anchor::Start, &format!("With room for all: {}{sign}", need.words()));
    top + 22.0
}

/// With its tip here.
fn triangle((x, y): (f64, f64)) -> Path {
    let mut path = Path::default();
    path.go('M', (x, y));
    path.go('L', (x + HALF, y + HEIGHT));
    path.go('L', (x - HALF, y + HEIGHT));
    path
}
