//! From lines and values to places in the picture.

/// The left and right end of all panels.
pub const LEFT: f64 = 70.0;
pub const RIGHT: f64 = 920.0;

/// The most marks of the axis of lines.
const MOST_MARKS: usize = 15;

/// The axis of lines: each has its column.
#[derive(Clone, Copy)]
pub struct Columns(pub usize);

impl Columns {
    /// The left edge of the column with this place, from 0; that of the place after the last is the right end.
    pub fn edge(self, place: usize) -> f64 {
        LEFT + (RIGHT - LEFT) * place as f64 / self.0.max(1) as f64
    }

    /// The middle of the column with this place.
    pub fn middle(self, place: usize) -> f64 {
        (self.edge(place) + self.edge(place + 1)) / 2.0
    }

    /// The line numbers that are marked.
    pub fn marks(self) -> impl Iterator<Item = usize> {
        let step = round_step(self.0 as u64, MOST_MARKS as u64) as usize;
        (1..=self.0 / step).map(move |count| count * step)
    }
}

/// A panel: from its top, where its greatest value is, to its bottom, where 0 is.
#[derive(Clone, Copy)]
pub struct Panel {
    pub top: f64,
    pub height: f64,
    pub most: u64,
    pub step: u64,
}

impl Panel {
    /// Up to what is reached, and no further than a limit; with four steps at most.
    pub fn within(top: f64, height: f64, value: u64, limit: usize) -> Panel {
        let (panel, limit) = (Panel::up_to(top, height, value), limit as u64);
        if panel.most < limit {
            return panel;
        }
        Panel { most: limit, step: limit.div_ceil(4), ..panel }
    }

    /// With four steps at most up to a value that is not known before.
    pub fn up_to(top: f64, height: f64, value: u64) -> Panel {
        let step = round_step(value, 4);
        Panel { top, height, most: value.div_ceil(step).max(1) * step, step }
    }

    pub fn y(&self, value: u64) -> f64 {
        self.top + self.height * (1.0 - value as f64 / self.most as f64)
    }

    pub fn bottom(&self) -> f64 {
        self.top + self.height
    }
}

/// The least of 1, 2, 5, 10, 20 and so on that goes into a value so many times at most.
fn round_step(value: u64, times: u64) -> u64 {
    let mut ten = 1;
    loop {
        if let Some(step) = [1, 2, 5].map(|digit| digit * ten).into_iter().find(|step| value <= step * times) {
            return step;
        }
        ten *= 10;
    }
}

#[cfg(test)]
mod tests {
    use super::*;

    #[test]
    fn steps() {
        let steps = [0, 4, 5, 9, 20, 21, 41].map(|value| round_step(value, 4));
        assert_eq!(steps, [1, 1, 2, 5, 5, 10, 20]);
    }

    #[test]
    fn a_panel_goes_by_what_is_reached() {
        let panel = |value, limit| {
            let Panel { most, step, .. } = Panel::within(0.0, 80.0, value, limit);
            (most, step)
        };
        assert_eq!([panel(0, 64), panel(3, 32), panel(82, 256)], [(1, 1), (3, 1), (100, 50)]);
        assert_eq!([panel(64, 64), panel(61, 64), panel(7, 7), panel(0, 1)], [(64, 16), (64, 16), (7, 2), (1, 1)]);
    }

    #[test]
    fn the_marks_are_few() {
        for count in [0, 1, 15, 16, 300, 65_536] {
            assert!(Columns(count).marks().count() <= MOST_MARKS);
            assert!(Columns(count).marks().all(|line| (1..=count).contains(&line)));
        }
    }
}
