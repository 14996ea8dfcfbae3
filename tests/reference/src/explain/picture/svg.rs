//! The few elements that the picture has. Every text has its place, size and anchor itself, so that its box can be
//! worked out.

use std::fmt::Write;

pub const WIDTH: f64 = 1000.0;

/// Where a text has its place.
#[derive(Clone, Copy)]
pub enum Anchor {
    Start,
    Middle,
    End,
}

/// The elements so far.
#[derive(Default)]
pub struct Svg(String);

impl Svg {
    /// The whole file, on a white ground, with a title and a description for readers that do not see it.
    pub fn finish(self, height: f64, title: &str, description: &str) -> String {
        format!(
            "<svg xmlns=\"http://www.w3.org/2000/svg\" width=\"{WIDTH}\" height=\"{height}\" viewBox=\"0 0 {WIDTH} {height}\" \
             role=\"img\" aria-labelledby=\"title description\" font-family=\"sans-serif\">\n\
             <title id=\"title\">{}</title>\n<desc id=\"description\">{}</desc>\n\
             <rect width=\"{WIDTH}\" height=\"{height}\" fill=\"#ffffff\"/>\n{}</svg>\n",
            escaped(title),
            escaped(description),
            self.0
        )
    }

    /// As it stands, between others.
    pub fn raw(&mut self, element: &str) {
        self.0.push_str(element);
        self.0.push('\n');
    }

    /// Elements that belong together.
    pub fn group(&mut self, id: &str, inside: impl FnOnce(&mut Svg)) {
        self.raw(&format!("<g id=\"{id}\">"));
        inside(self);
        self.raw("</g>");
    }

    pub fn text(&mut self, x: f64, y: f64, size: u32, anchor: Anchor, words: &str) {
        let anchor = match anchor {
            Anchor::Start => "start",
            Anchor::Middle => "middle",
            Anchor::End => "end",
        };
        self.raw(&format!(
            "<text x=\"{x:.1}\" y=\"{y:.1}\" font-size=\"{size}\" text-anchor=\"{anchor}\" fill=\"#222222\">{}</text>",
            escaped(words)
        ));
    }

    pub fn circle(&mut self, style: &str, (x, y): (f64, f64), radius: f64) {
        self.raw(&format!("<circle {style} cx=\"{x:.1}\" cy=\"{y:.1}\" r=\"{radius}\"/>"));
    }

    /// A path in a style of `style`; nothing where it has no part.
    pub fn path(&mut self, style: &str, path: &Path) {
        if !path.0.is_empty() {
            self.raw(&format!("<path {style} d=\"{}\"/>", path.0));
        }
    }
}

/// Lines and boxes.
#[derive(Default)]
pub struct Path(String);

impl Path {
    pub fn line(&mut self, from: (f64, f64), to: (f64, f64)) {
        self.go('M', from);
        self.go('L', to);
    }

    pub fn rectangle(&mut self, x: f64, y: f64, width: f64, height: f64) {
        self.go('M', (x, y));
        self.0 += &format!("h{width:.1}v{height:.1}h-{width:.1}z");
    }

    /// A cross around a point.
    pub fn cross(&mut self, (x, y): (f64, f64)) {
        self.line((x - 4.0, y - 4.0), (x + 4.0, y + 4.0));
        self.line((x - 4.0, y + 4.0), (x + 4.0, y - 4.0));
    }

    /// To a point, by `M`, `L` or another command of two numbers.
    pub fn go(&mut self, command: char, (x, y): (f64, f64)) {
        let _ = write!(self.0, "{command}{x:.1} {y:.1}");
    }

    /// Across to an x.
    pub fn across(&mut self, x: f64) {
        let _ = write!(self.0, "H{x:.1}");
    }

    /// Up or down to a y.
    pub fn along(&mut self, y: f64) {
        let _ = write!(self.0, "V{y:.1}");
    }
}

/// Words without characters that XML would read otherwise.
fn escaped(words: &str) -> String {
    words.replace('&', "&amp;").replace('<', "&lt;").replace('>', "&gt;")
}

/// How wide a text is at most, about.
pub fn text_width(words: &str, size: u32) -> f64 {
    0.62 * f64::from(size) * words.chars().count() as f64
}

#[cfg(test)]
mod tests {
    use super::*;

    #[test]
    fn words_are_no_tags() {
        assert_eq!(escaped("a < b & c > d"), "a &lt; b &amp; c &gt; d");
    }
}
