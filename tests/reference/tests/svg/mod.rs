//! A small reader of SVG files: enough of XML to tell that a file is well-formed, and the boxes of its texts.

use std::collections::HashMap;

/// A tag with its attributes, and the text up to the next one.
#[derive(Debug)]
pub struct Tag<'a> {
    pub name: &'a str,
    pub attributes: HashMap<&'a str, &'a str>,
    pub text: &'a str,
}

impl Tag<'_> {
    pub fn number(&self, attribute: &str) -> f64 {
        self.attributes[attribute].parse().unwrap_or_else(|_| panic!("{attribute} of {self:?}"))
    }
}

/// The opening tags of a file. Fails where it is not well-formed: one root, every tag closed by its own name, attributes
/// quoted and each once, no bare `<`, `>`, `&` or quote.
pub fn tags(file: &str) -> Vec<Tag<'_>> {
    let (mut tags, mut open, mut rest) = (Vec::new(), Vec::new(), file);
    while let Some(inside) = rest.strip_prefix('<') {
        assert!(tags.is_empty() || !open.is_empty(), "a second root: {inside:.40}");
        let (tag, after) = inside.split_once('>').expect("a tag ends");
        assert!(!tag.contains('<'), "{tag}");
        let (text, _) = after.split_at(after.find('<').unwrap_or(after.len()));
        assert!(!text.contains(['&', '>']), "{text}");
        rest = &after[text.len()..];
        match (tag.strip_prefix('/'), tag.strip_suffix('/')) {
            (Some(name), _) => assert_eq!(open.pop(), Some(name)),
            (None, Some(alone)) => tags.push(read(alone, text)),
            (None, None) => {
                tags.push(read(tag, text));
                open.push(tags.last().unwrap().name);
            }
        }
        assert!(!open.is_empty() || text.trim().is_empty(), "text outside: {text}");
    }
    assert!(rest.is_empty() && open.is_empty() && !tags.is_empty(), "{open:?}, {rest:.40}");
    tags
}

fn read<'a>(tag: &'a str, text: &'a str) -> Tag<'a> {
    let (name, mut rest) = tag.split_once(' ').unwrap_or((tag, ""));
    assert!(is_name(name), "{tag}");
    let mut attributes = HashMap::new();
    while !rest.is_empty() {
        let (key, after) = rest.split_once("=\"").expect(tag);
        let (value, after) = after.split_once('"').expect(tag);
        assert!(is_name(key) && !value.contains('&') && (after.is_empty() || after.starts_with(' ')), "{tag}");
        assert_eq!(attributes.insert(key, value), None, "{tag}");
        rest = after.trim_start();
    }
    Tag { name, attributes, text }
}

fn is_name(word: &str) -> bool {
    word.starts_with(|first: char| first.is_ascii_alphabetic())
        && word.chars().all(|letter| letter.is_ascii_alphanumeric() || "-:".contains(letter))
}

/// Where a text is, by an estimate on the wide side.
#[derive(Debug)]
pub struct TextBox<'a> {
    pub text: &'a str,
    pub left: f64,
    pub right: f64,
    pub top: f64,
    pub bottom: f64,
}

impl<'a> TextBox<'a> {
    fn of(tag: &Tag<'a>) -> TextBox<'a> {
        let (x, y, size) = (tag.number("x"), tag.number("y"), tag.number("font-size"));
        let width = 0.61 * size * tag.text.chars().count() as f64;
        let left = match tag.attributes["text-anchor"] {
            "start" => x,
            "middle" => x - width / 2.0,
            "end" => x - width,
            other => panic!("anchor {other}"),
        };
        TextBox { text: tag.text, left, right: left + width, top: y - 0.8 * size, bottom: y + 0.25 * size }
    }

    pub fn overlaps(&self, other: &TextBox) -> bool {
        self.left < other.right && other.left < self.right && self.top < other.bottom && other.top < self.bottom
    }
}

pub fn texts<'a>(tags: &[Tag<'a>]) -> Vec<TextBox<'a>> {
    tags.iter().filter(|tag| tag.name == "text").map(TextBox::of).collect()
}

/// It has these groups and needs no other file; it is described; its texts are within its frame, and none is over another.
pub fn check(name: &str, picture: &str, tags: &[Tag], groups: &[&str]) {
    let ids: Vec<_> = tags.iter().filter(|tag| tag.name == "g").map(|tag| tag.attributes["id"]).collect();
    assert_eq!(ids, groups, "{name}");
    for foreign in ["<script", "<style", "<image", "href", "font-face", "@import"] {
        assert!(!picture.contains(foreign), "{name}: {foreign}");
    }
    let described = |name: &str| tags.iter().any(|tag| tag.name == name && !tag.text.is_empty());
    assert!(described("title") && described("desc"), "{name}");
    let (width, height, texts) = (tags[0].number("width"), tags[0].number("height"), texts(tags));
    assert_eq!(width, 1000.0);
    for (place, text) in texts.iter().enumerate() {
        let is_inside = text.left >= 0.0 && text.right <= width && text.top >= 0.0 && text.bottom <= height;
        assert!(is_inside, "{name}: {text:?}");
        for other in &texts[..place] {
            assert!(!text.overlaps(other), "{name}: {text:?} and {other:?}");
        }
    }
}
