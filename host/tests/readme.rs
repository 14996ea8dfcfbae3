//! The starts in the project's README are the two examples, which are run.

use std::fs;
use std::path::Path;

fn text(name: &str) -> String {
    fs::read_to_string(Path::new(env!("CARGO_MANIFEST_DIR")).join(name)).unwrap()
}

/// An example without its first line, which says what it is.
fn lines_of(name: &str) -> String {
    text(name).split_once('\n').unwrap().1.to_string()
}

#[test]
fn the_readme_has_both_starts() {
    let readme = text("../README.md");
    for (name, language) in [("examples/start.c", "c"), ("examples/start.rs", "rust")] {
        let lines = lines_of(name);
        assert!(readme.contains(&format!("```{language}\n{lines}```")), "{name} is not in the README as it is");
    }
}
