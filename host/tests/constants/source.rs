//! The constants of the proved source, read from its text: numbers, names, fields, sums, products and casts.

use std::collections::VecDeque;
use std::fs;
use std::path::Path;

/// Whether the source stands beside this crate.
pub fn is_here() -> bool {
    let here = folder("ledger").is_dir();
    if !here {
        eprintln!("crates/ledger is not here: the constants of the header were not compared with the proved source");
    }
    here
}

fn folder(name: &str) -> std::path::PathBuf {
    Path::new(env!("CARGO_MANIFEST_DIR")).join("../crates").join(name).join("src")
}

/// The text of all files of one of its crates.
pub fn text_of(name: &str) -> String {
    let files = fs::read_dir(folder(name)).unwrap_or_else(|error| panic!("crates/{name}: {error}"));
    files.map(|file| fs::read_to_string(file.unwrap().path()).unwrap() + "\n").collect()
}

/// What stands between two marks of a text, if both are there.
pub fn between<'a>(text: &'a str, opening: &str, closing: &str) -> Option<&'a str> {
    let (_, rest) = text.split_once(opening)?;
    Some(rest.split_once(closing)?.0)
}

/// Both sides of each arm of the match that this function is, which its name and first parameter find.
pub fn arms(krate: &str, function: &str) -> Vec<(String, String)> {
    let text = text_of(krate);
    let body = between(&text, &format!("fn {function}:"), "\n}\n").unwrap();
    let arms = body.lines().filter_map(|line| line.trim().trim_end_matches(',').split_once(" => "));
    arms.map(|(left, right)| (left.into(), right.into())).collect()
}

/// Each variant of an enum that gives it a number, with the number.
pub fn variants(krate: &str, name: &str) -> Vec<(String, String)> {
    let text = text_of(krate);
    let body = between(&text, &format!("pub enum {name} {{\n"), "\n}\n").unwrap();
    let variants = body.lines().filter_map(|line| line.trim().trim_end_matches(',').split_once(" = "));
    variants.map(|(variant, number)| (variant.into(), number.into())).collect()
}

/// What an expression comes to in a file of this crate.
pub fn value(krate: &str, expression: &str) -> u64 {
    let mut tokens = tokens(expression);
    let value = sum(krate, &mut tokens);
    assert!(tokens.is_empty(), "{expression} in {krate}: {tokens:?} is left");
    value
}

/// A name with its path and field is one token.
fn tokens(expression: &str) -> VecDeque<String> {
    let is_word = |letter: char| letter.is_alphanumeric() || "_:.".contains(letter);
    let mut tokens: VecDeque<String> = VecDeque::new();
    let mut in_word = false;
    for letter in expression.chars() {
        match tokens.back_mut().filter(|_| in_word && is_word(letter)) {
            Some(word) => word.push(letter),
            None if !letter.is_whitespace() => tokens.push_back(letter.into()),
            None => {}
        }
        in_word = is_word(letter);
    }
    tokens
}

fn takes(tokens: &mut VecDeque<String>, token: &str) -> bool {
    let is_next = tokens.front().is_some_and(|next| next == token);
    if is_next {
        tokens.pop_front();
    }
    is_next
}

fn sum(krate: &str, tokens: &mut VecDeque<String>) -> u64 {
    let mut total = product(krate, tokens);
    while takes(tokens, "+") {
        total += product(krate, tokens);
    }
    total
}

fn product(krate: &str, tokens: &mut VecDeque<String>) -> u64 {
    let mut total = factor(krate, tokens);
    while takes(tokens, "*") {
        total *= factor(krate, tokens);
    }
    total
}

/// A sum in parentheses, a number or a name; a cast after it is left out.
fn factor(krate: &str, tokens: &mut VecDeque<String>) -> u64 {
    let value = if takes(tokens, "(") {
        let value = sum(krate, tokens);
        assert!(takes(tokens, ")"));
        value
    } else {
        let word = tokens.pop_front().expect("a number or a name");
        word.parse().unwrap_or_else(|_| named(krate, &word))
    };
    if takes(tokens, "as") {
        tokens.pop_front();
    }
    value
}

/// A constant or a field of one, by its definition in this crate or in the one that it is used from.
fn named(krate: &str, name: &str) -> u64 {
    if let Some((other, name)) = name.split_once("::") {
        return named(other, name);
    }
    let text = text_of(krate);
    let (constant, field) = name.split_once('.').map_or((name, None), |(constant, field)| (constant, Some(field)));
    let Some(definition) = between(&text, &format!("const {constant}: "), ";") else {
        return named(origin(&text, constant).unwrap_or_else(|| panic!("{name} in {krate}")), name);
    };
    let (_, definition) = definition.split_once(" = ").unwrap();
    match field {
        None => value(krate, definition),
        Some(field) => match between(definition, &format!(" {field}: "), ",") {
            Some(expression) => value(krate, expression),
            None => named(krate, &format!("{definition}.{field}")),
        },
    }
}

/// `use ledger::STANDARD;` or `use ledger::{CAPACITY, STANDARD};` names the crate of a constant.
fn origin<'a>(text: &'a str, constant: &str) -> Option<&'a str> {
    let uses = text.split("\nuse ").skip(1).filter_map(|rest| rest.split_once(';')?.0.split_once("::"));
    let mut uses = uses.filter(|(_, names)| names.split(['{', '}', ',', ':']).any(|name| name.trim() == constant));
    Some(uses.next()?.0)
}
