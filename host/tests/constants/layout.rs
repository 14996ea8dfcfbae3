//! The places of the fields of the proved record, which stand one after the other with no gaps.

use crate::source::{between, text_of, value};

/// Where the record's structs are defined.
fn text() -> String {
    text_of("record") + &text_of("ledger")
}

/// The fields of one of the record's structs, with their types.
fn fields(name: &str) -> Vec<(String, String)> {
    let text = text();
    let (above, body) = text.split_once(&format!("\npub struct {name} {{\n")).unwrap();
    let mut attributes = above.lines().rev().take_while(|line| line.starts_with("#["));
    assert!(attributes.any(|line| line == "#[repr(C)]"), "{name} is not laid out as in C");
    let (body, _) = body.split_once("\n}").unwrap();
    let fields =
        body.lines().filter_map(|line| line.trim().strip_prefix("pub ")?.trim_end_matches(',').split_once(": "));
    fields.map(|(field, kind)| (field.into(), kind.into())).collect()
}

/// The bytes of a type: a number, an array, a struct around one number, or one with fields.
pub fn size_of(kind: &str) -> u64 {
    match kind {
        "u8" => return 1,
        "u16" => return 2,
        "u32" => return 4,
        "u64" => return 8,
        _ => {}
    }
    if let Some((element, count)) = between(kind, "[", "]").and_then(|array| array.split_once("; ")) {
        return size_of(element) * value("record", count);
    }
    match between(&text(), &format!("pub struct {kind}(pub "), ")") {
        Some(number) => size_of(number),
        None => fields(kind).iter().map(|(_, kind)| size_of(kind)).sum(),
    }
}

/// How many bytes stand before a field, of a struct's own or of a struct in it.
pub fn place_of(name: &str, field: &str) -> u64 {
    place_in(name, field).unwrap_or_else(|| panic!("{name} has no {field}"))
}

fn place_in(name: &str, field: &str) -> Option<u64> {
    let mut before = 0;
    for (other, kind) in fields(name) {
        if other == field {
            return Some(before);
        }
        let has_fields = text().contains(&format!("\npub struct {kind} {{\n"));
        if let Some(place) = has_fields.then(|| place_in(&kind, field)).flatten() {
            return Some(before + place);
        }
        before += size_of(&kind);
    }
    None
}
