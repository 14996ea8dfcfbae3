//! The three declarations of the C interface agree: include/ramsummer.h, src/sys.rs and, where it stands beside this
//! crate, the proved source that exports it.

use std::collections::BTreeMap;
use std::fs;
use std::path::Path;

/// Each entry's name with the types of its parameters, written as Rust's raw ones.
type Signatures = BTreeMap<String, Vec<String>>;

/// The parameters of each entry that `opening` stands before, each put into its forms by `form`.
fn signatures(text: &str, opening: &str, form: fn(&str) -> Vec<String>) -> Signatures {
    let opening = format!("{opening} ramsummer_");
    let entries = text.split(&opening).skip(1).map(|rest| {
        let (name, rest) = rest.split_once('(').unwrap();
        let (parameters, _) = rest.split_once(')').unwrap();
        let parameters = parameters.split(',').map(str::trim).filter(|parameter| !parameter.is_empty());
        let (name, _) = name.split_once('<').unwrap_or((name, ""));
        (name.trim().to_string(), parameters.flat_map(form).collect())
    });
    entries.collect()
}

/// `const uint8_t *line`
fn c_form(parameter: &str) -> Vec<String> {
    let kept = parameter.trim_end_matches(|letter: char| letter.is_alphanumeric() || letter == '_').trim();
    let (pointer, value) = match (kept.strip_prefix("const "), kept.strip_suffix('*')) {
        (Some(constant), _) => ("*const ", constant.trim_end_matches('*')),
        (None, Some(mutable)) => ("*mut ", mutable),
        (None, None) => ("", kept),
    };
    let value = match value.trim() {
        "ramsummer_pool" => "Record",
        "size_t" => "usize",
        "uint8_t" => "u8",
        "uint16_t" => "u16",
        "uint32_t" => "u32",
        "uint64_t" => "u64",
        "unsigned" => "c_uint",
        other => panic!("{other} in {parameter}"),
    };
    vec![format!("{pointer}{value}")]
}

/// `line: *const u8`, or a reference
fn rust_form(parameter: &str) -> Vec<String> {
    let (_, kind) = parameter.split_once(": ").unwrap();
    vec![kind.replace('&', "*")]
}

/// `line: &[u8]` or `line: &'a [u8]`, which is passed as a pointer and a length; a `usize` of the proved source has 64 bits
fn source_form(parameter: &str) -> Vec<String> {
    let (_, kind) = parameter.split_once(": ").unwrap();
    match kind.replace("&'a ", "&").as_str() {
        "&[u8]" => vec!["*const u8".into(), "u64".into()],
        "&[u32]" => vec!["*const u32".into(), "u64".into()],
        "&mut [u8]" => vec!["*mut u8".into(), "u64".into()],
        "&mut Pool" => vec!["*mut Record".into()],
        "&mut usize" => vec!["*mut u64".into()],
        _ => rust_form(parameter),
    }
}

fn header() -> Signatures {
    signatures(include_str!("../include/ramsummer.h"), "uint8_t", c_form)
}

/// The text of all files of the proved source, if it is here.
fn source() -> Option<String> {
    let folder = Path::new(env!("CARGO_MANIFEST_DIR")).join("../crates/ramsummer/src");
    let files = fs::read_dir(folder).ok()?;
    Some(files.map(|file| fs::read_to_string(file.unwrap().path()).unwrap()).collect())
}

#[test]
fn the_header_and_the_crate_agree() {
    assert_eq!(header().len(), 19);
    assert_eq!(signatures(include_str!("../src/sys.rs"), "fn", rust_form), header());
}

#[test]
fn the_header_and_the_proved_source_agree() {
    match source() {
        Some(source) => assert_eq!(signatures(&source, "fn", source_form), header()),
        None => eprintln!("crates/ramsummer is not here: its entries were not compared with the header"),
    }
}

/// What a number of the library's type is taken as, so that C does not cut it: one narrower than an int, and a limit; and a
/// length or a count, which an author has in a size_t.
fn wide_types(name: &str, narrow: &str) -> &'static [&'static str] {
    match narrow {
        "u8" | "u16" => &["c_uint", "usize"],
        "u32" if name == "fresh_sized" => &["u64"],
        "u64" => &["usize"],
        "*mut u64" => &["*mut usize"],
        _ => &[],
    }
}

/// Each entry that takes such a number is called by a function that takes it wide, under its name.
#[test]
fn no_entry_is_left_that_cuts_a_number() {
    let text = include_str!("../include/ramsummer_wide.h");
    let mut functions = signatures(text, "uint8_t", c_form);
    functions.retain(|name, _| name.ends_with("_wide"));
    for (name, narrow) in header() {
        if narrow.iter().all(|kind| wide_types(&name, kind).is_empty()) {
            continue;
        }
        let wide = functions.remove(&format!("{name}_wide")).unwrap_or_else(|| panic!("{name} cuts a number"));
        let is_passed = |(wide, narrow): (&String, &String)| match wide_types(&name, narrow) {
            [] => wide == narrow,
            types => types.contains(&wide.as_str()),
        };
        assert!(wide.len() == narrow.len() && wide.iter().zip(&narrow).all(is_passed), "{name}: {wide:?}");
        assert!(text.contains(&format!("\n#define ramsummer_{name} ramsummer_{name}_wide\n")), "{name}");
    }
    assert!(functions.is_empty(), "{functions:?}");
}
