//! All constants of the C header are those of the proved source, where it stands beside this crate: sizes, counts, kinds,
//! clocks, answers, and the places of the record's fields.

mod layout;
mod source;

use ramsummer::{Limits, Quota};
use source::{arms, is_here, value, variants};
use std::collections::BTreeMap;

/// Names in capitals and without underscores, since the source has other letters for some.
type Numbers = BTreeMap<String, u64>;

fn plain(name: &str) -> String {
    name.replace('_', "").to_uppercase()
}

fn header() -> &'static str {
    include_str!("../../include/ramsummer.h")
}

/// `#define RAMSUMMER_TASKS 16` and, in an enumeration, `RAMSUMMER_DONE = 0,`. `RAMSUMMER_OPEN` is no number, but four.
fn constants() -> Numbers {
    let lines =
        header().lines().filter_map(|line| line.trim().trim_start_matches("#define ").strip_prefix("RAMSUMMER_"));
    let words = lines.map(|line| line.split([' ', '=', ',']).filter(|word| !word.is_empty()));
    let numbers = words.filter_map(|mut words| Some((plain(words.next()?), words.next()?.parse().ok()?)));
    numbers.filter(|(name, _)| name != "OPEN").collect()
}

/// What the source has for them.
fn proved() -> Numbers {
    let mut numbers: Numbers = [
        ("SMALL_BLOCKS", value("ledger", "CAPACITY.small")),
        ("LARGE_BLOCKS", value("ledger", "CAPACITY.large")),
        ("EXPIRATIONS", value("ledger", "CAPACITY.expirations")),
        ("MAX_EXTENSION", value("ledger", "CAPACITY.extension")),
        ("SMALL_SIZE", value("stores", "SMALL_SIZE")),
        ("LARGE_SIZE", value("stores", "LARGE_SIZE")),
        ("LONGEST", value("ledger", "LARGE_SIZE")),
        ("LINE", value("answers", "LONGEST_ANSWER")),
        ("RECORD", layout::size_of("Pool")),
        ("TASKS", value("ledger", "TASK_COUNT")),
        ("STORE_BLOCKS", value("record", "BLOCK_COUNT")),
        ("LARGEST_BATCH", value("ledger", "LARGEST_BATCH")),
        ("MAKER_DEPARTED", value("ledger", "TASK_COUNT")),
        ("NO_LIMIT", Quota::OPEN.limit.into()),
        ("BUFFER_TOO_SHORT", value("by_value", "TOO_SHORT")),
        ("CLOCK_LOCAL", value("record", "LOCAL")),
        ("CLOCK_GLOBAL", value("record", "GLOBAL")),
        ("CLOCK_DEPARTED", value("record", "DEPARTED")),
        ("CLOCK_PINNED", value("record", "PINNED")),
    ]
    .map(|(name, number)| (plain(name), number))
    .into();
    numbers.extend(arms("ledger", "try_from(number").into_iter().filter_map(|(number, kind)| {
        let kind = kind.strip_prefix("Ok(Kind::")?.strip_suffix(')')?;
        Some((plain(kind), number.parse().ok()?))
    }));
    numbers.extend(
        variants("ledger", "Refusal").into_iter().map(|(refusal, number)| (plain(&refusal), number.parse().unwrap())),
    );
    // All answers but a refusal have one number.
    numbers.extend(
        arms("ledger", "from(answer")
            .into_iter()
            .filter_map(|(answer, number)| (answer == "_").then(|| (plain("DONE"), number.parse().unwrap()))),
    );
    numbers
}

/// `RAMSUMMER_ASSERT(offsetof(ramsummer_pool, given) == 132);`: the struct, the field and the place.
fn places() -> Vec<(&'static str, &'static str, u64)> {
    let claims = header().lines().filter_map(|line| line.strip_prefix("RAMSUMMER_ASSERT(offsetof(ramsummer_"));
    let parts = claims.map(|claim| claim.split([',', ')', '=', ' ']).filter(|part| !part.is_empty()));
    parts
        .map(|mut parts| (parts.next().unwrap(), parts.next().unwrap(), parts.next().unwrap().parse().unwrap()))
        .collect()
}

#[test]
fn the_header_has_the_constants_of_the_proved_source() {
    if is_here() {
        assert_eq!(constants(), proved());
        assert_eq!(
            constants().len(),
            4 + 3 + 1 + 5 + 3 + 4 + 1 + 1 + 29 + 1,
            "limits, other counts, no limit, sizes, kinds, clocks, departed, done, refusals, buffer too short"
        );
    }
}

#[test]
fn the_header_has_the_places_of_the_proved_record() {
    if is_here() {
        assert_eq!(places().len(), 17);
        for (name, field, place) in places() {
            let found = match (name, field.split_once('_')) {
                ("pool", _) => layout::place_of("Pool", field),
                ("limits", _) => layout::place_of("Limits", field.trim_end_matches("_blocks")),
                ("task_share", Some((store, number))) => {
                    layout::place_of("Share", store) + layout::place_of("Quota", number)
                }
                _ => layout::place_of("TaskEntry", field),
            };
            assert_eq!(found, place, "{field} of {name}");
        }
        assert_eq!(["TaskEntry", "Limits", "Share"].map(layout::size_of), [8, 16, 4]);
    }
}

/// The lengths of the stores and the entries of the tables, by the constants above.
#[test]
fn the_stores_of_a_fresh_pool_are_those_of_the_proved_source() {
    if is_here() {
        let lengths = [value("stores", "SMALL_BYTES"), value("stores", "LARGE_BYTES")];
        assert_eq!(lengths, [ramsummer::SMALL, ramsummer::LARGE].map(|length| length as u64));
        assert_eq!(value("record", "EXPIRATION_COUNT"), ramsummer::EXPIRATIONS as u64);
        let standard =
            ["small", "large", "expirations", "extension"].map(|limit| value("ledger", &format!("STANDARD.{limit}")));
        let Limits { small_blocks, large_blocks, expirations, extension } = Limits::STANDARD;
        assert_eq!(standard, [small_blocks, large_blocks, expirations, extension].map(u64::from));
    }
}
