//! The C headers say the same as this crate, and docs/REFUSALS.md too: sizes, places, counts, names, numbers, sentences.

use in_c::{compiled, host, is_without_cpp, written};
use ramsummer::{Kind, Limits, Quota, Record, Refusal, Share, TaskEntry, VERSION};
use std::mem::{offset_of, size_of};
use std::process::{Command, Output};

mod in_c;

/// The C compiler's answer, or none where there is none.
fn cc(arguments: &[&str]) -> Option<Output> {
    compiled("cc", arguments)
}

/// `TaskAbsent` as the header has it: `RAMSUMMER_TASK_ABSENT`.
fn c_name(name: &str) -> String {
    name.chars().fold("RAMSUMMER".into(), |text, letter| match letter {
        'A'..='Z' => text + "_" + &letter.to_string(),
        _ => text + &letter.to_uppercase().to_string(),
    })
}

/// Expressions in C, and what this crate has for each.
fn claims() -> Vec<(String, usize)> {
    let cable = Limits { small_blocks: 16, large_blocks: 4, ..Limits::STANDARD };
    let Share { small, large } = Share::OPEN;
    let mut record = Record::fresh();
    record.extents[0] = 0x1122_3344_5566_7788;
    let mut claims: Vec<(String, usize)> = [
        ("RAMSUMMER_SMALL_BLOCKS", Limits::STANDARD.small_blocks as usize),
        ("RAMSUMMER_LARGE_BLOCKS", Limits::STANDARD.large_blocks as usize),
        ("RAMSUMMER_EXPIRATIONS", Limits::STANDARD.expirations as usize),
        ("RAMSUMMER_MAX_EXTENSION", Limits::STANDARD.extension as usize),
        ("RAMSUMMER_SMALL_SIZE", ramsummer::SMALL_SIZE),
        ("RAMSUMMER_LARGE_SIZE", ramsummer::LARGE_SIZE),
        ("RAMSUMMER_SMALL", ramsummer::SMALL),
        ("RAMSUMMER_LARGE", ramsummer::LARGE),
        ("RAMSUMMER_SMALL_FOR(15 + 1)", cable.small_length()),
        ("RAMSUMMER_LARGE_FOR(3 + 1)", cable.large_length()),
        ("RAMSUMMER_LONGEST", ramsummer::LONGEST),
        ("RAMSUMMER_LINE", ramsummer::LINE),
        ("RAMSUMMER_RECORD", ramsummer::RECORD),
        ("RAMSUMMER_TASKS", ramsummer::TASKS),
        ("RAMSUMMER_STORE_BLOCKS", ramsummer::STORE_BLOCKS),
        ("RAMSUMMER_EXPIRATIONS", ramsummer::EXPIRATIONS),
        ("RAMSUMMER_MAX_EXTENSION", ramsummer::MAX_EXTENSION.into()),
        ("RAMSUMMER_LARGEST_BATCH", ramsummer::LARGEST_BATCH),
        ("RAMSUMMER_NO_LIMIT", Quota::OPEN.limit.into()),
        ("((const int[]){RAMSUMMER_OPEN})[0]", small.reserve.into()),
        ("((const int[]){RAMSUMMER_OPEN})[1]", small.limit.into()),
        ("((const int[]){RAMSUMMER_OPEN})[2]", large.reserve.into()),
        ("((const int[]){RAMSUMMER_OPEN})[3]", large.limit.into()),
        ("sizeof(((const int[]){RAMSUMMER_OPEN}))", 4 * size_of::<i32>()),
        ("RAMSUMMER_DONE", 0),
        ("RAMSUMMER_LOCAL", Kind::Local.number().into()),
        ("RAMSUMMER_GLOBAL", Kind::Global.number().into()),
        ("RAMSUMMER_PINNED", Kind::Pinned.number().into()),
        ("RAMSUMMER_CLOCK_LOCAL", ramsummer::CLOCK_LOCAL.into()),
        ("RAMSUMMER_CLOCK_GLOBAL", ramsummer::CLOCK_GLOBAL.into()),
        ("RAMSUMMER_CLOCK_DEPARTED", ramsummer::CLOCK_DEPARTED.into()),
        ("RAMSUMMER_CLOCK_PINNED", ramsummer::CLOCK_PINNED.into()),
        ("RAMSUMMER_MAKER_DEPARTED", ramsummer::MAKER_DEPARTED.into()),
        ("RAMSUMMER_LENGTH_IN(0x1122334455667788)", record.length(0).into()),
        ("RAMSUMMER_MAKER_IN(0x1122334455667788)", record.maker(0).into()),
        ("RAMSUMMER_PREFIX_IN(0x1122334455667788)", record.prefix(0).into()),
        ("RAMSUMMER_SUM_IN(0x1122334455667788)", record.sum(0).into()),
        ("sizeof(ramsummer_task_share)", size_of::<Share>()),
        ("sizeof(ramsummer_task_entry)", size_of::<TaskEntry>()),
        ("sizeof(ramsummer_limits)", size_of::<Limits>()),
        ("sizeof(ramsummer_pool)", size_of::<Record>()),
        ("offsetof(ramsummer_task_entry, state)", offset_of!(TaskEntry, state)),
        ("offsetof(ramsummer_task_entry, ticked)", offset_of!(TaskEntry, ticked)),
        ("offsetof(ramsummer_task_entry, clock)", offset_of!(TaskEntry, clock)),
        ("offsetof(ramsummer_task_share, small_reserve)", offset_of!(Share, small) + offset_of!(Quota, reserve)),
        ("offsetof(ramsummer_task_share, small_limit)", offset_of!(Share, small) + offset_of!(Quota, limit)),
        ("offsetof(ramsummer_task_share, large_reserve)", offset_of!(Share, large) + offset_of!(Quota, reserve)),
        ("offsetof(ramsummer_task_share, large_limit)", offset_of!(Share, large) + offset_of!(Quota, limit)),
        ("offsetof(ramsummer_limits, small_blocks)", offset_of!(Limits, small_blocks)),
        ("offsetof(ramsummer_limits, large_blocks)", offset_of!(Limits, large_blocks)),
        ("offsetof(ramsummer_limits, expirations)", offset_of!(Limits, expirations)),
        ("offsetof(ramsummer_limits, extension)", offset_of!(Limits, extension)),
        ("offsetof(ramsummer_pool, tasks)", offset_of!(Record, tasks)),
        ("offsetof(ramsummer_pool, global)", offset_of!(Record, global)),
        ("offsetof(ramsummer_pool, given)", offset_of!(Record, given)),
        ("offsetof(ramsummer_pool, limits)", offset_of!(Record, limits)),
        ("offsetof(ramsummer_pool, shares)", offset_of!(Record, shares)),
        ("offsetof(ramsummer_pool, handles)", offset_of!(Record, handles)),
        ("offsetof(ramsummer_pool, extents)", offset_of!(Record, extents)),
        ("offsetof(ramsummer_pool, clocks)", offset_of!(Record, clocks)),
        ("offsetof(ramsummer_pool, named)", offset_of!(Record, named)),
        ("offsetof(ramsummer_pool, dues)", offset_of!(Record, dues)),
    ]
    .map(|(expression, value)| (expression.to_string(), value))
    .into();
    claims.extend(Refusal::ALL.iter().map(|refusal| (c_name(&format!("{refusal:?}")), refusal.number().into())));
    claims
}

/// A program in C that prints the value of each expression on a line, and then each refusal's sentence and the version.
fn program(claims: &[(String, usize)]) -> String {
    let values = claims.iter().map(|(expression, _)| format!("printf(\"%zu\\n\", (size_t)({expression}));\n"));
    let sentences = Refusal::ALL.iter().map(|refusal| format!("puts(ramsummer_text({}));\n", refusal.number()));
    let body: String = values.chain(sentences).chain(["puts(RAMSUMMER_VERSION);\n".into()]).collect();
    format!("#include <stdio.h>\n#include \"ramsummer_text.h\"\nint main(void) {{\n{body}return 0;\n}}\n")
}

#[test]
fn the_headers_have_the_numbers_and_sentences_of_this_crate() {
    let claims = claims();
    let source = written("header.c", &program(&claims));
    let binary = source.with_extension("out");
    let built = cc(&["-std=c99", "-Wall", "-Werror", source.to_str().unwrap(), "-o", binary.to_str().unwrap()]);
    let Some(built) = built else { return };
    assert!(built.status.success(), "{}", String::from_utf8_lossy(&built.stderr));
    let printed = String::from_utf8(Command::new(binary).output().unwrap().stdout).unwrap();
    let (values, sentences): (Vec<_>, Vec<_>) = printed.lines().partition(|line| line.parse::<usize>().is_ok());
    assert_eq!(values.len(), claims.len());
    for ((expression, value), printed) in claims.iter().zip(values) {
        assert_eq!(printed, value.to_string(), "{expression}");
    }
    let of_crate = Refusal::ALL.iter().map(Refusal::to_string).chain([VERSION.into()]);
    assert_eq!(sentences, of_crate.collect::<Vec<_>>());
}

#[test]
fn the_headers_compile_as_c_and_as_cpp() {
    let companions = ["image", "peaks", "site", "text"].map(|name| format!("#include \"ramsummer_{name}.h\"\n"));
    let source = written("include.c", &companions.concat());
    for (language, standard) in [("c", "c99"), ("c", "c11"), ("c++", "c++98"), ("c++", "c++11"), ("c++", "c++17")] {
        let standard = format!("-std={standard}");
        let warnings = ["-Wall", "-Wextra", "-Wconversion", "-Wsign-conversion", "-Werror", "-pedantic"];
        let options = [&warnings[..], &["-fsyntax-only", "-x", language, &standard]].concat();
        let Some(checked) = cc(&[&options[..], &[source.to_str().unwrap()]].concat()) else { return };
        let said = String::from_utf8_lossy(&checked.stderr);
        if is_without_cpp(&said) {
            eprintln!("cc has no C++ here: {standard} was left out");
        } else {
            assert!(checked.status.success(), "{standard}: {said}");
        }
    }
}

/// Fresh alone is never refused.
#[test]
fn the_compiler_warns_of_an_answer_that_nobody_looks_at() {
    let calls =
        [("join(pool, 0, RAMSUMMER_OPEN)", true), ("fresh_sized(pool, 16, 4, 64, 10)", true), ("fresh(pool)", false)];
    for (call, is_warned_of) in calls {
        let text = format!("#include \"ramsummer.h\"\nvoid f(ramsummer_pool *pool) {{ ramsummer_{call}; }}\n");
        let (name, _) = call.split_once('(').unwrap();
        let source = written(&format!("unused_{name}.c"), &text);
        let object = source.with_extension("o");
        let options = ["-Wall", "-Werror", "-c", source.to_str().unwrap(), "-o", object.to_str().unwrap()];
        let Some(checked) = cc(&options) else { return };
        assert_eq!(checked.status.success(), !is_warned_of, "{}", String::from_utf8_lossy(&checked.stderr));
    }
    let headers = concat!(
        include_str!("../include/ramsummer.h"),
        include_str!("../include/ramsummer_wide.h"),
        include_str!("../include/ramsummer_image.h"),
        include_str!("../include/ramsummer_site.h")
    );
    let is_never_refused = |line: &str| ["_fresh(", "ramsummer_to_byte("].iter().any(|name| line.contains(name));
    let calls = headers.lines().filter(|line| line.contains("uint8_t ramsummer_") && !is_never_refused(line));
    assert_eq!(calls.filter(|line| !line.starts_with("RAMSUMMER_CHECKED ")).count(), 0);
}

#[test]
fn the_refusals_are_those_of_the_documents() {
    let table = std::fs::read_to_string(host().join("../docs/REFUSALS.md")).unwrap();
    for refusal in Refusal::ALL.iter().filter(|refusal| **refusal != Refusal::BufferTooShort) {
        assert!(table.contains(&format!("| {} | {refusal:?} |", refusal.number())), "{refusal:?}");
    }
}

#[test]
fn numbers_and_refusals_go_both_ways() {
    for number in 0..=255 {
        let back = Refusal::from_number(number).map(Refusal::number);
        assert_eq!(back, matches!(number, 1..=29 | 255).then_some(number));
    }
}
