//! Misuse of the C headers is warned of when it is compiled: a null pointer, memory that is shorter than the length that is
//! passed with it, and a limit out of its range.

use in_c::{compiled, written};
use std::collections::BTreeSet;

mod in_c;

/// Every call of the headers. Its pointers are `&` and what has its `sizeof` behind it.
const CALLS: &[(&str, &str)] = &[
    ("fresh", "&pool"),
    ("fresh_sized", "&pool, 16, 4, 64, 10"),
    ("join", "&pool, 0, RAMSUMMER_OPEN"),
    ("view", "&pool, 0"),
    ("leave", "&pool, 0, &byte"),
    ("block", "&pool, 0, &byte"),
    ("resume", "&pool, 0"),
    ("tick", "&pool, 0, &byte"),
    ("make", "&pool, small, sizeof small, large, sizeof large, 0, 0, 0, 4, 0, &handle"),
    ("refresh", "&pool, 0, 0, 0, handle"),
    ("refresh_all", "&pool, 0, 0, 0, scan, sizeof scan / sizeof *scan"),
    ("release", "&pool, 0, handle"),
    ("read", "&pool, small, sizeof small, large, sizeof large, 0, handle, bytes, sizeof bytes, &count"),
    ("write", "&pool, small, sizeof small, large, sizeof large, 0, handle, 0, bytes, sizeof bytes"),
    ("report", "&pool, &byte, &byte, &half, &handle"),
    ("remaining", "&pool, 0, handle, &byte, &byte"),
    ("awaited", "&pool, &half"),
    ("share", "&pool, 0, &byte, &byte, &byte, &byte, &byte, &byte"),
    ("frame", "&pool, small, sizeof small, large, sizeof large, line, sizeof line, bytes, sizeof bytes, &count"),
    ("image_test", "bytes, sizeof bytes, 0"),
    ("image_save", "&pool, bytes, sizeof bytes"),
    ("image_restore", "&pool, bytes, sizeof bytes"),
    ("image_save_with_stores", "&pool, small, sizeof small, large, sizeof large, bytes, sizeof bytes"),
    ("image_restore_with_stores", "&pool, small, sizeof small, large, sizeof large, bytes, sizeof bytes"),
    ("peaks_look", "&peaks, &pool"),
    ("peaks_reset", "&peaks, &pool"),
    ("peaks_after", "&peaks, &pool, byte"),
    ("site_fresh", "&site"),
    ("site_make", "&site, 0, 0, 0, 4, 0, &handle"),
    ("site_read", "&site, 0, handle, bytes, sizeof bytes, &count"),
    ("site_write", "&site, 0, handle, 0, bytes, sizeof bytes"),
    ("site_frame", "&site, line, sizeof line, bytes, sizeof bytes, &count"),
    ("site_put", "&site, 0, 0, 0, bytes, sizeof bytes, 0, &handle"),
    ("site_get", "&site, 0, handle, bytes, sizeof bytes"),
];

const VARIABLES: &str = "
ramsummer_pool pool;
ramsummer_site site;
ramsummer_peaks peaks;
size_t count;
uint32_t handle, scan[4];
uint16_t half;
uint8_t byte, small[512], large[1024], line[16], bytes[16];
";

#[test]
fn no_call_is_left_out() {
    let headers = concat!(
        include_str!("../include/ramsummer.h"),
        include_str!("../include/ramsummer_image.h"),
        include_str!("../include/ramsummer_peaks.h"),
        include_str!("../include/ramsummer_site.h")
    );
    let names = headers.split("uint8_t ramsummer_").skip(1).map(|rest| rest.split_once('(').unwrap().0);
    assert_eq!(names.collect::<BTreeSet<_>>(), CALLS.iter().map(|(name, _)| *name).collect());
}

/// A wrong one instead of an argument, before what is next to it; none where it stays.
type Misuse = fn(&str, Option<&&str>) -> Option<String>;

fn null(argument: &str, next: Option<&&str>) -> Option<String> {
    let is_pointer = argument.starts_with('&') || next.is_some_and(|next| next.starts_with("sizeof"));
    is_pointer.then(|| "NULL".into())
}

fn too_long(argument: &str, _: Option<&&str>) -> Option<String> {
    argument.starts_with("sizeof").then(|| format!("{argument} + 1"))
}

/// All calls with one wrong argument.
fn misused(misuse: Misuse) -> Vec<String> {
    let mut calls = Vec::new();
    for (name, arguments) in CALLS {
        let arguments: Vec<&str> = arguments.split(", ").collect();
        for (place, argument) in arguments.iter().enumerate() {
            let Some(wrong) = misuse(argument, arguments.get(place + 1)) else { continue };
            let call = [&arguments[..place], &[&wrong], &arguments[place + 1..]].concat();
            calls.push(format!("{name}({})", call.join(", ")));
        }
    }
    calls
}

/// The functions that the names of the calls are of: those of ramsummer_wide.h, or the library's own, which are called once
/// these are inlined.
#[derive(Clone, Copy, PartialEq)]
enum Names {
    Wide,
    Library,
}

/// A function for each call, on a line of its own: the first is call:1.
fn program(names: Names, calls: &[String]) -> String {
    let headers = ["image", "peaks", "site"].map(|name| format!("#include \"ramsummer_{name}.h\"\n")).concat();
    let undefine = |(name, _): &(&str, &str)| format!("#undef ramsummer_{name}\n");
    let of_library: String = CALLS.iter().filter(|_| names == Names::Library).map(undefine).collect();
    let function = |(i, call): (usize, &String)| format!("uint8_t f{i}(void) {{ return ramsummer_{call}; }}\n");
    let functions: String = calls.iter().enumerate().map(function).collect();
    format!("{headers}{of_library}{VARIABLES}#line 1 \"call\"\n{functions}")
}

/// Those of these calls that the compiler warns of.
fn warned_of(compiler: &str, names: Names, calls: &[String]) -> Vec<String> {
    let source = written(&format!("misused_{compiler}.c"), &program(names, calls));
    let object = source.with_extension("o");
    let options = ["-std=c99", "-Wall", "-Wextra", "-c", source.to_str().unwrap(), "-o", object.to_str().unwrap()];
    let output = compiled(compiler, &options).unwrap();
    let said = String::from_utf8(output.stderr).unwrap();
    assert!(output.status.success(), "{said}");
    let is_named = |line: usize| said.contains(&format!("call:{line}:"));
    calls.iter().enumerate().filter(|(i, _)| is_named(i + 1)).map(|(_, call)| call.clone()).collect()
}

fn knows(compiler: &str, attribute: &str) -> bool {
    let text = format!("#if !__has_attribute({attribute})\n#error\n#endif\n");
    let source = written(&format!("knows_{attribute}_{compiler}.c"), &text);
    compiled(compiler, &["-fsyntax-only", source.to_str().unwrap()]).is_some_and(|output| output.status.success())
}

/// Of memory that is too short gcc alone warns.
#[test]
fn the_compiler_warns_of_null_and_of_memory_that_is_too_short() {
    let right: Vec<String> = CALLS.iter().map(|(name, arguments)| format!("{name}({arguments})")).collect();
    for compiler in ["cc", "clang"] {
        for (attribute, misuse) in [("nonnull", null as Misuse), ("access", too_long)] {
            for names in [Names::Wide, Names::Library] {
                if knows(compiler, attribute) {
                    let calls = misused(misuse);
                    assert_eq!(warned_of(compiler, names, &calls), calls);
                    assert!(warned_of(compiler, names, &right).is_empty());
                }
            }
        }
    }
}

#[test]
fn a_limit_of_a_site_that_is_out_of_its_range_does_not_compile() {
    let source = written("limits.c", "#include \"ramsummer_site.h\"\n");
    let limits = [("SMALL_BLOCKS", 1..=64), ("LARGE_BLOCKS", 1..=32), ("EXPIRATIONS", 1..=256), ("EXTENSION", 0..=30)];
    for (name, range) in limits {
        for limit in [range.start() - 1, *range.start(), *range.end(), range.end() + 1, (1_i64 << 32) + 1] {
            let define = format!("-DRAMSUMMER_SITE_{name}={limit}");
            let options = ["-Wextra", "-Werror", "-fsyntax-only", &define, source.to_str().unwrap()];
            let Some(checked) = compiled("cc", &options) else { return };
            assert_eq!(checked.status.success(), range.contains(&limit), "{define}");
        }
    }
}
