//! The tables.

use host_tests::callgrind::Count;
use host_tests::cases::{Case, BATCH, ONE_BY_ONE, STANDING};
use host_tests::desk::{Entry, Subject};
use host_tests::malloc;
use host_tests::measures::Measures;
use host_tests::samples::NUMBERINGS;
use host_tests::stack;
use plain::limits::{EXPIRATIONS, LARGEST_BATCH};

use crate::limits::{self, GOAL};

const MOST: usize = STANDING[STANDING.len() - 1];

/// The cases that stand for their calls, a row each of docs/BENCHMARKS.md.
const ROWS: [&str; 18] = [
    "join",
    "view",
    "leave",
    "block",
    "resume",
    "tick",
    "make 32",
    "refresh",
    "batch of 32",
    "release, gone",
    "read 32",
    "write 32",
    "report",
    "remaining",
    "share",
    "frame: tick",
    "frame: make 32",
    "frame: write 256",
];

/// Prints all, and says whether every call is within its limit.
pub fn print(cases: &[Case], counts: &Measures<Count>, times: &Measures<f64>) -> bool {
    println!("## A row a call, {MOST} expirations standing\n");
    summary(cases, counts, times);
    println!("\n## Each call, {MOST} expirations standing (255 where the call sets one, 224 where it sets 32)\n");
    calls(cases, counts, times);
    println!("\n## Growth: instructions with so many expirations standing\n");
    growth(cases, counts);
    println!("\n## A scan of 32 objects: refreshed one by one, and by one batch\n");
    scans(cases, counts, times);
    println!("\n## Where the instructions go, {MOST} expirations standing\n");
    parts(cases, counts);
    println!("\n## Functions of the library in one tick, {MOST} expirations standing\n");
    functions(cases, counts);
    println!("\n## Handles that make the fit test work most, {MOST} expirations standing\n");
    numberings(cases, counts, times);
    println!("\n## Stack: the deepest of all cases of a call, in bytes\n");
    stacks(cases);
    println!("\n## Beside malloc\n");
    mallocs(cases, counts, times);
    println!("\n## Limits: library/plain, {MOST} expirations standing\n");
    within_limits(cases, counts)
}

/// The ratio of each case with all expirations standing that is not refused with 15, beside its limit and the goal; and
/// whether all are within their limits.
fn within_limits(cases: &[Case], counts: &Measures<Count>) -> bool {
    println!("| call | library/plain | its limit | within | the goal | met |\n|---|---:|---:|---|---:|---|");
    let is_held = |case: &Case| case.entry != Entry::OneByOne && case.expirations == MOST && case.answer != 15;
    let mut within = true;
    for (place, case) in cases.iter().enumerate().filter(|(_, case)| is_held(case)) {
        let [Some(library), Some(plain), _] = totals(&counts.cases[place]) else { continue };
        let (name, ratio) = (limits::name(case), library / plain);
        let limit = limits::of(&name);
        let says = |is: bool| if is { "yes" } else { "no" };
        println!("| {name} | {ratio:.3} | {limit:.2} | {} | {GOAL} | {} |", says(ratio <= limit), says(ratio <= GOAL));
        within &= ratio <= limit;
    }
    within
}

/// The cases of one call with the most expirations and the handles that a short list of calls gives, with their places.
fn usual(cases: &[Case]) -> impl Iterator<Item = (usize, &Case)> {
    let is_usual = |case: &Case| case.expirations == MOST && case.numbering.is_none() && case.entry != Entry::OneByOne;
    cases.iter().enumerate().filter(move |(_, case)| is_usual(case))
}

fn usual_place(cases: &[Case], of: impl Fn(&Case) -> bool) -> Option<usize> {
    usual(cases).find(|(_, case)| of(case)).map(|(place, _)| place)
}

fn summary(cases: &[Case], counts: &Measures<Count>, times: &Measures<f64>) {
    println!("| call | instructions: library | plain | library/plain | ns: library | plain |");
    println!("|---|---:|---:|---:|---:|---:|");
    for name in ROWS {
        let place = usual_place(cases, |case| case.name == name).expect("a case");
        let ([library, plain, _], [library_ns, plain_ns, _]) = (totals(&counts.cases[place]), times.cases[place]);
        println!(
            "| {name} | {} | {} | {} | {} | {} |",
            number(library),
            number(plain),
            ratio(library, plain),
            number(library_ns),
            number(plain_ns),
        );
    }
}

fn calls(cases: &[Case], counts: &Measures<Count>, times: &Measures<f64>) {
    let heads = "library | plain | library/plain | plain, work alone |";
    println!("| call | instructions: {heads} ns: {heads}");
    println!("|---|---:|---:|---:|---:|---:|---:|---:|---:|");
    let mut sums = [0.0; 4];
    for (place, case) in usual(cases) {
        let [library, plain, work] = totals(&counts.cases[place]);
        let [library_ns, plain_ns, work_ns] = times.cases[place];
        if case.answer == 0 {
            let measured = [library, plain, library_ns, plain_ns].map(|value| value.unwrap_or(0.0));
            if case.entry != Entry::Fit {
                sums.iter_mut().zip(measured).for_each(|(sum, value)| *sum += value);
            }
        }
        row(case.name, [library, plain, work], [library_ns, plain_ns, work_ns]);
    }
    let [library, plain, library_ns, plain_ns] = sums.map(Some);
    row("all accepted together", [library, plain, None], [library_ns, plain_ns, None]);
}

fn row(name: &str, [library, plain, work]: [Option<f64>; 3], [library_ns, plain_ns, work_ns]: [Option<f64>; 3]) {
    println!(
        "| {name} | {} | {} | {} | {} | {} | {} | {} | {} |",
        number(library),
        number(plain),
        ratio(library, plain),
        number(work),
        number(library_ns),
        number(plain_ns),
        ratio(library_ns, plain_ns),
        number(work_ns),
    );
}

fn growth(cases: &[Case], counts: &Measures<Count>) {
    let heads = |who: &str| STANDING.map(|count| format!("{who}, {count} | ")).concat();
    println!("| call | {}{}{}", heads("library"), heads("plain"), heads("library/plain"));
    println!("|---{}|", "|---:".repeat(3 * STANDING.len()));
    for (_, case) in usual(cases) {
        let at = STANDING.map(|count| {
            let place = cases.iter().position(|other| other.name == case.name && other.expirations == count);
            place.map_or([None; 3], |place| totals(&counts.cases[place]))
        });
        let library = at.map(|[library, ..]| number(library) + " | ").concat();
        let plain = at.map(|[_, plain, _]| number(plain) + " | ").concat();
        let ratios = at.map(|[library, plain, _]| ratio(library, plain) + " | ").concat();
        println!("| {} | {library}{plain}{ratios}", case.name);
    }
}

/// What one call saves: both ways with so many expirations standing before, and how the second is to the first.
fn scans(cases: &[Case], counts: &Measures<Count>, times: &Measures<f64>) {
    let heads = "one by one | batch | batch/one by one |";
    println!("| standing | what | library: {heads} plain: {heads} plain, work alone: {heads}");
    println!("|---:|---{}|", "|---:".repeat(9));
    for standing in STANDING.into_iter().filter(|&standing| standing > 0) {
        let place = |name: &str| {
            let is_one = |case: &Case| case.name == name && case.expirations == standing;
            cases.iter().position(is_one).expect("a case")
        };
        let (singly, batch) = (place(ONE_BY_ONE), place(BATCH));
        let row = |what: &str, singly: [Option<f64>; 3], batch: [Option<f64>; 3]| {
            let cells = (0..3).map(|subject| {
                let (singly, batch) = (singly[subject], batch[subject]);
                format!("{} | {} | {} | ", number(singly), number(batch), ratio(batch, singly))
            });
            let before = standing.min(EXPIRATIONS - LARGEST_BATCH);
            println!("| {before} | {what} | {}", cells.collect::<String>());
        };
        row("instructions", totals(&counts.cases[singly]), totals(&counts.cases[batch]));
        row("ns", times.cases[singly], times.cases[batch]);
    }
}

/// What copies, clears and compares is what is done in the C library's functions for it. The fit test of the library
/// has no entry of its own: a tick that is refused with 1 is little else.
fn parts(cases: &[Case], counts: &Measures<Count>) {
    let plain = "plain | its fit test | its copying and clearing | its rest |";
    println!("| call | library | copying | clearing | comparing | the rest | {plain}");
    println!("|---|---:|---:|---:|---:|---:|---:|---:|---:|---:|");
    let fit = usual_place(cases, |case| case.entry == Entry::Fit);
    let fit = fit.and_then(|place| totals(&counts.cases[place])[1]).unwrap_or(0.0);
    for (place, case) in usual(cases) {
        let [Some(library), Some(plain), _] = &counts.cases[place] else { continue };
        let copies = |count: &Count| count.within("memcpy") + count.within("memmove");
        let (copying, clearing) = (copies(library), library.within("memset"));
        let comparing = library.within("memcmp");
        let plain_copying = copies(plain) + plain.within("memset");
        let tested = if case.answer == 15 { plain.total() - plain_copying } else { fit.min(plain.total()) };
        let values = [
            library.total(),
            copying,
            clearing,
            comparing,
            library.total() - copying - clearing - comparing,
            plain.total(),
            tested,
            plain_copying,
            (plain.total() - tested - plain_copying).max(0.0),
        ];
        println!("| {} | {}", case.name, values.map(|value| number(Some(value)) + " | ").concat());
    }
}

fn functions(cases: &[Case], counts: &Measures<Count>) {
    println!("| function | instructions of its own |\n|---|---:|");
    let tick = usual_place(cases, |case| case.name == "tick");
    let Some([Some(count), ..]) = tick.map(|place| &counts.cases[place]) else { return };
    let mut functions: Vec<_> = count.functions.iter().filter(|(_, &count)| count >= 0.5).collect();
    functions.sort_by(|one, other| other.1.total_cmp(one.1));
    for (name, count) in functions.iter().take(12) {
        println!("| `{name}` | {} |", number(Some(**count)));
    }
}

/// Each numbering of the objects beside the usual one, which is the first.
fn numberings(cases: &[Case], counts: &Measures<Count>, times: &Measures<f64>) {
    println!("| call | handles | library | to usual | plain | to usual | library/plain | ns: library | plain |");
    println!("|---|---|---:|---:|---:|---:|---:|---:|---:|");
    let of = |call: &str, numbering| {
        cases.iter().position(|case| case.name == call && case.numbering == Some(numbering)).expect("a case")
    };
    let [usual, ..] = NUMBERINGS;
    for case in cases.iter().filter(|case| case.numbering == Some(usual)) {
        let [library_usual, plain_usual, _] = totals(&counts.cases[of(case.name, usual)]);
        for numbering in NUMBERINGS {
            let place = of(case.name, numbering);
            let ([library, plain, _], [library_ns, plain_ns, _]) = (totals(&counts.cases[place]), times.cases[place]);
            println!(
                "| {} | {} | {} | {} | {} | {} | {} | {} | {} |",
                case.name,
                numbering.name(),
                number(library),
                ratio(library, library_usual),
                number(plain),
                ratio(plain, plain_usual),
                ratio(library, plain),
                number(library_ns),
                number(plain_ns),
            );
        }
    }
}

fn stacks(cases: &[Case]) {
    println!("| call | library | KB | plain | KB |\n|---|---:|---:|---:|---:|");
    for entry in Entry::ALL {
        let deepest = |subject: Subject| {
            let cases = cases.iter().filter(|case| case.entry == entry);
            cases.filter_map(|case| case.action(subject).map(|action| stack::depth(case, action))).max()
        };
        if let (Some(library), Some(plain)) = (deepest(Subject::Library), deepest(Subject::Plain)) {
            let [library_kb, plain_kb] = [library, plain].map(|bytes| format!("{:.1}", bytes as f64 / 1024.0));
            println!("| {} | {library} | {library_kb} | {plain} | {plain_kb} |", entry.name());
        }
    }
}

/// The calls of an object's life beside the same without a pool.
fn mallocs(cases: &[Case], counts: &Measures<Count>, times: &Measures<f64>) {
    println!("| what | bytes | instructions: library | plain | ns: library | plain |\n|---|---:|---:|---:|---:|---:|");
    for size in [32, 256] {
        for call in ["make", "write", "read"] {
            let name = format!("{call} {size}");
            let Some(place) = usual_place(cases, |case| case.name == name) else { continue };
            let ([library, plain, _], [library_ns, plain_ns, _]) = (totals(&counts.cases[place]), times.cases[place]);
            let values = [library, plain, library_ns, plain_ns].map(|value| number(value) + " | ").concat();
            println!("| {call} | {size} | {values}");
        }
    }
    println!("\n| what | bytes | instructions | ns |\n|---|---:|---:|---:|");
    for (place, way) in malloc::WAYS.iter().enumerate() {
        let (count, time) = (counts.ways[place].total(), times.ways[place]);
        println!("| {} | {} | {} | {} |", way.name, way.size, number(Some(count)), number(Some(time)));
    }
}

fn totals(of_case: &[Option<Count>; 3]) -> [Option<f64>; 3] {
    of_case.each_ref().map(|count| count.as_ref().map(Count::total))
}

fn number(value: Option<f64>) -> String {
    value.map_or_else(|| "-".to_string(), |value| format!("{}", value.round() as i64))
}

fn ratio(one: Option<f64>, other: Option<f64>) -> String {
    match (one, other) {
        (Some(one), Some(other)) if other > 0.0 => format!("{:.2}", one / other),
        _ => "-".to_string(),
    }
}
