//! Cable plans in words and as pictures.

mod svg;

use std::fs;
use std::path::{Path, PathBuf};
use std::process::{Command, Output};

use reference::explain::{plan_picture, Course};
use reference::ledger::Standing;
use reference::plan::generate::{plan, SORTS};
use reference::plan::{figures, read, Channel, Run, STEPS};
use reference::share::Maker;

const GROUPS: [&str; 4] = ["legend", "blocks", "channels", "steps"];
const LEGEND: [&str; 5] =
    ["poll open", "reply (first row)", "give-up (second row)", "refusal (third row)", "Step (number)"];

fn course(text: &str) -> Course {
    Course::of(&read(text.as_bytes()).unwrap())
}

fn explain(arguments: &[&str]) -> Output {
    Command::new(env!("CARGO_BIN_EXE_explain")).args(arguments).output().unwrap()
}

fn document(name: &str) -> PathBuf {
    Path::new(env!("CARGO_MANIFEST_DIR")).join("../../docs").join(name)
}

fn temporary(name: &str) -> PathBuf {
    Path::new(env!("CARGO_TARGET_TMPDIR")).join(name)
}

#[test]
fn words_of_a_plan() {
    assert_eq!(
        course("4000 2 65535 0 0\n4000 2 4002 9 1\n4000 2 4002 0 30\n9999 1 0 65535 2\n").in_words(),
        "A cable plan of 4 channels, steps 0 to 9999\n\
         channel 0: polls every 4000, reply after 2, never silent, never gives up, extension 0\n    \
         3 replies, 0 give-ups, 0 refusals, 0 open\n\
         channel 1: polls every 4000, reply after 2, silent from 4002, gives up after 9, extension 1\n    \
         1 reply, 2 give-ups, 0 refusals, 0 open\n\
         channel 2: polls every 4000, reply after 2, silent from 4002, never gives up, extension 30\n    \
         1 reply, 0 give-ups, 0 refusals, 1 open since 4000\n\
         channel 3: polls every 9999, reply after 1, silent from 0, gives up after 65535, extension 2\n    \
         0 replies, 0 give-ups, 0 refusals, 1 open since 0\n\
         small blocks in use: at most 6 of 64, first after step 4000\n"
    );
}

/// What is shown of each channel is what its figures count.
fn check(name: &str, plan: &[Channel]) {
    let course = Course::of(plan);
    let picture = plan_picture(&course);
    let tags = svg::tags(&picture);
    svg::check(name, &picture, &tags, &GROUPS);
    let texts = svg::texts(&tags);
    for words in LEGEND {
        assert!(texts.iter().any(|text| text.text == words), "{name}: no {words}");
    }
    for (lane, figures) in course.lanes.iter().zip(figures(plan)) {
        assert_eq!(lane.figures, figures, "{name}");
        let counts = [&lane.replies, &lane.give_ups, &lane.refusals].map(|steps| steps.len() as u32);
        assert_eq!(counts, [figures.replies, figures.give_ups, figures.refusals], "{name}");
        assert_eq!(lane.polls.len() as u32, figures.replies + figures.give_ups + figures.open, "{name}");
        assert!(lane.polls.windows(2).all(|two| two[0].1 < two[1].0), "{name}");
        assert!(picture.contains(&format!(">{}: {}<", lane.orders(), lane.outcome())), "{name}");
    }
}

#[test]
fn pictures_can_be_read() {
    for seed in 0..8 {
        SORTS.iter().for_each(|&sort| check(&format!("{sort:?}, seed {seed}"), &plan(sort, seed)));
    }
    check("sixteen", &read("1 1 65535 0 30\n".repeat(16).as_bytes()).unwrap());
    check("one", &read(b"65535 65535 0 0 0\n").unwrap());
}

/// A bar for each poll and a mark for each reply, give-up and refusal, where they are apart.
#[test]
fn pictures_show_what_happens() {
    let picture = plan_picture(&course("1000 500 5001 200 0\n"));
    let (_, channels) = picture.split_once("<g id=\"channels\">").unwrap();
    let path = |colour: &str, part: char| {
        let style = channels.split("<path ").find(|path| path.contains(colour)).unwrap_or_default();
        style.split_once(" d=\"").map_or(0, |(_, path)| path.matches(part).count())
    };
    assert_eq!(
        [path("#7a4a00", 'z'), path("#2a5f9e", 'L'), path("#d9730d", 'L'), path("#b00020", 'L')],
        [10, 0, 10, 0]
    );
    let picture = plan_picture(&course("1000 500 5501 900 0\n"));
    let marks = |colour: &str| picture.split_once("<g id=\"channels\">").unwrap().1.matches(colour).count();
    assert_eq!([marks("#2a5f9e"), marks("#d9730d"), marks("#b00020")], [1, 1, 0]);
}

/// The pictures and the lines in the document are what the program makes of its plans.
#[test]
fn the_plans_of_the_document() {
    let page = fs::read_to_string(document("PLANS.md")).unwrap();
    let mut written = String::new();
    for name in ["waits", "gives-up"] {
        let (plan, made) = (document(&format!("{name}.plan")), temporary(&format!("plan-{name}.svg")));
        let output = explain(&["--plan", plan.to_str().unwrap(), "--svg", made.to_str().unwrap()]);
        assert!(output.status.success());
        written += &String::from_utf8(output.stdout).unwrap();
        let committed = fs::read_to_string(document(&format!("plan-{name}.svg"))).unwrap();
        let is_same = fs::read_to_string(made).unwrap() == committed;
        assert!(is_same, "make it anew: explain --plan docs/{name}.plan --svg docs/plan-{name}.svg");
        assert!(page.contains(&format!("](plan-{name}.svg)")), "{name}");
    }
    let (_, words) = page.split_once("## In words").unwrap();
    let quoted: Vec<_> = words.lines().filter_map(|line| line.strip_prefix("    ")).collect();
    assert!(quoted.len() >= 4);
    for line in quoted {
        assert!(written.lines().any(|known| known == line), "{line}");
    }
}

/// What the document says of the weekend: how often channel 3 is refused from then on, and what the silent ones hold.
#[test]
fn the_weekend_as_a_plan() {
    const FRIDAY: u32 = 6_840;
    for (name, refusals) in [("waits", 13), ("gives-up", 0)] {
        let plan = read(&fs::read(document(&format!("{name}.plan"))).unwrap()).unwrap();
        let course = Course::of(&plan);
        assert_eq!(course.lanes[3].refusals.iter().filter(|&&step| step >= FRIDAY).count(), refusals, "{name}");
        assert_eq!(course.peak(), (64, 720), "{name}");
    }
    let mut run = Run::of(&read(&fs::read(document("waits.plan")).unwrap()).unwrap());
    (0..STEPS).for_each(|_| _ = run.step());
    let is_silent = |object: &Standing| matches!(object.maker, Maker::Task(4 | 5));
    assert_eq!(run.ledger.standing().iter().filter(|object| is_silent(object)).count(), 64 - 15);
}

/// In one line, and nothing is explained.
#[test]
fn errors_name_the_file() {
    let bad = temporary("bad.plan");
    fs::write(&bad, "1 1 0 0 31\n").unwrap();
    let (bad, good) = (bad.to_str().unwrap(), document("waits.plan"));
    for (arguments, told) in [
        (&["--plan", bad][..], format!("{bad}: bad plan")),
        (&["--plan", "no/such/plan"], "no/such/plan: ".to_string()),
        (&["--plan", good.to_str().unwrap(), "--svg", "no/such/folder/x"], "no/such/folder/x: ".to_string()),
    ] {
        let output = explain(arguments);
        let error = String::from_utf8(output.stderr).unwrap();
        assert_eq!((output.status.code(), output.stdout), (Some(1), Vec::new()), "{arguments:?}");
        assert!(error.starts_with(&format!("explain: {told}")) && error.lines().count() == 1, "{error}");
    }
}

/// A plan has nothing of a script.
#[test]
fn the_program_refuses_what_it_cannot_do() {
    for others in [&["--csv", "x"][..], &["--story", "x"], &["--figures", "1,1,1,0"], &["x"], &["--plan", "x"]] {
        assert_eq!(explain(&[&["--plan", "x"], others].concat()).status.code(), Some(2), "{others:?}");
    }
    assert_eq!(explain(&["--plan"]).status.code(), Some(2));
}
