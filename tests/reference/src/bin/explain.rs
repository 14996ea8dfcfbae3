//! A script in words, one line for each of its lines, and summed up:
//! `explain [--figures S,L,D,E] [--story FILE] [--svg FILE] [--csv FILE] [SCRIPT]`. The script is a file or standard
//! input; with `--svg` a picture of it goes to FILE, with the title and the captions of the story where there is one, and
//! with `--csv` a table. The figures are those of its pool: small blocks, large blocks, expirations and the largest
//! extension; without them they are the scope paper's.
//!
//! Or a cable plan, what its channels do in steps 0 to 9,999 and what comes of it: `explain --plan FILE [--svg FILE]`.

use std::fs::{self, File};
use std::io::{self, Write};
use std::process::ExitCode;

use reference::explain::{explain, in_words, picture, plan_picture, summary, table, Course, Line, Story};
use reference::limits::Limits;
use reference::plan;
use reference::program::{figures, read_plan, read_script};
use reference::script::LIMIT;

const USAGE: &str = "explain [--figures S,L,D,E] [--story FILE] [--svg FILE] [--csv FILE] [SCRIPT]\n\
                     explain --plan FILE [--svg FILE]";

#[derive(Default)]
struct Order {
    script: Option<String>,
    figures: Option<String>,
    story: Option<String>,
    picture: Option<String>,
    table: Option<String>,
    plan: Option<String>,
}

fn main() -> ExitCode {
    let Some(order) = order() else {
        eprintln!("{USAGE}");
        return ExitCode::from(2);
    };
    match run(&order).map(|words| io::stdout().lock().write_all(words.as_bytes())) {
        Ok(Ok(())) => ExitCode::SUCCESS,
        // Who reads it has seen enough.
        Ok(Err(error)) if error.kind() == io::ErrorKind::BrokenPipe => ExitCode::SUCCESS,
        Ok(Err(error)) => failed(&format!("standard output: {error}")),
        Err(told) => failed(&told),
    }
}

fn failed(told: &str) -> ExitCode {
    eprintln!("explain: {told}");
    ExitCode::FAILURE
}

/// Each of the six at most once. With a plan there is nothing of a script.
fn order() -> Option<Order> {
    let (mut order, mut arguments) = (Order::default(), std::env::args().skip(1));
    while let Some(word) = arguments.next() {
        let former = match word.as_str() {
            "--figures" => order.figures.replace(arguments.next().unwrap_or_default()),
            "--story" => order.story.replace(arguments.next()?),
            "--svg" => order.picture.replace(arguments.next()?),
            "--csv" => order.table.replace(arguments.next()?),
            "--plan" => order.plan.replace(arguments.next()?),
            option if option.starts_with('-') => return None,
            _ => order.script.replace(word),
        };
        if former.is_some() {
            return None;
        }
    }
    let Order { script, figures, story, table, .. } = &order;
    let has_script = [script, figures, story, table].into_iter().any(Option::is_some);
    (order.plan.is_none() || !has_script).then_some(order)
}

/// Writes picture and table, and gives the words. What is wrong with a file is told with its name.
fn run(order: &Order) -> Result<String, String> {
    if let Some(file) = &order.plan {
        return run_plan(file, order.picture.as_deref());
    }
    let limits = figures(order.figures.as_deref())?;
    let lines = explain(limits, &script(order.script.as_deref())?);
    let story = order.story.as_deref().map_or(Ok(Story::default()), |file| story(file, &lines))?;
    if let Some(file) = &order.picture {
        named(file, fs::write(file, picture(limits, &story, &lines)))?;
    }
    if let Some(file) = &order.table {
        named(file, fs::write(file, table(&lines)))?;
    }
    Ok(words(limits, &lines))
}

/// The same of a plan.
fn run_plan(file: &str, picture: Option<&str>) -> Result<String, String> {
    let text = named(file, File::open(file).and_then(read_plan))?;
    let course = Course::of(&plan::read(&text).ok_or_else(|| format!("{file}: bad plan"))?);
    if let Some(picture) = picture {
        named(picture, fs::write(picture, plan_picture(&course)))?;
    }
    Ok(course.in_words())
}

fn words(limits: Limits, lines: &[Line]) -> String {
    format!("{}\n{}", in_words(lines), summary(limits, lines))
}

fn named<T>(name: &str, result: io::Result<T>) -> Result<T, String> {
    result.map_err(|error| format!("{name}: {error}"))
}

fn script(file: Option<&str>) -> Result<Vec<u8>, String> {
    let name = file.unwrap_or("standard input");
    let script = match file {
        Some(file) => File::open(file).and_then(read_script),
        None => read_script(io::stdin().lock()),
    };
    match named(name, script)? {
        script if script.len() > LIMIT => Err(format!("{name}: script too long, above {LIMIT} bytes")),
        script => Ok(script),
    }
}

/// A story of these lines.
fn story(file: &str, lines: &[Line]) -> Result<Story, String> {
    let text = named(file, fs::read_to_string(file))?;
    let story = Story::parse(&text).map_err(|(number, wrong)| format!("{file}, line {number}: {wrong}"))?;
    match story.captions.iter().find(|caption| caption.line > lines.len()) {
        Some(caption) => Err(format!("{file}: line {} is past the script's end, {}", caption.line, lines.len())),
        None => Ok(story),
    }
}
