//! A script as a table for other programs: comma-separated values, a line for each of its lines.

use super::Line;
use crate::ledger::Usage;

const HEAD: &str = "line,task,operation,answer,small,large,expirations,global,\
                    small_with_room,large_with_room,expirations_with_room\n";

/// The number of the line, who calls for what, the number of the answer, and what stands then; at the end what would
/// stand with room for all. A frame that yields no call has neither a task nor an operation, and a report no task.
pub fn table(lines: &[Line]) -> String {
    let mut text = HEAD.to_string();
    for (number, line) in (1..).zip(lines) {
        text += &row(number, line);
    }
    text
}

fn row(number: usize, line: &Line) -> String {
    let asked = line.asked.as_ref();
    let task = asked.and_then(|asked| asked.task).map_or(String::new(), |task| task.to_string());
    let (operation, answer) = (asked.map_or("", |asked| asked.operation), line.number());
    let (figures, global) = (line.after.figures, line.after.global);
    let (small, large, expirations) = (figures.small, figures.large, figures.expirations);
    let stands = format!("{small},{large},{expirations},{global}");
    let Usage { small, large, expirations } = line.after.roomy;
    format!("{number},{task},{operation},{answer},{stands},{small},{large},{expirations}\n")
}
