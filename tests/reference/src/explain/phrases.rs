//! Small phrases: lists, counts and bytes.

use crate::expiration::Expiration;

/// How many bytes are shown of an object or a frame.
const SHOWN: usize = 16;

/// `task 7`, `tasks 7 and 9`, `objects 1 to 4, 6 and 9`: numbers in order, three or more in a row as a range.
pub fn listed(noun: &str, numbers: &[u32]) -> String {
    let parts = ranges(numbers);
    let many = if numbers.len() == 1 { "" } else { "s" };
    match parts.split_last() {
        None => format!("no {noun}"),
        Some((last, [])) => format!("{noun}{many} {last}"),
        Some((last, first)) => format!("{noun}{many} {} and {last}", first.join(", ")),
    }
}

fn ranges(numbers: &[u32]) -> Vec<String> {
    let mut parts = Vec::new();
    for run in numbers.chunk_by(|a, b| a.checked_add(1) == Some(*b)) {
        match *run {
            [first, _, .., last] => parts.push(format!("{first} to {last}")),
            _ => parts.extend(run.iter().map(u32::to_string)),
        }
    }
    parts
}

/// `1 byte`, `4 bytes`.
pub fn counted(count: usize, noun: &str) -> String {
    let many = if count == 1 { "" } else { "s" };
    format!("{count} {noun}{many}")
}

/// The bytes in hexadecimal, the first sixteen of them.
pub fn shown_bytes(bytes: &[u8]) -> String {
    let shown: Vec<_> = bytes.iter().take(SHOWN).map(|byte| format!("{byte:02X}")).collect();
    if bytes.len() > SHOWN {
        return format!("{} and {} more", shown.join(" "), counted(bytes.len() - SHOWN, "byte"));
    }
    shown.join(" ")
}

/// The characters of a line, the first sixteen of them; what cannot be printed is escaped.
pub fn shown_line(line: &[u8]) -> String {
    let more = if line.len() > SHOWN { "..." } else { "" };
    format!("\"{}{more}\"", line[..line.len().min(SHOWN)].escape_ascii())
}

/// Until when an expiration stands.
pub fn due(expiration: Expiration) -> String {
    match expiration {
        Expiration::Local { setter, due } => format!("local time {due} of task {setter}"),
        Expiration::Global { due, .. } => format!("global time {due}"),
        Expiration::Pinned => "its release".into(),
    }
}

#[cfg(test)]
mod tests {
    use super::*;

    #[test]
    fn lists() {
        assert_eq!(listed("task", &[]), "no task");
        assert_eq!(listed("task", &[7]), "task 7");
        assert_eq!(listed("task", &[7, 8]), "tasks 7 and 8");
        assert_eq!(listed("task", &[1, 3, 7]), "tasks 1, 3 and 7");
        assert_eq!(listed("object", &[1, 2, 3, 5, 8, 9, 10, 11]), "objects 1 to 3, 5 and 8 to 11");
        assert_eq!(listed("object", &[u32::MAX]), "object 4294967295");
    }

    #[test]
    fn bytes_and_lines() {
        assert_eq!(shown_bytes(&[0, 165]), "00 A5");
        assert!(shown_bytes(&[7; 17]).ends_with("07 and 1 byte more"));
        assert!(shown_bytes(&[7; 18]).ends_with("07 and 2 bytes more"));
        assert_eq!(shown_line(b"01\xFF"), "\"01\\xff\"");
        assert_eq!(shown_line(&[b'0'; 17]), "\"0000000000000000...\"");
    }
}
