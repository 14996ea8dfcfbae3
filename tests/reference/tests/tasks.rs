//! Tasks and times after each event, by hand: most of what they are shows in no answer.

use reference::call::Model;
use reference::ledger::Ledger;
use reference::script::calls;
use reference::share::Share;
use reference::tasks::State::{self, Absent, Running, Viewing, Waiting};
use reference::tasks::Task;

/// A line, and what then is so: state, mark and clock of tasks 0 and 1, and the global time.
type Event = (&'static str, [(State, bool, u64); 2], u64);

const EVENTS: &[Event] = &[
    ("010000FF00FF", [(Running, false, 0), (Absent, false, 0)], 0),
    ("010100FF00FF", [(Running, false, 0), (Running, false, 0)], 0),
    ("0500", [(Running, true, 1), (Running, false, 0)], 0),
    ("0500", [(Running, true, 2), (Running, false, 0)], 0),
    ("0300", [(Waiting, false, 2), (Running, false, 0)], 0),
    ("0400", [(Running, false, 2), (Running, false, 0)], 0),
    ("0500", [(Running, true, 3), (Running, false, 0)], 0),
    ("0501", [(Running, false, 3), (Running, false, 1)], 1),
    ("0501", [(Running, false, 3), (Running, true, 2)], 1),
    ("0300", [(Waiting, false, 3), (Running, false, 2)], 2),
    ("0501", [(Waiting, false, 3), (Running, false, 3)], 3),
    ("0400", [(Running, false, 3), (Running, false, 3)], 3),
    ("0501", [(Running, false, 3), (Running, true, 4)], 3),
    ("0200", [(Absent, false, 0), (Running, false, 4)], 4),
    ("0E00", [(Viewing, false, 0), (Running, false, 4)], 4),
    ("0501", [(Viewing, false, 0), (Running, false, 5)], 5),
    ("0301", [(Viewing, false, 0), (Waiting, false, 5)], 5),
    ("0200", [(Absent, false, 0), (Waiting, false, 5)], 5),
    ("0201", [(Absent, false, 0), (Absent, false, 0)], 5),
    ("010100FF00FF", [(Absent, false, 0), (Running, false, 0)], 5),
];

#[test]
fn after_each_event() {
    let mut ledger = Ledger::fresh();
    for (row, &(line, tasks, global)) in EVENTS.iter().enumerate() {
        let mut room = vec![0; line.len() / 2];
        let call = calls(line.as_bytes(), &mut room)[0];
        assert!(ledger.call(&call).is_ok(), "row {row}, {line}");
        let share = |state: State| if matches!(state, Running | Waiting) { Share::OPEN } else { Share::NONE };
        let tasks = tasks.map(|(state, ticked, clock)| Task { state, ticked, clock, share: share(state) });
        assert_eq!(ledger.tasks().entries()[..2], tasks, "row {row}, {line}");
        assert_eq!(ledger.tasks().entries()[2..], [Task::default(); 14], "row {row}, {line}");
        assert_eq!(ledger.tasks().global(), global, "row {row}, {line}");
    }
}
