//! Call frames through the safe interface: document 01's worked example, the refusals of a frame, and its room.
#![cfg(feature = "alloc")]

use ramsummer::{Kind, Limits, Pool, Record, Refusal, Share, LARGE, LINE, SMALL};

/// The answer line without its LF. The outcome has to be the number that the line starts with.
fn answer(pool: &mut Pool, line: &str) -> String {
    let mut room = [0; LINE];
    let answer = pool.frame(line.as_bytes(), &mut room);
    let text = String::from_utf8(answer.line.to_vec()).unwrap();
    let number = answer.outcome.map_or_else(Refusal::number, |()| 0);
    assert!(text.starts_with(&format!("{number:02X}")), "{number} with the line {text}");
    text.strip_suffix('\n').unwrap().to_string()
}

#[test]
fn the_worked_example() {
    let mut pool = Pool::new();
    for (frame, expected) in [
        ("010000FF00FF", "00"),
        ("0600000000040000", "0000000001"),
        ("09000000000101A5", "00"),
        ("080000000001", "0000A50000"),
        ("0500", "0001"),
        ("080000000001", "0C"),
        ("0A", "000000000000000001"),
    ] {
        assert_eq!(answer(&mut pool, frame), expected, "{frame}");
    }
}

/// Local, extension 2, and global, extension 4: the first byte is the task's local time, the second global time.
#[test]
fn what_remains_to_an_object() {
    let mut pool = Pool::new();
    for (frame, expected) in [
        ("010000FF00FF", "00"),
        ("0600000200040000", "0000000001"),
        ("0700010400000001", "00"),
        ("0B0000000001", "000306"),
        ("0500", "0001"),
        ("0B0000000001", "000205"),
        ("0B0000000002", "0B"),
    ] {
        assert_eq!(answer(&mut pool, frame), expected, "{frame}");
    }
}

/// A batch of one, of two and of one twice; and the refusals in which one object stands for all.
#[test]
fn objects_that_are_refreshed_together() {
    let mut pool = Pool::new();
    for (frame, expected) in [
        ("010000FF00FF", "00"),
        ("0600000000040000", "0000000001"),
        ("0600000000040000", "0000000002"),
        ("0C00000200000001", "00"),
        ("0C0001000000000100000002", "00"),
        ("0C0000050000000200000002", "00"),
        ("0A", "000200000700000002"),
        ("0B0000000001", "000302"),
        ("0B0000000002", "000602"),
        ("0C0000000000000200000003", "0B"),
        ("0C000000", "14"),
        ("0A", "000200000700000002"),
    ] {
        assert_eq!(answer(&mut pool, frame), expected, "{frame}");
    }
    assert_eq!(answer(&mut pool, &format!("0C0000FF{}", "00000001".repeat(33))), "14");
    assert_eq!(answer(&mut pool, &format!("0C0000FF{}", "00000001".repeat(32))), "06");
    assert_eq!(answer(&mut pool, &format!("0C000000{}", "00000001".repeat(32))), "00");
    assert_eq!(answer(&mut pool, &format!("0C000000{}", "00000001".repeat(100_000))), "14");
    assert_eq!(answer(&mut pool, &format!("0C000000{}00", "00000001".repeat(100_000))), "12");
}

/// Task 0 has a reserve of two small objects and a limit of three, task 1 no small and one large one. Once 0 has left,
/// its object counts for nobody.
#[test]
fn tasks_that_have_a_share() {
    let mut pool = Pool::sized(Limits { small_blocks: 4, large_blocks: 1, expirations: 9, extension: 1 }).unwrap();
    for (frame, expected) in [
        ("0100020300FF", "00"),
        ("010102FF00FF", "00"),
        ("010201FF00FF", "19"),
        ("010200000001", "00"),
        ("0602000000040000", "1A"),
        ("0600020000040000", "0000000001"),
        ("0600000000040000", "0000000002"),
        ("0600000000040000", "09"),
        ("0601000000040000", "0000000003"),
        ("0602000000280000", "0000000004"),
        ("0601000000280000", "09"),
        ("0200", "0000"),
        ("010001010000", "00"),
        ("010301010000", "19"),
        ("0A", "000201000300000004"),
    ] {
        assert_eq!(answer(&mut pool, frame), expected, "{frame}");
    }
}

/// Task 1 views: it reads the first two bytes of an object, and asks what remains of it. Nobody waits for it.
#[test]
fn a_task_that_views() {
    let mut pool = Pool::new();
    for (frame, expected) in [
        ("0E01", "00"),
        ("0E01", "02"),
        ("010100FF00FF", "02"),
        ("0401", "05"),
        ("010000FF00FF", "00"),
        ("0600000000040005", "1C"),
        ("0600000001010101", "07"),
        ("0600000000040002", "0000000001"),
        ("09000000000100A1A2A3A4", "00"),
        ("080000000001", "00A1A2A3A4"),
        ("080100000001", "00A1A2"),
        ("0B0100000001", "000000"),
        ("0601000000040000", "1B"),
        ("0701000000000009", "1B"),
        ("090100000009FF", "1B"),
        ("0C010000", "1B"),
        ("0D0100000009", "1B"),
        ("0301", "1B"),
        ("0501", "1B"),
        ("0500", "0001"),
        ("080100000001", "0C"),
        ("0201", "0000"),
        ("080100000001", "03"),
    ] {
        assert_eq!(answer(&mut pool, frame), expected, "{frame}");
    }
}

/// It stands over ticks, and goes with its release or, where it has another expiration, later.
#[test]
fn objects_that_are_pinned_until_they_are_released() {
    let mut pool = Pool::new();
    for (frame, expected) in [
        ("010000FF00FF", "00"),
        ("0600020100040000", "06"),
        ("0600020000040000", "0000000001"),
        ("0600020000040000", "0000000002"),
        ("0700000000000002", "00"),
        ("0700020000000001", "15"),
        ("0C00020000000001", "15"),
        ("0B0000000001", "000000"),
        ("0D0000000001", "00"),
        ("0D0000000001", "0C"),
        ("0D0000000002", "00"),
        ("0D0000000002", "16"),
        ("0A", "000100000100000002"),
        ("0500", "0001"),
        ("0A", "000000000000000002"),
    ] {
        assert_eq!(answer(&mut pool, frame), expected, "{frame}");
    }
}

#[test]
fn refused_frames_change_nothing() {
    let mut pool = Pool::new();
    let before = pool.clone();
    for (frame, expected) in [
        ("0", "10"),
        ("0a", "10"),
        ("01 0000FF00FF", "10"),
        ("010000FF00FF\n", "10"),
        ("", "11"),
        ("00", "11"),
        ("0F", "11"),
        ("01", "12"),
        ("0100", "12"),
        ("010000FF00", "12"),
        ("010000FF00FF00", "12"),
        ("0B", "12"),
        ("0B00000001", "12"),
        ("0C0000", "12"),
        ("0C000000000000", "12"),
        ("0D", "12"),
        ("0D000000000100", "12"),
        ("0E", "12"),
        ("0E0000", "12"),
        ("060000000004", "12"),
        ("06000000000400", "12"),
        ("060000000004000000", "12"),
        ("060003000004", "12"),
        ("0600030000040000", "13"),
        ("0C000300", "13"),
        ("011000FF00FF", "01"),
        ("011001000000", "01"),
        ("010001000000", "18"),
        ("010000004100", "18"),
        ("010041000001", "18"),
        ("010041410000", "19"),
        ("010000002121", "19"),
        ("0E10", "01"),
        ("0500", "03"),
    ] {
        assert_eq!(answer(&mut pool, frame), expected, "{frame}");
    }
    assert!(pool == before);
}

#[test]
fn a_frame_tests_the_record_and_the_stores() {
    let mut pool: Pool = Pool::over(Box::default(), Box::default(), Box::default());
    assert_eq!(answer(&mut pool, "0600000000040000"), "0E");
    let mut record = Record::fresh();
    record.global = 7;
    record.tasks[0].ticked = 1;
    let mut pool = Pool::over(record.into(), vec![0; SMALL].into(), vec![0; LARGE].into());
    assert_eq!(answer(&mut pool, "0A"), "0F");
    assert_eq!(answer(&mut pool, "0A0"), "10");
}

#[test]
fn a_room_too_short_is_left_alone() {
    let mut pool = Pool::new();
    let before = pool.clone();
    let mut room = [9; LINE - 1];
    let answer = pool.frame(b"010000FF00FF", &mut room);
    assert_eq!((answer.outcome, answer.line), (Err(Refusal::BufferTooShort), &[][..]));
    assert_eq!(room, [9; LINE - 1]);
    assert!(pool == before);
}

#[test]
fn the_longest_answer_has_room() {
    let mut pool = Pool::new();
    pool.join(0, Share::OPEN).unwrap();
    let handle = pool.make(0, Kind::Local, 0, 256).unwrap();
    pool.write(0, handle, 0, &[0x5C; 256]).unwrap();
    assert_eq!(answer(&mut pool, "080000000001"), format!("00{}", "5C".repeat(256)));
}
