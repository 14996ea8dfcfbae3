//! The limits of a script and the ends of its lines.

use reference::script::{calls, run, LIMIT};

#[test]
fn lines_and_their_ends() {
    let rows: [(&[u8], &[u8]); 9] = [
        (b"", b""),
        (b"\n", b"11\n"),
        (b"\n\n", b"11\n11\n"),
        (b"0A", b"000000000000000000\n"),
        (b"0A\n", b"000000000000000000\n"),
        (b"010000FF00FF\n\n0500", b"00\n11\n0001\n"),
        (b"010000FF00FF\r\n0500\r\n", b"10\n10\n"),
        (b"\r", b"10\n"),
        (b"0", b"10\n"),
    ];
    for (script, output) in rows {
        assert_eq!(run(script), output, "{}", script.escape_ascii());
    }
}

#[test]
fn the_longest_script() {
    let mut script = b"0A\n".repeat(LIMIT / 3);
    script.resize(LIMIT, b'\n');
    assert_eq!(run(&script).len(), LIMIT / 3 * 19 + 3);
    script.push(b'\n');
    assert_eq!(run(&script), b"script too long\n");
}

#[test]
fn the_longest_line() {
    assert_eq!(run(&vec![b'0'; LIMIT]), b"11\n");
    assert_eq!(run(&[b"09".repeat(LIMIT / 2 - 1), b"0G".to_vec()].concat()), b"10\n");
    assert_eq!(run(&b"09".repeat(LIMIT / 2)), b"12\n");
    assert_eq!(run(&vec![b'0'; LIMIT + 1]), b"script too long\n");
}

/// As many objects as a script can name at once, and a byte of one more.
#[test]
fn the_largest_batch() {
    let joined = |batch: &[u8]| [b"010000FF00FF\n", batch].concat();
    let batch = [b"0C000000".to_vec(), b"00000001".repeat(8_189)].concat();
    assert_eq!(joined(&batch).len(), LIMIT - 3);
    assert_eq!(run(&joined(&batch)), b"00\n14\n");
    assert_eq!(run(&joined(&[&batch[..], b"00"].concat())), b"00\n12\n");
    assert_eq!(run(&batch), b"03\n");
}

/// As far as a clock gets in one script.
#[test]
fn the_most_ticks() {
    let script = [b"010000FF00FF\n".to_vec(), b"0500\n".repeat((LIMIT - 13) / 5)].concat();
    assert!(run(&script).ends_with(b"0001\n0001\n"));
}

#[test]
fn the_calls_of_a_script_have_no_refused_frames() {
    let mut room = [0; 64];
    let calls = calls(b"010000FF00FF\n0A\n\n0G\n09000000000100A5\n0500", &mut room);
    assert_eq!(calls.len(), 4);
}
