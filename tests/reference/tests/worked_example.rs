//! The worked example, to the byte.

use reference::script::run;

const SCRIPT: &str = "\
010000FF00FF
0600000000040000
09000000000101A5
080000000001
0500
080000000001
0A
";

const OUTPUT: &str = "\
00
0000000001
00
0000A50000
0001
0C
000000000000000001
";

#[test]
fn worked_example() {
    assert_eq!(run(SCRIPT.as_bytes()), OUTPUT.as_bytes());
}

#[test]
fn worked_example_without_its_last_line_feed() {
    assert_eq!(run(SCRIPT.trim_end().as_bytes()), OUTPUT.as_bytes());
}
