//! Scripts in words, summed up, as tables and as pictures.

mod svg;

use std::fs;
use std::path::{Path, PathBuf};
use std::process::{Command, Output};

use reference::call::{Call, Model, Refusal};
use reference::explain::{explain, in_words, picture, summary, table, Line, Story};
use reference::frame::decode;
use reference::generate::{limits, script, sized_script};
use reference::ledger::{Ledger, Usage};
use reference::limits::Limits;
use reference::peaks::peaks;
use reference::program::run_program;
use reference::script::{lines, run_from, LIMIT};

const EXPLAIN: &str = env!("CARGO_BIN_EXE_explain");

/// In a pool of the scope paper's figures.
fn explained(script: &[u8]) -> Vec<Line> {
    explain(Limits::STANDARD, script)
}

fn pictured(script: &[u8]) -> String {
    plain_picture(Limits::STANDARD, &explained(script))
}

/// Without a story.
fn plain_picture(limits: Limits, lines: &[Line]) -> String {
    picture(limits, &Story::default(), lines)
}

/// All that the program writes.
fn written(limits: Limits, lines: &[Line]) -> String {
    format!("{}\n{}", in_words(lines), summary(limits, lines))
}

/// A script without LFs, and the words of its last line.
fn last_words(script: &str) -> String {
    explained(&script_of(script)).pop().unwrap().words
}

/// In a pool of these figures: the number of the last line's answer, and its words behind those of the call.
fn last_told(figures: &str, script: &str) -> (u8, String) {
    let line = explain(figures.parse().unwrap(), &script_of(script)).pop().unwrap();
    (line.number(), line.words.split_once(": ").unwrap().1.to_string())
}

fn script_of(frames: &str) -> Vec<u8> {
    frames.replace(' ', "\n").into_bytes()
}

/// `count` times the same.
fn times(count: usize, frame: &str) -> String {
    format!(" {frame}").repeat(count)
}

#[test]
fn words_of_each_call() {
    for (script, words) in [
        ("010300FF00FF", "join of task 3: it runs, from local time 0 on"),
        ("010300FF00FF 0203", "leave of task 3: it is absent; no task runs, and global time stands"),
        ("010300FF00FF 010400FF00FF 0203", "leave of task 3: it is absent; global time waits for task 4"),
        ("010300FF00FF 010400FF00FF 0503 0204", "leave of task 4: it is absent; global time advances to 1"),
        ("010300FF00FF 0303", "block of task 3: it waits; no task runs, and global time stands"),
        ("010300FF00FF 010400FF00FF 0503 0304", "block of task 4: it waits; global time advances to 1"),
        ("010300FF00FF 0303 0403", "resume of task 3: it runs again, after it waited since line 2"),
        ("010300FF00FF 0503", "tick of task 3: global time advances to 1"),
        ("010300FF00FF 0603010200040000", "task 3, make of 4 bytes, global with extension 2: object 1 in the small store, until global time 4"),
        ("010300FF00FF 0603000000010000", "task 3, make of 1 byte, local with extension 0: object 1 in the small store, until local time 1 of task 3"),
        ("010300FF00FF 0603000000210000", "task 3, make of 33 bytes, local with extension 0: object 1 in the large store, until local time 1 of task 3"),
        ("010300FF00FF 0603000000040000 0703010100000001", "task 3, refresh of object 1, global with extension 1: one expiration more, until global time 3; it has 2"),
        ("010300FF00FF 0603000000040000 0903000000010107A5 080300000001", "task 3, read of object 1: 00 07 A5 00"),
        ("010300FF00FF 0603000000040000 0903000000010107A5", "task 3, write of 2 bytes at offset 1 of object 1: done"),
        ("010300FF00FF 0603000000040000 0603000000400000 0A", "report: 1 of 64 small objects, 1 of 32 large, 2 of 256 expirations, 2 handles given"),
        ("010300FF00FF 0603010100040000 0B0300000001", "task 3, remaining life of object 1: 0 ticks of task 3 by its local expirations, 3 advances by global ones"),
        ("010300FF00FF 0603000000040000 0C03000000000001", "task 3, refresh of object 1, local with extension 0: one expiration more for each, until local time 1 of task 3"),
        (
            "010300FF00FF 0603000000040000 0603000000040000 0603000000040000 0C030001000000010000000200000003",
            "task 3, refresh of objects 1 to 3, local with extension 1: one expiration more for each, until local time 2 of task 3",
        ),
        ("010300FF00FF 0603020000040000", "task 3, make of 4 bytes, pinned: object 1 in the small store, until its release"),
        ("010300FF00FF 0603020000040000 0D0300000001", "task 3, release of object 1: it is pinned no longer; object 1 is gone"),
        (
            "010300FF00FF 0603020000040000 0703000000000001 0D0300000001",
            "task 3, release of object 1: it is pinned no longer; it has 1 expiration",
        ),
    ] {
        assert_eq!(last_words(script), words, "{script}");
    }
}

#[test]
fn for_whom_global_time_waits() {
    let joined = "010300FF00FF 010700FF00FF 010900FF00FF 010100FF00FF 0301";
    assert_eq!(last_words(&format!("{joined} 0503")), "tick of task 3: global time waits for tasks 7 and 9");
    assert_eq!(last_words(&format!("{joined} 0503 0503")), "tick of task 3: global time waits for tasks 7 and 9");
    assert_eq!(last_words(&format!("{joined} 0503 0509")), "tick of task 9: global time waits for task 7");
    assert_eq!(last_words(&format!("{joined} 0503 0509 0507")), "tick of task 7: global time advances to 1");
}

#[test]
fn what_goes() {
    assert_eq!(
        last_words("010300FF00FF 010400FF00FF 0603000000040000 0503"),
        "tick of task 3: global time waits for task 4; object 1 is gone"
    );
    assert_eq!(
        last_words("010300FF00FF 0603000000040000 0603000000040000 0503"),
        "tick of task 3: global time advances to 1; objects 1 and 2 are gone"
    );
    assert_eq!(
        last_words("010300FF00FF 010400FF00FF 0603000500040000 0203"),
        "leave of task 3: it is absent; global time waits for task 4; object 1 is gone"
    );
}

#[test]
fn what_is_put_off_and_who_departed() {
    let made = "010300FF00FF 010400FF00FF 0603010000040000 0603010000040000 0603010000040000 0604010500040000";
    assert_eq!(
        last_words(&format!("{made} 0504 0303")),
        "block of task 3: it waits; global time advances to 1; expirations of objects 1 to 3 are put off"
    );
    assert_eq!(
        last_words(&format!("{made} 0304 0503")),
        "tick of task 3: global time advances to 1; an expiration of object 4 is put off"
    );
    assert_eq!(
        last_words(&format!("{made} 0503 0504 0304 0503")),
        "tick of task 3: global time advances to 2; an expiration of object 4 is put off; objects 1 to 3 are gone"
    );
    assert_eq!(
        last_words(&format!("{made} 0204")),
        "leave of task 4: it is absent, and departed as the setter of 1 global expiration; global time waits for task 3"
    );
    assert_eq!(
        last_words(&format!("{made} 0303 0504 0203")),
        "leave of task 3: it is absent, and departed as the setter of 3 global expirations; global time waits for task 4"
    );
    assert_eq!(
        last_words(&format!("{made} 0204 010400FF00FF 0304 0503")),
        "tick of task 3: global time advances to 1",
        "it departed"
    );
}

#[test]
fn since_when_an_object_is_gone_and_with_what() {
    let read = "080100000001";
    for (script, gone) in [
        // By its only one.
        ("010100FF00FF 0601000000040000 0501", "gone at line 3 with its last expiration, set by task 1 at line 2"),
        // By another task's refresh, which was due later.
        (
            "010100FF00FF 010200FF00FF 0601000000040000 0702000100000001 0501 0502 0502",
            "gone at line 7 with its last expiration, set by task 2 at line 4",
        ),
        // The refresh was due before what the make had set.
        (
            "010100FF00FF 010200FF00FF 0601000100040000 0702000000000001 0502 0501 0501",
            "gone at line 7 with its last expiration, set by task 1 at line 3",
        ),
        // Both together: the one that was set last.
        (
            "010100FF00FF 0601000000040000 0701000000000001 0501",
            "gone at line 4 with its last expiration, set by task 1 at line 3",
        ),
        // With its setter's leave.
        (
            "010100FF00FF 010200FF00FF 0602000500040000 0202",
            "gone at line 4 with its last expiration, set by task 2 at line 3",
        ),
        // By a batch.
        (
            "010100FF00FF 0601000000040000 0C01000100000001 0501 0501",
            "gone at line 5 with its last expiration, set by task 1 at line 3",
        ),
        // By a block that lets global time advance.
        (
            "010100FF00FF 010200FF00FF 0601010000040000 0501 0502 0501 0302",
            "gone at line 7 with its last expiration, set by task 1 at line 3",
        ),
        // By its release.
        (
            "010100FF00FF 010200FF00FF 0602020000040000 0501 0202 0D0100000001",
            "gone at line 6 with its last expiration, pinned by task 2 at line 3",
        ),
        // By time, after its release.
        (
            "010100FF00FF 0601020000040000 0701000000000001 0D0100000001 0501",
            "gone at line 5 with its last expiration, set by task 1 at line 3",
        ),
        // Put off while its setter waited.
        (
            "010100FF00FF 010200FF00FF 0602010000040000 0302 0501 0501 0402 0501 0502 0501 0502",
            "gone at line 11 with its last expiration, set by task 2 at line 3 and put off by 2 advances",
        ),
        // Put off, and on its way again when its setter left.
        (
            "010100FF00FF 010200FF00FF 0602010000040000 0302 0501 0202 0501 0501",
            "gone at line 8 with its last expiration, set by task 2, departed, at line 3 and put off by 1 advance",
        ),
    ] {
        assert_eq!(last_words(&format!("{script} {read}")), format!("task 1, read of object 1: {gone}"), "{script}");
    }
}

#[test]
fn words_of_each_refusal() {
    let smalls = format!("010100FF00FF{}", times(65, "0601010000040000"));
    let pinned = format!("010100FF00FF{}{}", times(3, "0601020000040000"), times(62, "0601010000040000"));
    let larges = format!("010100FF00FF 0501{}", times(33, "0601010001000000"));
    let dates = format!("010100FF00FF 0601010000040000{}", times(256, "0701010000000001"));
    let batch = format!("010100FF00FF 0601010000040000{} 0C0101000000000100000001", times(254, "0701010000000001"));
    let crowd = format!("010100FF00FF 0C010000{}", "00000001".repeat(33));
    for (number, script, words) in [
        (1, "011000FF00FF", "join of task 16: tasks are 0 to 15"),
        (2, "010300FF00FF 010300FF00FF", "join of task 3: task 3 runs since line 1; only an absent task can join"),
        (2, "010300FF00FF 0303 010300FF00FF", "join of task 3: task 3 waits since line 2; only an absent task can join"),
        (3, "0503", "tick of task 3: task 3 has not joined; it has to join first"),
        (3, "010300FF00FF 0203 0303", "block of task 3: task 3 left at line 2; it has to join first"),
        (4, "010300FF00FF 0303 0503", "tick of task 3: task 3 waits since line 2; it has to resume first"),
        (5, "010300FF00FF 0403", "resume of task 3: task 3 runs since line 1; only a waiting task can resume"),
        (6, "010100FF00FF 0601001F00040000", "task 1, make of 4 bytes, local with extension 31: an extension is at most 30"),
        (6, "010100FF00FF 0601020100040000", "task 1, make of 4 bytes, pinned with extension 1: what is pinned has extension 0"),
        (7, "010100FF00FF 0601000001010000", "task 1, make of 257 bytes, local with extension 0: a length is 1 to 256"),
        (
            9,
            &smalls,
            "task 1, make of 4 bytes, global with extension 0: the small store is full with 64 objects; \
             global time is 0 from the start on and waits for task 1",
        ),
        (
            9,
            &pinned,
            "task 1, make of 4 bytes, global with extension 0: the small store is full with 64 objects, 3 of them pinned; \
             global time is 0 from the start on and waits for task 1",
        ),
        (
            9,
            &larges,
            "task 1, make of 256 bytes, global with extension 0: the large store is full with 32 objects; \
             global time is 1 since line 2 and waits for task 1",
        ),
        (
            10,
            &dates,
            "task 1, refresh of object 1, global with extension 0: 256 expirations stand, and with 1 more they are above 256; \
             global time is 0 from the start on and waits for task 1",
        ),
        (
            10,
            &batch,
            "task 1, refresh of objects 1 and 1, global with extension 0: 255 expirations stand, and with 2 more they are \
             above 256; global time is 0 from the start on and waits for task 1",
        ),
        (11, "010100FF00FF 080100000001", "task 1, read of object 1: handle 1 was not given; none was so far"),
        (
            11,
            "010100FF00FF 0601000000040000 0C0100000000000100000009",
            "task 1, refresh of objects 1 and 9, local with extension 0: handle 9 was not given; the last was 1",
        ),
        (
            12,
            "010100FF00FF 0601000000040000 0601000100040000 0501 0C0100000000000100000002",
            "task 1, refresh of objects 1 and 2, local with extension 0: object 1 is gone at line 4 with its last \
             expiration, set by task 1 at line 2",
        ),
        (
            12,
            "010100FF00FF 0601000000040000 0601000000040000 0501 0C0100000000000100000002",
            "task 1, refresh of objects 1 and 2, local with extension 0: object 1 is gone at line 4 with its last \
             expiration, set by task 1 at line 2; 1 object more gone",
        ),
        (
            13,
            "010100FF00FF 0601000000040000 09010000000103A5A5",
            "task 1, write of 2 bytes at offset 3 of object 1: it would end at 5, and the object has 4 bytes",
        ),
        (16, "01x0", "frame \"01x0\": character 3 is no digit, 0 to 9 or A to F"),
        (16, "010", "frame \"010\": 3 digits, and a byte has two"),
        (17, "0F01", "frame \"0F01\": operations are 01 to 0E"),
        (17, "010100FF00FF  ", "frame \"\": an empty line has no operation"),
        (18, "010101", "frame \"010101\": a join has 6 bytes, and not 3"),
        (3, "0C000000", "task 0, refresh of no object, local with extension 0: task 0 has not joined; it has to join first"),
        (18, "0C00000001", "frame \"0C00000001\": a batch has 4 bytes and 4 for each object, and not 5"),
        (18, "0D01", "frame \"0D01\": a release has 6 bytes, and not 2"),
        (18, "060100000004", "frame \"060100000004\": a make has 8 bytes, and not 6"),
        (18, "0E", "frame \"0E\": a view has 2 bytes, and not 1"),
        (19, "0601030000040000", "frame \"0601030000040000\": kind 03 is none of 00, local, 01, global, and 02, pinned"),
        (20, "010100FF00FF 0C010000", "task 1, refresh of no object, local with extension 0: a batch has 1 to 32 objects"),
        (20, &crowd, "task 1, refresh of 33 objects, local with extension 0: a batch has 1 to 32 objects"),
        (21, "010100FF00FF 0701020000000001", "task 1, refresh of object 1, pinned: only a make pins an object"),
        (21, "010100FF00FF 0C01020100000001", "task 1, refresh of object 1, pinned with extension 1: only a make pins an object"),
        (22, "010100FF00FF 0601000000040000 0D0100000001", "task 1, release of object 1: it was never pinned"),
        (
            22,
            "010100FF00FF 0601020000040000 0701000000000001 0D0100000001 0D0100000001",
            "task 1, release of object 1: it was released at line 4",
        ),
    ] {
        let line = explained(&script_of(script)).pop().unwrap();
        assert_eq!((line.words.as_str(), line.number()), (words, number), "{script}");
    }
}

/// What a viewer is told and refused, and of a prefix nothing where it is 0.
#[test]
fn words_of_viewers() {
    let shown = "010300FF00FF 0603020000040002 0903000000010007A5 0E04";
    let may = "a viewer may leave, read, and ask for a remaining life or a report";
    let only_views = |asked: &str| format!("{asked}: task 4 views since line 4; {may}");
    for (number, frames, words) in [
        (0, "", "join of task 4 as a viewer: it sees prefixes, and global time does not wait for it".to_string()),
        (0, " 080400000001", "task 4, read of object 1: its prefix, 07 A5".into()),
        (0, " 0603020000040000 080400000002", "task 4, read of object 2: its prefix has no byte".into()),
        (0, " 0204", "leave of task 4: it is absent; global time waits for task 3".into()),
        (0, " 0503", "tick of task 3: global time advances to 1".into()),
        (
            0,
            " 0603020000040004",
            "task 3, make of 4 bytes with a prefix of 4, pinned: object 2 in the small store, until its release".into(),
        ),
        (2, " 0E04", "join of task 4 as a viewer: task 4 views since line 4; only an absent task can join".into()),
        (5, " 0404", "resume of task 4: task 4 views since line 4; only a waiting task can resume".into()),
        (27, " 0504", only_views("tick of task 4")),
        (27, " 0D0400000001", only_views("task 4, release of object 1")),
        (27, " 0604020000040001", only_views("task 4, make of 4 bytes with a prefix of 1, pinned")),
        (
            28,
            " 0603020000040005",
            "task 3, make of 4 bytes with a prefix of 5, pinned: a prefix is no longer than its object".into(),
        ),
    ] {
        let line = explained(&script_of(&format!("{shown}{frames}"))).pop().unwrap();
        assert_eq!((line.words, line.refusal.map_or(0, |refusal| refusal as u8)), (words, number), "{frames}");
    }
    let summed_up = summary(Limits::STANDARD, &explained(&script_of("0E04 0504 0304 0204 0304")));
    for line in [
        "2 x refusal 27: task only views, at lines 2 to 3",
        "global time: longest at 0, 5 lines from 1 to 5, at last no task ran",
    ] {
        assert!(summed_up.lines().any(|told| told == line), "{summed_up}");
    }
}

/// A join tells what it asks of each store, and nothing of one in which it asks for nothing.
#[test]
fn words_of_a_share() {
    for (frame, words) in [
        ("010300FF00FF", ""),
        ("010302FF00FF", " with a reserve of 2 in the small store"),
        ("010300FF0004", " with a limit of 4 in the large store"),
        (
            "010302080004",
            " with a reserve of 2 and a limit of 8 in the small store, and a limit of 4 in the large store",
        ),
        ("010300000000", " with a limit of 0 in the small store, and a limit of 0 in the large store"),
    ] {
        assert_eq!(last_words(frame), format!("join of task 3{words}: it runs, from local time 0 on"));
    }
}

/// Why a share is refused, and what it refuses, in a pool of four small blocks and two large ones.
#[test]
fn words_of_reserves_and_limits() {
    for (number, script, words) in [
        (24, "010103020000", "the reserve in the small store is above the limit"),
        (24, "010100000100", "the reserve in the large store is above the limit"),
        (24, "0101FF00FF00", "the reserve in the small store is above the limit"),
        (25, "010105FF00FF", "the small store has 4 of 4 blocks left, beside 0 objects"),
        (
            25,
            "010002FF00FF 0600020000040000 010102FF00FF 010201FF01FF",
            "the small store has 0 of 4 blocks left, beside 1 object and 3 blocks held back for tasks 0 and 1",
        ),
        (
            25,
            "010000FF01FF 010100FF02FF",
            "the large store has 1 of 2 blocks left, beside 0 objects and 1 block held back for task 0",
        ),
        (25, "010000FF00FF 0600020000400000 010100FF02FF", "the large store has 1 of 2 blocks left, beside 1 object"),
        (26, "010100000000 0601000000040000", "task 1 has 0 small objects, and its limit is 0"),
        (26, "010100010001 0601020000400000 0601020000400000", "task 1 has 1 large object, and its limit is 1"),
        (
            9,
            "010003FF00FF 010101FF00FF 010200FF00FF 0602000000040000",
            "the small store has 4 free blocks, held back for tasks 0 and 1; \
             global time is 0 from the start on and waits for tasks 0 to 2",
        ),
        (
            9,
            "010000FF01FF 0300 010100FF00FF 0601020000400000 0601020000400000",
            "the large store has 1 free block, held back for task 0; \
             global time is 0 from the start on and waits for task 1",
        ),
        (
            9,
            "010004FF00FF 0600020000040000 0600020000040000 0600020000040000 0600020000040000 0600020000040000",
            "the small store is full with 4 objects, 4 of them pinned; \
             global time is 0 from the start on and waits for task 0",
        ),
    ] {
        assert_eq!(last_told("4,2,256,30", script), (number, words.to_string()), "{script}");
    }
}

#[test]
fn words_go_by_the_figures() {
    for (figures, number, script, words) in [
        ("1,2,4,5", 6, "010100FF00FF 0601000600040000", "an extension is at most 5"),
        ("1,1,1,0", 6, "010100FF00FF 0601010100040000", "an extension is at most 0"),
        ("1,1,1,0", 6, "010100FF00FF 0601020100040000", "what is pinned has extension 0"),
        (
            "1,2,4,5",
            9,
            "010100FF00FF 0601010000040000 0601010000040000",
            "the small store is full with 1 object; global time is 0 from the start on and waits for task 1",
        ),
        (
            "1,2,4,5",
            9,
            "010100FF00FF 0601020001000000 0601010001000000 0601010001000000",
            "the large store is full with 2 objects, 1 of them pinned; \
             global time is 0 from the start on and waits for task 1",
        ),
        (
            "1,1,1,0",
            10,
            "010100FF00FF 0601010000040000 0601010001000000",
            "1 expiration stands, and with 1 more they are above 1; \
             global time is 0 from the start on and waits for task 1",
        ),
        (
            "1,2,4,5",
            10,
            "010100FF00FF 0601010000040000 0601010001000000 0C0101000000000100000001 0701010000000002",
            "4 expirations stand, and with 1 more they are above 4; \
             global time is 0 from the start on and waits for task 1",
        ),
        (
            "1,1,1,0",
            0,
            "010100FF00FF 0601010000040000 0A",
            "1 of 1 small object, 0 of 1 large, 1 of 1 expiration, 1 handle given",
        ),
        (
            "1,2,4,5",
            0,
            "010100FF00FF 0601020001000000 0A",
            "0 of 1 small object, 1 of 2 large, 1 of 4 expirations, 1 handle given",
        ),
    ] {
        assert_eq!(last_told(figures, script), (number, words.to_string()), "{figures}: {script}");
    }
}

/// Each line has the answer of the run, and what it says that stands is what the report tells.
#[test]
fn generated_scripts_are_explained_as_they_run() {
    for seed in 0..80 {
        let limits = if seed < 40 { Limits::STANDARD } else { limits(seed) };
        let script = sized_script(limits, seed);
        let script = &script[..script.len().min(8_000)];
        let (explained, answers) = (explain(limits, script), run_from(Ledger::of(limits), script));
        assert_eq!(explained.len(), lines(&answers).count());
        for (line, answer) in explained.iter().zip(lines(&answers)) {
            assert_eq!(format!("{:02X}", line.number()).as_bytes(), &answer[..2], "seed {seed}: {}", line.words);
        }
    }
}

#[test]
fn every_line_has_its_number_and_what_became_of_it() {
    let text = in_words(&explained(b"010000FF00FF\n\n0500\n"));
    let lines = [
        "1  done        join of task 0: it runs, from local time 0 on",
        "2  refused 17  frame \"\": an empty line has no operation",
        "3  done        tick of task 0: global time advances to 1",
    ];
    assert_eq!(text.lines().collect::<Vec<_>>(), lines);
    assert_eq!(in_words(&explained(b"")), "");
}

#[test]
fn a_script_is_summed_up() {
    // Task 4 never ticks; of five objects of task 3 one is pinned, two go, and one is refused.
    let frames = "010300FF00FF 010400FF00FF 0603020000400000 0603000000040000 0603000000040000 0601010000040000 0503 \
                  0604010000040000 0503 080300000009";
    let lines = explained(&script_of(frames));
    let expected = [
        "A script of 10 lines, 2 refused",
        "small objects: at most 2 of 64, first at line 5",
        "large objects: at most 1 of 32, first at line 3",
        "expirations: at most 3 of 256, first at line 5",
        "small objects, with room for all: peak 2, within 64",
        "large objects, with room for all: peak 1, within 32",
        "expirations, with room for all: peak 3, within 256",
        "1 x refusal 3: task absent, at line 6",
        "1 x refusal 11: handle not given, at line 10",
        "global time: longest at 0, 10 lines from 1 to 10, at last for task 4",
        "blocks of task 3: 3 made, at most 3 at a time, 1 at the end",
        "blocks of task 4: 1 made, at most 1 at a time, 1 at the end",
    ];
    assert_eq!(summary(Limits::STANDARD, &lines).lines().collect::<Vec<_>>(), expected);
}

#[test]
fn what_a_summary_says_of_time_and_refusals() {
    let says = |frames: &str, words: &str| {
        let summary = summary(Limits::STANDARD, &explained(&script_of(frames)));
        assert!(summary.lines().any(|line| line == words), "{frames}: {summary}");
    };
    says(
        "010300FF00FF 0503 0503 0603000000040000 0503",
        "global time: longest at 2, 2 lines from 3 to 4, at last for task 3",
    );
    says(
        "010300010000 0603020000040000 0603020000040000 0203 010300010000 0603020000040000",
        "blocks of task 3: 2 made, at most 1 at a time, 1 at the end",
    );
    says("010300010000 0603020000040000 0603020000040000", "1 x refusal 26: at its limit, at line 3");
    says("0A 0A", "global time: longest at 0, 2 lines from 1 to 2, at last no task ran");
    says("0203 0A 0403", "2 x refusal 3: task absent, at lines 1 to 3");
    says("0A", "small objects: none of 64");
    let nothing = summary(Limits::STANDARD, &[]);
    assert_eq!(nothing.lines().next_back(), Some("global time: no line"));
}

/// Order 11: beside a peak that is beyond the pool the first line at which it would pass.
#[test]
fn what_a_summary_says_of_room() {
    let says = |figures: &str, frames: &str, words: [&str; 3]| {
        let limits = figures.parse().unwrap();
        let summary = summary(limits, &explain(limits, &script_of(frames)));
        let (_, room) = summary.split_once("small objects, with room for all: ").expect("it tells the room");
        let room: Vec<_> = room.lines().take(3).map(|line| line.rsplit_once(": ").map_or(line, |(_, w)| w)).collect();
        assert_eq!(room, words, "{figures}, {frames}");
    };
    let standard = "64,32,256,30";
    says(standard, "0A x", ["peak 0, within 64", "peak 0, within 32", "peak 0, within 256"]);
    // A limit of 0 refuses all three, and a reserve above its limit the join.
    let all = "0603020000200000 0603020000210000 0C03000000000001";
    let needed = ["peak 1, within 64", "peak 1, within 32", "peak 3, within 256"];
    says(standard, &format!("010300000000 {all}"), needed);
    says(standard, &format!("010301000000 {all}"), needed);
    // The line is of the script, with those that yield no call, and the first of several.
    let past = ["peak 2, past 1 at line 4", "peak 0, within 1", "peak 2, past 1 at line 4"];
    says("1,1,1,0", "010300FF00FF x 0603020000200000 0603020000200000", past);
    let past = ["peak 1, within 1", "peak 3, past 2 at line 5", "peak 4, within 9"];
    says("1,2,9,0", &format!("010300FF00FF 0603020000200000{}", times(3, "0603020000210000")), past);
    // It passes, comes back and passes again.
    let past = ["peak 3, past 1 at line 3", "peak 0, within 1", "peak 3, within 9"];
    let script = format!("010300FF00FF{} 0503{}", times(2, "0603000000200000"), times(3, "0603000000200000"));
    says("1,1,9,0", &script, past);
}

/// What a program or a picture tells of room is what the peaks are.
#[test]
fn the_room_of_generated_scripts() {
    for seed in 0..80 {
        let (limits, script) = (limits(seed), sized_script(limits(seed), seed));
        let Usage { small, large, expirations } = peaks(limits, &script);
        let lines = explain(limits, &script);
        let summary = summary(limits, &lines);
        for (name, peak) in [("small objects", small), ("large objects", large), ("expirations", expirations)] {
            let words = format!("{name}, with room for all: peak {peak}, ");
            assert!(summary.contains(&words), "seed {seed}: {words}");
        }
        // A line that passes is the first at which the pool, with the script read so, answers 9 or 10.
        let passes = |line: &Line| !line.after.roomy.fits(limits);
        let read = read_open(&script);
        let refused = explain(limits, &read)
            .iter()
            .position(|line| matches!(line.refusal, Some(Refusal::NoFreeBlock | Refusal::ExpirationsFull)));
        assert_eq!(lines.iter().position(passes), refused, "seed {seed}");
    }
}

/// The script with every reserve as 0 and every limit as 255.
fn read_open(script: &[u8]) -> Vec<u8> {
    let is_join = |line: &[u8]| matches!(decode(line, &mut [0; 6]), Ok(Call::Join { .. }));
    let read = |line: &[u8]| match line.len() == 12 && is_join(line) {
        true => [&line[..4], b"00FF00FF"].concat(),
        false => line.to_vec(),
    };
    lines(script).map(read).collect::<Vec<_>>().join(&b'\n')
}

#[test]
fn a_script_as_a_table() {
    // There is no large block for the task, as the script is written.
    let frames = "010300FF0000 x 0603010000040000 0603000000400000 0A 0503 080300000009";
    let expected = [
        "line,task,operation,answer,small,large,expirations,global,small_with_room,large_with_room,expirations_with_room",
        "1,3,join,0,0,0,0,0,0,0,0",
        "2,,,16,0,0,0,0,0,0,0",
        "3,3,make,0,1,0,1,0,1,0,1",
        "4,3,make,26,1,0,1,0,1,1,2",
        "5,,report,0,1,0,1,0,1,1,2",
        "6,3,tick,0,1,0,1,1,1,0,1",
        "7,3,read,11,1,0,1,1,1,0,1",
    ];
    assert_eq!(table(&explained(&script_of(frames))).lines().collect::<Vec<_>>(), expected);
}

const GROUPS: [&str; 10] = [
    "story",
    "legend",
    "marks",
    "small-objects",
    "large-objects",
    "expirations",
    "global-time",
    "tasks",
    "refusals",
    "lines",
];

const LEGEND: [&str; 12] = [
    "small objects",
    "large objects",
    "expirations",
    "global time",
    "of them pinned",
    "refused",
    "task absent",
    "running, its tick awaited",
    "running, ticked",
    "waiting",
    "viewing",
    "tick",
];

const AXES: [&str; 5] = [
    "Small objects (count)",
    "Large objects (count)",
    "Expirations (count)",
    "Global time (advances)",
    "Tasks (number)",
];

/// Well-formed, with all parts, within its frame, and no text over another.
fn check_picture(name: &str, picture: &str) {
    let tags = svg::tags(picture);
    svg::check(name, picture, &tags, &GROUPS);
    let texts = svg::texts(&tags);
    for words in LEGEND {
        assert!(texts.iter().any(|text| text.text == words), "{name}: no {words}");
    }
    for axis in AXES {
        assert!(texts.iter().any(|text| text.text.starts_with(axis)), "{name}: no {axis}");
    }
    assert!(texts.iter().any(|text| text.text == "Line of the script (number)"), "{name}");
}

#[test]
fn pictures_can_be_read() {
    for seed in 0..20 {
        check_picture(&format!("seed {seed}"), &pictured(&script(seed)));
    }
    let scripts: [(&str, Vec<u8>); 6] = [
        ("empty", Vec::new()),
        ("one line", b"010000FF00FF".to_vec()),
        ("one refused", b"0500".to_vec()),
        ("as many lines as there can be", vec![b'\n'; LIMIT]),
        ("refused in turn", b"\nx\n010\n011000FF00FF\n".repeat(900)),
        ("only ticks", [&b"010000FF00FF\n"[..], &b"0500\n".repeat(13_000)].concat()),
    ];
    for (name, script) in scripts {
        check_picture(name, &pictured(&script));
    }
}

/// The scale goes by what is reached, up to the figures.
#[test]
fn pictures_go_by_the_figures() {
    for seed in 0..60 {
        let (limits, script) = (limits(seed), sized_script(limits(seed), seed));
        check_picture(&format!("seed {seed}, {limits:?}"), &plain_picture(limits, &explain(limits, &script)));
    }
    for (figures, count, steps, name) in [
        ("64,32,256,30", 1, &["0", "1"][..], "at most 1 of 64"),
        ("64,32,256,30", 64, &["0", "16", "32", "48", "64"], "at most 64 of 64"),
        ("64,32,256,30", 33, &["0", "10", "20", "30", "40"], "at most 33 of 64"),
        ("1,1,1,0", 1, &["0", "1"], "at most 1 of 1"),
        ("30,3,40,5", 30, &["0", "8", "16", "24"], "at most 30 of 30"),
    ] {
        let limits = figures.parse().unwrap();
        let script = format!("010000FF00FF\n{}", "0600000000040000\n".repeat(count));
        let picture = plain_picture(limits, &explain(limits, script.as_bytes()));
        let panel = group(&picture, "small-objects");
        assert!(panel.contains(&format!("Small objects (count): {name}<")), "{figures}: {panel}");
        let marks: Vec<_> = panel.split("text-anchor=\"end\"").skip(1).map(text_of).collect();
        assert_eq!(marks, steps, "{figures}");
    }
}

fn group<'a>(picture: &'a str, id: &str) -> &'a str {
    let (_, rest) = picture.split_once(&format!("<g id=\"{id}\">")).unwrap();
    rest.split_once("</g>").unwrap().0
}

/// Under each of three curves, with a mark where the script would outgrow the pool.
#[test]
fn pictures_show_the_room() {
    let under = |figures: &str, frames: &str, id: &str| {
        let limits = figures.parse().unwrap();
        let picture = plain_picture(limits, &explain(limits, &script_of(frames)));
        check_picture(frames, &picture);
        let panel = group(&picture, id).to_string();
        let (above, words) = panel.split_once(">With room for all: ").unwrap();
        let marks = above.matches("<path fill=\"#222222\"").count();
        (words.split_once('<').unwrap().0.to_string(), marks)
    };
    let many = format!("010300000000{}", times(66, "0603020000200000"));
    let past = |words: &str| (words.to_string(), 1);
    let within = |words: &str| (words.to_string(), 0);
    assert_eq!(under("64,32,256,30", &many, "small-objects"), past("peak 66, past 64 at line 66 (triangle)"));
    assert_eq!(under("64,32,256,30", &many, "large-objects"), within("peak 0, within 32"));
    assert_eq!(under("64,32,256,30", &many, "expirations"), within("peak 66, within 256"));
    assert_eq!(under("64,32,60,30", &many, "expirations"), past("peak 66, past 60 at line 62 (triangle)"));
    assert_eq!(under("1,1,1,0", "0A", "small-objects"), within("peak 0, within 1"));
    let described = plain_picture(Limits::STANDARD, &explained(&script_of(&many)));
    assert!(described.contains("\nsmall objects, with room for all: peak 66, past 64 at line 66.\n"));
}

/// In words where there is room for them, else in numbers.
#[test]
fn pictures_name_the_refusals() {
    let labels = |script: &[u8]| {
        let picture = pictured(script);
        let texts = group(&picture, "refusals").split("<text ").skip(2).map(text_of);
        texts.map(str::to_string).collect::<Vec<_>>()
    };
    assert_eq!(labels(b"0500\n"), ["1 x refusal 3: task absent"]);
    assert_eq!(labels(b"0500\n0500\nx\n"), ["2 x refusal 3: task absent", "1 x refusal 16: not hexadecimal"]);
    let many = b"0500\nx\n".repeat(900);
    assert_eq!(labels(&many)[0], "3, 16");
    let name = "Refusals (number): 900 x refusal 3: task absent, 900 x refusal 16: not hexadecimal<";
    assert!(group(&pictured(&many), "refusals").contains(name));
    assert_eq!(labels(b"010000FF00FF\n"), [""; 0]);
}

/// The tick that brings the advance has its mark too.
#[test]
fn pictures_have_a_mark_for_each_tick() {
    let marks = |script: &[u8]| {
        let picture = pictured(script);
        let style = "stroke=\"#000000\"";
        group(&picture, "tasks").lines().find(|line| line.contains(style)).map_or(0, |path| path.matches('M').count())
    };
    assert_eq!(marks(b"010000FF00FF\n010100FF00FF\n0500\n0501\n0500\n"), 3);
    assert_eq!(marks(b"010000FF00FF\n0501\n"), 0);
}

#[test]
fn pictures_show_what_is_pinned() {
    let shows = |script: &[u8], id| group(&pictured(script), id).contains("#e3c9a8");
    assert!(
        shows(b"010000FF00FF\n0600020000040000\n", "small-objects")
            && shows(b"010000FF00FF\n0600020000400000\n", "large-objects")
    );
    assert!(
        !shows(b"010000FF00FF\n0600020000040000\n", "large-objects")
            && !shows(b"010000FF00FF\n0600000000040000\n", "small-objects")
    );
}

/// As many captions as there may be, as long as they may be, and near each other.
#[test]
fn pictures_tell_a_story() {
    let (title, words) = ("T".repeat(70), "w".repeat(90));
    let captions: String = (1..=9).map(|line| format!("{line} {words}\n")).collect();
    let story = Story::parse(&format!("{title}\n{captions}")).unwrap();
    for count in [9, 300] {
        let picture = picture(Limits::STANDARD, &story, &explained(&b"0A\n".repeat(count)));
        check_picture(&format!("a story of {count}"), &picture);
        assert_eq!(group(&picture, "story").matches("<circle").count(), 9);
        assert_eq!(group(&picture, "marks").matches("<circle").count(), 9);
        assert!(picture.contains(&format!("Line 9: {words}.")));
    }
}

/// The text of a tag whose end this begins with.
fn text_of(rest: &str) -> &str {
    let (_, text) = rest.split_once('>').unwrap();
    text.split_once('<').unwrap().0
}

#[test]
fn a_picture_has_a_row_for_each_task_that_joins() {
    let count = |script: &[u8]| group(&pictured(script), "tasks").matches("text-anchor=\"end\"").count();
    assert_eq!(count(b""), 0);
    assert_eq!(count(b"010000FF00FF\n010700FF00FF\n0200\n"), 2);
}

fn document(name: &str) -> PathBuf {
    Path::new(env!("CARGO_MANIFEST_DIR")).join("../../docs").join(name)
}

fn temporary(name: &str) -> PathBuf {
    Path::new(env!("CARGO_TARGET_TMPDIR")).join(name)
}

fn run_explain(arguments: &[&str]) -> Output {
    Command::new(EXPLAIN).args(arguments).output().unwrap()
}

/// The weekend: its committed picture is what the program makes of its script, and so are the lines in its document.
#[test]
fn the_weekend() {
    let file = temporary("weekend.svg");
    let [script, story] = ["weekend.script", "weekend.story"].map(document);
    let [file, script, story] = [&file, &script, &story].map(|path| path.to_str().unwrap());
    let output = run_explain(&["--story", story, "--svg", file, script]);
    assert!(output.status.success());
    let made = fs::read_to_string(file).unwrap();
    check_picture("weekend", &made);
    let committed = fs::read_to_string(document("weekend.svg")).unwrap();
    assert!(
        made == committed,
        "make it anew: explain --story docs/weekend.story --svg docs/weekend.svg docs/weekend.script"
    );

    let text = String::from_utf8(output.stdout).unwrap();
    let page = fs::read_to_string(document("WEEKEND.md")).unwrap();
    let (_, words) = page.split_once("## In words").unwrap();
    let quoted: Vec<_> = words.lines().filter_map(|line| line.strip_prefix("    ")).collect();
    assert_eq!(quoted.len(), 10);
    for line in quoted {
        assert!(text.lines().any(|written| written == line), "{line}");
    }
}

/// Each caption of its story stands at a line of which it is true.
#[test]
fn the_story_of_the_weekend() {
    let story = Story::parse(&fs::read_to_string(document("weekend.story")).unwrap()).unwrap();
    let lines = explained(&fs::read(document("weekend.script")).unwrap());
    let captioned: Vec<_> = story.captions.iter().map(|caption| caption.line).collect();
    let first = |holds: &dyn Fn(&Line) -> bool| 1 + lines.iter().position(holds).unwrap();
    let [died, full, block, back, resumed] = captioned[..] else { panic!("{captioned:?}") };
    // The first call after the last tick of task 7 was heeded.
    let (before, after) = lines.split_at(died - 1);
    assert!(before.last().unwrap().words.contains("global time advances to 2"));
    assert!(after.iter().take(full - died).all(|line| line.after.global == 2 && !line.after.tasks[7].ticked));
    assert_eq!(full, first(&|line| line.refusal == Some(Refusal::NoFreeBlock)));
    assert_eq!(block, first(&|line| line.words.starts_with("block of task 7: ")));
    assert_eq!(back, block + first_place(&lines[block..], |line| line.words.contains(" are gone")));
    assert_eq!(resumed, first(&|line| line.words.starts_with("resume of task 7: ")));
}

/// From 1.
fn first_place(lines: &[Line], holds: impl Fn(&Line) -> bool) -> usize {
    1 + lines.iter().position(holds).unwrap()
}

/// What it has beside its fault: a pinned object with its release, and a remaining life before the refresh of a scan.
#[test]
fn the_weekend_has_each_kind_of_life() {
    let lines = explained(&fs::read(document("weekend.script")).unwrap());
    for words in ["pinned: object 1 in the large store", "release of object 1: ", "remaining life of object 19: "] {
        assert!(lines.iter().any(|line| line.refusal.is_none() && line.words.contains(words)), "{words}");
    }
}

/// Its fault and its cure: twelve makes find the store full, and none where task 7 blocks when its sensor is dead.
#[test]
fn the_weekend_with_block_in_time() {
    let script = fs::read_to_string(document("weekend.script")).unwrap();
    let mut frames: Vec<_> = script.lines().collect();
    let full = |frames: &[&str]| {
        let lines = explained(frames.join("\n").as_bytes());
        lines.iter().filter(|line| line.refusal == Some(Refusal::NoFreeBlock)).count()
    };
    assert_eq!(full(&frames), 12);
    let block = frames.remove(215);
    assert_eq!(block, "0307");
    frames.insert(88, block);
    assert_eq!(full(&frames), 0);
}

#[test]
fn the_program_reads_standard_input() {
    let script = script(3);
    let output = run_program(&mut Command::new(EXPLAIN), &script).unwrap();
    assert!(output.status.success());
    assert_eq!(output.stdout, written(Limits::STANDARD, &explained(&script)).as_bytes());
}

#[test]
fn the_program_writes_a_table() {
    let (script, file) = (script(3), temporary("table.csv"));
    let output = run_program(Command::new(EXPLAIN).args(["--csv", file.to_str().unwrap()]), &script).unwrap();
    assert!(output.status.success());
    assert_eq!(fs::read_to_string(file).unwrap(), table(&explained(&script)));
}

/// In one line, and nothing is explained.
#[test]
fn errors_name_the_file() {
    let (long, wrong) = (temporary("long.script"), temporary("wrong.story"));
    fs::write(&long, vec![b'\n'; LIMIT + 1]).unwrap();
    fs::write(&wrong, "A title\n1 one line\nno number\n").unwrap();
    let [long, wrong] = [&long, &wrong].map(|path| path.to_str().unwrap());
    let script = document("weekend.script");
    let script = script.to_str().unwrap();
    for (arguments, told) in [
        (&["no/such/script"][..], "no/such/script: ".to_string()),
        (&[long], format!("{long}: script too long")),
        (&["--svg", "no/such/folder/x", script], "no/such/folder/x: ".into()),
        (&["--csv", "no/such/folder/x", script], "no/such/folder/x: ".into()),
        (&["--story", "no/such/story", script], "no/such/story: ".into()),
        (&["--story", wrong, script], format!("{wrong}, line 3: ")),
    ] {
        let output = run_explain(arguments);
        let error = String::from_utf8(output.stderr).unwrap();
        assert_eq!((output.status.code(), output.stdout), (Some(1), Vec::new()), "{arguments:?}");
        assert!(error.starts_with(&format!("explain: {told}")) && error.lines().count() == 1, "{error}");
    }
}

/// What the program prints to these arguments, and its picture.
fn told(arguments: &[&str], script: &[u8]) -> (String, String) {
    let file = temporary("figures.svg");
    let svg = [arguments, &["--svg", file.to_str().unwrap()]].concat();
    let printed = [arguments, &svg].map(|arguments| {
        let output = run_program(Command::new(EXPLAIN).args(arguments), script).unwrap();
        assert!(output.status.success(), "{arguments:?}");
        String::from_utf8(output.stdout).unwrap()
    });
    assert_eq!(printed[0], printed[1], "{arguments:?}");
    (printed[0].clone(), fs::read_to_string(file).unwrap())
}

/// Some of chance, the smallest, and the scope paper's, with which it prints what it does without.
#[test]
fn the_program_takes_figures() {
    let Limits { small_blocks, large_blocks, expirations, extension } = limits(5);
    let any = format!("{small_blocks},{large_blocks},{expirations},{extension}");
    for figures in [&any, "1,1,1,0", "64,32,256,30"] {
        let limits = figures.parse().unwrap();
        let script = sized_script(limits, 5);
        let explained = explain(limits, &script);
        let expected = (written(limits, &explained), plain_picture(limits, &explained));
        assert!(told(&["--figures", figures], &script) == expected, "{figures}");
        assert_eq!(told(&[], &script) == expected, limits == Limits::STANDARD, "{figures}");
    }
}

/// With the number 29, and nothing is explained.
#[test]
fn the_program_refuses_figures() {
    for figures in [&["--figures", "65,32,256,30"][..], &["--figures", "1,1,1,31"], &["--figures", "x"], &["--figures"]]
    {
        let output = run_explain(figures);
        let told = String::from_utf8(output.stderr).unwrap();
        assert_eq!((output.status.code(), output.stdout), (Some(1), Vec::new()), "{figures:?}");
        assert!(told.starts_with("explain: refused 29: the figures are small blocks, 1 to 64, "), "{told}");
        assert_eq!(told.lines().count(), 1, "{told}");
    }
}

#[test]
fn the_program_refuses_what_it_cannot_do() {
    let twice = ["--figures", "1,1,1,0", "--figures", "1,1,1,0"];
    let unfinished = [&["--svg"][..], &["--csv"], &["--story"], &["--png", "x"], &["a", "b"]];
    for arguments in [&unfinished[..], &[&["--svg", "a", "--svg", "b"], &twice]].concat() {
        assert_eq!(run_explain(arguments).status.code(), Some(2), "{arguments:?}");
    }
    let output = run_program(&mut Command::new(EXPLAIN), &vec![b'\n'; LIMIT + 1]).unwrap();
    assert_eq!((output.status.code(), output.stdout), (Some(1), Vec::new()));
}
