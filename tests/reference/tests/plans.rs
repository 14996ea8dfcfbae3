//! Order 13: cable plans on the ledger. Rows by hand; both claims after every step of generated plans, and that these plans
//! try them; the text's grammar; the program.

use std::process::Command;

use reference::ledger::Usage;
use reference::plan::generate::{faulty, plan, text, written, FAULTS, SORTS};
use reference::plan::{output, read, Channel, Figures, Run, Track, Turn, LIMIT, STEPS};
use reference::program::run_program;

fn channel(line: &str) -> Channel {
    read(format!("{line}\n").as_bytes()).unwrap()[0]
}

/// The figures of a plan after so many steps, as the program prints them.
fn after(steps: u32, lines: &[&str]) -> Vec<String> {
    let mut run = Run::of(&lines.iter().map(|line| channel(line)).collect::<Vec<_>>());
    (0..steps).for_each(|_| check_step(&mut run));
    let show = |Figures { replies, give_ups, refusals, open }| format!("{replies} {give_ups} {refusals} {open}");
    run.figures().into_iter().map(show).collect()
}

/// A step, and both claims after it: G11, G12.
fn check_step(run: &mut Run) {
    run.step();
    check_claims(run);
}

fn check_claims(run: &Run) {
    for track in &run.tracks {
        assert_eq!(track.turns, track.figures().sum(), "{track:?}, step {}", run.step);
    }
    assert_eq!(run.refused, 0, "step {}", run.step);
}

/// Begun at 0, replied to at 1, and the next one begun at 2: a turn does one thing.
#[test]
fn a_turn_does_one_thing() {
    for (steps, replied_to, silent) in
        [(1, "0 0 0 1", "0 0 0 1"), (2, "1 0 0 0", "0 1 0 0"), (3, "1 0 0 1", "0 1 0 1"), (4, "2 0 0 0", "0 2 0 0")]
    {
        assert_eq!(after(steps, &["1 1 65535 0 0", "1 1 0 1 0"]), [replied_to, silent], "{steps}");
    }
}

/// A reply needs a step before s.
#[test]
fn silence_is_by_the_step_of_the_reply() {
    assert_eq!(after(3, &["10 2 3 0 0"]), ["1 0 0 0"]);
    assert_eq!(after(3, &["10 2 2 0 0"]), ["0 0 0 1"]);
    assert_eq!(after(STEPS, &["10 2 2 0 0"]), ["0 0 0 1"]);
}

/// At one step it is a reply; where the channel is silent the same step is a give-up; else the first of both.
#[test]
fn replies_and_give_ups() {
    assert_eq!(after(5, &["10 4 65535 4 0"]), ["1 0 0 0"]);
    assert_eq!(after(5, &["10 4 4 4 0"]), ["0 1 0 0"]);
    assert_eq!(after(5, &["10 4 65535 3 0"]), ["0 1 0 0"]);
    assert_eq!(after(4, &["10 3 65535 4 0"]), ["1 0 0 0"]);
}

/// Sixty-four blocks: the object of a poll stands for e + 1 ticks of its channel. Thirteen channels that wait for good hold
/// thirteen blocks, and the three others share the rest.
#[test]
fn blocks_run_out() {
    let waiting = ["1 65535 0 0 0"; 13];
    assert_eq!(after(40, &[&waiting[..], &["1 1 65535 0 30"]].concat())[13], "20 0 0 0");
    let sixteen = after(STEPS, &["1 1 65535 0 30"; 16]);
    assert!(sixteen.iter().all(|line| !line.contains(" 0 0 ")), "{sixteen:?}");
}

/// A refused make is counted, and the channel ticks: its own objects go, and it is not refused for good.
#[test]
fn a_refused_channel_ticks() {
    let mut run = Run::of(&[channel("1 1 65535 0 30"); 3]);
    let refused = loop {
        if let Some(task) = run.step().iter().position(|&turn| turn == Turn::Refused) {
            break task;
        }
    };
    assert_eq!(run.ledger.usage(), Usage { small: 64, large: 0, expirations: 64 });
    let begun_again = (0..40).any(|_| run.step()[refused] == Turn::Begun);
    assert!(begun_again);
    check_claims(&run);
}

/// How many turns of generated plans meet each.
#[derive(Debug, Default)]
struct Census {
    begun: u32,
    replied: u32,
    gave_up: u32,
    refused: u32,
    /// Give-ups at a step at which a reply would have come, but for silence.
    silenced: u32,
    /// Replies at a step at which the channel would have given up.
    ties: u32,
    /// Replies while another channel, which is silent, has a poll open.
    others_replied: u32,
    /// By a channel that was refused before.
    begun_after_refusal: u32,
    /// Open at the end with w = 0, and with w.
    open_for_good: u32,
    open_still: u32,
}

impl Census {
    /// What the channels of these tracks did in a step.
    fn note(&mut self, step: u32, before: &[Track], turns: &[Turn]) {
        let is_silent = |track: &Track| u32::from(track.channel.silent) <= step;
        let waits = before.iter().any(|track| is_silent(track) && track.poll.is_some());
        for (track, turn) in before.iter().zip(turns) {
            let is_tied = track.channel.reply == track.channel.wait;
            match turn {
                Turn::Rested => {}
                Turn::Begun => {
                    self.begun += 1;
                    self.begun_after_refusal += u32::from(track.refusals > 0);
                }
                Turn::Refused => self.refused += 1,
                Turn::Replied => {
                    self.replied += 1;
                    self.ties += u32::from(is_tied);
                    self.others_replied += u32::from(waits);
                }
                Turn::GaveUp => {
                    self.gave_up += 1;
                    self.silenced += u32::from(is_tied && is_silent(track));
                }
            }
        }
    }

    fn note_end(&mut self, run: &Run) {
        for track in run.tracks.iter().filter(|track| track.poll.is_some()) {
            let open = if track.channel.wait == 0 { &mut self.open_for_good } else { &mut self.open_still };
            *open += 1;
        }
    }

    fn least(&self) -> u32 {
        let turns = [self.begun, self.replied, self.gave_up, self.refused, self.begun_after_refusal];
        let silent = [self.silenced, self.ties, self.others_replied, self.open_for_good, self.open_still];
        turns.into_iter().chain(silent).min().unwrap_or(0)
    }
}

#[test]
fn the_claims_on_generated_plans() {
    let (mut census, mut good) = (Census::default(), 0);
    for seed in 0..1_000 {
        let Some(plan) = read(&text(seed)) else { continue };
        good += 1;
        let mut run = Run::of(&plan);
        while run.step < STEPS {
            let before = run.tracks.clone();
            let turns = run.step();
            census.note(run.step - 1, &before, &turns);
            check_claims(&run);
        }
        census.note_end(&run);
    }
    println!("{good} plans: {census:?}");
    assert!(good >= 700 && census.least() >= 200, "{good}, {census:?}");
}

/// The text of a plan is read as the plan; with a fault it is none.
#[test]
fn texts() {
    for seed in 0..200 {
        for sort in SORTS {
            let plan = plan(sort, seed);
            assert_eq!(read(written(&plan).as_bytes()), Some(plan));
        }
        for fault in FAULTS {
            let text = faulty(fault, seed);
            assert_eq!(output(&text), b"bad plan\n", "{fault:?}: {}", text.escape_ascii());
        }
    }
}

/// Each bound of each number, and one past it.
#[test]
fn bounds() {
    let is_plan = |text: &str| read(text.as_bytes()).is_some();
    let longest = "65535 65535 65535 65535 30\n".repeat(16);
    assert_eq!(longest.len(), LIMIT);
    for text in ["1 1 0 0 0\n", &longest, "1 1 0 0 0\n10 9 65535 65535 30\n"] {
        assert!(is_plan(text), "{text}");
    }
    for text in
        ["0 1 0 0 0\n", "1 0 0 0 0\n", "1 1 0 0 31\n", "1 1 0 0 0\n\n", "\n", "", "1 1 0 0 00\n", "1 1 65536 0 0\n"]
    {
        assert!(!is_plan(text), "{text}");
    }
    assert!(!is_plan(&(longest + "\n")));
}

#[test]
fn the_program() {
    let run = |text: &[u8]| {
        let program = run_program(&mut Command::new(env!("CARGO_BIN_EXE_ledgerplan")), text).unwrap();
        assert!(program.status.success());
        program.stdout
    };
    assert_eq!(
        run(b"5000 1 65535 0 0\n3000 1 3002 10 0\n3000 1 3002 0 0\n10000 1 0 10000 0\n"),
        b"2 0 0 0\n2 2 0 0\n2 0 0 1\n0 0 0 1\n"
    );
    assert_eq!(run(b"5000 1 65535 0 0"), b"bad plan\n");
    assert_eq!(run(&b"1 1 0 0 0\n".repeat(10_000)), b"bad plan\n");
}
