//! Every seeded mistake is noticed, and README.md says where.

use std::collections::BTreeSet;

use super::fingerprint;
use crate::cases::{self, line_names};
use crate::cases_sheets::{self, further_exports, further_imports, further_plays, Named};
use crate::rules::{Mistake, Rules, ALL};
use crate::{bench, cases_bench, cases_carousels, cases_divisors, cases_replay, cases_trials};
use crate::{demand3, edges, export, hex, import, make_trials, play, replay, trials};

/// The seed and the steps of demand 3 that each mistake is tried on.
const DEMAND3: (u64, usize) = (1, 20_000);

/// Where the outputs for one input differ: how many lines, and the name of
/// the first case among them.
fn differences(right: &str, wrong: &str, names: &[String]) -> Option<(usize, String)> {
    let (right, wrong): (Vec<_>, Vec<_>) = (right.lines().collect(), wrong.lines().collect());
    let differing: Vec<usize> = (0..right.len().max(wrong.len()))
        .filter(|line| right.get(*line) != wrong.get(*line))
        .collect();
    let first = names.get(*differing.first()?);
    Some((differing.len(), first.cloned().unwrap_or_default()))
}

/// An input, what the right program prints, and its lines' names.
struct Tried {
    input: Vec<u8>,
    right: String,
    names: Vec<String>,
    run: fn(Rules, &[u8]) -> String,
}

impl Tried {
    fn new(input: Vec<u8>, names: Vec<String>, run: fn(Rules, &[u8]) -> String) -> Tried {
        let right = run(Rules::RIGHT, &input);
        Tried {
            input,
            right,
            names,
            run,
        }
    }

    fn differences(&self, rules: Rules) -> Option<(usize, String)> {
        differences(&self.right, &(self.run)(rules, &self.input), &self.names)
    }

    /// The first two characters of the lines whose answers differ.
    fn kinds_differing(&self, rules: Rules) -> BTreeSet<String> {
        let wrong = (self.run)(rules, &self.input);
        let answers = self.right.lines().zip(wrong.lines());
        let lines = hex::lines(&self.input).into_iter().zip(answers);
        lines
            .filter(|(_, (right, wrong))| right != wrong)
            .map(|(line, _)| String::from_utf8_lossy(&line[..2]).into_owned())
            .collect()
    }
}

/// The stored bench input, then the further ones.
fn bench_inputs() -> Vec<Tried> {
    let names = line_names(&cases_bench::cases(), 5000);
    let mut inputs = vec![Tried::new(cases::bench(), names, bench::run)];
    for (name, input) in cases_bench::further_inputs() {
        inputs.push(Tried::new(input, vec![format!("input {name}")], bench::run));
    }
    inputs
}

fn trials_input() -> Tried {
    let names = line_names(&cases_trials::cases(), 5000);
    Tried::new(cases::trials(), names, trials::run)
}

fn carousels_input() -> Tried {
    let names = line_names(&cases_carousels::cases(), 5000);
    Tried::new(cases::carousels(), names, trials::run)
}

fn divisors_input() -> Tried {
    let names = line_names(&cases_divisors::cases(), 5000);
    Tried::new(cases::divisors(), names, trials::run)
}

/// Made inputs of `trials`, whose lines have no names.
fn made_trials() -> Vec<Tried> {
    (0..30)
        .map(|seed| Tried::new(make_trials::make(seed, 1500), Vec::new(), trials::run))
        .collect()
}

/// How many of some inputs notice.
fn noticing(inputs: &[Tried], rules: Rules) -> usize {
    inputs
        .iter()
        .filter(|tried| tried.differences(rules).is_some())
        .count()
}

/// The calls of `edges`, which takes no input, named by their arguments.
fn edges_calls() -> Tried {
    let output = edges::run(Rules::RIGHT);
    let calls = output.lines().filter_map(|line| line.split(':').next());
    let names = calls.map(str::to_string).collect();
    Tried::new(Vec::new(), names, |rules, _| edges::run(rules))
}

/// A program whose answer is bytes, or the line that a refusal is told by.
type Program = fn(Rules, &[u8]) -> Result<Vec<u8>, String>;

/// The programs for sheets and recordings, each with its stored input and the
/// further ones.
fn whole_programs() -> Vec<(&'static str, Program, Vec<Named>)> {
    let stored = |input, further| [vec![("stored", input)], further].concat();
    vec![
        (
            "import",
            import::run,
            stored(cases_sheets::import(), further_imports()),
        ),
        (
            "export",
            export::run,
            stored(cases_sheets::export(), further_exports()),
        ),
        (
            "play",
            play::run,
            stored(cases_sheets::play(), further_plays()),
        ),
        (
            "replay",
            replay::run,
            stored(cases_replay::stored(), cases_replay::further()),
        ),
    ]
}

/// One answer for each of their inputs, told by its fingerprint.
fn whole_answers(rules: Rules) -> String {
    let mut text = String::new();
    for (_, run, inputs) in whole_programs() {
        for (_, input) in inputs {
            text += &match run(rules, &input) {
                Ok(bytes) => format!("{:016X}\n", fingerprint(&bytes)),
                Err(complaint) => format!("{complaint}\n"),
            };
        }
    }
    text
}

/// Their inputs, named by program and input.
fn whole_inputs() -> Tried {
    let mut names = Vec::new();
    for (program, _, inputs) in whole_programs() {
        names.extend(inputs.iter().map(|(name, _)| format!("{program}, {name}")));
    }
    Tried::new(Vec::new(), names, |rules, _| whole_answers(rules))
}

fn in_demand3(rules: Rules) -> bool {
    demand3::run(rules, DEMAND3.0, DEMAND3.1).is_err()
}

fn cell(found: &Option<(usize, String)>) -> String {
    match found {
        Some((count, name)) => format!("{name} ({count})"),
        None => "-".to_string(),
    }
}

/// The table of README.md.
fn table() -> String {
    let (bench, trials, carousels) = (bench_inputs(), trials_input(), carousels_input());
    let (divisors, edges, whole) = (divisors_input(), edges_calls(), whole_inputs());
    let mut text = String::new();
    for (mistake, meaning) in ALL {
        let rules = Rules::with(*mistake);
        let in_bench = bench.iter().find_map(|tried| tried.differences(rules));
        text += &format!(
            "| {meaning} | {} | {} | {} | {} | {} | {} | {} |\n",
            cell(&in_bench),
            cell(&trials.differences(rules)),
            cell(&carousels.differences(rules)),
            cell(&divisors.differences(rules)),
            cell(&edges.differences(rules)),
            cell(&whole.differences(rules)),
            if in_demand3(rules) { "yes" } else { "-" }
        );
    }
    text
}

/// One row for every mistake, none of them empty, as README.md has it.
#[test]
fn every_mistake_is_noticed() {
    let table = table();
    for row in table.lines() {
        assert!(
            !row.ends_with("| - | - | - | - | - | - | - |"),
            "unnoticed: {row}"
        );
    }
    let readme = include_str!("../../README.md");
    assert!(
        readme.contains(&table),
        "README.md's table is now:\n{table}"
    );
}

/// What is wrong about a packet's end: in reading, and at the chain.
const ABOUT_ENDS: [Mistake; 10] = [
    Mistake::ReadingGives3,
    Mistake::DamagedGives3,
    Mistake::LongReadingGives3,
    Mistake::HeaderMustFollow,
    Mistake::EndIsLength,
    Mistake::EndLeavesSum,
    Mistake::EndLeavesData,
    Mistake::SumSoughtLast,
    Mistake::SumPastEnd,
    Mistake::DataToLast,
];
const ABOUT_LEFT_OVER: [Mistake; 7] = [
    Mistake::LeftOverTaken,
    Mistake::LeftOverPacketTaken,
    Mistake::SumBeforeLeftOver,
    Mistake::ShortGives3,
    Mistake::LeftOverBeforeHeader,
    Mistake::LeftOverBeforeTable,
    Mistake::RoomBeforeLeftOver,
];

/// Each is noticed in its own lines of `trials`, `11` or `20`, and not only
/// where a list is exported; and only there, but for what an end goes on to.
#[test]
fn ends_are_noticed_in_their_own_lines() {
    let trials = trials_input();
    for (mistakes, own, others) in [
        (&ABOUT_ENDS[..], "11", &["41", "43"][..]),
        (&ABOUT_LEFT_OVER[..], "20", &[]),
    ] {
        for mistake in mistakes {
            let kinds = trials.kinds_differing(Rules::with(*mistake));
            assert!(kinds.contains(own), "{mistake:?}: {kinds:?}");
            let known = |kind: &String| kind == own || others.contains(&kind.as_str());
            assert!(kinds.iter().all(known), "{mistake:?}: {kinds:?}");
        }
    }
}

/// What is wrong about how a reply is written into its buffer: the room that it
/// asks for, the sum that it carries along, where it ends (request 5).
const ABOUT_REPLIES: [Mistake; 7] = [
    Mistake::ItemsSummedAnew,
    Mistake::StatusNotSummed,
    Mistake::FirstBytesSummed,
    Mistake::NoRoomForSum,
    Mistake::RefusedFills,
    Mistake::RefusedBegins,
    Mistake::SumWrittenTwice,
];

/// Each is noticed by stored deliveries, and in no other line of `trials`; by
/// made ones too, which no hand has chosen.
#[test]
fn replies_are_noticed_in_deliveries() {
    let stored = trials_input();
    let made = made_trials();
    for mistake in ABOUT_REPLIES {
        let rules = Rules::with(mistake);
        let kinds = stored.kinds_differing(rules);
        assert_eq!(kinds, BTreeSet::from(["20".to_string()]), "{mistake:?}");
        assert!(noticing(&made, rules) >= 2, "{mistake:?}, made");
    }
}

/// What is wrong about recordings alone changes no other line of `trials`, but
/// for what a session that is kept changes.
#[test]
fn recordings_are_noticed_in_their_own_lines() {
    let inputs = [trials_input(), carousels_input(), divisors_input()];
    for (mistake, meaning) in between(Mistake::CountsBeforeNodes, Mistake::RecordingLeftOver) {
        let rules = Rules::with(*mistake);
        let kinds = inputs.iter().flat_map(|own| own.kinds_differing(rules));
        let kinds: BTreeSet<String> = kinds.collect();
        assert!(
            kinds.contains("50") || *mistake == Mistake::RecordingKept,
            "{meaning}"
        );
        let own = |kind: &String| kind == "50" || *mistake == Mistake::RecordingKept;
        assert!(kinds.iter().all(own), "{meaning}: {kinds:?}");
    }
}

/// The mistakes from one to another.
fn between(first: Mistake, last: Mistake) -> &'static [(Mistake, &'static str)] {
    &ALL[first as usize..=last as usize]
}

/// What is wrong about drives (request 6) is noticed by the stored cases of
/// `carousels`: at the node, about ranges at node and host, at the host, in
/// recordings; and by made inputs.
#[test]
fn drives_are_noticed_in_their_own_lines() {
    let stored = carousels_input();
    let made = made_trials();
    for (mistakes, own) in [
        (
            between(Mistake::ServoRate0AtPowerUp, Mistake::VelocityOf4Bytes),
            &["20"][..],
        ),
        (
            between(Mistake::StartsLoadedAlone, Mistake::LoadBitsDropped),
            &["20", "37"],
        ),
        (
            between(Mistake::PositionGainFree, Mistake::LowestStopTaken),
            &["20", "33"],
        ),
        (
            between(Mistake::WalkBeforeKind, Mistake::WholeChainLacks),
            &["33"],
        ),
        (
            between(Mistake::DoubtfulStarted, Mistake::DriveReplyOf16Items),
            &["37"],
        ),
        (
            between(Mistake::SharedByteIsGates, Mistake::SharedByteIsDrives),
            &["50"],
        ),
    ] {
        for (mistake, meaning) in mistakes {
            let rules = Rules::with(*mistake);
            let kinds = stored.kinds_differing(rules);
            let noticed = own.iter().all(|kind| kinds.contains(*kind));
            assert!(noticed, "{meaning}: {kinds:?}");
            assert!(noticing(&made, rules) >= 1, "{meaning}, made");
        }
    }
}

/// What is wrong about divisors (request 7) is noticed by the stored cases of
/// `divisors`: at the node, in refusals, in the record, in recordings; by made inputs;
/// and what calls known that which isn't, or in doubt what is known, by demand 3.
#[test]
fn divisors_are_noticed_in_their_own_lines() {
    let stored = divisors_input();
    let made = made_trials();
    for (mistakes, own) in [
        (
            between(Mistake::Divisor0AtPowerUp, Mistake::PaceUnanswered),
            &["20"][..],
        ),
        (
            between(Mistake::SentAtAny, Mistake::SentAtAny),
            &["33", "39"],
        ),
        (between(Mistake::AnySet, Mistake::AnySet), &["39"]),
        (
            between(Mistake::DriveListUnheeded, Mistake::FirstKindListed),
            &["31", "33", "34", "39"],
        ),
        (
            between(Mistake::DivisorBeforeOpen, Mistake::DivisorBeforeOpen),
            &["31", "32", "33", "34", "39"],
        ),
        (
            between(Mistake::DivisorBeforeRange, Mistake::DivisorBeforeRange),
            &["33", "34", "39"],
        ),
        (
            between(Mistake::DivisorAfterNode, Mistake::DivisorAfterNode),
            &["33", "34"],
        ),
        (
            between(Mistake::DivisorAfterWalk, Mistake::DivisorAfterWalk),
            &["31", "32", "33", "34", "39"],
        ),
        (
            between(Mistake::DivisorAfterPaced, Mistake::RoomBeforePaced),
            &["39"],
        ),
        (
            between(Mistake::NopConfirmsPace, Mistake::WaitsAtPowerUps),
            &["37"],
        ),
        (
            between(Mistake::PaceRecorded, Mistake::PaceRecorded),
            &["50"],
        ),
    ] {
        for (mistake, meaning) in mistakes {
            let rules = Rules::with(*mistake);
            let kinds = stored.kinds_differing(rules);
            let noticed = own.iter().all(|kind| kinds.contains(*kind));
            assert!(noticed, "{meaning}: {kinds:?}");
            assert!(noticing(&made, rules) >= 1, "{meaning}, made");
        }
    }
    for mistake in FAILING_DEMAND_3 {
        assert!(in_demand3(Rules::with(mistake)), "{mistake:?}, demand 3");
    }
}

/// Of the mistakes about divisors those that demand 3 forbids.
const FAILING_DEMAND_3: [Mistake; 16] = [
    Mistake::PacedUnheeded,
    Mistake::PacedByLeadersAlone,
    Mistake::PacedByDoubtAlone,
    Mistake::NopConfirmsPace,
    Mistake::NopTellsRecorded,
    Mistake::NopTellsNothing,
    Mistake::SilentNopTells,
    Mistake::SilentNopDoubts,
    Mistake::MarkedNopTells,
    Mistake::GroupNopTells,
    Mistake::EveryReplyTells,
    Mistake::DeafPaceSpared,
    Mistake::DeafSpared,
    Mistake::SilencePaces,
    Mistake::WaitsAtPowerUps,
    Mistake::HistoryNopWritesNothing,
];

/// What is wrong about whom a group's reply confirms for (request 4), in the
/// record.
const ABOUT_LEADERS: [Mistake; 12] = [
    Mistake::MembersConfirmed,
    Mistake::LedMembersConfirmed,
    Mistake::UnledMembersConfirmed,
    Mistake::LeaderDoubted,
    Mistake::DoubtfulConfirmed,
    Mistake::DoubtfulLeaderKnown,
    Mistake::FirstLeaderTaken,
    Mistake::EveryLeaderCounts,
    Mistake::UnconfirmedKept,
    Mistake::MarkedDoubtsMembers,
    Mistake::AllHearAlike,
    Mistake::LeaderCopiesDoubtful,
];

/// Each is noticed by a stored case, by made inputs and by demand 3.
#[test]
fn leaders_are_noticed_everywhere() {
    let stored = trials_input();
    let made = made_trials();
    for mistake in ABOUT_LEADERS {
        let rules = Rules::with(mistake);
        assert!(stored.differences(rules).is_some(), "{mistake:?}, stored");
        assert!(noticing(&made, rules) >= 2, "{mistake:?}, made");
        assert!(in_demand3(rules), "{mistake:?}, demand 3");
    }
    let old_rule = stored.kinds_differing(Rules::with(Mistake::MembersConfirmed));
    for kind in ["37", "50"] {
        assert!(old_rule.contains(kind), "line {kind}");
    }
}

/// Where record and history agree in the old reading, the nodes themselves tell:
/// what one missed is called known.
#[test]
fn nodes_that_miss_a_command_are_told_by_the_line() {
    let rules = Rules::with(Mistake::AllHearAlike);
    for seed in 1..=3 {
        let violation = demand3::run(rules, seed, DEMAND3.1).expect_err("a node missed it");
        assert!(violation.what.contains("called known but differs"));
        let missed = violation
            .story
            .iter()
            .any(|line| line.ends_with(" misses it"));
        assert!(missed, "{violation}");
    }
}

/// The slips that document 01 rules out by name fail demand 3.
#[test]
fn the_named_slips_fail_demand_3() {
    for mistake in [
        Mistake::NextAfterSilence,
        Mistake::SilenceIsNotDone,
        Mistake::LeaderlessConfirms,
    ] {
        assert!(in_demand3(Rules::with(mistake)), "{mistake:?}");
    }
}
