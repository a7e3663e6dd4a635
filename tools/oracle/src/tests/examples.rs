//! The examples of document 01 and of requests 2 and 4, one by one, against what
//! is said of them.

use super::{answers, last_answer};
use crate::bench;
use crate::cases_bench::DOCUMENT_EXAMPLE;
use crate::command::Command;
use crate::divisor::POWER_UP;
use crate::hex;
use crate::kind::{gates, Kind};
use crate::layout;
use crate::node::Node;
use crate::record::Entry;
use crate::rules::Rules;
use crate::session::{Outcome, Session};
use crate::settings::{Own, Setting};
use crate::target::Target;

#[test]
fn packets_read() {
    for (line, answer) in [
        ("11 AA 01 0E 0F", "00 04 01 0E"),
        ("11 AA 00 21 01 FF 21", "00 06 00 01 01 FF"),
        ("11 AA 01 13 04 18", "00 05 01 03 04"),
        ("11 AA 02 26 05 00 2D", "00 06 02 06 05 00"),
        ("11 AA 80 05 85", "00 04 80 05"),
        ("11 AA 03 21 03 01 28", "00 06 03 01 03 01"),
        ("11 AA 01 0E 10", "04"),
        ("11 AA 01 13 04", "01"),
        ("11 01 0E 0F", "02"),
        (
            "11 AA 00 F0 00 00 00 00 00 00 00 00 00 00 00 00 00 00 00 F0",
            "00 13 00 00 00 00 00 00 00 00 00 00 00 00 00 00 00 00 00",
        ),
    ] {
        assert_eq!(last_answer(&[line]), answer, "{line}");
    }
}

/// Request 2: "The example AA 01 0E 0F 00 becomes: read, ends at 4."
#[test]
fn packets_read_with_bytes_behind() {
    for (line, answer) in [
        ("11 AA 01 0E 0F 00", "00 04 01 0E"),
        ("11 AA 01 0E 0F AA 02 26 05 00 2D", "00 04 01 0E"),
        ("11 AA 02 26 05 00 2D AA 01", "00 06 02 06 05 00"),
        ("11 AA 01 0E 10 00", "04"),
        ("11 AA 01 13 04 00", "04"),
        ("11 01 0E 0F AA 01 0E 0F", "02"),
        ("11 AA 01 F3 AA 01 0E 0F", "01"),
    ] {
        assert_eq!(last_answer(&[line]), answer, "{line}");
    }
}

/// "The chain and bench program then refuse left-over bytes with 3 themselves",
/// also behind a wrong sum, and nothing changes.
#[test]
fn left_over_bytes_are_refused() {
    let node = hex::format(&layout::node(&Node::powered_up(Rules::RIGHT, Kind::Gate)));
    for (packet, answer) in [
        ("AA 00 21 01 FF 21 00", "03 00 55 55"),
        ("AA 00 21 01 FF 22 00", "03 00 55 55"),
        ("AA 00 21 01 FF 21 AA 00 0E 0E", "03 00 55 55"),
        ("AB 00 21 01 FF 21 00", "02 00 55 55"),
    ] {
        let line = format!("20 02 3F 01 {node} {packet}");
        assert_eq!(last_answer(&[&line]), format!("{answer} {node}"));
    }
    let input = b"1\nAA 00 21 01 FF 21\nAA 01 0E 0F 00\nAA 01 0E 10 00\n";
    let output = bench::run(Rules::RIGHT, input);
    assert_eq!(output, "00 00\nrefused 3\nrefused 3\n");
}

#[test]
fn packets_built() {
    for (line, answer) in [
        ("10 04 01 0E", "00 AA 01 0E 0F"),
        ("10 06 00 01 01 FF", "00 AA 00 21 01 FF 21"),
        ("10 05 01 03 04", "00 AA 01 13 04 18"),
        ("10 08 02 06 05 00", "00 AA 02 26 05 00 2D 55 55"),
        ("10 04 80 05", "00 AA 80 05 85"),
        ("10 06 03 01 03 01", "00 AA 03 21 03 01 28"),
    ] {
        assert_eq!(last_answer(&[line]), answer, "{line}");
    }
}

#[test]
fn packets_sent() {
    let ready = [
        "30 02 00 00",
        "31 06 3F",
        "35 00 00",
        "31 06 3F",
        "35 00 00",
    ];
    let answers = answers(&ready);
    assert_eq!(answers[1], "00 AA 00 21 01 FF 21");
    assert_eq!(answers[3], "00 AA 00 21 02 FF 22");
    for (line, answer) in [
        ("33 04 3F 00 01 00 0E", "00 AA 01 0E 0F"),
        ("33 05 3F 00 01 00 13 04", "00 AA 01 13 04 18"),
        ("33 06 3F 00 02 00 26 05 00", "00 AA 02 26 05 00 2D"),
        ("33 04 3F 01 80 00 05", "00 AA 80 05 85"),
        ("34 06 3F 02 81 01", "00 AA 02 21 02 01 26"),
    ] {
        assert_eq!(last_answer(&[&ready[..], &[line]].concat()), answer);
    }
}

#[test]
fn bench_paragraph() {
    let input = DOCUMENT_EXAMPLE.join("\n");
    let output = bench::run(Rules::RIGHT, input.as_bytes());
    assert_eq!(output, "00 00\n00 00\n00 00\n02 02\n-\n");
}

/// A session of n nodes, ready.
fn ready(n: u8) -> Session {
    let mut session = Session::fresh(Rules::RIGHT);
    let mut buffer = [0; 19];
    let kinds = gates(usize::from(n));
    session.power_up(n, &kinds).expect("1 to 31 nodes");
    for _ in 0..n {
        session.next(POWER_UP, &mut buffer).expect("next is due");
        session.report(&[0, 0]).expect("an exchange is open");
    }
    session
}

/// Sends a command and reports what came.
fn exchange(session: &mut Session, target: Target, command: Command, reply: &[u8]) {
    session
        .command(POWER_UP, target, command, &mut [0; 19])
        .expect("a ready session");
    session.report(reply).expect("an exchange is open");
}

/// The settings of a node that are in doubt.
fn in_doubt(session: &Session, node: usize) -> Vec<Setting> {
    let entry = &session.entries[node - 1];
    let own = Setting::all(entry.kind()).iter().copied();
    own.filter(|setting| !entry.knows(*setting)).collect()
}

/// The outputs that are recorded of a node.
fn outputs(session: &Session, node: usize) -> u16 {
    match session.entries[node - 1].settings.own {
        Own::Gate(gate) => gate.outputs,
        Own::Drive(_) => panic!("a drive has none"),
    }
}

#[test]
fn outputs_silent_then_sent_again() {
    let mut session = ready(2);
    let before = session.clone();
    exchange(&mut session, Target::Node(2), Command::SetOutputs(5), &[]);
    assert_eq!(in_doubt(&session, 1), []);
    assert_eq!(in_doubt(&session, 2), [Setting::Outputs]);
    assert_eq!(session.entries[1].settings, before.entries[1].settings);
    exchange(
        &mut session,
        Target::Node(2),
        Command::SetOutputs(5),
        &[0, 0],
    );
    assert_eq!(in_doubt(&session, 2), []);
    assert_eq!(outputs(&session, 2), 5);
}

#[test]
fn marked_reply_changes_nothing() {
    let mut session = ready(2);
    let before = session.clone();
    exchange(
        &mut session,
        Target::Node(2),
        Command::SetOutputs(5),
        &[2, 2],
    );
    assert_eq!(session, before);
    assert_eq!(session.judge(&[2, 2]), Outcome::Marked);
}

#[test]
fn marked_reply_with_wrong_sum_is_silence() {
    let mut session = ready(2);
    exchange(
        &mut session,
        Target::Node(2),
        Command::SetOutputs(5),
        &[2, 3],
    );
    assert_eq!(in_doubt(&session, 2), [Setting::Outputs]);
}

#[test]
fn synch_output_copies_a_doubtful_held_set() {
    let mut session = ready(2);
    let held = Command::decode(Kind::Gate, 0x47, &[7, 1, 0x80, 0]).expect("Set Synch Output");
    exchange(&mut session, Target::Node(2), held, &[]);
    exchange(&mut session, Target::Node(2), Command::SynchOutput, &[0, 0]);
    let expected = [Setting::Outputs, Setting::Pwm, Setting::Held];
    assert_eq!(in_doubt(&session, 2), expected);
    assert_eq!(outputs(&session, 2), 0);
}

/// A session of three nodes in which node 1 leads 0x80 and node 2 is in it.
fn grouped() -> Session {
    let mut session = ready(3);
    regroup(&mut session, 1, true, &[0, 0]);
    regroup(&mut session, 2, false, &[0, 0]);
    session
}

/// Regroups a node to 0x80, as its leader or not, and reports what came.
fn regroup(session: &mut Session, node: u8, leader: bool, reply: &[u8]) {
    session
        .regroup(POWER_UP, node, 0x80, leader, &mut [0; 19])
        .expect("a ready session");
    session.report(reply).expect("an exchange is open");
}

const GROUP: Target = Target::Group(0x80);

/// Request 4: "a node missed a Synch Output that its leader confirmed".
#[test]
fn a_group_s_reply_confirms_for_its_known_leader_alone() {
    let mut session = grouped();
    for node in [1, 2] {
        let held =
            Command::decode(Kind::Gate, 0x47, &[7, 1, 0x80, 0x40]).expect("Set Synch Output");
        exchange(&mut session, Target::Node(node), held, &[0, 0]);
    }
    regroup(&mut session, 3, false, &[]);
    exchange(&mut session, GROUP, Command::SynchOutput, &[0, 0]);
    assert_eq!(in_doubt(&session, 1), []);
    assert_eq!(outputs(&session, 1), 0x0107);
    assert_eq!(in_doubt(&session, 2), [Setting::Outputs, Setting::Pwm]);
    assert_eq!(outputs(&session, 2), 0);
    let with_place = [Setting::Place, Setting::Outputs, Setting::Pwm];
    assert_eq!(in_doubt(&session, 3), with_place);
}

/// ".. if known": nobody is confirmed for where none leads it, nor where its
/// leader's place is in doubt.
#[test]
fn a_group_s_reply_confirms_for_nobody_without_a_known_leader() {
    let mut leaderless = ready(2);
    let to_all = Target::Group(0xFF);
    exchange(&mut leaderless, to_all, Command::SetOutputs(5), &[0, 0]);
    let mut doubtful = grouped();
    regroup(&mut doubtful, 1, true, &[]);
    exchange(&mut doubtful, GROUP, Command::SetOutputs(5), &[0, 0]);
    assert_eq!(in_doubt(&doubtful, 1), [Setting::Place, Setting::Outputs]);
    for (session, node) in [(&leaderless, 1), (&leaderless, 2), (&doubtful, 2)] {
        assert_eq!(in_doubt(session, node), [Setting::Outputs]);
    }
}

/// A copy of a held set in doubt goes into doubt at the leader, too.
#[test]
fn a_leader_copies_a_doubtful_held_set() {
    let mut session = grouped();
    let held = Command::decode(Kind::Gate, 0x47, &[7, 1, 0x80, 0x40]).expect("Set Synch Output");
    exchange(&mut session, GROUP, held, &[]);
    exchange(&mut session, GROUP, Command::SynchOutput, &[0, 0]);
    let expected = [Setting::Outputs, Setting::Pwm, Setting::Held];
    assert_eq!(in_doubt(&session, 1), expected);
}

/// A group's reply that isn't clear changes nothing, at nobody.
#[test]
fn a_group_s_marked_reply_changes_nothing() {
    let mut session = grouped();
    let before = session.clone();
    exchange(&mut session, GROUP, Command::SetOutputs(5), &[2, 2]);
    assert_eq!(session, before);
}

#[test]
fn a_second_leader_is_refused() {
    let mut session = ready(2);
    let mut buffer = [0x55; 19];
    session
        .regroup(POWER_UP, 1, 0x80, true, &mut buffer)
        .expect("free");
    session.report(&[0, 0]).expect("an exchange is open");
    let refused = session.regroup(POWER_UP, 2, 0x80, true, &mut buffer);
    assert_eq!(refused.map_err(|refusal| refusal.number()), Err(11));
    assert_eq!(
        session.regroup(POWER_UP, 2, 0x80, false, &mut buffer),
        Ok(6)
    );
}

#[test]
fn first_next_silent() {
    let lines = [
        "30 02 00 00",
        "31 06 3F",
        "36",
        "31 06 3F",
        "32 04 3F",
        "35 00 00",
        "31 06 3F",
    ];
    let answers = answers(&lines);
    assert_eq!(answers[3], "09 55 55 55 55 55 55");
    assert_eq!(answers[4], "00 AA 01 0E 0F");
    assert_eq!(answers[6], "00 AA 00 21 02 FF 22");
}

#[test]
fn a_fresh_session_is_closed_and_known() {
    let session = Session::fresh(Rules::RIGHT);
    assert!(!session.is_open());
    assert!(session
        .entries
        .iter()
        .all(|entry| *entry == Entry::power_up(Rules::RIGHT, Kind::Gate)));
    assert_eq!(last_answer(&["31 00 3F"]), "0C");
}
