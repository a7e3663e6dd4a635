//! Request 3: recordings against demand 3's simulation, what the host could
//! have sent against all of its calls, and line `50`.

use super::{answers, last_answer};
use crate::call::{after_sending, Call};
use crate::command::{Command, Held};
use crate::demand3::{stories, Heard};
use crate::divisor::POWER_UP;
use crate::drive::{Gains, Motion, Stop};
use crate::kind::Kind;
use crate::make_packets::{drive_command, group, off_range_command};
use crate::make_recordings::{laid_out, recording, right};
use crate::prng::Prng;
use crate::recording::{walk, Did, Line};
use crate::refusal::number_of;
use crate::rules::Rules;
use crate::session::{Exchange, Session};
use crate::target::Target;

const RIGHT: Rules = Rules::RIGHT;

/// "A whole walk gives the host's record at its end": the simulated host's own,
/// with a command that still waits taken as silent. Each step is what was heard.
#[test]
fn a_recording_walks_as_its_host_went() {
    let mut prng = Prng::new(1);
    let (mut walked, mut open, mut closed) = (0, 0, 0);
    for seed in 0..12 {
        for story in stories(seed, 4000) {
            let recording = laid_out(&mut prng, &story.kinds(), &story.heard);
            let walk = walk(RIGHT, &recording).expect("a recording that is not refused");
            assert!(!walk.foreign);
            let handed_back = walk.steps.iter().map(|step| {
                let bytes = recording.bytes(step.part).to_vec();
                match step.part.line {
                    Line::Command => Heard::Command(bytes),
                    Line::Reply => Heard::Reply(bytes),
                }
            });
            assert!(handed_back.eq(story.heard));
            let mut host = story.host;
            if host.waits() {
                host.silence().expect("an exchange is open");
                open += 1;
            }
            closed += usize::from(!host.is_open());
            walked += 1;
            assert_eq!(walk.session, host);
            assert_eq!(walk.session.exchange, Exchange::Idle);
        }
    }
    assert!(
        walked > 400 && open > 50 && closed > 20,
        "{walked} {open} {closed}"
    );
}

/// Every call, with few values for its data.
fn all_calls(prng: &mut Prng) -> Vec<Call> {
    let mut calls = vec![Call::Next, Call::Ask];
    let byte = prng.pick(&[0x00, 0x01, 0xAA, 0xFF]);
    for address in (0..=5).chain([0x7F, 0x80, 0x81, 0x90, 0xFF]) {
        for command in [
            Command::DefineStatus(byte),
            Command::ReadStatus(byte),
            Command::SetPwm([byte, 2]),
            Command::SynchOutput,
            Command::SetOutputs(u16::from(byte)),
            Command::SetSynchOutput(Held {
                outputs: 7,
                pwm: [1, byte],
            }),
            Command::SetTimerMode(byte),
            Command::SynchInput,
            Command::Nop,
            Command::HardReset,
            Command::ResetPosition,
            Command::StartMotion,
            Command::SetGain(Gains {
                kp: 0x7FFF,
                ol: byte,
                ..Gains::POWER_UP
            }),
            Command::StopMotor(Stop {
                byte: 0x05,
                position: 0,
            }),
            Command::LoadTrajectory(Motion {
                control: 0x08,
                pwm: byte,
                ..Motion::ZERO
            }),
            Command::LoadTrajectory(Motion {
                control: byte & 0xF0 | 0x01,
                position: -1,
                ..Motion::ZERO
            }),
        ] {
            calls.push(Call::Order(Target::Node(address), command));
            calls.push(Call::Order(Target::Group(address), command));
        }
        for group in [0x00, 0x7F, 0x80, 0x90, 0xFF] {
            calls.extend([false, true].map(|leader| Call::Regroup {
                node: address,
                group,
                leader,
            }));
        }
    }
    calls
}

/// The bytes that a call gives with number 0, and the session after it.
fn given(host: &Session, call: Call) -> Option<(Vec<u8>, Session)> {
    let (mut after, mut buffer) = (host.clone(), [0; 19]);
    let length = call.make(&mut after, POWER_UP, &mut buffer).ok()?;
    Some((buffer[..length].to_vec(), after))
}

/// A session whose exchange, if one is open, is closed by silence.
fn settled(session: &Session) -> Session {
    let mut settled = session.clone();
    if settled.waits() {
        settled.silence().expect("an exchange is open");
    }
    settled
}

/// "There is a call that gives these bytes": what a call gives is found, with the
/// session that it leaves; and no two calls give the same, but for 05 and 24 to a
/// group that nobody may be in, where nothing differs.
#[test]
fn what_a_call_gives_could_have_been_sent() {
    let mut prng = Prng::new(2);
    let (mut found, mut shared_bytes) = (0, 0);
    for seed in 20..26 {
        for story in stories(seed, 1500) {
            let mut host = story.host;
            if host.waits() {
                host.silence().expect("an exchange is open");
            }
            let calls = all_calls(&mut prng);
            let all: Vec<_> = calls
                .iter()
                .filter_map(|call| given(&host, *call))
                .collect();
            for (bytes, after) in &all {
                let sent = after_sending(&host, bytes).expect("a call gives it");
                assert_eq!(settled(&sent.session), settled(after));
                let same = all.iter().filter(|(other, _)| other == bytes).count();
                let shared = [0x05, 0x24].contains(&bytes[2]) && bytes[1] >= 0x80;
                assert!(same == 1 || same == 2 && shared, "{bytes:02X?}");
                shared_bytes += usize::from(same == 2);
                found += 1;
            }
            // A byte less, more or other is no call's.
            for (bytes, _) in all.iter().take(20) {
                let longer = [&bytes[..], &[0]].concat();
                let mut other = bytes.clone();
                let last = bytes.len() - 1;
                other[last] = prng.other_than(other[last]);
                for spoilt in [&bytes[..last], &longer, &other] {
                    assert_eq!(after_sending(&host, spoilt), None);
                }
            }
        }
    }
    assert!(found > 2000 && shared_bytes > 100, "{found} {shared_bytes}");
}

/// What no call gives is found to be none's: all packets to few addresses with
/// few data bytes, against all calls with these.
#[test]
fn what_no_call_gives_could_not_have_been_sent() {
    let mut prng = Prng::new(3);
    for seed in 30..34 {
        for story in stories(seed, 700) {
            let mut host = story.host;
            if host.waits() {
                host.silence().expect("an exchange is open");
            }
            for _ in 0..200 {
                let node = prng.between(0, host.n + 2);
                let of_group = group(&mut prng);
                let address = prng.pick(&[node, node, of_group, 0x00]);
                let second = prng.pick(&[of_group, 0xFF, 0x00, 0x10]);
                let drives = match prng.percent(70) {
                    true => drive_command(&mut prng),
                    false => off_range_command(&mut prng),
                };
                let packet = match prng.below(5) {
                    0 => crate::packet::whole(address, 0x1, &[node, second]),
                    1..=2 => crate::packet::whole(address, drives.nibble(), &drives.data()),
                    _ => {
                        let count = prng.below(5);
                        let data = prng.telling_bytes(count);
                        crate::packet::whole(address, prng.between(0, 15), &data)
                    }
                };
                let found = after_sending(&host, &packet);
                assert_eq!(
                    found.is_some(),
                    is_sendable(&host, &packet),
                    "{packet:02X?}"
                );
            }
        }
    }
}

/// What a ready session sends to gates.
const GATE_S: [u8; 10] = [0x12, 0x13, 0x24, 0x05, 0x26, 0x47, 0x18, 0x0C, 0x0E, 0x0F];

/// What it sends to drives, by the bytes of document 000.
fn is_drive_s(byte: u8, data: &[u8]) -> bool {
    let long_is_positive = |at: usize| data[at + 3] < 0x80;
    let is_position = |at: usize| data[at..at + 4] != [0, 0, 0, 0x80];
    match (byte, data) {
        (0x12 | 0x13 | 0x0E | 0x0F | 0x00 | 0x05, _) => true,
        (0xE6, _) => {
            let words = [1, 3, 5, 7].iter().all(|high| data[*high] < 0x80);
            words && data[9] == 0 && data[11] < 0x40 && data[12] > 0
        }
        (0x17, [stop]) => [0x00, 0x01, 0x02, 0x03, 0x04, 0x05, 0x08, 0x09].contains(stop),
        (0x57, [0x10 | 0x11, ..]) => is_position(1),
        (_, [control, ..]) if byte & 0x0F == 0x04 => {
            let mut at = 1;
            for bit in [0x01, 0x02, 0x04] {
                if control & bit == 0 {
                    continue;
                }
                let whole = at + 4 <= data.len();
                if !whole || !(is_position(at) && (bit == 0x01 || long_is_positive(at))) {
                    return false;
                }
                at += 4;
            }
            at + usize::from(control >> 3 & 1) == data.len()
        }
        _ => false,
    }
}

/// The same by the words of documents 01 and 02: which packets a session sends
/// next.
fn is_sendable(host: &Session, packet: &[u8]) -> bool {
    let (address, byte, data) = (packet[1], packet[2], &packet[3..packet.len() - 1]);
    if !host.open {
        return false;
    }
    if host.walk < host.n {
        let next = host.walk + 1;
        let in_doubt = host.entries[usize::from(host.walk)].known & 1 == 0;
        return match in_doubt {
            true => (address, byte) == (next, 0x0E),
            false => (address, byte, data) == (0x00, 0x21, &[next, 0xFF]),
        };
    }
    let node = (1..=host.n).contains(&address);
    if byte != 0x21 {
        let reached = (1..=host.n).filter(|own| match node {
            true => *own == address,
            false => {
                let entry = &host.entries[usize::from(own - 1)];
                entry.known & 1 == 0 || entry.settings.place.group == address
            }
        });
        let kinds = reached.map(|own| host.entries[usize::from(own - 1)].kind());
        let kinds: Vec<Kind> = kinds.collect();
        let has = |kind| match kind {
            Kind::Gate => GATE_S.contains(&byte),
            Kind::Drive => is_drive_s(byte, data),
        };
        let shared = [0x12, 0x13, 0x0E, 0x0F].contains(&byte);
        let sendable = match (kinds.contains(&Kind::Gate), kinds.contains(&Kind::Drive)) {
            (true, true) => shared,
            (true, false) => has(Kind::Gate),
            (false, true) => has(Kind::Drive),
            (false, false) => has(Kind::Gate) || has(Kind::Drive),
        };
        return (node || address >= 0x80) && sendable;
    }
    let others = (1..=host.n).filter(|other| *other != address);
    let free = others
        .map(|other| host.entries[usize::from(other - 1)])
        .all(|entry| {
            let place = entry.settings.place;
            entry.known & 1 == 1 && !(place.leader && place.group == data[1] | 0x80)
        });
    node && data[0] == address && (data[1] >= 0x80 || free)
}

/// Nothing is lost or doubled: the steps of each line are its capture from the
/// start, whole unless a command ended the walk, which is then the last.
#[test]
fn steps_are_the_captures_in_order() {
    let mut prng = Prng::new(4);
    let (mut foreign, mut numbers) = (0, [0; 18]);
    for _ in 0..3000 {
        let recording = recording(&mut prng, 24);
        let walked = walk(RIGHT, &recording);
        numbers[usize::from(number_of(&walked))] += 1;
        let Ok(walk) = walked else {
            continue;
        };
        let mut ends = [0, 0];
        let mut last = (0, Line::Command);
        for step in &walk.steps {
            let end = &mut ends[usize::from(step.part.line == Line::Reply)];
            assert_eq!(step.part.start, *end);
            *end += step.part.length;
            let now = (recording.time(step.part), step.part.line);
            assert!(last.0 <= now.0, "{recording:?}");
            assert!(last.0 < now.0 || now.1 == Line::Reply || last.1 == Line::Command);
            last = now;
        }
        let whole = [
            recording.commands.bytes.len(),
            recording.replies.bytes.len(),
        ];
        let by_foreign = walk
            .steps
            .last()
            .is_some_and(|step| step.did == Did::Foreign);
        assert_eq!(by_foreign, walk.foreign);
        assert!(walk.foreign || ends == whole);
        assert_eq!(walk.session.exchange, Exchange::Idle);
        foreign += usize::from(walk.foreign);
    }
    let refused = [numbers[6], numbers[15], numbers[16]];
    assert!(refused.iter().all(|count| *count > 50), "{numbers:?}");
    assert!(foreign > 300 && numbers[0] > 2000, "{foreign} {numbers:?}");
}

/// Later or earlier as a whole, a recording walks the same.
#[test]
fn only_differences_of_times_count() {
    let mut prng = Prng::new(5);
    for _ in 0..300 {
        let early = right(&mut prng, 30);
        let mut late = early.clone();
        for times in [&mut late.commands.times, &mut late.replies.times] {
            times.iter_mut().for_each(|time| *time += 0x4000_0000);
        }
        assert_eq!(walk(RIGHT, &early), walk(RIGHT, &late));
    }
}

// ---- Line `50` ----------------------------------------------------------

/// The answer up to STATE: that has three bytes, an exchange and 31 entries, all
/// of gates.
fn steps(line: &str) -> String {
    let answer = last_answer(&[line]);
    let state = 3 * (3 + 1 + 31 * 16);
    match answer.len().checked_sub(state) {
        Some(end) => answer[..end].trim_end().to_string(),
        None => answer,
    }
}

#[test]
fn recordings_walked() {
    let none = "00 00 00 00";
    let at_0 = |count: usize| vec!["00 00 00 00"; count].join(" ");
    let first = format!("06 00 AA 00 21 01 FF 21 06 00 {}", at_0(6));
    let clear = format!("02 00 00 00 02 00 {}", at_0(2));
    for (line, answer) in [
        (format!("50 01 00 {none} {none}"), "00 00 00 00"),
        (format!("50 00 {none} {none}"), "06"),
        (format!("50 20{} {none} {none}", " 00".repeat(32)), "06"),
        (format!("50 01 00 01 00 AA 00 00 {none}"), "0F"),
        (format!("50 01 00 {none} 00 00 01 00 {}", at_0(1)), "0F"),
        (
            format!("50 01 00 {first} {clear}"),
            "00 00 02 00 00 00 00 06 00 01 00 00 02 00",
        ),
        (
            format!("50 01 00 {clear} {none}"),
            "00 01 01 00 00 00 00 02 00",
        ),
        (
            format!("50 01 00 {none} {clear}"),
            "00 00 01 00 01 00 00 02 00",
        ),
        (format!("50 01 00 {none} {none} 00"), "FF"),
        (format!("50 01 00 {none}"), "FF"),
    ] {
        assert_eq!(steps(&line), answer, "{line}");
    }
}

/// The record at the end is shown as `37` shows a session, which stays.
#[test]
fn the_state_is_that_of_the_same_calls() {
    let first = "06 00 AA 00 21 01 FF 21 06 00 00 00 00 00 00 00 00 00 00 00 00 00 00 00 00 00 \
                 00 00 00 00 00 00 00 00";
    let clear = "02 00 00 00 02 00 00 00 00 00 00 00 00 00";
    for (replies, report) in [(clear, "35 00 00"), ("00 00 00 00", "36")] {
        let line = format!("50 02 00 00 {first} {replies}");
        let shown = last_answer(&["30 02 00 00", "31 06 3F", report, "37"]);
        assert!(last_answer(&[&line]).ends_with(&shown[3..]));
        let around = answers(&["30 03 00 00 00", "37", &line, "37"]);
        assert_eq!(around[1], around[3]);
    }
}

/// "b and t at most 0400 (1024), else `FF`."
#[test]
fn captures_have_1024_bytes_at_most() {
    let bytes = |count: usize| " 00".repeat(count);
    let none = "00 00 00 00";
    for (line, answer) in [
        (format!("50 01 00 00 04{} 00 00 {none}", bytes(1024)), "0F"),
        (format!("50 01 00 01 04{} 00 00 {none}", bytes(1025)), "FF"),
        (format!("50 01 00 {none} 00 04{} 00 00", bytes(1024)), "0F"),
        (format!("50 01 00 {none} 01 04{} 00 00", bytes(1025)), "FF"),
        (format!("50 01 00 00 00 00 04{} {none}", bytes(4096)), "0F"),
        (format!("50 01 00 00 00 01 04{} {none}", bytes(4100)), "FF"),
        (format!("50 01 00 {none} 00 00 00 04{}", bytes(4096)), "0F"),
        (format!("50 01 00 {none} 00 00 01 04{}", bytes(4100)), "FF"),
        (
            format!("50 01 00 {none} 00 04{0} 00 04{0}{0}{0}{0}", bytes(1024)),
            "00 00 01 00 01 00 00 00 04",
        ),
    ] {
        assert_eq!(steps(&line), answer);
    }
}
