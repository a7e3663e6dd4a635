//! What must hold for every input, tried on many.

use crate::chain::{deliver, Delivery};
use crate::command::{Command, COMMAND_BYTES};
use crate::demand3;
use crate::divisor::POWER_UP;
use crate::hex;
use crate::kind::Kind;
use crate::make_packets::{any_command, drive_command, followed, off_range_command, packet};
use crate::make_trials;
use crate::node::Node;
use crate::packet::{build, frame, read, Packet};
use crate::prng::Prng;
use crate::refusal::Refusal;
use crate::rules::Rules;
use crate::status;
use crate::trials::sheets::sums;
use crate::trials::Trials;

const RIGHT: Rules = Rules::RIGHT;

/// The parts of a packet that has been read.
fn parts<'a>(packet: &Packet<'a>) -> (u8, u8, &'a [u8]) {
    (packet.address, packet.command(), packet.data)
}

/// Whatever stands behind it: the same parts, and the end is its length.
#[test]
fn a_built_packet_reads_back() {
    let mut prng = Prng::new(1);
    for _ in 0..4000 {
        let (address, command) = (prng.byte(), prng.between(0, 15));
        let count = prng.below(16);
        let data = prng.telling_bytes(count);
        let mut buffer = [0x55; 24];
        let length = build(RIGHT, &mut buffer, address, command, &data).expect("in range");
        assert!(buffer[length..].iter().all(|byte| *byte == 0x55));
        let built = buffer[..length].to_vec();
        for bytes in [built.clone(), buffer.to_vec(), followed(&mut prng, built)] {
            let packet = read(RIGHT, &bytes).expect("a built packet");
            assert_eq!(parts(&packet), (address, command, &data[..]));
            assert_eq!(packet.end, length);
        }
    }
}

/// "Demand 2's "accepted packet" means the bytes up to that end."
#[test]
fn an_accepted_packet_is_the_one_we_would_build() {
    let mut prng = Prng::new(2);
    let (mut accepted, mut with_more) = (0, 0);
    for _ in 0..6000 {
        let mut bytes = packet(&mut prng, &[Node::powered_up(RIGHT, Kind::Gate)]);
        if prng.percent(30) {
            bytes = followed(&mut prng, bytes);
        }
        if let Ok(packet) = read(RIGHT, &bytes) {
            let (address, command, data) = parts(&packet);
            let mut buffer = vec![0; packet.end];
            let length = build(RIGHT, &mut buffer, address, command, data);
            assert_eq!(length, Ok(packet.end));
            assert_eq!(buffer, bytes[..packet.end]);
            accepted += 1;
            with_more += usize::from(packet.end < bytes.len());
        }
    }
    assert!(accepted > 3000 && with_more > 1000);
}

/// What is read, and the number otherwise, hang on the bytes up to the end
/// alone; never 3. The chain gives 3 exactly where bytes are left over behind a
/// packet, its sum right or not.
#[test]
fn left_over_bytes_are_the_chains() {
    let mut prng = Prng::new(5);
    let mut left_over = 0;
    for _ in 0..6000 {
        let mut nodes = [Node::powered_up(RIGHT, Kind::Gate)];
        let start = packet(&mut prng, &nodes);
        let bytes = followed(&mut prng, start);
        let framed = frame(RIGHT, &bytes);
        let own = framed.map_or(&bytes[..], |packet| &bytes[..packet.end]);
        assert_eq!(read(RIGHT, &bytes), read(RIGHT, own));
        assert_ne!(read(RIGHT, &bytes).err(), Some(Refusal::TooLong));
        let delivered = deliver(RIGHT, &mut nodes, POWER_UP, &bytes, &mut [0; 19]);
        let is_left_over = own.len() < bytes.len();
        assert_eq!(delivered == Err(Refusal::TooLong), is_left_over);
        left_over += usize::from(is_left_over);
    }
    assert!(left_over > 3000);
}

#[test]
fn every_command_reads_back() {
    let mut prng = Prng::new(3);
    for _ in 0..2000 {
        let byte = prng.pick(&COMMAND_BYTES);
        let command = any_command(&mut prng, byte);
        assert_eq!(command.byte(), byte);
        let read = Command::decode(Kind::Gate, byte, &command.data());
        assert_eq!(read, Some(command));
    }
}

/// A drive's own commands, too, with values of their ranges and off them; a gate
/// takes none of them for itself, but for the bytes that both read.
#[test]
fn every_drive_s_command_reads_back() {
    let mut prng = Prng::new(6);
    for turn in 0..4000 {
        let in_range = turn % 2 == 0;
        let command = match in_range {
            true => drive_command(&mut prng),
            false => off_range_command(&mut prng),
        };
        assert_eq!(command.is_in_range(RIGHT), in_range, "{command:?}");
        let (byte, data) = (command.byte(), command.data());
        assert_eq!(Command::decode(Kind::Drive, byte, &data), Some(command));
        let by_gate = Command::decode(Kind::Gate, byte, &data);
        assert_eq!(
            by_gate.is_some(),
            [0x05, 0x24].contains(&byte),
            "{command:?}"
        );
        let readings = Command::readings(byte, &data);
        assert_eq!(readings.len(), 1 + usize::from(by_gate.is_some()));
    }
}

#[test]
fn a_changed_byte_is_noticed() {
    let mut prng = Prng::new(4);
    for _ in 0..2000 {
        let whole = crate::packet::whole(prng.byte(), 0x7, &[1, 2, 0xAA, 4]);
        let damaged = crate::make_packets::damage(&mut prng, whole);
        assert_eq!(read(RIGHT, &damaged), Err(Refusal::WrongSum));
        assert!(frame(RIGHT, &damaged).is_ok_and(|packet| !packet.intact));
    }
}

#[test]
fn the_items_add_up_to_t() {
    assert_eq!(status::item_bytes(Kind::Gate, 0xFF), status::T);
    assert_eq!(status::item_bytes(Kind::Drive, 0xFF), 16);
    assert_eq!(status::item_bytes(Kind::Drive, 0x7F), 16);
    for kind in Kind::ALL {
        assert_eq!(status::item_bytes(kind, 0x00), 0);
    }
}

#[test]
fn a_reply_reads_under_its_mask() {
    let masks = (0..=255).flat_map(|mask| Kind::ALL.map(|kind| (kind, mask)));
    for (kind, mask) in masks {
        let mut nodes = [Node::powered_up(RIGHT, kind)];
        let mut buffer = [0; 19];
        let packet = crate::packet::whole(0x00, 0x2, &[mask]);
        let delivery = deliver(RIGHT, &mut nodes, POWER_UP, &packet, &mut buffer);
        let Ok(Delivery::Reply(length)) = delivery else {
            panic!("one node replies: {delivery:?}");
        };
        assert!(status::read(RIGHT, kind, mask, &buffer[..length]).is_ok());
    }
}

/// "All numbers but 0 and 13 leave record, chain and buffers as they stood."
#[test]
fn a_refusal_changes_nothing() {
    for seed in 0..12 {
        let mut trials = Trials::new(RIGHT);
        for line in hex::lines(&make_trials::make(seed, 2000)) {
            let before = trials.session.clone();
            let answer = trials.answer(line);
            let answer = hex::parse(RIGHT, answer.as_bytes()).expect("a line of bytes");
            if answer[0] == 0 || answer[0] == 13 {
                continue;
            }
            assert_eq!(trials.session, before);
            assert!(keeps_what_was_lent(line, &answer), "{answer:02X?}");
        }
    }
}

/// Whether a refusal's answer shows buffer and records as they were lent.
fn keeps_what_was_lent(line: &[u8], answer: &[u8]) -> bool {
    let bytes = hex::parse(RIGHT, line).unwrap_or_default();
    match bytes.first() {
        Some(0x20) if answer.len() > 1 => {
            let room = usize::from(bytes[1]);
            let records = &answer[2 + room..];
            answer[1] == 0
                && answer[2..2 + room].iter().all(|byte| *byte == 0x55)
                && *records == bytes[4..4 + records.len()]
        }
        // An import's or export's value says no length.
        Some(0x40 | 0x41) if answer.len() > 1 => {
            let only_line = answer[0] == 14 || answer[1..3] == [0, 0];
            only_line && answer[3..].iter().all(|byte| *byte == 0x55)
        }
        Some(0x42 | 0x43) if answer.len() > 1 => {
            let only_line = answer[0] == 14 || answer[1..4] == [0, 0, 0];
            let room = usize::from(bytes[1]) | usize::from(bytes[2]) << 8;
            let lent = vec![0x55; room | usize::from(bytes[3]) << 16];
            only_line && answer[4..] == sums(&lent)
        }
        _ => answer[1..].iter().all(|byte| *byte == 0x55),
    }
}

/// The numbers come under their own calls only.
#[test]
fn numbers_keep_to_their_calls() {
    for seed in 20..32 {
        let mut trials = Trials::new(RIGHT);
        for line in hex::lines(&make_trials::make(seed, 2000)) {
            let call = hex::parse(RIGHT, line).unwrap_or_default();
            let answer = trials.answer(line);
            let number = hex::parse(RIGHT, answer.as_bytes()).expect("a line of bytes")[0];
            let own: &[u8] = match call.first() {
                Some(0x10) => &[0, 5, 6],
                Some(0x11) => &[0, 1, 2, 4],
                Some(0x12) => &[0, 1, 3, 4],
                Some(0x20) => &[0, 1, 2, 3, 5, 6, 13],
                Some(0x30) => &[0, 6],
                Some(0x31 | 0x32) => &[0, 5, 7, 9, 12, 18],
                Some(0x33) => &[0, 5, 6, 7, 9, 10, 12, 17, 18],
                Some(0x34) => &[0, 5, 6, 7, 9, 10, 11, 12, 18],
                Some(0x39) => &[0, 5, 6, 7, 9, 12, 18, 19],
                Some(0x35 | 0x36) => &[0, 8],
                Some(0x37 | 0x38) => &[0],
                Some(0x40 | 0x42) => &[0, 5, 6, 14],
                Some(0x41 | 0x43) => &[0, 1, 2, 4, 5],
                Some(0x50) => &[0, 6, 15, 16],
                _ => &[],
            };
            assert!(number == 0xFF || own.contains(&number), "{call:02X?}");
        }
    }
}

#[test]
fn demand_3_holds() {
    for seed in 0..4 {
        let counts = demand3::run(RIGHT, seed, 40_000);
        let counts = counts.unwrap_or_else(|violation| panic!("{violation}"));
        assert!(counts.ready > 50 && counts.doubts > 1000 && counts.refused > 100);
        assert!(counts.missed > 1000, "{counts}");
        assert!(counts.met.iter().all(|count| *count >= 20), "{counts}");
    }
}
