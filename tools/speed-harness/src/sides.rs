//! The sides that are compared, ours first.

use std::hint::black_box;
use std::ops::Range;

use oracle::bench;
use oracle::recording::{self, Recording};
use oracle::rules::Rules;

use crate::check::plain_kind;
use crate::plain::{Answer, Kind as NodeKind, Node, DIVISOR, MOST_REPLY};
use crate::plain_recording::{Capture, Replayed, ENTRIES};
use crate::plain_sheet::Refused;
use crate::work::{chain, gates, half_drives, packets, sheet, text, Packets};
use crate::work_recording::recording;
use crate::{ours, plain, plain_recording, plain_sheet, SEED};

/// One packet to a table of nodes, sent at a divisor: the answer, with the reply in
/// the buffer.
pub type Deliver = fn(&mut [Node], u8, &[u8], &mut [u8]) -> Answer;

/// A rehearsal text; what the bench writes for it goes into the vector.
pub type Rehearse = fn(&[u8], &mut Vec<u8>);

/// A sheet to packets, or packets to a sheet: how many bytes are written to the
/// lent buffer.
pub type Convert = fn(&[u8], &mut [u8]) -> Result<usize, Refused>;

/// A walk through a recording: how it ended, and the host's session then.
pub type Replay = fn(&Recording) -> Replayed;

const OURS: &str = "ours";
const FULL_SEARCH: &str = "Rust, full search";
const ONE_LOOK: &str = "Rust, one look";
const RUST: &str = "Rust";
const INDEPENDENT: &str = "the independent program";

/// What is held to the independent program before it is timed.
pub const DELIVERIES: [(&str, Deliver); 3] = [
    (OURS, ours::deliver),
    (FULL_SEARCH, full_search),
    (ONE_LOOK, one_look),
];
pub const REHEARSALS: [(&str, Rehearse); 2] = [(OURS, our_text), (ONE_LOOK, plain::rehearse)];

/// What is compared of sheets.
pub const IMPORTS: [(&str, Convert); 2] = [(OURS, ours::import), (RUST, plain_import)];
pub const EXPORTS: [(&str, Convert); 2] = [(OURS, ours::export), (RUST, plain_export)];

/// What is compared of recordings.
pub const REPLAYS: [(&str, Replay); 2] = [(OURS, our_replay), (RUST, plain_replay)];

/// The packets of one pass of deliveries.
pub const PACKETS: usize = 100_000;

/// Room for the longest output of a rehearsal.
const OUTPUT: usize = 655_360;

/// One side, ready to be run again and again: how much it does in a pass, in
/// packets or in bytes of a sheet or a recording.
pub struct Side {
    pub name: &'static str,
    pub amount: usize,
    pub pass: Box<dyn FnMut()>,
}

/// The parts that can be measured by themselves.
pub const BENCH: &str = "bench";
pub const SHEETS: &str = "sheets";
pub const RECORDINGS: &str = "recordings";

#[derive(Clone, Copy)]
pub enum Kind {
    Delivery,
    Mixed,
    Rehearsal,
    Import,
    Export,
    Replay8,
    Replay31,
}

impl Kind {
    pub const ALL: [Kind; 7] = [
        Kind::Delivery,
        Kind::Mixed,
        Kind::Rehearsal,
        Kind::Import,
        Kind::Export,
        Kind::Replay8,
        Kind::Replay31,
    ];

    pub fn word(self) -> &'static str {
        match self {
            Kind::Delivery => "delivery",
            Kind::Mixed => "mixed",
            Kind::Rehearsal => "rehearsal",
            Kind::Import => "import",
            Kind::Export => "export",
            Kind::Replay8 => "replay8",
            Kind::Replay31 => "replay31",
        }
    }

    pub fn part(self) -> &'static str {
        match self {
            Kind::Delivery | Kind::Mixed | Kind::Rehearsal => BENCH,
            Kind::Import | Kind::Export => SHEETS,
            Kind::Replay8 | Kind::Replay31 => RECORDINGS,
        }
    }

    pub fn heading(self) -> &'static str {
        match self {
            Kind::Delivery => "One delivery to gates: chain::deliver, 100,000 packets",
            Kind::Mixed => {
                "One delivery where half of the nodes are drives: chain::deliver, 100,000 packets"
            }
            Kind::Rehearsal => "The whole bench: script::rehearse, a text of 64 KiB",
            Kind::Import => "A sheet read: sheet::import",
            Kind::Export => "A sheet written: sheet::export",
            Kind::Replay8 => "A recording of 8 nodes: recording::replay",
            Kind::Replay31 => "A recording of 31 nodes: recording::replay",
        }
    }

    /// Whether it is measured in bytes and not in packets to a chain.
    pub fn has_bytes(self) -> bool {
        !matches!(self, Kind::Delivery | Kind::Mixed | Kind::Rehearsal)
    }

    /// What is timed of it: chains of so many nodes, or sheets or recordings of
    /// so many KiB.
    pub fn sizes(self) -> &'static [usize] {
        match self {
            Kind::Delivery | Kind::Rehearsal => &CHAINS,
            Kind::Mixed => &MIXED_CHAINS,
            Kind::Import | Kind::Export => &SHEET_SIZES,
            Kind::Replay8 | Kind::Replay31 => &RECORDING_SIZES,
        }
    }

    pub fn sides(self, size: usize) -> Vec<Side> {
        match self {
            Kind::Delivery => deliveries(&gates(size)),
            Kind::Mixed => deliveries(&half_drives(size)),
            Kind::Rehearsal => vec![
                our_rehearsal(size),
                rehearsal(ONE_LOOK, size, plain::rehearse),
                rehearsal(INDEPENDENT, size, independent_text),
            ],
            Kind::Import => IMPORTS.map(|side| import(side, size)).into(),
            Kind::Export => EXPORTS.map(|side| export(side, size)).into(),
            Kind::Replay8 => REPLAYS.map(|side| replay(side, RECORDED[0], size)).into(),
            Kind::Replay31 => REPLAYS.map(|side| replay(side, RECORDED[1], size)).into(),
        }
    }
}

/// The lengths of the chains that are timed, and the KiB of the sheets.
pub const CHAINS: [usize; 3] = [1, 8, 31];
pub const MIXED_CHAINS: [usize; 2] = [8, 31];
pub const SHEET_SIZES: [usize; 3] = [4, 16, 64];

/// The KiB of the recordings, in both captures together, and of how many nodes.
pub const RECORDING_SIZES: [usize; 3] = [1, 4, 16];
pub const RECORDED: [usize; 2] = [8, 31];

fn deliveries(kinds: &[NodeKind]) -> Vec<Side> {
    vec![
        delivery(OURS, kinds, ours::deliver),
        delivery(FULL_SEARCH, kinds, full_search),
        delivery(ONE_LOOK, kinds, one_look),
    ]
}

/// All packets to a fresh chain, one call each, at the divisor of power-up; which
/// one that is no side may count on.
fn delivery(
    name: &'static str,
    kinds: &[NodeKind],
    deliver: impl Fn(&mut [Node], u8, &[u8], &mut [u8]) -> Answer + 'static,
) -> Side {
    let packets = Packets::make(kinds, PACKETS, SEED);
    let fresh = chain(kinds);
    let mut nodes = fresh.clone();
    Side {
        name,
        amount: packets.count(),
        pass: Box::new(move || {
            nodes.copy_from_slice(&fresh);
            let mut reply = [0; MOST_REPLY];
            let at = black_box(DIVISOR);
            for packet in packets.iter() {
                black_box(deliver(&mut nodes, at, packet, &mut reply));
                black_box(&mut reply);
            }
        }),
    }
}

/// A whole rehearsal, as ours writes it: into a buffer that is lent.
fn our_rehearsal(length: usize) -> Side {
    let (input, packets) = text(length, SEED);
    let mut output = vec![0; OUTPUT];
    Side {
        name: OURS,
        amount: packets,
        pass: Box::new(move || {
            let _ = black_box(ours::rehearse(black_box(&input), &mut output));
            black_box(&mut output);
        }),
    }
}

/// A whole rehearsal, as Rust writes it: into a vector that has room.
fn rehearsal(name: &'static str, length: usize, rehearse: Rehearse) -> Side {
    let (input, packets) = text(length, SEED);
    let mut output = Vec::with_capacity(OUTPUT);
    Side {
        name,
        amount: packets,
        pass: Box::new(move || {
            rehearse(black_box(&input), &mut output);
            black_box(&mut output);
        }),
    }
}

/// Sheets of so many KiB, read.
fn import(side: (&'static str, Convert), size: usize) -> Side {
    let sheets: Vec<_> = seeds(size).map(|seed| sheet(size, seed)).collect();
    let bytes = sheets.iter().map(Vec::len).sum();
    conversions(side, sheets, bytes)
}

/// Sheets of so many KiB, written.
fn export(side: (&'static str, Convert), size: usize) -> Side {
    let (lists, lengths): (Vec<_>, Vec<usize>) =
        seeds(size).map(|seed| packets(size, seed)).unzip();
    conversions(side, lists, lengths.iter().sum())
}

/// A MiB of sheets in each pass, whatever their size, and no two alike: of the
/// same few a processor soon guesses every branch.
pub fn seeds(size: usize) -> Range<u64> {
    SEED..SEED + 1024 / size as u64
}

/// The same of recordings: 256 KiB of them in each pass.
pub fn recording_seeds(size: usize) -> Range<u64> {
    SEED..SEED + 256 / size as u64
}

/// A call for each input, into a lent buffer with room for all that is written.
fn conversions(
    (name, convert): (&'static str, Convert),
    inputs: Vec<Vec<u8>>,
    bytes: usize,
) -> Side {
    let mut out = vec![0; SHEET_SIZES[2] * 1024];
    Side {
        name,
        amount: bytes,
        pass: Box::new(move || {
            for input in &inputs {
                let _ = black_box(convert(black_box(input), &mut out));
                black_box(&mut out);
            }
        }),
    }
}

/// A walk through each recording of so many nodes and so many KiB.
fn replay((name, replay): (&'static str, Replay), nodes: usize, size: usize) -> Side {
    let recordings: Vec<_> = (recording_seeds(size))
        .map(|seed| recording(nodes, size, seed))
        .collect();
    let lengths = (recordings.iter()).map(|it| it.commands.bytes.len() + it.replies.bytes.len());
    Side {
        name,
        amount: lengths.sum(),
        pass: Box::new(move || {
            for recording in &recordings {
                black_box(replay(black_box(recording)));
            }
        }),
    }
}

/// The kinds as they are told, of all nodes that there may be.
fn told(recording: &Recording) -> [NodeKind; ENTRIES] {
    let mut kinds = [NodeKind::Gate; ENTRIES];
    for (told, kind) in kinds.iter_mut().zip(&recording.kinds) {
        *told = plain_kind(*kind);
    }
    kinds
}

fn lent(capture: &recording::Capture) -> Capture<'_> {
    Capture {
        bytes: &capture.bytes,
        times: &capture.times,
    }
}

fn our_replay(recording: &Recording) -> Replayed {
    let (commands, replies) = (lent(&recording.commands), lent(&recording.replies));
    ours::replay(recording.nodes, &told(recording), commands, replies)
}

// Calls, as ours is one.

#[inline(never)]
fn full_search(nodes: &mut [Node], at: u8, packet: &[u8], reply: &mut [u8]) -> Answer {
    plain::deliver(nodes, at, packet, reply)
}

#[inline(never)]
fn one_look(nodes: &mut [Node], at: u8, packet: &[u8], reply: &mut [u8]) -> Answer {
    plain::deliver_at_one_look(nodes, at, packet, reply)
}

#[inline(never)]
fn plain_import(sheet: &[u8], out: &mut [u8]) -> Result<usize, Refused> {
    plain_sheet::import(sheet, out)
}

#[inline(never)]
fn plain_export(packets: &[u8], out: &mut [u8]) -> Result<usize, Refused> {
    plain_sheet::export(packets, out)
}

#[inline(never)]
fn plain_replay(recording: &Recording) -> Replayed {
    let (commands, replies) = (lent(&recording.commands), lent(&recording.replies));
    plain_recording::replay(recording.nodes, &told(recording), commands, replies)
}

fn our_text(input: &[u8], output: &mut Vec<u8>) {
    output.resize(OUTPUT, 0);
    let length = ours::rehearse(input, output).expect("the output has room");
    output.truncate(length);
}

fn independent_text(input: &[u8], output: &mut Vec<u8>) {
    *output = bench::run(Rules::RIGHT, input).into_bytes();
}
