//! The proved code as it is called from Rust, compiled for this machine by
//! `tools/speed`. The compiler lays a struct out field by field in the order
//! of its declaration, as C does; it hands structs and enums over by address,
//! a slice by two arguments, where it starts and how long it is, and has the
//! answer written where the first argument points. An enum is the number of
//! its case in one byte, then what the case carries.

use crate::plain::{Answer, Kind, Node};
use crate::plain_recording::{Capture, Ending, Entry, Replayed, ENTRIES};
use crate::plain_sheet::Refused;

/// The number of a collision, which no refusal has.
const COLLISION: u8 = 13;

/// Room for an answer of two or three cases, which carry a number or a refusal.
#[repr(C)]
struct Said {
    case: u8,
    refusal: u8,
    number: usize,
}

/// What a delivery comes to: one of its three cases, or a refusal in its place.
#[repr(C)]
struct Delivered {
    case: u8,
    refusal: u8,
    delivery: Said,
}

/// What importing comes to: how many bytes there are, or in their place which
/// error, and of a refusal which; then the line that is at fault.
#[repr(C)]
struct Imported {
    case: u8,
    bytes: usize,
    line: usize,
}

/// A slice within a struct: where it starts and how long it is.
#[repr(C)]
struct Slice<T> {
    start: *const T,
    length: usize,
}

/// A recording as the proved code takes it: of each line the bytes and times.
#[repr(C)]
struct Taken {
    command_bytes: Slice<u8>,
    command_times: Slice<u32>,
    reply_bytes: Slice<u8>,
    reply_times: Slice<u32>,
}

/// How a walk through a recording ended, and the session then; with room to
/// spare, so that one laid out in another way does no harm but shows.
#[repr(C)]
struct Walked {
    said: [u8; 2],
    session: Session,
    _spare: [u32; 256],
}

#[repr(C)]
struct Session {
    started: bool,
    nodes: u8,
    walk: u8,
    exchange: Exchange,
    entries: [Entry; ENTRIES],
}

/// Idle, or what waits, which is not looked at: a divisor, an address and a
/// command.
#[repr(C)]
struct Exchange {
    case: u8,
    _at: u8,
    _to: [u8; 2],
    _command: [u32; 5],
}

extern "C" {
    fn ours_rehearse(
        said: *mut Said,
        input: *const u8,
        input_length: usize,
        output: *mut u8,
        output_length: usize,
    );
    fn ours_deliver(
        delivered: *mut Delivered,
        table: *mut Node,
        table_length: usize,
        at: u8,
        packet: *const u8,
        packet_length: usize,
        reply: *mut u8,
        reply_length: usize,
    );
    fn ours_import(
        imported: *mut Imported,
        sheet: *const u8,
        sheet_length: usize,
        out: *mut u8,
        out_length: usize,
    );
    fn ours_export(
        said: *mut Said,
        packets: *const u8,
        packets_length: usize,
        out: *mut u8,
        out_length: usize,
    );
    fn ours_replay(
        walked: *mut Walked,
        nodes: u8,
        kinds: *const [Kind; ENTRIES],
        taken: *const Taken,
    );
}

impl<T> Slice<T> {
    fn of(slice: &[T]) -> Slice<T> {
        Slice {
            start: slice.as_ptr(),
            length: slice.len(),
        }
    }
}

impl Said {
    const NOTHING: Said = Said {
        case: 0,
        refusal: 0,
        number: 0,
    };

    fn refused(&self) -> u8 {
        number_of(self.refusal)
    }
}

impl Walked {
    const NOTHING: Walked = Walked {
        said: [0; 2],
        session: Session {
            started: false,
            nodes: 0,
            walk: 0,
            exchange: Exchange {
                case: 0,
                _at: 0,
                _to: [0; 2],
                _command: [0; 5],
            },
            entries: [Entry::power_up(Kind::Gate); ENTRIES],
        },
        _spare: [0; 256],
    };
}

/// Refusals are declared in the order of their numbers, which are those from 1
/// on without the collision's.
fn number_of(refusal: u8) -> u8 {
    let number = refusal + 1;
    number + u8::from(number >= COLLISION)
}

/// `chain::deliver`.
pub fn deliver(table: &mut [Node], at: u8, packet: &[u8], reply: &mut [u8]) -> Answer {
    let mut delivered = Delivered {
        case: 0,
        refusal: 0,
        delivery: Said::NOTHING,
    };
    // SAFETY: the proved code reads and writes within the slices it is lent.
    unsafe {
        ours_deliver(
            &mut delivered,
            table.as_mut_ptr(),
            table.len(),
            at,
            packet.as_ptr(),
            packet.len(),
            reply.as_mut_ptr(),
            reply.len(),
        )
    };
    match (delivered.case, delivered.delivery.case) {
        (0, 0) => Answer::Silent,
        (0, 1) => Answer::Replied(delivered.delivery.number),
        (0, _) => Answer::Collision,
        _ => Answer::Refused(number_of(delivered.refusal)),
    }
}

/// `script::rehearse`: how long the text is, or the refusal.
pub fn rehearse(input: &[u8], output: &mut [u8]) -> Result<usize, u8> {
    let mut said = Said::NOTHING;
    // SAFETY: as above.
    unsafe {
        ours_rehearse(
            &mut said,
            input.as_ptr(),
            input.len(),
            output.as_mut_ptr(),
            output.len(),
        )
    };
    match said.case {
        0 => Ok(said.number),
        _ => Err(said.refused()),
    }
}

/// `sheet::import`: how many bytes of packets, or the refusal.
pub fn import(sheet: &[u8], out: &mut [u8]) -> Result<usize, Refused> {
    let mut imported = Imported {
        case: 0,
        bytes: 0,
        line: 0,
    };
    // SAFETY: as above.
    unsafe {
        ours_import(
            &mut imported,
            sheet.as_ptr(),
            sheet.len(),
            out.as_mut_ptr(),
            out.len(),
        )
    };
    let [error, refusal, ..] = imported.bytes.to_le_bytes();
    match (imported.case, error) {
        (0, _) => Ok(imported.bytes),
        (_, 0) => Err(Refused::with(number_of(refusal))),
        _ => Err(Refused {
            number: 14,
            line: imported.line,
        }),
    }
}

/// `sheet::export`: how long the sheet is, or the refusal.
pub fn export(packets: &[u8], out: &mut [u8]) -> Result<usize, Refused> {
    let mut said = Said::NOTHING;
    // SAFETY: as above.
    unsafe {
        ours_export(
            &mut said,
            packets.as_ptr(),
            packets.len(),
            out.as_mut_ptr(),
            out.len(),
        )
    };
    match said.case {
        0 => Ok(said.number),
        _ => Err(Refused::with(said.refused())),
    }
}

/// `recording::replay`.
pub fn replay(nodes: u8, kinds: &[Kind; ENTRIES], commands: Capture, replies: Capture) -> Replayed {
    let mut walked = Walked::NOTHING;
    let taken = Taken {
        command_bytes: Slice::of(commands.bytes),
        command_times: Slice::of(commands.times),
        reply_bytes: Slice::of(replies.bytes),
        reply_times: Slice::of(replies.times),
    };
    // SAFETY: as above.
    unsafe { ours_replay(&mut walked, nodes, kinds, &taken) };
    let session = walked.session;
    Replayed {
        ending: match walked.said {
            [0, 0] => Ending::Ended,
            [0, _] => Ending::Foreign,
            [_, refusal] => Ending::Refused(number_of(refusal)),
        },
        open: session.started,
        nodes: session.nodes,
        walk: session.walk,
        waits: session.exchange.case != 0,
        entries: session.entries,
    }
}
