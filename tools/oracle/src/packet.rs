//! "Packets": command packets, read and built.

use crate::buffer;
use crate::refusal::{require, Refusal};
use crate::rules::{Mistake, Rules};

/// The first byte of every command packet; never in the sum.
pub const HEADER: u8 = 0xAA;

/// Header, address, command byte and sum stand around the data bytes.
pub const OVERHEAD: usize = 4;

/// The most data bytes that the high nibble can count.
pub const MOST_DATA: usize = 15;

/// The bytes of the longest packet.
pub const MOST_PACKET: usize = OVERHEAD + MOST_DATA;

/// A packet of the right form. `intact` tells whether its sum is right: the
/// chain takes damaged packets too, reading does not. `end` tells where it ends
/// among the bytes that it stands at the start of.
#[derive(Clone, Copy, Debug, PartialEq, Eq)]
pub struct Packet<'a> {
    pub address: u8,
    pub command_byte: u8,
    pub data: &'a [u8],
    pub intact: bool,
    pub end: usize,
}

impl Packet<'_> {
    /// The command: the low nibble of the command byte.
    pub fn command(&self) -> u8 {
        self.command_byte & 0x0F
    }
}

/// The 8-bit sum, wrapping past 255.
pub fn sum(bytes: &[u8]) -> u8 {
    bytes.iter().fold(0, |sum, byte| sum.wrapping_add(*byte))
}

/// The sum of a packet's bytes before its sum: address, command byte, data.
fn packet_sum(rules: Rules, before_sum: &[u8]) -> u8 {
    if rules.slips(Mistake::HeaderInSum) {
        return sum(before_sum);
    }
    sum(&before_sum[1..])
}

/// Whether the sum, a packet's last byte, is that of the bytes before it.
fn is_intact(rules: Rules, bytes: &[u8], end: usize) -> bool {
    let last = |mistake| match rules.slips(mistake) {
        true => bytes.len() - 1,
        false => end - 1,
    };
    let before_sum = &bytes[..last(Mistake::SumPastEnd)];
    bytes[last(Mistake::SumSoughtLast)] == packet_sum(rules, before_sum)
}

/// The packet that some bytes begin with, its sum right or not; what follows
/// it is not looked at. Checks in order: empty, 1; first byte not 0xAA, 2;
/// fewer than 4 bytes or fewer than 4 + count, 1.
pub fn frame(rules: Rules, bytes: &[u8]) -> Result<Packet<'_>, Refusal> {
    if rules.slips(Mistake::LengthBeforeHeader) {
        require(bytes.len() >= OVERHEAD, Refusal::Short)?;
    }
    require(!bytes.is_empty(), Refusal::Short)?;
    require(bytes[0] == HEADER, Refusal::NoHeader)?;
    require(bytes.len() >= OVERHEAD, Refusal::Short)?;
    let end = OVERHEAD + usize::from(bytes[2] >> 4);
    require(bytes.len() >= end, Refusal::Short)?;
    let data = &bytes[3..end - 1];
    if rules.slips(Mistake::HeaderEndsData) {
        require(!data.contains(&HEADER), Refusal::Short)?;
    }
    Ok(Packet {
        address: bytes[1],
        command_byte: bytes[2],
        data,
        intact: is_intact(rules, bytes, end),
        end,
    })
}

/// "Reading a command should say where the packet ends and accept what
/// follows" (request 2): the checks of `frame`, then the sum, 4; never 3.
pub fn read(rules: Rules, bytes: &[u8]) -> Result<Packet<'_>, Refusal> {
    let packet = frame(rules, bytes)?;
    mistakes_about_rest(rules, &packet, bytes)?;
    require(packet.intact, Refusal::WrongSum)?;
    Ok(as_told(rules, packet, bytes))
}

/// "A builder takes any address byte and gives 6 before 5." The packet goes
/// to the start of the lent buffer, the rest stays; the length is returned.
pub fn build(
    rules: Rules,
    buffer: &mut [u8],
    address: u8,
    command: u8,
    data: &[u8],
) -> Result<usize, Refusal> {
    let command_fits = command <= 15 || rules.slips(Mistake::CommandsAbove15);
    if rules.slips(Mistake::RoomBeforeRange) {
        require(OVERHEAD + data.len() <= buffer.len(), Refusal::NoRoom)?;
    }
    require(command_fits && data.len() <= MOST_DATA, Refusal::OffRange)?;
    buffer::write(rules, buffer, &assemble(rules, address, command, data))
}

/// The bytes of a packet whose parts are in range; the command byte is made of
/// the command and of how many data bytes there are.
pub fn assemble(rules: Rules, address: u8, command: u8, data: &[u8]) -> Vec<u8> {
    let mut bytes = vec![HEADER, address, (data.len() as u8) << 4 | command & 0x0F];
    bytes.extend_from_slice(data);
    bytes.push(packet_sum(rules, &bytes));
    bytes
}

/// A right packet with this command byte's nibbles taken as they are; the
/// generators make their inputs of these.
pub fn whole(address: u8, command: u8, data: &[u8]) -> Vec<u8> {
    assemble(Rules::RIGHT, address, command, data)
}

// ---- Mistakes alone ----------------------------------------------------

/// What follows a packet is accepted, but for a mistaken reader.
fn mistakes_about_rest(rules: Rules, packet: &Packet, bytes: &[u8]) -> Result<(), Refusal> {
    let Some(first) = bytes.get(packet.end) else {
        return Ok(());
    };
    let too_long = rules.slips(Mistake::ReadingGives3)
        || rules.slips(Mistake::DamagedGives3) && !packet.intact
        || rules.slips(Mistake::LongReadingGives3) && bytes.len() > OVERHEAD + MOST_DATA;
    require(!too_long, Refusal::TooLong)?;
    let follows = *first == HEADER || !rules.slips(Mistake::HeaderMustFollow);
    require(follows, Refusal::NoHeader)
}

/// What has been read, as a mistaken reader tells it.
fn as_told<'a>(rules: Rules, packet: Packet<'a>, bytes: &'a [u8]) -> Packet<'a> {
    let mut told = packet;
    if rules.slips(Mistake::EndIsLength) {
        told.end = bytes.len();
    } else if rules.slips(Mistake::EndLeavesSum) {
        told.end -= 1;
    } else if rules.slips(Mistake::EndLeavesData) {
        told.end = OVERHEAD;
    } else if rules.slips(Mistake::DataToLast) {
        // Not in a long list, each line of which would hold the rest of it.
        told.data = &bytes[3..bytes.len().min(100) - 1];
    }
    told
}
