//! The bench as one writes it in Rust for speed: nodes in `&mut [Node]`, every
//! packet searched for over the whole table, nothing allocated for a packet.
//! `check` holds it, byte for byte, to the independent program.

/// The longest packet, and one byte that tells that there is more.
const MOST_PACKET: usize = 20;

/// The longest reply.
pub const MOST_REPLY: usize = 19;

/// The longest rehearsal text.
const MOST_TEXT: usize = 64 * 1024;

/// The divisor at power-up. The bench sends every line at it, and a recording has
/// only commands that were sent at it.
pub const DIVISOR: u8 = 0x3F;

#[derive(Clone, Copy, Debug, PartialEq)]
#[repr(C)]
pub struct Place {
    pub address: u8,
    pub group: u8,
    pub leader: bool,
}

#[derive(Clone, Copy, Debug, PartialEq)]
#[repr(C)]
pub struct Held {
    pub outputs: u16,
    pub pwm: [u8; 2],
}

#[derive(Clone, Copy, Debug, PartialEq)]
#[repr(C)]
pub struct GateSettings {
    pub outputs: u16,
    pub held: Held,
    pub pwm: [u8; 2],
    pub timer: u8,
}

/// A position is signed, and kept as the bits that are sent.
#[derive(Clone, Copy, Debug, PartialEq)]
#[repr(C)]
pub struct Motion {
    pub position: u32,
    pub velocity: u32,
    pub acceleration: u32,
    pub control: u8,
    pub pwm: u8,
}

#[derive(Clone, Copy, Debug, PartialEq)]
#[repr(C)]
pub struct Gains {
    pub kp: u16,
    pub kd: u16,
    pub ki: u16,
    pub il: u16,
    pub el: u16,
    pub ol: u8,
    pub sr: u8,
    pub db: u8,
}

#[derive(Clone, Copy, Debug, PartialEq)]
#[repr(C)]
pub struct DriveSettings {
    pub waiting: Motion,
    pub in_force: Motion,
    pub gains: Gains,
    pub stop: u8,
}

/// Of these a node uses what its kind has, and leaves the rest as it is.
#[derive(Clone, Copy, Debug, PartialEq)]
#[repr(C)]
pub struct Settings {
    pub drive: DriveSettings,
    pub gate: GateSettings,
    pub place: Place,
    pub mask: u8,
    pub divisor: u8,
}

#[derive(Clone, Copy, Debug, PartialEq)]
#[repr(C)]
pub struct Bench {
    pub counter: u32,
    pub home: u32,
    pub inputs: u16,
    pub velocity: u16,
    pub error: u16,
    pub analog: [u8; 3],
    pub ad: u8,
    pub auxiliary: u8,
    pub id: u8,
    pub version: u8,
}

#[derive(Clone, Copy, Debug, PartialEq)]
#[repr(C)]
pub struct Captured {
    pub counter: u32,
    pub inputs: u16,
}

#[derive(Clone, Copy, Debug, PartialEq)]
#[repr(u8)]
pub enum Kind {
    Gate,
    Drive,
}

/// Laid out as the proved code lays out its node, so that both sides move the
/// same bytes.
#[derive(Clone, Copy, Debug, PartialEq)]
#[repr(C)]
pub struct Node {
    pub settings: Settings,
    pub bench: Bench,
    pub captured: Captured,
    pub position: u32,
    pub addressed: bool,
    pub kind: Kind,
}

#[derive(Clone, Copy)]
pub enum Command {
    SetAddress(Place),
    DefineStatus(u8),
    ReadStatus(u8),
    SetBaudRate(u8),
    Nop,
    HardReset,
    // A gate's.
    SetPwm([u8; 2]),
    SynchOutput,
    SetOutputs(u16),
    SetSynchOutput(Held),
    SetTimerMode(u8),
    SynchInput,
    // A drive's.
    ResetPosition,
    LoadTrajectory(Motion),
    StartMotion,
    SetGain(Gains),
    StopMotor(u8),
}

/// What a packet to the chain comes to.
#[derive(Clone, Copy, Debug, PartialEq)]
pub enum Answer {
    Silent,
    Replied(usize),
    Collision,
    Refused(u8),
}

impl Bench {
    pub const ZERO: Bench = Bench {
        counter: 0,
        home: 0,
        inputs: 0,
        velocity: 0,
        error: 0,
        analog: [0; 3],
        ad: 0,
        auxiliary: 0,
        id: 0,
        version: 0,
    };
}

impl Place {
    const POWER_UP: Place = Place {
        address: 0x00,
        group: 0xFF,
        leader: false,
    };
}

impl GateSettings {
    const POWER_UP: GateSettings = GateSettings {
        outputs: 0,
        held: Held {
            outputs: 0,
            pwm: [0; 2],
        },
        pwm: [0; 2],
        timer: 0,
    };

    fn act(&mut self, command: &Command) {
        match *command {
            Command::SetPwm(pwm) => self.pwm = pwm,
            Command::SynchOutput => {
                self.outputs = self.held.outputs;
                self.pwm = self.held.pwm;
            }
            Command::SetOutputs(outputs) => self.outputs = outputs,
            Command::SetSynchOutput(held) => self.held = held,
            Command::SetTimerMode(mode) => self.timer = mode,
            _ => {}
        }
    }
}

impl Motion {
    pub const ZERO: Motion = Motion {
        position: 0,
        velocity: 0,
        acceleration: 0,
        control: 0,
        pwm: 0,
    };

    /// The control byte, and of the rest what it brings.
    pub fn load(&mut self, load: &Motion) {
        self.control = load.control;
        if load.control & 0x01 != 0 {
            self.position = load.position;
        }
        if load.control & 0x02 != 0 {
            self.velocity = load.velocity;
        }
        if load.control & 0x04 != 0 {
            self.acceleration = load.acceleration;
        }
        if load.control & 0x08 != 0 {
            self.pwm = load.pwm;
        }
    }
}

impl DriveSettings {
    pub const POWER_UP: DriveSettings = DriveSettings {
        waiting: Motion::ZERO,
        in_force: Motion::ZERO,
        gains: Gains {
            kp: 0,
            kd: 0,
            ki: 0,
            il: 0,
            el: 0,
            ol: 0,
            sr: 1,
            db: 0,
        },
        stop: 0,
    };

    fn act(&mut self, command: &Command) {
        match *command {
            Command::LoadTrajectory(load) => {
                self.waiting.load(&load);
                if load.control & 0x80 != 0 {
                    self.in_force = self.waiting;
                }
            }
            Command::StartMotion => self.in_force = self.waiting,
            Command::SetGain(gains) => self.gains = gains,
            Command::StopMotor(stop) => self.stop = stop,
            _ => {}
        }
    }
}

impl Settings {
    pub const POWER_UP: Settings = Settings {
        drive: DriveSettings::POWER_UP,
        gate: GateSettings::POWER_UP,
        place: Place::POWER_UP,
        mask: 0,
        divisor: DIVISOR,
    };
}

impl Node {
    pub const fn power_up(kind: Kind, bench: Bench) -> Node {
        Node {
            settings: Settings::POWER_UP,
            bench,
            captured: Captured {
                counter: 0,
                inputs: 0,
            },
            position: 0,
            addressed: false,
            kind,
        }
    }

    fn is_in_range(&self) -> bool {
        self.settings.place.address < 0x80 && self.settings.place.group >= 0x80
    }

    /// Near: it is first, or the node before it is addressed. At: the divisor that
    /// the packet is sent at.
    fn hears(&self, near: bool, at: u8) -> bool {
        (near || self.addressed) && self.settings.divisor == at
    }

    fn is_meant(&self, address: u8) -> bool {
        let place = &self.settings.place;
        address == place.address || address == place.group
    }

    fn answers(&self, address: u8) -> bool {
        let place = &self.settings.place;
        address == place.address || (place.leader && address == place.group)
    }

    /// What its kind understands by a packet.
    fn act(&mut self, command: &Command) {
        let settings = &mut self.settings;
        match *command {
            Command::SetAddress(place) => {
                settings.place = place;
                self.addressed = true;
            }
            Command::DefineStatus(mask) => settings.mask = mask,
            Command::SetBaudRate(divisor) => settings.divisor = divisor,
            Command::SynchInput => {
                self.captured = Captured {
                    counter: self.bench.counter,
                    inputs: self.bench.inputs,
                }
            }
            Command::ResetPosition => self.position = 0,
            Command::HardReset => self.reset(),
            Command::ReadStatus(_) | Command::Nop => {}
            _ => match self.kind {
                Kind::Gate => settings.gate.act(command),
                Kind::Drive => settings.drive.act(command),
            },
        }
    }

    /// To power-up state, but for the bench values and the other kind's part.
    fn reset(&mut self) {
        self.settings.place = Place::POWER_UP;
        self.settings.mask = 0;
        self.settings.divisor = DIVISOR;
        self.addressed = false;
        match self.kind {
            Kind::Gate => {
                self.settings.gate = GateSettings::POWER_UP;
                self.captured = Captured {
                    counter: 0,
                    inputs: 0,
                };
            }
            Kind::Drive => {
                self.settings.drive = DriveSettings::POWER_UP;
                self.position = 0;
            }
        }
    }

    /// The status packet into the start of `reply`; None where it has no room.
    fn status(&self, mask: u8, wrong_sum: bool, reply: &mut [u8]) -> Option<usize> {
        let mut bytes = [0; MOST_REPLY];
        bytes[0] = if wrong_sum { 2 } else { 0 };
        let mut count = match self.kind {
            Kind::Gate => self.put_gate(mask, &mut bytes),
            Kind::Drive => self.put_drive(mask, &mut bytes),
        };
        bytes[count] = sum(&bytes[..count]);
        count += 1;
        reply.get_mut(..count)?.copy_from_slice(&bytes[..count]);
        Some(count)
    }

    /// A gate's items behind the status byte; how many bytes then stand there.
    fn put_gate(&self, mask: u8, bytes: &mut [u8; MOST_REPLY]) -> usize {
        let mut count = 1;
        let mut put = |item: &[u8]| {
            bytes[count..count + item.len()].copy_from_slice(item);
            count += item.len();
        };
        let bench = &self.bench;
        if mask & 0x01 != 0 {
            put(&bench.inputs.to_le_bytes());
        }
        if mask & 0x02 != 0 {
            put(&bench.analog[..1]);
        }
        if mask & 0x04 != 0 {
            put(&bench.analog[1..2]);
        }
        if mask & 0x08 != 0 {
            put(&bench.analog[2..]);
        }
        if mask & 0x10 != 0 {
            put(&bench.counter.to_le_bytes());
        }
        if mask & 0x20 != 0 {
            put(&[bench.id, bench.version]);
        }
        if mask & 0x40 != 0 {
            put(&self.captured.inputs.to_le_bytes());
        }
        if mask & 0x80 != 0 {
            put(&self.captured.counter.to_le_bytes());
        }
        count
    }

    /// A drive's; bit 7 asks for nothing.
    fn put_drive(&self, mask: u8, bytes: &mut [u8; MOST_REPLY]) -> usize {
        let mut count = 1;
        let mut put = |item: &[u8]| {
            bytes[count..count + item.len()].copy_from_slice(item);
            count += item.len();
        };
        let bench = &self.bench;
        if mask & 0x01 != 0 {
            put(&self.position.to_le_bytes());
        }
        if mask & 0x02 != 0 {
            put(&[bench.ad]);
        }
        if mask & 0x04 != 0 {
            put(&bench.velocity.to_le_bytes());
        }
        if mask & 0x08 != 0 {
            put(&[bench.auxiliary]);
        }
        if mask & 0x10 != 0 {
            put(&bench.home.to_le_bytes());
        }
        if mask & 0x20 != 0 {
            put(&[bench.id, bench.version]);
        }
        if mask & 0x40 != 0 {
            put(&bench.error.to_le_bytes());
        }
        count
    }
}

pub fn sum(bytes: &[u8]) -> u8 {
    bytes.iter().fold(0, |sum, byte| sum.wrapping_add(*byte))
}

/// What a kind of node understands by a command and its data, under an address;
/// None for others, for another count, for a value off its range, and for a Set
/// Baud Rate that comes to no group.
fn read(kind: Kind, address: u8, command: u8, data: &[u8]) -> Option<Command> {
    match (command, data) {
        // A drive has no address 0x00.
        (0x1, &[0x00, _]) if kind == Kind::Drive => None,
        (0x1, &[address @ 0x00..=0x7F, second]) => Some(Command::SetAddress(Place {
            address,
            group: second | 0x80,
            leader: second < 0x80,
        })),
        (0x2, &[mask]) => Some(Command::DefineStatus(mask)),
        (0x3, &[mask]) => Some(Command::ReadStatus(mask)),
        (0xA, &[divisor]) if address >= 0x80 => Some(Command::SetBaudRate(divisor)),
        (0xE, []) => Some(Command::Nop),
        (0xF, []) => Some(Command::HardReset),
        _ => match kind {
            Kind::Gate => read_gate(command, data),
            Kind::Drive => read_drive(command, data),
        },
    }
}

fn read_gate(command: u8, data: &[u8]) -> Option<Command> {
    Some(match (command, data) {
        (0x4, &[first, second]) => Command::SetPwm([first, second]),
        (0x5, []) => Command::SynchOutput,
        (0x6, &[low, high]) => Command::SetOutputs(u16::from_le_bytes([low, high])),
        (0x7, &[low, high, first, second]) => Command::SetSynchOutput(Held {
            outputs: u16::from_le_bytes([low, high]),
            pwm: [first, second],
        }),
        (0x8, &[mode]) => Command::SetTimerMode(mode),
        (0xC, []) => Command::SynchInput,
        _ => return None,
    })
}

fn read_drive(command: u8, data: &[u8]) -> Option<Command> {
    match (command, data) {
        (0x0, []) => Some(Command::ResetPosition),
        (0x4, &[control, ref rest @ ..]) => read_load(control, rest).map(Command::LoadTrajectory),
        (0x5, []) => Some(Command::StartMotion),
        (0x6, _) => read_gains(data.try_into().ok()?).map(Command::SetGain),
        (0x7, &[stop, ref rest @ ..]) => read_stop(stop, rest).map(Command::StopMotor),
        _ => None,
    }
}

/// The position that is off its range, and the most of velocity and acceleration.
const NO_POSITION: u32 = 0x8000_0000;
const MOST_LONG: u32 = 0x7FFF_FFFF;

fn read_load(control: u8, mut rest: &[u8]) -> Option<Motion> {
    let mut load = Motion {
        control,
        ..Motion::ZERO
    };
    if control & 0x01 != 0 {
        load.position = take_long(&mut rest)?;
    }
    if control & 0x02 != 0 {
        load.velocity = take_long(&mut rest)?;
    }
    if control & 0x04 != 0 {
        load.acceleration = take_long(&mut rest)?;
    }
    if control & 0x08 != 0 {
        (load.pwm, rest) = rest.split_first().map(|(pwm, rest)| (*pwm, rest))?;
    }
    let fits = rest.is_empty()
        && load.position != NO_POSITION
        && load.velocity <= MOST_LONG
        && load.acceleration <= MOST_LONG;
    fits.then_some(load)
}

fn take_long(bytes: &mut &[u8]) -> Option<u32> {
    let (long, rest) = bytes.split_first_chunk()?;
    *bytes = rest;
    Some(u32::from_le_bytes(*long))
}

fn read_gains(data: [u8; 14]) -> Option<Gains> {
    let word = |at: usize| u16::from_le_bytes([data[at], data[at + 1]]);
    let gains = Gains {
        kp: word(0),
        kd: word(2),
        ki: word(4),
        il: word(6),
        el: word(10),
        ol: data[8],
        sr: data[12],
        db: data[13],
    };
    let fits = data[9] == 0
        && (gains.kp | gains.kd | gains.ki | gains.il) <= 0x7FFF
        && gains.el <= 0x3FFF
        && gains.sr >= 1;
    fits.then_some(gains)
}

/// At most one of bits 1 to 4, and no bit above; with bit 4 a position comes.
fn read_stop(stop: u8, rest: &[u8]) -> Option<u8> {
    let position_fits = match *rest {
        [] => stop & 0x10 == 0,
        [a, b, c, d] => stop & 0x10 != 0 && u32::from_le_bytes([a, b, c, d]) != NO_POSITION,
        _ => false,
    };
    (position_fits && stop < 0x20 && (stop & 0x1E).count_ones() <= 1).then_some(stop)
}

/// A packet of the right form; each kind of node reads it by itself.
pub struct Packet<'a> {
    pub address: u8,
    intact: bool,
    command: u8,
    data: &'a [u8],
}

pub fn frame(bytes: &[u8]) -> Result<Packet<'_>, u8> {
    let length = bytes.len();
    if length == 0 {
        return Err(1);
    }
    if bytes[0] != 0xAA {
        return Err(2);
    }
    if length < 4 || length < 4 + usize::from(bytes[2] >> 4) {
        return Err(1);
    }
    if length > 4 + usize::from(bytes[2] >> 4) {
        return Err(3);
    }
    Ok(Packet {
        address: bytes[1],
        intact: sum(&bytes[1..length - 1]) == bytes[length - 1],
        command: bytes[2] & 0x0F,
        data: &bytes[3..length - 1],
    })
}

impl Packet<'_> {
    /// What it says to a kind of node; no command where the sum is wrong or the
    /// command another one.
    pub fn to(&self, kind: Kind) -> Option<Command> {
        if self.intact {
            read(kind, self.address, self.command, self.data)
        } else {
            None
        }
    }

    /// Hard Reset reads alike to either kind.
    fn is_answered(&self) -> bool {
        !(self.intact && self.command == 0xF && self.data.is_empty())
    }

    /// The reply of a node, once it has acted: how long it is, or 5.
    fn answer_of(&self, node: &Node, reply: &mut [u8]) -> Answer {
        let mut after = *node;
        let command = self.to(node.kind);
        if let Some(command) = &command {
            after.act(command);
        }
        let mask = match command {
            Some(Command::ReadStatus(mask)) => mask,
            _ => after.settings.mask,
        };
        match after.status(mask, !self.intact, reply) {
            Some(count) => Answer::Replied(count),
            None => Answer::Refused(5),
        }
    }
}

/// One packet to the chain, sent at a divisor: 6 first, then 1, 2, 3, then 5,
/// before any node acts. As one writes it down: the table is checked, searched
/// for repliers up to the second one, and gone through once more to act.
pub fn deliver(nodes: &mut [Node], at: u8, bytes: &[u8], reply: &mut [u8]) -> Answer {
    if !(1..=31).contains(&nodes.len()) || !nodes.iter().all(Node::is_in_range) {
        return Answer::Refused(6);
    }
    let packet = match frame(bytes) {
        Ok(packet) => packet,
        Err(number) => return Answer::Refused(number),
    };
    let answer = if packet.is_answered() {
        match search(nodes, at, packet.address) {
            Replier::None => Answer::Silent,
            Replier::One(node) => packet.answer_of(node, reply),
            Replier::Several => Answer::Collision,
        }
    } else {
        Answer::Silent
    };
    if packet.intact && answer != Answer::Refused(5) {
        let mut near = true;
        for node in nodes {
            let addressed = node.addressed;
            if node.hears(near, at) && node.is_meant(packet.address) {
                if let Some(command) = packet.to(node.kind) {
                    node.act(&command);
                }
            }
            near = addressed;
        }
    }
    answer
}

enum Replier<'a> {
    None,
    One(&'a Node),
    Several,
}

fn search(nodes: &[Node], at: u8, address: u8) -> Replier<'_> {
    let mut near = true;
    let mut found = Replier::None;
    for node in nodes {
        if node.hears(near, at) && node.answers(address) {
            match found {
                Replier::None => found = Replier::One(node),
                _ => return Replier::Several,
            }
        }
        near = node.addressed;
    }
    found
}

/// The same with one look at each node, as ours does it: who acts and who
/// replies is kept as bits, and then only those are visited.
pub fn deliver_at_one_look(nodes: &mut [Node], at: u8, bytes: &[u8], reply: &mut [u8]) -> Answer {
    if !(1..=31).contains(&nodes.len()) {
        return Answer::Refused(6);
    }
    let packet = frame(bytes);
    let address = packet.as_ref().map_or(0, |packet| packet.address);
    let (mut acting, mut replying) = (0u32, 0u32);
    let (mut near, mut in_range) = (true, true);
    for (index, node) in nodes.iter().enumerate() {
        in_range &= node.is_in_range();
        if node.hears(near, at) && node.is_meant(address) {
            acting |= 1 << index;
            if node.answers(address) {
                replying |= 1 << index;
            }
        }
        near = node.addressed;
    }
    let packet = match packet {
        _ if !in_range => return Answer::Refused(6),
        Err(number) => return Answer::Refused(number),
        Ok(packet) => packet,
    };
    let answer = match replying.count_ones() {
        1 if packet.is_answered() => {
            packet.answer_of(&nodes[replying.trailing_zeros() as usize], reply)
        }
        2.. if packet.is_answered() => Answer::Collision,
        _ => Answer::Silent,
    };
    if packet.intact && answer != Answer::Refused(5) {
        while acting != 0 {
            let node = &mut nodes[acting.trailing_zeros() as usize];
            if let Some(command) = packet.to(node.kind) {
                node.act(&command);
            }
            acting &= acting - 1;
        }
    }
    answer
}

/// The whole bench: what it writes for a rehearsal text, into `output`.
pub fn rehearse(input: &[u8], output: &mut Vec<u8>) {
    output.clear();
    let mut lines = input.split(|byte| *byte == b'\n');
    let count = match lines.next() {
        Some(&[ones @ b'1'..=b'9']) => usize::from(ones - b'0'),
        Some(&[tens @ b'1'..=b'9', ones @ b'0'..=b'9']) => {
            usize::from(tens - b'0') * 10 + usize::from(ones - b'0')
        }
        _ => 0,
    };
    if input.len() > MOST_TEXT || !(1..=31).contains(&count) {
        output.extend_from_slice(b"refused 6\n");
        return;
    }
    let mut nodes = [Node::power_up(Kind::Gate, Bench::ZERO); 31];
    let nodes = &mut nodes[..count];
    let mut rest = lines.peekable();
    while let Some(line) = rest.next() {
        if line.is_empty() && rest.peek().is_none() {
            break;
        }
        let mut packet = [0; MOST_PACKET];
        let mut reply = [0; MOST_REPLY];
        let answer = match parse(line, &mut packet) {
            Some(length) => deliver_at_one_look(nodes, DIVISOR, &packet[..length], &mut reply),
            None => Answer::Refused(6),
        };
        write(answer, &reply, output);
    }
}

/// The bytes of a line, as many as have room; how many these are. None where
/// the line isn't of its form.
fn parse(line: &[u8], packet: &mut [u8; MOST_PACKET]) -> Option<usize> {
    if line.is_empty() {
        return Some(0);
    }
    if line.len() % 3 != 2 {
        return None;
    }
    let mut count = 0;
    for word in line.chunks(3) {
        if word.len() == 3 && word[2] != b' ' {
            return None;
        }
        let byte = digit(word[0])? << 4 | digit(word[1])?;
        if count < MOST_PACKET {
            packet[count] = byte;
            count += 1;
        }
    }
    Some(count)
}

fn digit(character: u8) -> Option<u8> {
    match character {
        b'0'..=b'9' => Some(character - b'0'),
        b'A'..=b'F' => Some(character - b'A' + 10),
        _ => None,
    }
}

fn write(answer: Answer, reply: &[u8; MOST_REPLY], output: &mut Vec<u8>) {
    match answer {
        Answer::Silent => output.extend_from_slice(b"-\n"),
        Answer::Collision => output.extend_from_slice(b"collision\n"),
        Answer::Refused(number) => {
            output.extend_from_slice(b"refused ");
            output.extend_from_slice(&[b'0' + number, b'\n']);
        }
        Answer::Replied(count) => {
            const DIGITS: &[u8; 16] = b"0123456789ABCDEF";
            for byte in &reply[..count] {
                let high = DIGITS[usize::from(byte >> 4)];
                let low = DIGITS[usize::from(byte & 0x0F)];
                output.extend_from_slice(&[high, low, b' ']);
            }
            let last = output.len() - 1;
            output[last] = b'\n';
        }
    }
}
