//! Recordings gone through as one writes it in Rust: two slices that grow
//! shorter packet by packet, and one host that is changed in place. Nothing is
//! allocated. `check_recording` holds it to the independent program.

use crate::plain::{frame, sum, Command, Kind, Motion, Place, Settings, DIVISOR, MOST_REPLY};

/// The entries that the host's record always has.
pub const ENTRIES: usize = 31;

/// So many milliseconds or more part two packets.
const GAP: u32 = 2;

/// The bit of a reply that says that the command had a wrong sum.
const MARK: u8 = 0x02;

/// What is captured of one line: bytes, and a time for each.
#[derive(Clone, Copy)]
pub struct Capture<'a> {
    pub bytes: &'a [u8],
    pub times: &'a [u32],
}

/// Which settings of a node are known; the others are in doubt.
#[derive(Clone, Copy, Debug, PartialEq)]
#[repr(C)]
pub struct Known {
    pub place: bool,
    pub mask: bool,
    pub divisor: bool,
    pub gate: GateKnown,
    pub drive: DriveKnown,
}

#[derive(Clone, Copy, Debug, PartialEq)]
#[repr(C)]
pub struct GateKnown {
    pub outputs: bool,
    pub pwm: bool,
    pub held: bool,
    pub timer: bool,
}

#[derive(Clone, Copy, Debug, PartialEq)]
#[repr(C)]
pub struct DriveKnown {
    pub gains: bool,
    pub stop: bool,
    pub waiting: MotionKnown,
    pub in_force: MotionKnown,
}

#[derive(Clone, Copy, Debug, PartialEq)]
#[repr(C)]
pub struct MotionKnown {
    pub control: bool,
    pub position: bool,
    pub velocity: bool,
    pub acceleration: bool,
    pub pwm: bool,
}

/// What is recorded of a node, laid out as the proved code lays it out, so that
/// both sides move the same bytes. What the other kind has says nothing.
#[derive(Clone, Copy, Debug, PartialEq)]
#[repr(C)]
pub struct Entry {
    pub settings: Settings,
    pub known: Known,
    pub kind: Kind,
}

#[derive(Clone, Copy, Debug, PartialEq)]
pub enum Ending {
    /// With the recording.
    Ended,
    /// With a command that the host couldn't have sent.
    Foreign,
    Refused(u8),
}

/// How a walk ended, and the host's session then.
#[derive(Clone, Copy, Debug, PartialEq)]
pub struct Replayed {
    pub ending: Ending,
    pub open: bool,
    pub nodes: u8,
    pub walk: u8,
    pub waits: bool,
    pub entries: [Entry; ENTRIES],
}

/// The whole walk. 6 for the node count, then 15, then 16, before any packet.
pub fn replay(
    nodes: u8,
    kinds: &[Kind; ENTRIES],
    mut commands: Capture,
    mut replies: Capture,
) -> Replayed {
    let mut host = Host::FRESH;
    if let Err(number) = check(nodes, commands, replies) {
        return host.at_end(Ending::Refused(number));
    }
    host.open = true;
    host.nodes = nodes;
    for (entry, kind) in host.chain().iter_mut().zip(kinds) {
        entry.kind = *kind;
    }
    loop {
        let command_comes = match (commands.times, replies.times) {
            ([command, ..], [reply, ..]) => command <= reply,
            ([_, ..], []) => true,
            ([], [_, ..]) => false,
            ([], []) => break,
        };
        if !command_comes {
            host.take_reply(replies.take_packet());
        } else if host.take_command(commands.take_packet()).is_none() {
            return host.at_end(Ending::Foreign);
        }
    }
    host.fall_silent();
    host.at_end(Ending::Ended)
}

fn check(nodes: u8, commands: Capture, replies: Capture) -> Result<(), u8> {
    let both = [commands, replies];
    if !(1..=ENTRIES).contains(&usize::from(nodes)) {
        return Err(6);
    }
    if both.iter().any(|it| it.bytes.len() != it.times.len()) {
        return Err(15);
    }
    if !both.iter().all(|it| it.times.is_sorted()) {
        return Err(16);
    }
    Ok(())
}

impl<'a> Capture<'a> {
    /// Takes off the first packet, up to the first gap.
    fn take_packet(&mut self) -> &'a [u8] {
        let gap = (self.times.windows(2)).position(|pair| pair[1] - pair[0] >= GAP);
        let end = gap.map_or(self.times.len(), |before| before + 1);
        let (packet, rest) = self.bytes.split_at(end);
        *self = Capture {
            bytes: rest,
            times: &self.times[end..],
        };
        packet
    }
}

impl Known {
    /// All of them, or none.
    pub const fn all(sure: bool) -> Known {
        let motion = MotionKnown {
            control: sure,
            position: sure,
            velocity: sure,
            acceleration: sure,
            pwm: sure,
        };
        Known {
            place: sure,
            mask: sure,
            divisor: sure,
            gate: GateKnown {
                outputs: sure,
                pwm: sure,
                held: sure,
                timer: sure,
            },
            drive: DriveKnown {
                gains: sure,
                stop: sure,
                waiting: motion,
                in_force: motion,
            },
        }
    }
}

impl MotionKnown {
    /// What a load brings is known, or in doubt.
    fn load(&mut self, control: u8, sure: bool) {
        self.control = sure;
        if control & 0x01 != 0 {
            self.position = sure;
        }
        if control & 0x02 != 0 {
            self.velocity = sure;
        }
        if control & 0x04 != 0 {
            self.acceleration = sure;
        }
        if control & 0x08 != 0 {
            self.pwm = sure;
        }
    }
}

/// Start Motion: each value that waits, if it is known.
fn start(known: &MotionKnown, waiting: &Motion, in_force: &mut Motion) {
    if known.control {
        in_force.control = waiting.control;
    }
    if known.position {
        in_force.position = waiting.position;
    }
    if known.velocity {
        in_force.velocity = waiting.velocity;
    }
    if known.acceleration {
        in_force.acceleration = waiting.acceleration;
    }
    if known.pwm {
        in_force.pwm = waiting.pwm;
    }
}

/// The one kind that has a command; None where both have.
fn owner(command: &Command) -> Option<Kind> {
    match command {
        Command::SetAddress(_)
        | Command::DefineStatus(_)
        | Command::ReadStatus(_)
        | Command::SetBaudRate(_)
        | Command::Nop
        | Command::HardReset => None,
        Command::SetPwm(_)
        | Command::SynchOutput
        | Command::SetOutputs(_)
        | Command::SetSynchOutput(_)
        | Command::SetTimerMode(_)
        | Command::SynchInput => Some(Kind::Gate),
        Command::ResetPosition
        | Command::LoadTrajectory(_)
        | Command::StartMotion
        | Command::SetGain(_)
        | Command::StopMotor(_) => Some(Kind::Drive),
    }
}

impl Entry {
    pub const fn power_up(kind: Kind) -> Entry {
        Entry {
            settings: Settings::POWER_UP,
            known: Known::all(true),
            kind,
        }
    }

    /// What a confirmed command writes is known and new; what is copied from a
    /// held set in doubt, or from a waiting value, goes into doubt.
    fn confirm(&mut self, command: &Command) {
        let Entry {
            settings, known, ..
        } = self;
        let (gate, drive) = (&mut settings.gate, &mut settings.drive);
        match *command {
            Command::SetAddress(place) => {
                settings.place = place;
                known.place = true;
            }
            Command::DefineStatus(mask) => {
                settings.mask = mask;
                known.mask = true;
            }
            Command::SetPwm(pwm) => {
                gate.pwm = pwm;
                known.gate.pwm = true;
            }
            Command::SynchOutput => {
                if known.gate.held {
                    gate.outputs = gate.held.outputs;
                    gate.pwm = gate.held.pwm;
                }
                known.gate.outputs = known.gate.held;
                known.gate.pwm = known.gate.held;
            }
            Command::SetOutputs(outputs) => {
                gate.outputs = outputs;
                known.gate.outputs = true;
            }
            Command::SetSynchOutput(held) => {
                gate.held = held;
                known.gate.held = true;
            }
            Command::SetTimerMode(mode) => {
                gate.timer = mode;
                known.gate.timer = true;
            }
            Command::LoadTrajectory(load) => {
                drive.waiting.load(&load);
                known.drive.waiting.load(load.control, true);
                if load.control & 0x80 != 0 {
                    self.confirm(&Command::StartMotion);
                }
            }
            Command::StartMotion => {
                start(&known.drive.waiting, &drive.waiting, &mut drive.in_force);
                known.drive.in_force = known.drive.waiting;
            }
            Command::SetGain(gains) => {
                drive.gains = gains;
                known.drive.gains = true;
            }
            Command::StopMotor(stop) => {
                drive.stop = stop;
                known.drive.stop = true;
            }
            // A Hard Reset waits for no reply, and Set Baud Rate is never sent.
            Command::ReadStatus(_)
            | Command::SetBaudRate(_)
            | Command::SynchInput
            | Command::Nop
            | Command::ResetPosition
            | Command::HardReset => {}
        }
    }

    /// A Nop to the node was answered: it hears at the divisor of every command.
    fn learn_divisor(&mut self) {
        self.settings.divisor = DIVISOR;
        self.known.divisor = true;
    }

    /// All that a command may write goes into doubt, and shows what it showed.
    fn doubt(&mut self, command: &Command) {
        let known = &mut self.known;
        match *command {
            Command::SetAddress(_) => known.place = false,
            Command::DefineStatus(_) => known.mask = false,
            Command::SetPwm(_) => known.gate.pwm = false,
            Command::SynchOutput => {
                known.gate.outputs = false;
                known.gate.pwm = false;
            }
            Command::SetOutputs(_) => known.gate.outputs = false,
            Command::SetSynchOutput(_) => known.gate.held = false,
            Command::SetTimerMode(_) => known.gate.timer = false,
            Command::LoadTrajectory(load) => {
                known.drive.waiting.load(load.control, false);
                if load.control & 0x80 != 0 {
                    self.doubt(&Command::StartMotion);
                }
            }
            Command::StartMotion => known.drive.in_force = Known::all(false).drive.in_force,
            Command::SetGain(_) => known.drive.gains = false,
            Command::StopMotor(_) => known.drive.stop = false,
            Command::HardReset => *known = Known::all(false),
            Command::ReadStatus(_)
            | Command::SetBaudRate(_)
            | Command::SynchInput
            | Command::Nop
            | Command::ResetPosition => {}
        }
    }
}

/// The host, from power-up on: no session is handed in, so that only those are
/// met that its calls leave.
struct Host {
    open: bool,
    nodes: u8,
    walk: u8,
    waiting: Option<Waiting>,
    entries: [Entry; ENTRIES],
}

/// A command without a reply yet, and the node or group that it is for.
#[derive(Clone, Copy)]
struct Waiting {
    to: u8,
    command: Command,
}

/// What a reply comes to.
enum Judged {
    Clear,
    Marked,
    Silent,
}

impl Host {
    const FRESH: Host = Host {
        open: false,
        nodes: 0,
        walk: 0,
        waiting: None,
        entries: [Entry::power_up(Kind::Gate); ENTRIES],
    };

    fn at_end(&self, ending: Ending) -> Replayed {
        Replayed {
            ending,
            open: self.open,
            nodes: self.nodes,
            walk: self.walk,
            waits: self.waiting.is_some(),
            entries: self.entries,
        }
    }

    /// Sends what has these bytes; None where the host couldn't have sent them.
    fn take_command(&mut self, bytes: &[u8]) -> Option<()> {
        self.fall_silent();
        let packet = frame(bytes).ok()?;
        let mut readings = [Kind::Gate, Kind::Drive]
            .into_iter()
            .filter_map(|kind| packet.to(kind));
        let (to, command) = readings.find_map(|command| {
            let to = self.addressee(packet.address, &command)?;
            Some((to, command))
        })?;
        if let Command::HardReset = command {
            self.open = false;
            for entry in &mut self.entries {
                entry.doubt(&command);
            }
        } else {
            self.waiting = Some(Waiting { to, command });
        }
        Some(())
    }

    /// The node or group that a command to an address is for, if the host can
    /// send it now. A command has one packet, so that only this is to be tested.
    fn addressee(&self, address: u8, command: &Command) -> Option<u8> {
        if !self.open {
            return None;
        }
        let is_sendable = if self.is_walking() {
            let next = self.walk + 1;
            let ask_is_due = !self.entries[usize::from(self.walk)].known.place;
            let sends = match *command {
                Command::SetAddress(place) => !ask_is_due && address == 0 && place == given(next),
                Command::Nop => ask_is_due && address == next,
                _ => false,
            };
            return sends.then_some(next);
        } else if let Command::SetAddress(place) = *command {
            self.has_node(address)
                && place.address == address
                && (!place.leader || self.may_lead(address, place.group))
        } else if let Command::SetBaudRate(_) = *command {
            false
        } else if address < 0x80 {
            self.has_node(address)
        } else {
            true
        };
        (is_sendable && self.reaches_its_kind(address, command)).then_some(address)
    }

    /// Whether all nodes that a command may reach have it.
    fn reaches_its_kind(&self, address: u8, command: &Command) -> bool {
        let Some(kind) = owner(command) else {
            return true;
        };
        if address < 0x80 {
            return self.entries[usize::from(address - 1)].kind == kind;
        }
        let chain = &self.entries[..usize::from(self.nodes)];
        chain.iter().all(|entry| {
            let is_reached = !entry.known.place || entry.settings.place.group == address;
            !is_reached || entry.kind == kind
        })
    }

    fn is_walking(&self) -> bool {
        self.walk < self.nodes
    }

    fn has_node(&self, address: u8) -> bool {
        (1..=self.nodes).contains(&address)
    }

    /// Whether no other node leads the group or has its place in doubt.
    fn may_lead(&self, node: u8, group: u8) -> bool {
        let nodes = (1..=self.nodes).zip(&self.entries);
        nodes.filter(|(other, _)| *other != node).all(|(_, entry)| {
            let place = &entry.settings.place;
            entry.known.place && !(place.leader && place.group == group)
        })
    }

    fn take_reply(&mut self, bytes: &[u8]) {
        let Some(Waiting { to, command }) = self.waiting.take() else {
            return;
        };
        match judge(bytes) {
            Judged::Clear => self.confirm(to, &command),
            Judged::Marked => {}
            Judged::Silent => self.doubt(to, &command),
        }
    }

    /// The command that waits, if one does, has no reply.
    fn fall_silent(&mut self) {
        if let Some(Waiting { to, command }) = self.waiting.take() {
            self.doubt(to, &command);
        }
    }

    fn confirm(&mut self, to: u8, command: &Command) {
        if to < 0x80 && matches!(command, Command::Nop) {
            self.entries[usize::from(to - 1)].learn_divisor();
        }
        if self.is_walking() {
            // The reply to the Set Address, or to the Nop that asks after it.
            self.entries[usize::from(self.walk)].confirm(&Command::SetAddress(given(to)));
            self.walk += 1;
        } else if to < 0x80 {
            self.entries[usize::from(to - 1)].confirm(command);
        } else {
            // The reply tells of the known leader alone.
            for entry in self.chain() {
                let Place { group, leader, .. } = entry.settings.place;
                match entry.known.place {
                    true if group != to => {}
                    true if leader => entry.confirm(command),
                    _ => entry.doubt(command),
                }
            }
        }
    }

    fn doubt(&mut self, to: u8, command: &Command) {
        if to < 0x80 {
            self.entries[usize::from(to - 1)].doubt(command);
        } else {
            for entry in self.chain() {
                if !entry.known.place || entry.settings.place.group == to {
                    entry.doubt(command);
                }
            }
        }
    }

    /// The entries of nodes 1 to n.
    fn chain(&mut self) -> &mut [Entry] {
        &mut self.entries[..usize::from(self.nodes)]
    }
}

/// The place that the walk gives to a node.
fn given(node: u8) -> Place {
    Place {
        address: node,
        ..Settings::POWER_UP.place
    }
}

fn judge(bytes: &[u8]) -> Judged {
    match *bytes {
        [status, .., last] if bytes.len() <= MOST_REPLY => {
            if sum(&bytes[..bytes.len() - 1]) != last {
                Judged::Silent
            } else if status & MARK == 0 {
                Judged::Clear
            } else {
                Judged::Marked
            }
        }
        _ => Judged::Silent,
    }
}
