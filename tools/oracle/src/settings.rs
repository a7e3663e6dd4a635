//! The settings of a node, as it holds them and as the host records them: place,
//! status mask and divisor, and those that its kind alone has.

use crate::command::{Command, Held, Place};
use crate::divisor;
use crate::drive::{Gains, Motion, Stop, Value};
use crate::kind::Kind;
use crate::rules::{Mistake, Rules};

/// A setting by name.
#[derive(Clone, Copy, Debug, PartialEq, Eq)]
pub enum Setting {
    Place,
    Mask,
    Outputs,
    Pwm,
    Held,
    TimerMode,
    Gains,
    Stop,
    Waiting(Value),
    InForce(Value),
    Divisor,
}

/// The seven of an LS-773, the divisor last, as its bit is.
const OF_GATE: [Setting; 7] = [
    Setting::Place,
    Setting::Mask,
    Setting::Outputs,
    Setting::Pwm,
    Setting::Held,
    Setting::TimerMode,
    Setting::Divisor,
];

/// The fifteen of an LS-173AP: "gains, stop byte and, each a setting by itself in
/// waiting and in force, control byte, position, velocity, acceleration and PWM
/// value" (request 6); and the divisor.
const OF_DRIVE: [Setting; 15] = [
    Setting::Place,
    Setting::Mask,
    Setting::Gains,
    Setting::Stop,
    Setting::Waiting(Value::Control),
    Setting::Waiting(Value::Position),
    Setting::Waiting(Value::Velocity),
    Setting::Waiting(Value::Acceleration),
    Setting::Waiting(Value::Pwm),
    Setting::InForce(Value::Control),
    Setting::InForce(Value::Position),
    Setting::InForce(Value::Velocity),
    Setting::InForce(Value::Acceleration),
    Setting::InForce(Value::Pwm),
    Setting::Divisor,
];

impl Setting {
    /// All that a node of this kind has, in the order of their bits.
    pub fn all(kind: Kind) -> &'static [Setting] {
        match kind {
            Kind::Gate => &OF_GATE,
            Kind::Drive => &OF_DRIVE,
        }
    }

    /// Its bit among those of a kind; 0 where the kind has none.
    pub fn bit(self, kind: Kind) -> u16 {
        let place = Setting::all(kind).iter().position(|own| *own == self);
        place.map_or(0, |place| 1 << place)
    }
}

/// What an LS-773 alone holds.
#[derive(Clone, Copy, Debug, PartialEq, Eq)]
pub struct GateSettings {
    pub outputs: u16,
    pub pwm: [u8; 2],
    pub held: Held,
    pub timer_mode: u8,
}

/// What an LS-173AP alone holds. "A load waits for Start Motion."
#[derive(Clone, Copy, Debug, PartialEq, Eq)]
pub struct DriveSettings {
    pub gains: Gains,
    pub stop: u8,
    pub waiting: Motion,
    pub in_force: Motion,
}

/// What the node's kind alone holds.
#[derive(Clone, Copy, Debug, PartialEq, Eq)]
pub enum Own {
    Gate(GateSettings),
    Drive(DriveSettings),
}

#[derive(Clone, Copy, Debug, PartialEq, Eq)]
pub struct Settings {
    pub place: Place,
    pub mask: u8,
    pub divisor: u8,
    pub own: Own,
}

impl GateSettings {
    /// "All else 0."
    pub const POWER_UP: GateSettings = GateSettings {
        outputs: 0,
        pwm: [0, 0],
        held: Held {
            outputs: 0,
            pwm: [0, 0],
        },
        timer_mode: 0,
    };

    fn act(&mut self, command: Command) {
        match command {
            Command::SetPwm(pwm) => self.pwm = pwm,
            Command::SynchOutput => {
                self.outputs = self.held.outputs;
                self.pwm = self.held.pwm;
            }
            Command::SetOutputs(outputs) => self.outputs = outputs,
            Command::SetSynchOutput(held) => self.held = held,
            Command::SetTimerMode(mode) => self.timer_mode = mode,
            _ => {}
        }
    }
}

impl DriveSettings {
    pub const POWER_UP: DriveSettings = DriveSettings {
        gains: Gains::POWER_UP,
        stop: 0,
        waiting: Motion::ZERO,
        in_force: Motion::ZERO,
    };

    /// "With the start bit, it is loaded, then started at once"; "Stop Motor writes
    /// the stop byte only".
    fn act(&mut self, rules: Rules, command: Command) {
        let old = *self;
        match command {
            Command::LoadTrajectory(load) => {
                take_brought(&mut self.waiting, load, load.control);
                if load.starts() {
                    self.start();
                }
                mistake_load(rules, &old, load, self);
            }
            Command::StartMotion => {
                self.start();
                mistake_start(rules, &old, self);
            }
            Command::SetGain(gains) => self.gains = gains,
            Command::StopMotor(stop) => {
                self.stop = stop.byte;
                mistake_stop(rules, stop, self);
            }
            Command::ResetPosition => mistake_reset_position(rules, self),
            _ => {}
        }
    }

    /// "Start Motion copies the waiting ones as Synch Output does": all five.
    fn start(&mut self) {
        self.in_force = self.waiting;
    }
}

/// Takes over what a control byte brings; the control byte itself is kept as sent.
fn take_brought(to: &mut Motion, from: Motion, control: u8) {
    for value in Value::ALL {
        if value.is_brought_by(control) {
            to.take(value, from);
        }
    }
}

impl Own {
    fn power_up(rules: Rules, kind: Kind) -> Own {
        let mut drive = DriveSettings::POWER_UP;
        if rules.slips(Mistake::ServoRate0AtPowerUp) {
            drive.gains.sr = 0;
        }
        match kind {
            Kind::Gate => Own::Gate(GateSettings::POWER_UP),
            Kind::Drive => Own::Drive(drive),
        }
    }
}

impl Settings {
    /// "Address 0x00, group 0xFF, no leader, .. all else 0", but for SR and the
    /// divisor.
    pub fn power_up(rules: Rules, kind: Kind) -> Settings {
        Settings {
            place: Place::POWER_UP,
            mask: 0,
            divisor: match rules.slips(Mistake::Divisor0AtPowerUp) {
                true => 0,
                false => divisor::POWER_UP,
            },
            own: Own::power_up(rules, kind),
        }
    }

    pub fn kind(&self) -> Kind {
        match self.own {
            Own::Gate(_) => Kind::Gate,
            Own::Drive(_) => Kind::Drive,
        }
    }

    /// What they are once a command has acted on them. What the kind lacks changes
    /// nothing.
    pub fn after(self, rules: Rules, command: Command) -> Settings {
        let mut new = self;
        match command {
            Command::SetAddress(place) => new.place = place,
            Command::DefineStatus(mask) => new.mask = mask,
            Command::SetBaudRate(divisor) => new.divisor = divisor,
            Command::HardReset => new = Settings::power_up(rules, self.kind()),
            _ => match &mut new.own {
                Own::Gate(gate) => gate.act(command),
                Own::Drive(drive) => drive.act(rules, command),
            },
        }
        new
    }

    /// Takes over one setting from those of a node of the same kind.
    pub fn take(&mut self, setting: Setting, from: &Settings) {
        match (setting, &mut self.own, &from.own) {
            (Setting::Place, ..) => self.place = from.place,
            (Setting::Mask, ..) => self.mask = from.mask,
            (Setting::Divisor, ..) => self.divisor = from.divisor,
            (setting, Own::Gate(gate), Own::Gate(from)) => gate.take(setting, from),
            (setting, Own::Drive(drive), Own::Drive(from)) => drive.take(setting, from),
            _ => {}
        }
    }

    /// Whether two nodes of one kind agree in a setting.
    pub fn agree(&self, setting: Setting, other: &Settings) -> bool {
        let mut taken = *self;
        taken.take(setting, other);
        taken == *self
    }
}

impl GateSettings {
    fn take(&mut self, setting: Setting, from: &GateSettings) {
        match setting {
            Setting::Outputs => self.outputs = from.outputs,
            Setting::Pwm => self.pwm = from.pwm,
            Setting::Held => self.held = from.held,
            Setting::TimerMode => self.timer_mode = from.timer_mode,
            _ => {}
        }
    }
}

impl DriveSettings {
    fn take(&mut self, setting: Setting, from: &DriveSettings) {
        match setting {
            Setting::Gains => self.gains = from.gains,
            Setting::Stop => self.stop = from.stop,
            Setting::Waiting(value) => self.waiting.take(value, from.waiting),
            Setting::InForce(value) => self.in_force.take(value, from.in_force),
            _ => {}
        }
    }
}

// ---- Mistakes alone ----------------------------------------------------

/// What a mistaken drive, or a host that takes it for one, makes of a load.
fn mistake_load(rules: Rules, old: &DriveSettings, load: Motion, new: &mut DriveSettings) {
    if rules.slips(Mistake::UnbroughtZeroed) {
        new.waiting = load;
    }
    if rules.slips(Mistake::LoadBitsDropped) {
        new.waiting.control &= !0x0F;
    }
    if rules.slips(Mistake::StartBitDropped) {
        new.waiting.control &= !0x80;
    }
    // What a mistake made of the waiting values is started with them.
    if load.starts() && new.in_force != new.waiting || rules.slips(Mistake::EveryLoadStarts) {
        new.start();
    }
    if load.starts() {
        mistake_started_load(rules, old, load, new);
    }
}

fn mistake_started_load(rules: Rules, old: &DriveSettings, load: Motion, new: &mut DriveSettings) {
    if rules.slips(Mistake::StartBitUnheeded) {
        new.in_force = old.in_force;
    }
    if rules.slips(Mistake::StartsBeforeLoading) {
        new.in_force = old.waiting;
    }
    if rules.slips(Mistake::StartsBroughtAlone) {
        new.in_force = old.in_force;
        take_brought(&mut new.in_force, load, load.control);
    }
    if rules.slips(Mistake::StartedLoadPassesBy) {
        new.waiting = old.waiting;
    }
}

fn mistake_start(rules: Rules, old: &DriveSettings, new: &mut DriveSettings) {
    if rules.slips(Mistake::StartsLoadedAlone) {
        new.in_force = old.in_force;
        take_brought(&mut new.in_force, old.waiting, old.waiting.control);
    }
    if rules.slips(Mistake::WaitingSpent) {
        new.waiting = Motion::ZERO;
    }
}

fn mistake_stop(rules: Rules, stop: Stop, new: &mut DriveSettings) {
    if rules.slips(Mistake::StopZeroesVelocity) {
        new.in_force.velocity = 0;
    }
    if rules.slips(Mistake::StopSetsPosition) && stop.has_position() {
        new.in_force.position = stop.position;
    }
}

fn mistake_reset_position(rules: Rules, new: &mut DriveSettings) {
    if rules.slips(Mistake::ResetZeroesMotion) {
        new.waiting.position = 0;
        new.in_force.position = 0;
    }
}
