//! What an LS-173AP alone is told (request 6; document 000 decides): gains,
//! motion, how to stop; how each is sent, and the ranges of its values.

use crate::rules::{Mistake, Rules};

/// The most of a velocity or an acceleration.
const MOST_LONG: u32 = 0x7FFF_FFFF;

/// The position that is off its range: "signed, from -0x7FFFFFFF to 0x7FFFFFFF".
pub const NO_POSITION: i32 = i32::MIN;

/// "All parameters and limits governing the behavior of the position servo."
#[derive(Clone, Copy, Debug, PartialEq, Eq)]
pub struct Gains {
    pub kp: u16,
    pub kd: u16,
    pub ki: u16,
    pub il: u16,
    pub ol: u8,
    pub el: u16,
    pub sr: u8,
    pub db: u8,
}

impl Gains {
    /// "All gain parameters and limit values are set to zero; the servo rate
    /// divisor is set to 1."
    pub const POWER_UP: Gains = Gains {
        kp: 0,
        kd: 0,
        ki: 0,
        il: 0,
        ol: 0,
        el: 0,
        sr: 1,
        db: 0,
    };

    /// Of Set Gain's fourteen data bytes; the tenth is "not used, must be set to
    /// 0", and None where it isn't.
    pub fn from_data(data: &[u8]) -> Option<Gains> {
        let data: [u8; 14] = data.try_into().ok()?;
        (data[9] == 0).then(|| Gains::from_fourteen(data))
    }

    /// The same, whatever the tenth is.
    pub fn from_fourteen(data: [u8; 14]) -> Gains {
        let word = |at: usize| u16::from_le_bytes([data[at], data[at + 1]]);
        Gains {
            kp: word(0),
            kd: word(2),
            ki: word(4),
            il: word(6),
            ol: data[8],
            el: word(10),
            sr: data[12],
            db: data[13],
        }
    }

    /// The fourteen data bytes.
    pub fn data(self) -> Vec<u8> {
        let mut data: Vec<u8> = [self.kp, self.kd, self.ki, self.il]
            .into_iter()
            .flat_map(u16::to_le_bytes)
            .collect();
        data.extend([self.ol, 0]);
        data.extend(self.el.to_le_bytes());
        data.extend([self.sr, self.db]);
        data
    }

    /// KP, KD, KI, IL "(0 - 0x7FFF)", EL "(0 - 0x3FFF)", SR "(1 - 0xFF)"; OL and DB
    /// take every byte.
    pub fn is_in_range(self, rules: Rules) -> bool {
        let at_most = |value: u16, most: u16, free| value <= most || rules.slips(free);
        let el_of_7fff = self.el <= 0x7FFF && rules.slips(Mistake::ErrorLimitOf7FFF);
        at_most(self.kp, 0x7FFF, Mistake::PositionGainFree)
            && at_most(self.kd, 0x7FFF, Mistake::VelocityGainFree)
            && at_most(self.ki, 0x7FFF, Mistake::IntegralGainFree)
            && at_most(self.il, 0x7FFF, Mistake::IntegrationLimitFree)
            && (at_most(self.el, 0x3FFF, Mistake::ErrorLimitFree) || el_of_7fff)
            && (self.sr >= 1 || rules.slips(Mistake::ServoRate0Taken))
            && (self.ol <= 0xFA || !rules.slips(Mistake::OutputLimitOfFA))
    }
}

/// What Load Trajectory brings, each "a setting by itself in waiting and in
/// force".
#[derive(Clone, Copy, Debug, PartialEq, Eq)]
pub enum Value {
    Control,
    Position,
    Velocity,
    Acceleration,
    Pwm,
}

impl Value {
    pub const ALL: [Value; 5] = [
        Value::Control,
        Value::Position,
        Value::Velocity,
        Value::Acceleration,
        Value::Pwm,
    ];

    /// Whether a load with this control byte brings it: always the control byte
    /// itself, the others by bits 0 to 3.
    pub fn is_brought_by(self, control: u8) -> bool {
        match self {
            Value::Control => true,
            Value::Position => control & 0x01 != 0,
            Value::Velocity => control & 0x02 != 0,
            Value::Acceleration => control & 0x04 != 0,
            Value::Pwm => control & 0x08 != 0,
        }
    }
}

/// The five values: as they wait, as they are in force, and as a load has them,
/// in which those that its control byte doesn't bring are 0 and say nothing.
#[derive(Clone, Copy, Debug, PartialEq, Eq)]
pub struct Motion {
    pub control: u8,
    pub position: i32,
    pub velocity: u32,
    pub acceleration: u32,
    pub pwm: u8,
}

impl Motion {
    pub const ZERO: Motion = Motion {
        control: 0,
        position: 0,
        velocity: 0,
        acceleration: 0,
        pwm: 0,
    };

    pub fn brings(self, value: Value) -> bool {
        value.is_brought_by(self.control)
    }

    /// Bit 7: "start motion now".
    pub fn starts(self) -> bool {
        self.control & 0x80 != 0
    }

    /// Takes over one value.
    pub fn take(&mut self, value: Value, from: Motion) {
        match value {
            Value::Control => self.control = from.control,
            Value::Position => self.position = from.position,
            Value::Velocity => self.velocity = from.velocity,
            Value::Acceleration => self.acceleration = from.acceleration,
            Value::Pwm => self.pwm = from.pwm,
        }
    }

    /// Of a load's data bytes: the control byte, then what its bits 0 to 3 bring,
    /// "in the order listed". None for another count than they make.
    pub fn from_data(data: &[u8]) -> Option<Motion> {
        let (control, mut rest) = data.split_first()?;
        let mut load = Motion {
            control: *control,
            ..Motion::ZERO
        };
        for value in &Value::ALL[1..] {
            if load.brings(*value) {
                rest = load.read(*value, rest)?;
            }
        }
        rest.is_empty().then_some(load)
    }

    /// One value from the first of some bytes, and what is behind it.
    fn read<'a>(&mut self, value: Value, data: &'a [u8]) -> Option<&'a [u8]> {
        if value == Value::Pwm {
            let (pwm, rest) = data.split_first()?;
            self.pwm = *pwm;
            return Some(rest);
        }
        let (long, rest) = data.split_first_chunk()?;
        match value {
            Value::Position => self.position = i32::from_le_bytes(*long),
            Value::Velocity => self.velocity = u32::from_le_bytes(*long),
            _ => self.acceleration = u32::from_le_bytes(*long),
        }
        Some(rest)
    }

    /// The data bytes of this load.
    pub fn data(self) -> Vec<u8> {
        let brought = Value::ALL.into_iter().filter(|value| self.brings(*value));
        brought.flat_map(|value| self.bytes(value)).collect()
    }

    /// One value, least significant byte first.
    pub fn bytes(self, value: Value) -> Vec<u8> {
        match value {
            Value::Control => vec![self.control],
            Value::Position => self.position.to_le_bytes().to_vec(),
            Value::Velocity => self.velocity.to_le_bytes().to_vec(),
            Value::Acceleration => self.acceleration.to_le_bytes().to_vec(),
            Value::Pwm => vec![self.pwm],
        }
    }

    /// Whether a value is set that the load doesn't bring: a packet has no place
    /// for it, so the command would not come back from its packet (demand 2).
    fn has_stray(self) -> bool {
        let stray = |value: &Value| {
            !self.brings(*value) && self.bytes(*value).iter().any(|byte| *byte != 0)
        };
        Value::ALL.iter().any(stray)
    }

    /// Whether a load's values are of their ranges; every control byte and PWM
    /// value is.
    pub fn is_in_range(self, rules: Rules) -> bool {
        let position = self.position != NO_POSITION || rules.slips(Mistake::LowestPositionTaken);
        let negative = self.position < 0 && rules.slips(Mistake::NegativePositionsRefused);
        let velocity = self.velocity <= MOST_LONG || rules.slips(Mistake::VelocityFree);
        let acceleration = self.acceleration <= MOST_LONG || rules.slips(Mistake::AccelerationFree);
        let stray = self.has_stray() && !rules.slips(Mistake::StrayValueBuilt);
        position && !negative && velocity && acceleration && !stray
    }
}

/// The bit of a stop byte that a stopping position comes with: "stop here".
const STOP_HERE: u8 = 0x10;

/// What Stop Motor says. Without bit 4 the position is 0 and says nothing.
#[derive(Clone, Copy, Debug, PartialEq, Eq)]
pub struct Stop {
    pub byte: u8,
    pub position: i32,
}

impl Stop {
    /// Of one data byte, or of five if bit 4 is set; else None.
    pub fn from_data(data: &[u8]) -> Option<Stop> {
        match *data {
            [byte] if byte & STOP_HERE == 0 => Some(Stop { byte, position: 0 }),
            [byte, a, b, c, d] if byte & STOP_HERE != 0 => Some(Stop {
                byte,
                position: i32::from_le_bytes([a, b, c, d]),
            }),
            _ => None,
        }
    }

    pub fn has_position(self) -> bool {
        self.byte & STOP_HERE != 0
    }

    pub fn data(self) -> Vec<u8> {
        let mut data = vec![self.byte];
        if self.has_position() {
            data.extend(self.position.to_le_bytes());
        }
        data
    }

    /// Bits 5 to 7: "clear all to 0"; "more than one of a Stop byte's bits 1 to 4"
    /// is off the range, too, and so is a position as a load's, or one that isn't
    /// brought.
    pub fn is_in_range(self, rules: Rules) -> bool {
        let reserved = match rules.slips(Mistake::StopBit5Taken) {
            true => 0xC0,
            false => 0xE0,
        };
        let ways = match rules.slips(Mistake::StopBit0Counted) {
            true => self.byte & 0x1F,
            false => self.byte & 0x1E,
        };
        let ways = ways.count_ones();
        self.byte & reserved == 0
            && (ways <= 1 || rules.slips(Mistake::TwoStopBitsTaken))
            && (ways >= 1 || !rules.slips(Mistake::NoStopBitRefused))
            && (self.position != NO_POSITION || rules.slips(Mistake::LowestStopTaken))
            && (self.has_position() || self.position == 0 || rules.slips(Mistake::StrayStopBuilt))
    }
}
