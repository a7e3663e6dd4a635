//! Before anything is timed: ours, plain Rust and the independent program go
//! through recordings alike, with the same refusals and the same end, and leave
//! the same session and the same record of every node.

use oracle::drive::Value;
use oracle::make_recordings;
use oracle::prng::Prng;
use oracle::record;
use oracle::recording::{walk, Recording};
use oracle::rules::Rules;
use oracle::session::{Exchange, Session};
use oracle::settings::Setting;

use crate::check::{plain_kind, plain_settings, Outcome};
use crate::plain::Kind;
use crate::plain_recording::{DriveKnown, Ending, Entry, GateKnown, Known, MotionKnown, Replayed};
use crate::sides::{recording_seeds, RECORDED, RECORDING_SIZES, REPLAYS};
use crate::work_recording::recording;

/// The most packets of a seeded recording.
const PACKETS: usize = 150;

/// Seeded recordings, right or spoilt, and all that is timed, which ends with the
/// recording.
pub fn all(count: u64) -> Outcome {
    for seed in 0..count {
        let mut prng = Prng::new(seed);
        let packets = 1 + prng.below(PACKETS);
        let recording = make_recordings::recording(&mut prng, packets);
        alike(&recording, &wanted(&recording))?;
    }
    for nodes in RECORDED {
        for size in RECORDING_SIZES {
            for seed in recording_seeds(size) {
                let recording = recording(nodes, size, seed);
                let wanted = wanted(&recording);
                if wanted.ending != Ending::Ended {
                    return Err("a recording that is timed isn't well formed".to_string());
                }
                alike(&recording, &wanted)?;
            }
        }
    }
    Ok(())
}

/// What the independent program has.
fn wanted(recording: &Recording) -> Replayed {
    match walk(Rules::RIGHT, recording) {
        Ok(walk) if walk.foreign => at_end(Ending::Foreign, &walk.session),
        Ok(walk) => at_end(Ending::Ended, &walk.session),
        Err(refusal) => at_end(
            Ending::Refused(refusal.number()),
            &Session::fresh(Rules::RIGHT),
        ),
    }
}

fn at_end(ending: Ending, session: &Session) -> Replayed {
    Replayed {
        ending,
        open: session.open,
        nodes: session.n,
        walk: session.walk,
        waits: session.exchange != Exchange::Idle,
        entries: session.entries.map(|entry| plain_entry(&entry)),
    }
}

fn plain_entry(entry: &record::Entry) -> Entry {
    let kind = plain_kind(entry.kind());
    let power_up = Entry::power_up(kind);
    let motion = |of: fn(Value) -> Setting| MotionKnown {
        control: entry.knows(of(Value::Control)),
        position: entry.knows(of(Value::Position)),
        velocity: entry.knows(of(Value::Velocity)),
        acceleration: entry.knows(of(Value::Acceleration)),
        pwm: entry.knows(of(Value::Pwm)),
    };
    shown(&Entry {
        settings: plain_settings(&power_up.settings, &entry.settings),
        known: Known {
            place: entry.knows(Setting::Place),
            mask: entry.knows(Setting::Mask),
            divisor: entry.knows(Setting::Divisor),
            gate: GateKnown {
                outputs: entry.knows(Setting::Outputs),
                pwm: entry.knows(Setting::Pwm),
                held: entry.knows(Setting::Held),
                timer: entry.knows(Setting::TimerMode),
            },
            drive: DriveKnown {
                gains: entry.knows(Setting::Gains),
                stop: entry.knows(Setting::Stop),
                waiting: motion(Setting::Waiting),
                in_force: motion(Setting::InForce),
            },
        },
        kind,
    })
}

/// What an entry shows: the other kind's part says nothing.
fn shown(entry: &Entry) -> Entry {
    let power_up = Entry::power_up(entry.kind);
    let mut shown = *entry;
    match entry.kind {
        Kind::Gate => {
            shown.settings.drive = power_up.settings.drive;
            shown.known.drive = power_up.known.drive;
        }
        Kind::Drive => {
            shown.settings.gate = power_up.settings.gate;
            shown.known.gate = power_up.known.gate;
        }
    }
    shown
}

/// Every side, on one recording.
fn alike(recording: &Recording, wanted: &Replayed) -> Outcome {
    for (name, replay) in REPLAYS {
        let mut replayed = replay(recording);
        replayed.entries = replayed.entries.map(|entry| shown(&entry));
        if replayed != *wanted {
            return Err(format!(
                "{name} differs on {recording:?}: {replayed:?}, not {wanted:?}"
            ));
        }
    }
    Ok(())
}
