//! Before anything is timed: ours, plain Rust and the independent program
//! answer alike, byte for byte, and leave the same nodes behind.

use oracle::prng::Prng;
use oracle::rules::Rules;
use oracle::settings::{self, Own};
use oracle::{bench, chain, command, drive, kind, make_bench, make_packets, node};

use crate::plain::{
    Answer, Bench, Captured, DriveSettings, Gains, GateSettings, Held, Kind, Motion, Node, Place,
    Settings, DIVISOR, MOST_REPLY,
};
use crate::sides::{Deliver, Rehearse, CHAINS, DELIVERIES, MIXED_CHAINS, PACKETS, REHEARSALS};
use crate::{work, SEED};

/// So many of a hundred seeded packets set a divisor, and so many are sent at one
/// that a node has.
const PACED: usize = 4;
const HEARD: usize = 90;

/// A side that answers differently, and on what.
pub type Outcome = Result<(), String>;

/// Every side, on seeded packets, on seeded rehearsals and on all that is
/// timed.
pub fn all(packets: usize, texts: u64) -> Outcome {
    for (name, deliver) in DELIVERIES {
        deliveries(name, deliver, packets)?;
        for length in CHAINS {
            mix(name, deliver, &work::gates(length))?;
        }
        for length in MIXED_CHAINS {
            mix(name, deliver, &work::half_drives(length))?;
        }
    }
    for (name, rehearse) in REHEARSALS {
        for seed in 0..texts {
            text(name, rehearse, &make_bench::make(seed, 1500))?;
        }
        for length in CHAINS {
            text(name, rehearse, &work::text(length, SEED).0)?;
        }
    }
    Ok(())
}

/// Seeded packets of all kinds, mostly at a divisor that somebody has, to chains of
/// 0 to 32 nodes, gates or drives or both, some with records off their range, and
/// to reply buffers of every length.
fn deliveries(name: &str, deliver: Deliver, count: usize) -> Outcome {
    let mut prng = Prng::new(SEED);
    let mut chains = Chains::of(Vec::new());
    for turn in 0..count {
        if turn % 200 == 0 {
            chains = Chains::of(any_nodes(&mut prng));
        }
        let packet = match prng.percent(PACED) {
            true => make_packets::pace_packet(&mut prng, &chains.wanted),
            false => make_packets::packet(&mut prng, &chains.wanted),
        };
        let at = match prng.percent(HEARD) && !chains.nodes.is_empty() {
            true => prng.pick(&chains.nodes).settings.divisor,
            false => make_packets::divisor(&mut prng),
        };
        let room = prng.below(MOST_REPLY + 3);
        chains.take(name, deliver, at, &packet, room)?;
    }
    Ok(())
}

/// The packets that are timed.
fn mix(name: &str, deliver: Deliver, kinds: &[Kind]) -> Outcome {
    let packets = work::Packets::make(kinds, PACKETS, SEED);
    let mut chains = Chains::of(work::chain(kinds));
    for packet in packets.iter() {
        chains.take(name, deliver, DIVISOR, packet, MOST_REPLY)?;
    }
    Ok(())
}

/// A side's chain, and the same as the independent program has it.
struct Chains {
    nodes: Vec<Node>,
    wanted: Vec<node::Node>,
}

impl Chains {
    fn of(nodes: Vec<Node>) -> Chains {
        let wanted = nodes.iter().map(oracle_node).collect();
        Chains { nodes, wanted }
    }

    /// One packet to both. Both keep the nodes' changes.
    fn take(
        &mut self,
        name: &str,
        deliver: Deliver,
        at: u8,
        packet: &[u8],
        room: usize,
    ) -> Outcome {
        // Room to spare, so that a node laid out in another way does no harm but shows.
        let mut table = Vec::with_capacity(4 * self.nodes.len() + 1);
        table.extend_from_slice(&self.nodes);
        let mut reply = [0x5A; MOST_REPLY + 3];
        let mut wanted_reply = reply;
        let answer = deliver(&mut table, at, packet, &mut reply[..room]);
        let nodes = &mut self.wanted;
        let wanted = chain::deliver(Rules::RIGHT, nodes, at, packet, &mut wanted_reply[..room]);
        let wanted = match wanted {
            Ok(chain::Delivery::Silent) => Answer::Silent,
            Ok(chain::Delivery::Reply(count)) => Answer::Replied(count),
            Ok(chain::Delivery::Collision) => Answer::Collision,
            Err(refusal) => Answer::Refused(refusal.number()),
        };
        let both = self.nodes.iter().zip(nodes);
        let after: Vec<Node> = both
            .map(|(before, node)| plain_node(before, node))
            .collect();
        if (answer, reply, &table) == (wanted, wanted_reply, &after) {
            self.nodes = table;
            return Ok(());
        }
        let changed = table.iter().zip(&after).find(|(one, other)| one != other);
        Err(format!(
            "{name} differs on packet {packet:02X?} at {at:02X} to {} nodes, room {room}: \
             {answer:?}, not {wanted:?}; {reply:02X?}, not {wanted_reply:02X?}; \
             first node that differs: {changed:?}",
            after.len()
        ))
    }
}

/// One rehearsal.
fn text(name: &str, rehearse: Rehearse, input: &[u8]) -> Outcome {
    let mut output = Vec::new();
    rehearse(input, &mut output);
    let wanted = bench::run(Rules::RIGHT, input).into_bytes();
    if output == wanted {
        return Ok(());
    }
    let lines = |text: &[u8]| -> Vec<String> {
        let text = String::from_utf8_lossy(text);
        text.lines().map(String::from).collect()
    };
    let (input, output, wanted) = (lines(input), lines(&output), lines(&wanted));
    let at = (0..)
        .find(|at| output.get(*at) != wanted.get(*at))
        .unwrap_or(0);
    Err(format!(
        "{name} differs on packet {:?} of a rehearsal with {:?} nodes: {:?}, not {:?}",
        input.get(at + 1),
        input.first(),
        output.get(at),
        wanted.get(at)
    ))
}

/// A chain as the generator of packets likes to meet it. What a node has no use
/// for, the other kind's, is any value too: it is to stay.
fn any_nodes(prng: &mut Prng) -> Vec<Node> {
    let length = prng.below(33);
    let off_range = prng.percent(3);
    let common = make_packets::divisor(prng);
    let alike = prng.pick(&[70, 100, 100]);
    let kinds = make_packets::kinds(prng, length);
    let nodes = kinds.into_iter().map(|kind| {
        let mut place = make_packets::place(prng);
        if off_range && prng.percent(10) {
            place.address = prng.byte();
            place.group = prng.byte();
        }
        Node {
            settings: Settings {
                drive: any_drive(prng),
                gate: any_gate(prng),
                place: plain_place(place),
                mask: prng.byte(),
                divisor: match prng.percent(alike) {
                    true => common,
                    false => make_packets::divisor(prng),
                },
            },
            bench: any_bench(prng),
            captured: Captured {
                counter: long(prng),
                inputs: word(prng),
            },
            position: long(prng),
            addressed: prng.percent(80),
            kind: plain_kind(kind),
        }
    });
    nodes.collect()
}

fn any_gate(prng: &mut Prng) -> GateSettings {
    GateSettings {
        outputs: word(prng),
        held: Held {
            outputs: word(prng),
            pwm: [prng.byte(), prng.byte()],
        },
        pwm: [prng.byte(), prng.byte()],
        timer: prng.byte(),
    }
}

fn any_drive(prng: &mut Prng) -> DriveSettings {
    DriveSettings {
        waiting: plain_motion(make_packets::motion(prng)),
        in_force: plain_motion(make_packets::motion(prng)),
        gains: plain_gains(make_packets::gains(prng)),
        stop: prng.byte(),
    }
}

fn any_bench(prng: &mut Prng) -> Bench {
    Bench {
        counter: long(prng),
        home: long(prng),
        inputs: word(prng),
        velocity: word(prng),
        error: word(prng),
        analog: [prng.byte(), prng.byte(), prng.byte()],
        ad: prng.byte(),
        auxiliary: prng.byte(),
        id: prng.byte(),
        version: prng.byte(),
    }
}

fn word(prng: &mut Prng) -> u16 {
    u16::from_le_bytes([prng.byte(), prng.byte()])
}

fn long(prng: &mut Prng) -> u32 {
    u32::from(word(prng)) << 16 | u32::from(word(prng))
}

/// The node as the independent program leaves it; what that has not, the other
/// kind's, is as it was before.
fn plain_node(before: &Node, node: &node::Node) -> Node {
    let mut after = Node {
        settings: plain_settings(&before.settings, &node.settings),
        addressed: node.addressed,
        ..*before
    };
    match node.values {
        node::Values::Gate { captured, .. } => {
            after.captured = Captured {
                counter: captured.counter,
                inputs: captured.inputs,
            };
        }
        node::Values::Drive(values) => after.position = values.position as u32,
    }
    after
}

/// The same of settings.
pub fn plain_settings(before: &Settings, settings: &settings::Settings) -> Settings {
    let mut after = Settings {
        place: plain_place(settings.place),
        mask: settings.mask,
        divisor: settings.divisor,
        ..*before
    };
    match settings.own {
        Own::Gate(gate) => {
            after.gate = GateSettings {
                outputs: gate.outputs,
                held: Held {
                    outputs: gate.held.outputs,
                    pwm: gate.held.pwm,
                },
                pwm: gate.pwm,
                timer: gate.timer_mode,
            }
        }
        Own::Drive(drive) => {
            after.drive = DriveSettings {
                waiting: plain_motion(drive.waiting),
                in_force: plain_motion(drive.in_force),
                gains: plain_gains(drive.gains),
                stop: drive.stop,
            }
        }
    }
    after
}

pub fn plain_kind(kind: kind::Kind) -> Kind {
    match kind {
        kind::Kind::Gate => Kind::Gate,
        kind::Kind::Drive => Kind::Drive,
    }
}

fn plain_place(place: command::Place) -> Place {
    Place {
        address: place.address,
        group: place.group,
        leader: place.leader,
    }
}

fn plain_motion(motion: drive::Motion) -> Motion {
    Motion {
        position: motion.position as u32,
        velocity: motion.velocity,
        acceleration: motion.acceleration,
        control: motion.control,
        pwm: motion.pwm,
    }
}

fn plain_gains(gains: drive::Gains) -> Gains {
    Gains {
        kp: gains.kp,
        kd: gains.kd,
        ki: gains.ki,
        il: gains.il,
        el: gains.el,
        ol: gains.ol,
        sr: gains.sr,
        db: gains.db,
    }
}

fn oracle_node(node: &Node) -> node::Node {
    let Node {
        settings, bench, ..
    } = node;
    let place = &settings.place;
    node::Node {
        settings: settings::Settings {
            place: command::Place {
                address: place.address,
                group: place.group,
                leader: place.leader,
            },
            mask: settings.mask,
            divisor: settings.divisor,
            own: match node.kind {
                Kind::Gate => Own::Gate(oracle_gate(&settings.gate)),
                Kind::Drive => Own::Drive(oracle_drive(&settings.drive)),
            },
        },
        addressed: node.addressed,
        values: match node.kind {
            Kind::Gate => node::Values::Gate {
                bench: node::BenchValues {
                    inputs: bench.inputs,
                    counter: bench.counter,
                    analog: bench.analog,
                    device_id: bench.id,
                    version: bench.version,
                },
                captured: node::Captured {
                    inputs: node.captured.inputs,
                    counter: node.captured.counter,
                },
            },
            Kind::Drive => node::Values::Drive(node::DriveValues {
                position: node.position as i32,
                ad_value: bench.ad,
                velocity: bench.velocity as i16,
                auxiliary: bench.auxiliary,
                home: bench.home as i32,
                device_id: bench.id,
                version: bench.version,
                position_error: bench.error as i16,
            }),
        },
    }
}

fn oracle_gate(gate: &GateSettings) -> settings::GateSettings {
    settings::GateSettings {
        outputs: gate.outputs,
        pwm: gate.pwm,
        held: command::Held {
            outputs: gate.held.outputs,
            pwm: gate.held.pwm,
        },
        timer_mode: gate.timer,
    }
}

fn oracle_drive(drive: &DriveSettings) -> settings::DriveSettings {
    settings::DriveSettings {
        gains: drive::Gains {
            kp: drive.gains.kp,
            kd: drive.gains.kd,
            ki: drive.gains.ki,
            il: drive.gains.il,
            ol: drive.gains.ol,
            el: drive.gains.el,
            sr: drive.gains.sr,
            db: drive.gains.db,
        },
        stop: drive.stop,
        waiting: oracle_motion(&drive.waiting),
        in_force: oracle_motion(&drive.in_force),
    }
}

fn oracle_motion(motion: &Motion) -> drive::Motion {
    drive::Motion {
        control: motion.control,
        position: motion.position as i32,
        velocity: motion.velocity,
        acceleration: motion.acceleration,
        pwm: motion.pwm,
    }
}
