//! The recordings of a story.

use super::Story;
use crate::layout;
use crate::make_packets::kinds;
use crate::make_recordings::{recording, refused};
use crate::recording::{Capture, Recording};
use crate::trials::recordings::MOST_CAPTURED;

/// The most packets of a recording, and of one that is mostly refused: a captured
/// byte takes fifteen characters.
const MOST_PACKETS: usize = 14;
const MOST_REFUSED: usize = 2;

impl Story {
    /// `50`, mostly of its form.
    pub fn recording_line(&mut self) -> Vec<u8> {
        let packets = 1 + self.prng.below(MOST_PACKETS);
        let mut line = match self.prng.below(100) {
            0 => line_of(&self.long_recording()),
            1..=50 => line_of(&refused(&mut self.prng, packets.min(MOST_REFUSED))),
            _ => line_of(&recording(&mut self.prng, packets)),
        };
        match self.prng.below(20) {
            0 => line.truncate(1 + self.prng.below(line.len() - 1)),
            2 if line.len() > 2 => line[2] = self.prng.between(1, 3),
            1 => line.push(self.prng.telling_byte()),
            _ => {}
        }
        line
    }

    /// As many bytes without times as a capture may have, or one more.
    fn long_recording(&mut self) -> Recording {
        let long = Capture {
            bytes: vec![0xAA; MOST_CAPTURED + self.prng.below(2)],
            times: Vec::new(),
        };
        let (commands, replies) = match self.prng.percent(50) {
            true => (long, Capture::default()),
            false => (Capture::default(), long),
        };
        let nodes = self.prng.between(0, 2);
        Recording {
            nodes,
            kinds: kinds(&mut self.prng, usize::from(nodes)),
            commands,
            replies,
        }
    }
}

/// `50`.
fn line_of(recording: &Recording) -> Vec<u8> {
    [vec![0x50], layout::recording(recording)].concat()
}
