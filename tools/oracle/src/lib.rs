//! An independent judge of the LDCN host and bench software: see README.md.
//!
//! The program `oracle` (main.rs) is a thin main over this library; the speed
//! harness uses its chain, its bench and its generators.

pub mod bench;
pub mod buffer;
pub mod call;
pub mod case;
pub mod cases;
pub mod cases_bench;
pub mod cases_carousels;
pub mod cases_divisors;
pub mod cases_replay;
pub mod cases_sheets;
pub mod cases_trials;
pub mod chain;
pub mod command;
pub mod coverage;
pub mod demand3;
pub mod divisor;
pub mod drive;
pub mod edges;
pub mod export;
pub mod first;
pub mod hex;
pub mod history;
pub mod import;
pub mod kind;
pub mod layout;
pub mod make_bench;
pub mod make_packets;
pub mod make_play;
pub mod make_recordings;
pub mod make_replay;
pub mod make_sheets;
pub mod make_trials;
pub mod manuals;
pub mod node;
pub mod packet;
pub mod play;
pub mod prng;
pub mod record;
pub mod recording;
pub mod refusal;
pub mod replay;
pub mod rules;
pub mod session;
pub mod settings;
pub mod sheet;
pub mod status;
pub mod target;
pub mod trials;

#[cfg(test)]
mod tests;
