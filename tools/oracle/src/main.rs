//! The program `oracle`: its subcommands, over the library.

use std::io::{Read, Write};
use std::process::ExitCode;

use oracle::coverage::Coverage;
use oracle::rules::Rules;
use oracle::{
    bench, cases, cases_bench, cases_replay, cases_sheets, demand3, edges, export, first,
};
use oracle::{import, make_bench, make_play, make_replay, make_sheets, make_trials, manuals};
use oracle::{play, replay, trials};

const USAGE: &str = "\
oracle bench                    a bench input in, what the bench must print out
oracle trials                   a trials input in, what trials must print out
oracle edges                    what edges must print out
oracle first                    what first must print out
oracle import                   a sheet in, its packets out
oracle export                   packets in, their sheet out
oracle play                     a node count and a sheet in, what the bench prints out
oracle replay                   a recording in, what is said of its packets out
oracle make-bench SEED LINES    a seeded bench input
oracle make-trials SEED LINES   a seeded trials input
oracle make-import SEED LINES   a seeded sheet; make-export, a list of packets;
                                make-play, a count and a sheet
oracle make-replay SEED PACKETS a seeded recording
oracle cases-bench [NAME]       the stored bench input, or a further one
oracle cases-bench list         the names of the further bench inputs
oracle cases-trials             the stored trials input
oracle cases-carousels          the stored input of carousels, which answers the
                                lines that trials does; cases-divisors
oracle cases-import [NAME|list] the same for import; cases-export; cases-play;
                                cases-replay
oracle manuals                  the packets printed in the manuals, as read
oracle demand3 SEED STEPS       demand 3 tried over a faulty line
oracle coverage bench|trials    numbers and commands that an input tries
";

/// The status of a sheet, list or recording that is refused.
const REFUSED: u8 = 3;

/// What a run writes, to standard output and to standard error, and the status
/// that it ends with.
struct Output {
    bytes: Vec<u8>,
    complaint: String,
    status: u8,
}

impl Output {
    fn ending(bytes: Vec<u8>, status: u8) -> Output {
        Output {
            bytes,
            complaint: String::new(),
            status,
        }
    }

    /// Of a program that tells a refusal by one line, and nothing else.
    fn of(result: Result<Vec<u8>, String>) -> Output {
        match result {
            Ok(bytes) => Output::ending(bytes, 0),
            Err(complaint) => Output {
                bytes: Vec::new(),
                complaint: complaint + "\n",
                status: REFUSED,
            },
        }
    }
}

fn main() -> ExitCode {
    let arguments: Vec<String> = std::env::args().skip(1).collect();
    let words: Vec<&str> = arguments.iter().map(String::as_str).collect();
    match run(&words) {
        Some(output) => {
            eprint!("{}", output.complaint);
            match std::io::stdout().write_all(&output.bytes) {
                Ok(()) => ExitCode::from(output.status),
                Err(_) => ExitCode::FAILURE,
            }
        }
        None => {
            eprint!("{USAGE}");
            ExitCode::from(2)
        }
    }
}

/// The output of a subcommand; None for words that are none.
fn run(words: &[&str]) -> Option<Output> {
    let bytes = match words {
        ["bench"] => bench::run(Rules::RIGHT, &input()).into_bytes(),
        ["trials"] => trials::run(Rules::RIGHT, &input()).into_bytes(),
        ["edges"] => edges::run(Rules::RIGHT).into_bytes(),
        ["first"] => first::run(Rules::RIGHT)?.into_bytes(),
        ["import"] => return Some(Output::of(import::run(Rules::RIGHT, &input()))),
        ["export"] => return Some(Output::of(export::run(Rules::RIGHT, &input()))),
        ["play"] => return Some(Output::of(play::run(Rules::RIGHT, &input()))),
        ["replay"] => return Some(Output::of(replay::run(Rules::RIGHT, &input()))),
        ["make-bench", seed, lines] => make_bench::make(seed.parse().ok()?, lines.parse().ok()?),
        ["make-trials", seed, lines] => make_trials::make(seed.parse().ok()?, lines.parse().ok()?),
        ["make-import", seed, lines] => {
            make_sheets::make_import(seed.parse().ok()?, lines.parse().ok()?)
        }
        ["make-export", seed, packets] => {
            make_sheets::make_export(seed.parse().ok()?, packets.parse().ok()?)
        }
        ["make-play", seed, lines] => make_play::make(seed.parse().ok()?, lines.parse().ok()?),
        ["make-replay", seed, packets] => {
            make_replay::make(seed.parse().ok()?, packets.parse().ok()?)
        }
        ["cases-bench"] => cases::bench(),
        ["cases-bench", name] => further(cases_bench::further_inputs(), name)?,
        ["cases-trials"] => cases::trials(),
        ["cases-carousels"] => cases::carousels(),
        ["cases-divisors"] => cases::divisors(),
        ["cases-import"] => cases_sheets::import(),
        ["cases-import", name] => further(cases_sheets::further_imports(), name)?,
        ["cases-export"] => cases_sheets::export(),
        ["cases-export", name] => further(cases_sheets::further_exports(), name)?,
        ["cases-play"] => cases_sheets::play(),
        ["cases-play", name] => further(cases_sheets::further_plays(), name)?,
        ["cases-replay"] => cases_replay::stored(),
        ["cases-replay", name] => further(cases_replay::further(), name)?,
        ["manuals"] => manuals::list().into_bytes(),
        ["demand3", seed, steps] => return simulate(seed.parse().ok()?, steps.parse().ok()?),
        ["coverage", "bench"] => Coverage::of_bench(&input()).text().into_bytes(),
        ["coverage", "trials"] => Coverage::of_trials(&input()).text().into_bytes(),
        _ => return None,
    };
    Some(Output::ending(bytes, 0))
}

/// Standard input, one byte past the most that any of the programs reads.
fn input() -> Vec<u8> {
    let mut bytes = Vec::new();
    let most = play::MOST_INPUT as u64 + 1;
    if let Err(error) = std::io::stdin().take(most).read_to_end(&mut bytes) {
        eprintln!("oracle: standard input: {error}");
    }
    bytes
}

/// One of the further inputs; or, for the word list, the names of all.
fn further(inputs: Vec<(&str, Vec<u8>)>, name: &str) -> Option<Vec<u8>> {
    if name == "list" {
        let names = inputs.iter().map(|(name, _)| format!("{name}\n"));
        return Some(names.collect::<String>().into_bytes());
    }
    let mut named = inputs.into_iter();
    named.find(|(own, _)| *own == name).map(|(_, input)| input)
}

fn simulate(seed: u64, steps: usize) -> Option<Output> {
    let (text, status) = match demand3::run(Rules::RIGHT, seed, steps) {
        Ok(counts) => (counts.to_string(), 0),
        Err(violation) => (violation.to_string(), 1),
    };
    Some(Output::ending(format!("{text}\n").into_bytes(), status))
}
