//! Before anything is timed: ours, plain Rust and the independent program read
//! and write sheets alike, byte for byte, with the same refusals, and leave
//! alone what they must.

use oracle::prng::Prng;
use oracle::rules::Rules;
use oracle::sheet;

use crate::check::Outcome;
use crate::plain_sheet::Refused;
use crate::sides::{seeds, Convert, EXPORTS, IMPORTS, SHEET_SIZES};
use crate::{work, SEED};

/// Seeded sheets and lists of packets, whole or spoilt, with every kind of room;
/// a sheet that is too long; and all that is timed.
pub fn all(count: u64) -> Outcome {
    let too_long = work::sheet(SHEET_SIZES[2] + 1, SEED);
    for (name, import) in IMPORTS {
        for seed in 0..count {
            let mut prng = Prng::new(seed);
            let sheet = spoilt(&mut prng, work::sheet(1, seed), b"0fG HEXx\n\r\t");
            alike(name, import, wanted_import, &sheet)?;
        }
        for (size, seed) in timed() {
            alike(name, import, wanted_import, &work::sheet(size, seed))?;
        }
        alike(name, import, wanted_import, &too_long)?;
    }
    for (name, export) in EXPORTS {
        for seed in 0..count {
            let mut prng = Prng::new(seed);
            let packets = spoilt(&mut prng, work::packets(1, seed).0, b"\xAA\x00\x0E\x1E\xFE");
            alike(name, export, wanted_export, &packets)?;
        }
        for (size, seed) in timed() {
            alike(name, export, wanted_export, &work::packets(size, seed).0)?;
        }
    }
    Ok(())
}

/// The sizes and seeds that are timed.
fn timed() -> impl Iterator<Item = (usize, u64)> {
    SHEET_SIZES
        .into_iter()
        .flat_map(|size| seeds(size).map(move |seed| (size, seed)))
}

/// What an import must answer and leave, as the independent program has it.
fn wanted_import(sheet: &[u8], out: &mut [u8]) -> Result<usize, Refused> {
    sheet::import(Rules::RIGHT, sheet, out).map_err(|refused| Refused {
        number: refused.refusal.number(),
        line: refused.line,
    })
}

/// The same of an export.
fn wanted_export(packets: &[u8], out: &mut [u8]) -> Result<usize, Refused> {
    sheet::export(Rules::RIGHT, packets, out).map_err(|refusal| Refused::with(refusal.number()))
}

/// Cut anywhere, and then, half the time, with a byte changed to a telling one.
fn spoilt(prng: &mut Prng, mut bytes: Vec<u8>, telling: &[u8]) -> Vec<u8> {
    bytes.truncate(prng.below(bytes.len() + 1));
    if !bytes.is_empty() && prng.percent(50) {
        let at = prng.below(bytes.len());
        bytes[at] = prng.pick(telling);
    }
    bytes
}

/// One input, with more room than it needs, as much, a byte less, and none.
fn alike(name: &str, convert: Convert, wanted: Convert, input: &[u8]) -> Outcome {
    let most = 3 * input.len() + 1;
    let needed = wanted(input, &mut vec![0; most]).unwrap_or(1);
    for room in [most, needed, needed.saturating_sub(1), 0] {
        let (mut out, mut wanted_out) = (vec![0x5A; room], vec![0x5A; room]);
        let answer = convert(input, &mut out);
        let wanted = wanted(input, &mut wanted_out);
        if (answer, &out) != (wanted, &wanted_out) {
            return Err(format!(
                "{name} differs on {} bytes, room {room}: {answer:?}, not {wanted:?}, or in what it wrote; the input is {:?}",
                input.len(),
                String::from_utf8_lossy(input)
            ));
        }
    }
    Ok(())
}
