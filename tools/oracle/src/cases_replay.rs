//! Hand-written inputs for the program `replay`: one that is stored, and
//! further ones under names of their own.

use crate::case::{damaged, packet};
use crate::cases_sheets::Named;
use crate::make_replay::fill_up;
use crate::replay::text::MOST_TEXT;

/// `shows/lost-reply.txt`: a pass whose reply was lost, and a fast tap. At
/// 19,200 baud a byte takes half a millisecond.
pub const LOST_REPLY: &str = "\
2
> 0 AA 00
> 1 21 01
> 2 FF 21
< 6 00 00
> 20 AA 00
> 21 21 02
> 22 FF 22
< 26 00 00
> 1000 AA 01
> 1001 26 01
> 1002 00 28
< 1006 00 00
> 1750 AA 02
> 1751 26 01
> 1752 00 29
> 1790 AA 01
> 1791 26 00
> 1792 00 27
< 1796 00 00
";

/// `shows/missed-pass.txt`: two gates are to open at once, the leader's reply
/// tells of the leader alone, and the other is told again by itself.
pub const MISSED_PASS: &str = "\
2
> 0 AA 00
> 1 21 01
> 2 FF 21
< 6 00 00
> 20 AA 00
> 21 21 02
> 22 FF 22
< 26 00 00
> 100 AA 01
> 101 21 01
> 102 00 23
< 106 00 00
> 110 AA 02
> 111 21 02
> 112 80 A5
< 116 00 00
> 200 AA 01
> 201 47 01
> 202 00 00
> 203 00 49
< 207 00 00
> 220 AA 02
> 221 47 01
> 222 00 00
> 223 00 4A
< 227 00 00
> 1000 AA 80
> 1001 05 85
< 1005 00 00
> 1400 AA 02
> 1401 05 07
< 1405 00 00
";

/// `shows/ask.txt`: a walk whose first reply is lost, an ask, a group with a
/// leader, a reply that isn't clear, one that nobody waits for, and a wish for
/// a second leader, which the host refuses.
pub const ASK: &str = "\
2
> 0 AA 00
> 1 21 01
> 2 FF 21
> 50 AA 01
> 51 0E 0F
< 55 00 00
> 60 AA 00
> 61 21 02
> 62 FF 22
< 66 00 00
> 100 AA 01
> 101 21 01
> 102 00 23
< 106 00 00
> 110 AA 02
> 111 21 02
> 112 80 A5
< 116 00 00
> 200 AA 80
> 201 47 05
> 202 00 40
> 203 41 4D
< 207 02 02
> 220 AA 80
> 221 47 05
> 222 00 40
> 223 41 4D
< 227 00 00
> 240 AA 80
> 241 05 85
< 245 00 00
< 300 00 00
> 400 AA 02
> 401 21 02
> 402 00 25
< 406 00 00
";

/// `shows/carousel.txt`: a carousel beside two gates. The reply to a load is lost;
/// it is loaded again, which moves nothing, and then started.
pub const CAROUSEL: &str = "\
3 gate gate drive
> 0 AA 00
> 1 21 01
> 2 FF 21
< 6 00 00
> 20 AA 00
> 21 21 02
> 22 FF 22
< 26 00 00
> 40 AA 00
> 41 21 03
> 42 FF 23
< 46 00 00
> 100 AA 03
> 101 17 05
> 102 1F
< 105 00 00
> 200 AA 03
> 201 D4 17
> 202 00 00
> 203 00 00
> 204 00 80
> 205 01 00
> 206 00 64
> 207 00 00
> 208 D3
< 212 00 00
> 1000 AA 01
> 1001 26 01
> 1002 00 28
< 1006 00 00
> 1500 AA 03
> 1501 54 11
> 1502 00 28
> 1503 00 00
> 1504 90
> 1540 AA 02
> 1541 26 01
> 1542 00 29
< 1546 00 00
> 1600 AA 03
> 1601 54 11
> 1602 00 28
> 1603 00 00
> 1604 90
< 1608 00 00
> 2000 AA 03
> 2001 05 08
< 2005 00 00
";

/// Commands as address, command byte and data, to which header and sum are put,
/// and replies; each packet at its time.
const STORY: [(char, u32, &str); 96] = [
    // The walk: a reply before any command, not clear, sent again, a second
    // reply; silence and asks; a reply that isn't good.
    ('<', 0, "00"),
    ('>', 5, "00 21 01 FF"),
    ('<', 9, "02 02"),
    ('>', 12, "00 21 01 FF"),
    ('<', 16, "00 00"),
    ('<', 19, "00 00"),
    ('>', 21, "00 21 02 FF"),
    ('>', 27, "02 0E"),
    ('<', 30, "02 02"),
    ('>', 33, "02 0E"),
    ('>', 36, "02 0E"),
    ('<', 36, "FD FD"),
    ('>', 40, "00 21 03 FF"),
    ('<', 44, "00 01"),
    ('>', 50, "03 0E"),
    ('<', 54, "00 00"),
    // The fourth is a drive, in a group of its own.
    ('>', 60, "00 21 04 FF"),
    ('<', 64, "00 00"),
    ('>', 70, "04 21 04 11"),
    ('<', 74, "00 00"),
    // A group with a leader, for whom alone its replies confirm; replies with
    // items; the longest, and one longer.
    ('>', 100, "01 21 01 00"),
    ('<', 104, "00 00"),
    ('>', 110, "02 21 02 80"),
    ('<', 114, "00 00"),
    ('>', 120, "01 12 41"),
    ('<', 124, "00 00 00 00 00 00"),
    ('>', 130, "01 13 FF"),
    (
        '<',
        134,
        "00 01 02 03 04 05 06 07 08 09 0A 0B 0C 0D 0E 0F 10 11 99",
    ),
    ('>', 160, "02 12 20"),
    (
        '<',
        164,
        "00 01 02 03 04 05 06 07 08 09 0A 0B 0C 0D 0E 0F 10 11 12 AB",
    ),
    ('>', 200, "80 24 40 41"),
    ('<', 204, "00 00"),
    ('>', 210, "03 26 05 91"),
    ('>', 220, "80 47 07 00 11 22"),
    ('>', 230, "80 05"),
    ('<', 234, "00 00"),
    ('>', 240, "80 47 08 01 33 44"),
    ('<', 244, "00 00"),
    ('>', 250, "80 05"),
    ('<', 254, "00 00"),
    ('>', 260, "80 26 08 01"),
    ('<', 264, "00 00"),
    // A place in doubt: a group's command reaches it, and no reply tells.
    ('>', 300, "03 21 03 10"),
    ('>', 310, "80 26 FF 00"),
    ('<', 314, "00 00"),
    ('>', 320, "90 18 CD"),
    ('>', 330, "03 0E"),
    ('<', 334, "01 01"),
    ('>', 340, "03 21 03 10"),
    ('<', 344, "00 00"),
    ('>', 350, "90 18 01"),
    ('<', 354, "00 00"),
    ('>', 360, "FF 0C"),
    ('>', 370, "02 0C"),
    ('<', 374, "00 00"),
    ('>', 380, "02 18 02"),
    ('<', 384, "02 04"),
    ('>', 390, "01 24 01 02"),
    ('<', 394, "02"),
    ('<', 397, "02 02"),
    ('>', 400, "02 26 AA AA"),
    ('<', 402, "02 00 00 02"),
    ('>', 410, "02 26 AA AA"),
    ('<', 412, "00 00 00 00"),
    ('>', 420, "03 05"),
    // The drive: gains, a stop byte, loads that wait and one that starts, each
    // value in doubt by itself; 05 and 24, which the gates read otherwise.
    ('>', 430, "04 E6 64 00 00 04 46 00 28 00 FA 00 00 08 03 05"),
    ('<', 434, "00 00"),
    ('>', 436, "04 57 11 FF FF FF FF"),
    ('<', 438, "00 00"),
    ('>', 440, "04 E4 1F E0 B1 FF FF 00 80 01 00 00 64 00 00 40"),
    ('<', 444, "00 00"),
    ('>', 446, "04 54 32 25 06 01 00"),
    ('>', 450, "91 05"),
    ('<', 454, "00 00"),
    ('>', 456, "04 24 88 AA"),
    ('<', 458, "00 00"),
    ('>', 460, "04 17 02"),
    ('>', 462, "04 00"),
    ('<', 464, "00 00"),
    ('>', 466, "04 54 B2 25 06 01 00"),
    ('<', 468, "00 00"),
    ('>', 470, "91 14 80"),
    ('<', 472, "00 00"),
    ('>', 474, "04 D4 97 01 00 00 80 FF FF FF 7F 00 00 00 00"),
    // To a group that nobody may be in.
    ('>', 480, "A0 05"),
    ('>', 482, "A0 24 08 01"),
    ('>', 484, "A0 17 05"),
    // The leader's reply that isn't clear; then its place in doubt.
    ('>', 500, "02 18 03"),
    ('<', 504, "00 00"),
    ('>', 510, "80 18 04"),
    ('<', 514, "02 02"),
    ('>', 520, "01 21 01 81"),
    ('>', 530, "80 18 05"),
    ('<', 534, "00 00"),
    ('>', 4_294_967_290, "FF 0F"),
    ('<', 4_294_967_295, "00 00"),
];

/// A run's line for a packet that comes at one time.
fn run(mark: char, time: u32, bytes: &str) -> String {
    let bytes = match mark {
        '>' => packet(bytes),
        _ => bytes.to_string(),
    };
    format!("{mark} {time} {bytes}\n")
}

/// The stored input: all commands but Set Baud Rate, which would end it, accepted up to
/// the end of the recording. One packet is several runs, and the last line lacks its newline.
pub fn stored() -> Vec<u8> {
    let runs: String = STORY
        .iter()
        .map(|(mark, time, bytes)| run(*mark, *time, bytes))
        .collect();
    let several = runs.replace(
        "> 40 AA 00 21 03 FF 23\n",
        "> 40 AA 00\n> 41 21\n> 41 03 FF\n> 42 23\n",
    );
    format!("4 gate gate gate drive\n{}", several.trim_end()).into_bytes()
}

/// Further inputs: the recordings of `shows/`, endings of each sort, what is
/// refused and in which sequence, and sizes about 64 KiB.
pub fn further() -> Vec<Named> {
    let mut inputs = told_whole();
    inputs.extend(ended_by_a_command());
    inputs.extend(ended_by_kinds());
    inputs.extend(refused());
    inputs.extend(sizes());
    inputs
        .into_iter()
        .map(|(name, input)| (name, input.into_bytes()))
        .collect()
}

type Texts = Vec<(&'static str, String)>;

/// Up to the end of the recording.
fn told_whole() -> Texts {
    let ready = walk(2);
    vec![
        ("lost-reply", LOST_REPLY.to_string()),
        ("missed-pass", MISSED_PASS.to_string()),
        ("ask", ASK.to_string()),
        ("carousel", CAROUSEL.to_string()),
        (
            "document",
            "2\n> 0 AA 00 21 01\n> 1 FF 21\n< 4 00 00\n".to_string(),
        ),
        ("count-alone", "2".to_string()),
        ("kinds-alone", "2 drive gate".to_string()),
        ("kinds-of-gates", with_kinds("2 gate gate", 2)),
        ("kinds-of-31", format!("31{}\n", " drive".repeat(31))),
        ("count-ended", "31\n".to_string()),
        ("one-node", walk(1)),
        ("walk-of-31", walk(31)),
        ("unended", ready.trim_end().to_string()),
        (
            "silent-at-the-end",
            format!("{ready}> 50 AA 02 26 05 00 2D\n"),
        ),
        ("nothing-in-doubt", format!("{ready}> 50 AA 02 0E 10\n")),
        ("walk-silent", "2\n> 0 AA 00 21 01 FF 21\n".to_string()),
        (
            "replies-alone",
            "2\n< 0 00 00\n< 1 00\n< 3 02 02\n".to_string(),
        ),
        ("closed", format!("{ready}> 50 AA 01 0F 10\n< 51 02 02\n")),
        (
            "last-time",
            "1\n> 4294967295 AA 00 21 01 FF 21\n< 4294967295 00 00\n".to_string(),
        ),
        (
            "equal-times",
            "2\n> 0 AA 00 21 01 FF 21\n> 9 AA 01 0E 0F\n< 9 00 00\n".to_string(),
        ),
        // How runs of one line stand between those of the other is all one.
        (
            "replies-first",
            "1\n< 4 00\n< 4 00\n> 0 AA\n> 0 00 21 01\n> 1 FF\n> 2 21\n".to_string(),
        ),
        (
            "gap-in-reply",
            "1\n> 0 AA 00 21 01 FF 21\n< 3 00\n< 5 00 00\n".to_string(),
        ),
    ]
}

/// Ended by a command that the host couldn't have sent, with something behind.
fn ended_by_a_command() -> Texts {
    let by = |command: &str| {
        let ready = walk(2);
        format!("{ready}> 50 {command}\n< 80 00 00\n> 90 AA 01 0E 0F\n")
    };
    let at_once = |command: &str| format!("2\n> 0 {command}\n");
    vec![
        ("not-wrong-sum", by(&damaged("01 0E"))),
        ("not-cut-short", by("AA 01 26 05 00")),
        ("not-no-header", by("01 0E 0F")),
        ("not-left-over", by("AA 01 0E 0F 00")),
        ("not-two-at-once", by("AA 01 0E 0F\n> 51 AA 02 0E 10")),
        ("not-a-gap-inside", by("AA 02\n> 52 0E 10")),
        ("not-another", by(&packet("01 0B"))),
        ("not-a-baud-rate", by(&packet("FF 1A 0A"))),
        ("not-a-baud-rate-of-3f", by(&packet("80 1A 3F"))),
        ("not-a-baud-rate-unlisted", by(&packet("FF 1A 55"))),
        ("not-a-baud-rate-to-a-node", by(&packet("01 1A 3F"))),
        ("not-a-baud-rate-of-two", by(&packet("FF 2A 0A 0A"))),
        (
            "not-a-baud-rate-while-waiting",
            by("AA 02 26 05 00 2D\n> 53 AA FF 1A 0A 23"),
        ),
        ("not-a-baud-rate-in-walk", at_once("AA FF 1A 0A 23")),
        ("not-another-count", by(&packet("01 1E 00"))),
        ("not-another-to-all", by(&packet("FF 03"))),
        ("not-node-3", by(&packet("03 0E"))),
        ("not-node-16", by(&packet("10 26 34 12"))),
        ("not-node-127", by(&packet("7F 0F"))),
        ("not-address-00", by(&packet("00 0E"))),
        ("not-set-again", by(&packet("00 21 03 FF"))),
        ("not-its-address", by(&packet("01 21 02 80"))),
        ("not-high-address", by(&packet("01 21 81 FF"))),
        ("not-to-group", by(&packet("FF 21 01 00"))),
        (
            "not-second-leader",
            by("AA 01 21 01 00 23\n< 51 00 00\n> 53 AA 02 21 02 00 25"),
        ),
        (
            "not-in-doubt-leader",
            by("AA 01 21 01 00 23\n> 53 AA 02 21 02 01 26"),
        ),
        ("not-after-reset", by("AA FF 0F 0E")),
        ("not-while-waiting", by("AA 02 26 05 00 2D\n> 53 AA 02")),
        ("not-in-walk", at_once("AA 01 0E 0F")),
        ("not-reset-in-walk", at_once("AA FF 0F 0E")),
        ("not-in-order", at_once("AA 00 21 02 FF 22")),
        (
            "not-again-after-silence",
            at_once("AA 00 21 01 FF 21\n> 9 AA 00 21 01 FF 21"),
        ),
    ]
}

/// The same with kinds: node 1 is a gate, node 2 a drive. What a command says is
/// as its node reads it; elsewhere as a gate does, or else as a drive.
fn ended_by_kinds() -> Texts {
    let by = |parts: &str| {
        let ready = with_kinds("2 gate drive", 2);
        format!("{ready}> 50 {}\n", packet(parts))
    };
    vec![
        ("not-a-drive-s", by("02 26 05 00")),
        ("not-a-drive-s-0c", by("02 0C")),
        ("not-a-drive-s-address", by("02 21 00 FF")),
        ("not-a-drive-s-nibble", by("02 24 31 40")),
        (
            "not-a-drive-s-count",
            by("02 94 37 25 06 01 00 58 01 00 00"),
        ),
        (
            "not-a-drive-s-gains",
            by("02 E6 00 80 00 00 00 00 00 00 00 00 00 00 01 00"),
        ),
        ("not-a-drive-s-stop", by("02 17 06")),
        ("not-a-gate-s", by("01 17 05")),
        ("not-a-mixed-group-s", by("FF 05")),
        ("not-a-mixed-group-s-pwm", by("FF 24 18 40")),
        ("not-a-mixed-group-s-load", by("FF 54 11 E0 B1 FF FF")),
        ("not-a-group-s-range", by("A0 57 10 00 00 00 80")),
        ("not-node-9-s", by("09 57 10 01 00 00 80")),
        ("not-node-9-s-05", by("09 05")),
        ("not-address-00-s", by("00 00")),
        ("not-a-baud-rate-for-both", by("FF 1A 14")),
        ("not-a-baud-rate-to-a-drive", by("02 1A 0A")),
    ]
}

/// Each test in its sequence.
fn refused() -> Texts {
    let one = |line: &str| format!("2\n> 5 AA\n{line}\n> 6 01\n");
    vec![
        ("empty", String::new()),
        ("newline-alone", "\n".to_string()),
        ("count-0", "0\n> 0 AA\n".to_string()),
        ("count-32", "32\n".to_string()),
        ("count-02", "02\n".to_string()),
        ("count-return", "2\r\n> 0 AA\n".to_string()),
        ("no-count", "> 0 AA\n".to_string()),
        ("kinds-fewer", with_kinds("2 drive", 2)),
        ("kinds-more", with_kinds("2 drive gate gate", 2)),
        ("kinds-in-capitals", with_kinds("2 gate Drive", 2)),
        ("kinds-of-another-name", with_kinds("1 drives", 1)),
        ("kinds-two-spaces", with_kinds("2 gate  drive", 2)),
        ("kinds-space-behind", with_kinds("1 gate ", 1)),
        ("kinds-comma", with_kinds("2 gate, drive", 2)),
        ("kinds-return", with_kinds("1 drive\r", 1)),
        ("kinds-without-count", with_kinds("gate", 1)),
        ("kinds-and-count-0", "0 gate\n> 0\n".to_string()),
        ("bad-count-and-line", "0\n\n".to_string()),
        ("blank-line", one("")),
        ("blank-last", "2\n> 0 AA\n\n".to_string()),
        ("return", "2\n> 0 AA\n> 5 AA\r\n".to_string()),
        ("other-mark", one("= 5 AA")),
        ("mark-alone", one(">")),
        ("no-mark", one("5 AA")),
        ("mark-joined", one(">5 AA")),
        ("no-bytes", one("> 5")),
        ("no-bytes-but-a-space", one("> 5 ")),
        ("no-time", one("> AA")),
        ("time-05", one("> 05 AA")),
        ("time-00", one("> 00 AA")),
        ("time-plus", one("> +5 AA")),
        ("time-minus", one("> -5 AA")),
        (
            "time-4294967296",
            "2\n> 5 AA\n< 4294967296 00\n".to_string(),
        ),
        ("time-of-20-digits", one("> 18446744073709551621 AA")),
        ("lower-case", one("> 5 aa")),
        ("one-digit", one("> 5 A")),
        ("three-digits", one("> 5 0AA")),
        ("two-spaces", one("> 5  AA")),
        ("space-before", one(" > 5 AA")),
        ("space-behind", one("> 5 AA ")),
        ("tab", one("> 5\tAA")),
        ("word-behind", one("> 5 AA Nop")),
        ("not-text", "2\n\u{0}\u{ff}\n".to_string()),
        ("line-7", format!("{}> 50 AA\nNop\nNop\n", walk(2))),
        ("falls", format!("{}> 6 AA\n", walk(2))),
        ("falls-in-replies", format!("{}< 4 00\n< 3 00\n", walk(1))),
        (
            "falls-twice",
            "2\n> 5 AA\n< 9 00\n< 8 00\n> 4 AA\n".to_string(),
        ),
        (
            "falls-before-bad-line",
            "2\n> 5 AA\n> 4 AA\n> 3\n".to_string(),
        ),
        ("falls-to-0", "2\n> 4294967295 AA\n> 0 AA\n".to_string()),
        (
            "rises-past-half",
            "2\n> 2147483647 AA\n> 2147483648 00\n".to_string(),
        ),
    ]
}

/// About 64 KiB, of the text and of what is written for it.
fn sizes() -> Texts {
    let most = fill_up(nops(), MOST_TEXT);
    vec![
        ("size-65537", fill_up(nops(), MOST_TEXT + 1)),
        ("size-65537-faulty", format!("{most}\n")),
        (
            "size-65537-no-count",
            fill_up(format!("0{}", nops()), MOST_TEXT + 1),
        ),
        ("one-packet", fill_up("1\n".to_string(), MOST_TEXT)),
        ("size-65536", most),
    ]
}

/// A walk and Nops, one each two milliseconds, that leave little room.
fn nops() -> String {
    let mut text = walk(3);
    let mut time = 100;
    while text.len() < MOST_TEXT - 100 {
        text += &format!("> {time} AA 03 0E 11\n< {time} 00 00\n");
        time += 2;
    }
    text
}

/// The count, and the walk of so many nodes, eight milliseconds each.
fn walk(nodes: u8) -> String {
    with_kinds(&nodes.to_string(), nodes)
}

/// The same behind another first line.
fn with_kinds(first: &str, nodes: u8) -> String {
    let mut text = format!("{first}\n");
    for node in 1..=nodes {
        let (sent, came) = (8 * u32::from(node - 1), 8 * u32::from(node - 1) + 3);
        text += &run('>', sent, &format!("00 21 {node:02X} FF"));
        text += &run('<', came, "00 00");
    }
    text
}
