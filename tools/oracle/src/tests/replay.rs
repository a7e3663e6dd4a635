//! The program `replay`: what its document prints, the inputs with names, and
//! made ones.

use crate::cases_replay::{further, stored, ASK, CAROUSEL, LOST_REPLY};
use crate::make_replay;
use crate::replay;
use crate::rules::Rules;

/// What is told of an input: its text, or the line that a refusal is told by.
fn told(input: &[u8]) -> Result<String, String> {
    let written = replay::run(Rules::RIGHT, input)?;
    Ok(String::from_utf8(written).expect("text"))
}

#[test]
fn the_document_s_example() {
    let written = told(b"2\n> 0 AA 00 21 01\n> 1 FF 21\n< 4 00 00\n");
    let expected = "\
0 > AA 00 21 01 FF 21 | Set Address 01 group FF to address 00 | sent
4 < 00 00 | clear | node 1: place 01 group FF
end of the recording
2 nodes, walk at 1
node 1: place 01 group FF, mask 00, divisor 3F, outputs 0000, PWM 00 00, held 0000 00 00, timer 00
node 2: place 00 group FF, mask 00, divisor 3F, outputs 0000, PWM 00 00, held 0000 00 00, timer 00
";
    assert_eq!(written.as_deref(), Ok(expected));
}

#[test]
fn a_lost_reply() {
    let written = told(LOST_REPLY.as_bytes()).expect("accepted");
    for line in [
        "1750 > AA 02 26 01 00 29 | Set Outputs 0001 to node 2 | sent",
        "1790 > AA 01 26 00 00 27 | Set Outputs 0000 to node 1 | \
         silence before it: node 2: outputs 0000 in doubt; sent",
        "1796 < 00 00 | clear | node 1: outputs 0000",
        "end of the recording",
        "2 nodes, ready",
        "node 2: place 02 group FF, mask 00, divisor 3F, outputs 0000 in doubt, PWM 00 00, \
         held 0000 00 00, timer 00",
    ] {
        assert!(written.lines().any(|own| own == line), "{line}");
    }
}

#[test]
fn an_ask() {
    let written = told(ASK.as_bytes()).expect("accepted");
    let mut lines = written.lines();
    for line in [
        "0 > AA 00 21 01 FF 21 | Set Address 01 group FF to address 00 | sent",
        "50 > AA 01 0E 0F | Nop to node 1 | \
         silence before it: node 1: place 00 group FF in doubt; sent",
        "55 < 00 00 | clear | node 1: place 01 group FF",
        "207 < 02 02 | not clear | no change",
        "227 < 00 00 | clear | node 1: held 0005 40 41; node 2: held 0000 00 00 in doubt",
        "245 < 00 00 | clear | node 1: outputs 0005, PWM 40 41; \
         node 2: outputs 0000 in doubt, PWM 00 00 in doubt",
        "300 < 00 00 | clear | nobody waits for it",
        "400 > AA 02 21 02 00 25 | Set Address 02 group 80 leader to node 2 | \
         not the host's, the walk ends",
        "2 nodes, ready",
    ] {
        assert!(lines.any(|own| own == line), "{line}");
    }
    assert!(!written.contains("end of the recording"));
}

/// A load whose reply is lost, and that is loaded again before it is started.
#[test]
fn a_carousel() {
    let written = told(CAROUSEL.as_bytes()).expect("accepted");
    let mut lines = written.lines();
    for line in [
        "100 > AA 03 17 05 1F | Stop Motor 05 to node 3 | sent",
        "105 < 00 00 | clear | node 3: stop 05",
        "200 > AA 03 D4 17 00 00 00 00 00 80 01 00 00 64 00 00 D3 | Load Trajectory 17 \
         position 00000000 velocity 00018000 acceleration 00006400 to node 3 | sent",
        "212 < 00 00 | clear | node 3: waiting control 17, waiting velocity 00018000, \
         waiting acceleration 00006400",
        "1500 > AA 03 54 11 00 28 00 00 90 | Load Trajectory 11 position 00002800 to node 3 | sent",
        "1540 > AA 02 26 01 00 29 | Set Outputs 0001 to node 2 | silence before it: node 3: \
         waiting control 17 in doubt, waiting position 00000000 in doubt; sent",
        "1608 < 00 00 | clear | node 3: waiting control 11, waiting position 00002800",
        "2000 > AA 03 05 08 | Start Motion to node 3 | sent",
        "2005 < 00 00 | clear | node 3: control 11, position 00002800, velocity 00018000, \
         acceleration 00006400",
        "end of the recording",
        "3 nodes, ready",
        "node 2: place 02 group FF, mask 00, divisor 3F, outputs 0001, PWM 00 00, held 0000 00 00, timer 00",
        "node 3, drive: place 03 group FF, mask 00, divisor 3F, gains KP 0000 KD 0000 KI 0000 IL 0000 OL 00 \
         EL 0000 SR 01 DB 00, stop 05, waiting control 11, waiting position 00002800, waiting \
         velocity 00018000, waiting acceleration 00006400, waiting PWM 00, control 11, \
         position 00002800, velocity 00018000, acceleration 00006400, PWM 00",
    ] {
        assert!(lines.any(|own| own == line), "{line}");
    }
}

/// All that can be said is said of the stored input, but for what ends the walk.
#[test]
fn the_stored_input_says_much() {
    let written = told(&stored()).expect("accepted");
    for words in [
        "Set Address",
        "leader to node 3",
        "Define Status 41",
        "Read Status FF",
        "Set PWM 40 41",
        "Synch Output to group 80",
        "Set Outputs 9105",
        "Set Synch Output 0108 33 44",
        "Set Timer Mode CD",
        "Synch Input",
        "Nop to node 2",
        "Hard Reset to group FF",
        "to address 00",
        "| clear |",
        "| not clear |",
        "| not good |",
        "| sent\n",
        "sent, the session closes, all in doubt",
        "| silence before it: no change; sent\n",
        "| silence before it: node 3: outputs 0000 in doubt; sent\n",
        "| clear | node 1: PWM 40 41; node 2: PWM 00 00 in doubt\n",
        "| clear | node 1: timer 00 in doubt; node 2: timer 03 in doubt\n",
        "| no change\n",
        "| nobody waits for it\n",
        "in doubt; node 2:",
        "place 01 group 80 leader",
        "held 0108 33 44",
        "Set Gain KP 0064 KD 0400 KI 0046 IL 0028 OL FA EL 0800 SR 03 DB 05 to node 4",
        "Stop Motor 11 position -00000001 to node 4",
        "Stop Motor 02 to node 4",
        "Stop Motor 05 to group A0",
        "Load Trajectory 1F position -00004E20 velocity 00018000 acceleration 00006400 PWM 40 to",
        "Load Trajectory 88 PWM AA to node 4",
        "Load Trajectory 80 to group 91",
        "position -7FFFFFFF velocity 7FFFFFFF",
        "Start Motion to group 91",
        "Reset Position to node 4",
        "Synch Output to group A0",
        "Set PWM 08 01 to group A0",
        "node 4: gains KP 0064 KD 0400",
        "node 4: stop 11\n",
        "| clear | node 4: control 00 in doubt, position -00004E20, velocity 00000000 in doubt, \
         acceleration 00006400, PWM 40\n",
        "node 4, drive: place 04 group 91 leader in doubt, mask 00 in doubt, divisor 3F in doubt, gains",
        "\nend of the recording\n4 nodes, closed\n",
    ] {
        assert!(written.contains(words), "{words:?}");
    }
}

/// The last line before the record, or the refusal.
fn ending(input: &[u8]) -> String {
    match told(input) {
        Ok(written) => {
            let lines: Vec<&str> = written.lines().collect();
            let standing = lines.iter().rposition(|line| !line.starts_with("node "));
            let standing = standing.expect("how it stands");
            format!("{}; {}", said(lines[standing - 1]), lines[standing])
        }
        Err(complaint) => complaint,
    }
}

/// What is said of a packet, without its bytes.
fn said(line: &str) -> &str {
    line.split_once(" | ").map_or(line, |(_, said)| said)
}

#[test]
fn replay_tells() {
    const ENDS: &str = "not the host's, the walk ends";
    for (name, input) in further() {
        let ended = |says: &str, at: &str| format!("{says} | {ENDS}; 2 nodes, {at}");
        let expected = match name {
            "lost-reply" | "missed-pass" | "unended" | "kinds-of-gates" => {
                "end of the recording; 2 nodes, ready".to_string()
            }
            "document" | "equal-times" => "end of the recording; 2 nodes, walk at 1".to_string(),
            "count-alone" | "replies-alone" | "kinds-alone" => {
                "end of the recording; 2 nodes, walk at 0".to_string()
            }
            "count-ended" | "kinds-of-31" => {
                "end of the recording; 31 nodes, walk at 0".to_string()
            }
            "carousel" => "end of the recording; 3 nodes, ready".to_string(),
            "one-node" | "last-time" | "replies-first" => {
                "end of the recording; 1 node, ready".to_string()
            }
            "gap-in-reply" | "one-packet" => "end of the recording; 1 node, walk at 0".to_string(),
            "walk-of-31" => "end of the recording; 31 nodes, ready".to_string(),
            "silent-at-the-end" => {
                "silence before it: node 2: outputs 0000 in doubt; 2 nodes, ready".to_string()
            }
            "nothing-in-doubt" => "silence before it: no change; 2 nodes, ready".to_string(),
            "walk-silent" => {
                "silence before it: node 1: place 00 group FF in doubt; 2 nodes, walk at 0"
                    .to_string()
            }
            "closed" => "end of the recording; 2 nodes, closed".to_string(),
            "size-65536" => "end of the recording; 3 nodes, ready".to_string(),
            "ask" | "not-second-leader" => {
                ended("Set Address 02 group 80 leader to node 2", "ready")
            }
            "not-in-doubt-leader" => format!(
                "Set Address 02 group 81 leader to node 2 | silence before it: \
                 node 1: place 01 group FF in doubt; {ENDS}; 2 nodes, ready"
            ),
            "not-wrong-sum" => ended("wrong sum", "ready"),
            "not-cut-short" | "not-a-gap-inside" => ended("cut short", "ready"),
            "not-no-header" => ended("no header", "ready"),
            "not-left-over" | "not-two-at-once" => ended("bytes left over", "ready"),
            "not-another"
            | "not-another-count"
            | "not-another-to-all"
            | "not-high-address"
            | "not-a-baud-rate-of-two" => ended("another command", "ready"),
            "not-a-baud-rate" => ended("Set Baud Rate 0A to group FF", "ready"),
            "not-a-baud-rate-of-3f" => ended("Set Baud Rate 3F to group 80", "ready"),
            "not-a-baud-rate-unlisted" => ended("Set Baud Rate 55 to group FF", "ready"),
            "not-a-baud-rate-to-a-node" => ended("Set Baud Rate 3F to node 1", "ready"),
            "not-a-baud-rate-for-both" => ended("Set Baud Rate 14 to group FF", "ready"),
            "not-a-baud-rate-to-a-drive" => ended("Set Baud Rate 0A to node 2", "ready"),
            "not-a-baud-rate-in-walk" => ended("Set Baud Rate 0A to group FF", "walk at 0"),
            "not-a-baud-rate-while-waiting" => format!(
                "Set Baud Rate 0A to group FF | silence before it: \
                 node 2: outputs 0000 in doubt; {ENDS}; 2 nodes, ready"
            ),
            "not-a-drive-s"
            | "not-a-drive-s-0c"
            | "not-a-drive-s-address"
            | "not-a-drive-s-nibble"
            | "not-a-drive-s-count"
            | "not-a-drive-s-gains"
            | "not-a-drive-s-stop"
            | "not-a-gate-s"
            | "not-a-group-s-range" => ended("another command", "ready"),
            "not-a-mixed-group-s" => ended("Synch Output to group FF", "ready"),
            "not-a-mixed-group-s-pwm" => ended("Set PWM 18 40 to group FF", "ready"),
            "not-a-mixed-group-s-load" => {
                ended("Load Trajectory 11 position -00004E20 to group FF", "ready")
            }
            "not-node-9-s" => ended("Stop Motor 10 position -7FFFFFFF to node 9", "ready"),
            "not-node-9-s-05" => ended("Synch Output to node 9", "ready"),
            "not-address-00-s" => ended("Reset Position to address 00", "ready"),
            "not-node-3" => ended("Nop to node 3", "ready"),
            "not-node-16" => ended("Set Outputs 1234 to node 16", "ready"),
            "not-node-127" => ended("Hard Reset to node 127", "ready"),
            "not-address-00" => ended("Nop to address 00", "ready"),
            "not-set-again" => ended("Set Address 03 group FF to address 00", "ready"),
            "not-its-address" => ended("Set Address 02 group 80 to node 1", "ready"),
            "not-to-group" => ended("Set Address 01 group 80 leader to group FF", "ready"),
            "not-after-reset" => ended("Nop to node 1", "closed"),
            "not-while-waiting" => format!(
                "cut short | silence before it: node 2: outputs 0000 in doubt; {ENDS}; \
                 2 nodes, ready"
            ),
            "not-in-walk" => ended("Nop to node 1", "walk at 0"),
            "not-reset-in-walk" => ended("Hard Reset to group FF", "walk at 0"),
            "not-in-order" => ended("Set Address 02 group FF to address 00", "walk at 0"),
            "not-again-after-silence" => format!(
                "Set Address 01 group FF to address 00 | silence before it: \
                 node 1: place 00 group FF in doubt; {ENDS}; 2 nodes, walk at 0"
            ),
            "rises-past-half" => ended("cut short", "walk at 0"),
            "empty"
            | "newline-alone"
            | "no-count"
            | "bad-count-and-line"
            | "count-0"
            | "count-32"
            | "count-02"
            | "count-return"
            | "kinds-fewer"
            | "kinds-more"
            | "kinds-in-capitals"
            | "kinds-of-another-name"
            | "kinds-two-spaces"
            | "kinds-space-behind"
            | "kinds-comma"
            | "kinds-return"
            | "kinds-without-count"
            | "kinds-and-count-0" => {
                "the first line is not a node count, 1 to 31, alone or with the kind of each node"
                    .to_string()
            }
            "size-65537" | "size-65537-faulty" | "size-65537-no-count" => {
                "the recording is longer than 64 KiB".to_string()
            }
            "not-text" => "line 2: not a run of bytes".to_string(),
            "falls-before-bad-line" => "line 4: not a run of bytes".to_string(),
            "line-7" => "line 7: not a run of bytes".to_string(),
            "falls" => "line 6: its time is less than the one before it".to_string(),
            "falls-in-replies" => "line 5: its time is less than the one before it".to_string(),
            "falls-twice" => "line 4: its time is less than the one before it".to_string(),
            "falls-to-0" => "line 3: its time is less than the one before it".to_string(),
            _ => "line 3: not a run of bytes".to_string(),
        };
        assert_eq!(ending(&input), expected, "{name}");
    }
}

/// Made inputs are accepted, ended and refused in every way.
#[test]
fn made_recordings_tell_everything() {
    let told: Vec<String> = (0..600)
        .map(|seed| ending(&make_replay::make(seed, 40)))
        .collect();
    for words in [
        "end of the recording",
        "silence before it",
        "the walk ends",
        ", ready",
        ", walk at ",
        ", closed",
        "wrong sum",
        "cut short",
        "another command",
        "Set Baud Rate",
        "longer than 64 KiB",
        "1 to 31",
        "not a run of bytes",
        "its time is less",
    ] {
        let count = told.iter().filter(|one| one.contains(words)).count();
        assert!(count >= 4, "{words}: {count}");
    }
    let refused = told
        .iter()
        .filter(|one| one.contains("line ") || one.contains("1 to 31"));
    assert!(refused.count() < 240);
}
