//! Programs full of stops: by any writing of the code, in bodies and parts, between G72 and a pattern, and where the
//! list is nearly full.

use tolkjirp::Setting;

use crate::notation::written_for;
use crate::random::Random;

/// Stops and optional stops in several writings.
const STOPS: [&str; 12] = [
    "M00", "M00", "M0", "M000000", "N7M0", "M 0 0", "M01", "M01", "M1", "M000001", "N9999 M1", " M001 ",
];

/// Blocks that may stand beside stops anywhere; a slash stands for a line feed.
const BLOCKS: &str = "X10.Y10. X20.T3 Y15. G91X1. G91Y-0.5 G90X12. G91 G90 M12 M13 M8 M09 G70X15. G72X30.Y40. G72Y5. \
    G28I1.J0K2 A1G26I2.J0K3 A1G36I2.P1J2.K1T4 B1 B1 G66I3.J0P2. G72X8./B1 G29I5.J30.P45.K2";

/// Blocks that stand outside bodies; a slash stands for a line feed, a bar for a stop.
const OUTSIDE: &str = "G93X1.Y2. U60/|/V60 U60/|/|/X5./V60/W60 U1/|/V1 U2/X3.T5/|/V2 U3/G72X9.Y9./|/V3/B1 W60 W1 W2 \
    U60/|/X7./|/V60/G73X90.Y70.Q4W60";

/// The places of the usual list.
const PLACES: i32 = 4_096;

/// A program for a setting in which about half of the blocks are stops, or one that nearly fills the usual list.
pub fn stops(random: &mut Random, setting: Setting) -> Vec<u8> {
    let text = match random.below(16) {
        0 => full_list(random),
        1..=7 => in_parts(random),
        _ => among_blocks(random),
    };
    written_for(setting, &text).into_bytes()
}

/// Stops between blocks outside bodies and in short macros.
fn among_blocks(random: &mut Random) -> String {
    let mut text = beginning(random);
    for _ in 0..1 + random.below(10) {
        if random.one_in(4) {
            let outside: Vec<&str> = OUTSIDE.split_whitespace().collect();
            let lines = random.pick(&outside).replace('|', random.pick(&STOPS));
            text.push_str(&lines.replace('/', "\n"));
            text.push('\n');
        } else {
            text.push_str(&block(random));
        }
    }
    text.push_str("G50\n");
    text
}

/// A part with stops over a layout, run once or a few times.
fn in_parts(random: &mut Random) -> String {
    let mut text = beginning(random);
    let (columns, rows) = (random.below(4), random.below(4));
    let pitches = random.pick(&["I60.J50.", "I60.J50.D0.5", "", "I5.", "J7.25"]);
    text.push_str(&format!("G98X80.Y90.{pitches}P{columns}K{rows}\n"));
    text.push_str(&macro_with_stops(random, 61, ""));
    let call = random.pick(&["", "W61\n", "G73X50.Y40.Q4W61\n"]);
    text.push_str(&macro_with_stops(random, 1, call));
    for _ in 0..1 + random.below(3) {
        for _ in 0..random.below(3) {
            text.push_str(&block(random));
        }
        let (code, corner) = (random.pick(&[75, 76]), 1 + random.below(4));
        text.push_str(&format!("G{code}W{}Q{corner}\n", random.pick(&[1, 1, 61])));
    }
    for _ in 0..random.below(3) {
        text.push_str(&block(random));
    }
    text.push_str("G50\n");
    text
}

/// About as many entries as the usual list has places, by copies and calls of a body and by single blocks.
fn full_list(random: &mut Random) -> String {
    let mut missing = random.within(PLACES - 2..=PLACES + 2);
    let size = random.within(1..=40);
    let entries = |random: &mut Random, count| -> String {
        let entry = |_| format!("{}\n", random.pick(&["M0", "M00", "M1", "X1.", "Y2."]));
        (0..count).map(entry).collect()
    };
    let mut text = format!("G92X600.Y600.\nG70X10.Y10.T2\nU60\n{}V60\n", entries(random, size));
    if random.one_in(2) {
        let columns = random.within(1..=100);
        let rows = (missing / size / columns).min(100);
        if rows > 0 {
            let (code, corner) = (random.pick(&[75, 76]), 1 + random.below(4));
            let layout = format!("G98X5.Y6.I0.5J0.25P{}K{}", columns - 1, rows - 1);
            text.push_str(&format!("{layout}\nG{code}W60Q{corner}\n"));
            missing -= rows * columns * size;
        }
    }
    text.push_str(&"W60\n".repeat((missing / size) as usize));
    text.push_str(&entries(random, missing % size));
    text.push_str("G50\n");
    text
}

/// G92, usually a tool, and one time in four a pattern in memory 1.
fn beginning(random: &mut Random) -> String {
    let tool = random.pick(&[
        "",
        "G70X100.Y90.T2\n",
        "G70X100.Y90.T2\n",
        "X100.Y90.T2\nA1G28I1.5J90.K2\n",
    ]);
    format!("G92X600.Y600.\n{tool}")
}

/// A macro with stops in its body, which ends with a line.
fn macro_with_stops(random: &mut Random, number: u8, last: &str) -> String {
    let blocks: String = (0..random.below(6)).map(|_| block(random)).collect();
    format!("U{number}\n{blocks}{last}V{number}\n")
}

/// A stop, or another block.
fn block(random: &mut Random) -> String {
    if random.one_in(2) {
        return format!("{}\n", random.pick(&STOPS));
    }
    let blocks: Vec<&str> = BLOCKS.split_whitespace().collect();
    format!("{}\n", random.pick(&blocks).replace('/', "\n"))
}
