//! Texts near the limits: of the text, the blocks, the stored characters, the calls, the places.

use tolkjirp::Setting;

use crate::notation::{measure, written_for};
use crate::random::Random;

/// A program padded to 59,998 to 60,002 bytes.
pub fn long_text(random: &mut Random, program: Vec<u8>) -> Vec<u8> {
    let length = random.within(59_998..=60_002) as usize;
    let padding = random.pick(&["\n", " ", "M8\n", "M0\n", "G91X0.01Y-0.01\n", "G70X1.Y1.\n", "A"]);
    let mut text = program;
    let first_line = text.iter().position(|&byte| byte == b'\n');
    let missing = length.saturating_sub(text.len());
    let filling: Vec<u8> = padding.bytes().cycle().take(missing).collect();
    let place = match first_line {
        Some(end) if !random.one_in(3) => end + 1,
        _ => text.len(),
    };
    text.splice(place..place, filling);
    text
}

/// Bodies of 3,098 to 3,102 characters in all, one of them stored twice.
pub fn full_store(random: &mut Random) -> Vec<u8> {
    let mut missing = random.within(3_098..=3_102) as usize;
    let mut text = String::from("G92X600.Y600.\nX10.Y10.T2\n");
    let mut number = 60;
    if random.one_in(3) {
        text.push_str(&format!("U{number}\n{}V{number}\n", "M8\n".repeat(random.below(1_000))));
    }
    while missing > 0 {
        let size = if random.one_in(3) {
            missing
        } else {
            1 + random.below(missing)
        };
        text.push_str(&format!("U{number}\n{}V{number}\n", body_of(random, size)));
        missing -= size;
        number += 1;
    }
    text.push_str(random.pick(&["W60\n", "", "U1\nV1\n", "U1\n\nV1\n", "U60\nV60\nU2\nX1.\nV2\n"]));
    text.push_str("G50\n");
    text.into_bytes()
}

/// A body of so many characters.
fn body_of(random: &mut Random, size: usize) -> String {
    let mut body = String::new();
    let mut left = size;
    while left > 0 {
        let line = random.pick(&["M8\n", "\n", "X1.\n", "  M 9 \n", "   \n", " M01\n", "G70X2.Y2.\n"]);
        let characters = line.bytes().filter(|&byte| byte != b' ').count();
        if characters <= left {
            body.push_str(line);
            left -= characters;
        }
    }
    body
}

/// Macros that call one another, three to six deep.
pub fn deep_calls(random: &mut Random, setting: Setting) -> Vec<u8> {
    let depth = random.within(3..=6);
    let mut text = String::from("G92X600.Y600.\nX10.Y10.T2\n");
    for level in 1..depth {
        let number = 60 + level;
        let call = if level == 1 {
            random
                .pick(&[
                    "",
                    "X20.\n",
                    "M8\n",
                    "M0\n",
                    "W77\n",
                    "W5\n",
                    "G28I1.J0K3\n",
                    "G66I3.J0P2.\n",
                    "G73X1.Y1.Q2W77\n",
                ])
                .to_string()
        } else {
            one_call(random, number - 1)
        };
        let before = random.pick(&["", "M8\n", "M1\n", "G91X0.5\n"]);
        text.push_str(&format!("U{number}\n{before}{call}V{number}\n"));
    }
    let last = 60 + depth - 1;
    let call = one_call(random, last);
    text.push_str(&match random.below(4) {
        0 => call,
        1 => format!("U5\n{call}V5\nW5\n"),
        2 => format!("G98X10.Y10.I20.P2\nG75W{last}Q2\n"),
        _ => format!("U5\n{call}V5\nG98X10.Y10.J20.K2\nG76W5Q3\n"),
    });
    text.push_str("G50\n");
    written_for(setting, &text).into_bytes()
}

/// W or G73 of a macro, usually with both letters.
fn one_call(random: &mut Random, number: i32) -> String {
    let distances = match random.below(8) {
        0..=3 => return format!("W{number}\n"),
        4 => random.pick(&["", "X30.", "Y40."]),
        _ => random.pick(&["X30.Y40.", "X20.5Y10.", "Y0X50."]),
    };
    format!("G73{distances}Q{}W{number}\n", 1 + random.below(4))
}

/// What comes when the blocks are spent, or nearly; a slash stands for a line feed.
const LAST_BLOCKS: &str = "G50 G50 G50 W64 W64 G50/M0 G50/V5 G50/V95 G50/X V5 V5 V95 W60/G50 M8 X U61/V62 U60/V60 \
    M0 M0/G50 M1/M0/G50 G98X9999.Y1.I1.P1/G75W60Q1/G50 G66I1.J0P1. G66I1.J0P1./G50 G73X1.Y1.Q2W60/G50 G73Q1W60 \
    G73X1.Y1.Q3W64 G50/G73Q1W60";

/// Blocks near 100,000, through nested macros or through copies.
pub fn many_blocks(random: &mut Random) -> Vec<u8> {
    let mut text = format!("G92X600.Y600.\nU60\n{}V60\n", "M8\n".repeat(10));
    for number in 61..=63 {
        let calls = format!("W{}\n", number - 1).repeat(10);
        text.push_str(&format!("U{number}\n{calls}V{number}\n"));
    }
    let fault = random.pick(&["X", "G0", "X1T0", "G50", "W77", "X1"]);
    text.push_str(&format!("U64\n{fault}\nV64\n"));
    let mut missing = random.within(99_997..=100_001) - 6;
    if random.one_in(2) {
        text.push_str("G98X1.Y1.I0.01J0.01P89K99\nG75W60Q1\n");
        missing -= 90_002;
    }
    let code = random.pick(&["", "", "G73X1.Y1.Q2"]);
    for (call, blocks) in [("W63\n", 11_111), ("W62\n", 1_111), ("W61\n", 111), ("W60\n", 11)] {
        text.push_str(&format!("{code}{call}").repeat((missing / blocks) as usize));
        missing %= blocks;
    }
    text.push_str(&"M9\n".repeat(missing as usize));
    let last: Vec<&str> = LAST_BLOCKS.split_whitespace().collect();
    text.push_str(&random.pick(&last).replace('/', "\n"));
    text.into_bytes()
}

/// Sums that come to the farthest place, or one beyond.
pub fn far_places(random: &mut Random, setting: Setting) -> Vec<u8> {
    let at = |hundredths| measure(setting, hundredths);
    let beyond = random.within(-1..=1);
    let first = random.within(1..=999_998);
    let second = (999_999 + beyond - first).min(999_999);
    let mut text = String::from("G92X600.Y600.\nX10.Y10.T2\n");
    let columns = random.within(1..=99);
    let pitch = first / columns;
    let rest = at(999_999 + beyond - columns * pitch);
    let (x, y) = random.pick(&[('X', 'Y'), ('Y', 'X')]);
    let corner = 1 + random.below(4);
    let (pitch, ninety) = (at(pitch), at(9_000));
    text.push_str(&match random.below(10) {
        0 => format!("G93{x}{}\nG98{x}{}{y}0\n", at(first), at(second.max(0))),
        1 => format!("G98{x}{}{y}0\nG93{x}{}\n", at(first), at(second)),
        2 => format!("G93{x}{}\nG72{x}{}\n", at(first), at(second)),
        3 => format!("G93{x}{}\nG72{x}{}\nG28I{}J0K1\n", at(-first), at(-second), at(1)),
        4 => format!("G91G72{x}{}\nG36I0P0J0K0\n", at(998_999 + beyond)),
        5 => format!("G28I{pitch}J45.K{columns}\nG72{x}{rest}\nG28I{pitch}J{ninety}K{columns}\n"),
        6 => format!("U60\nV60\nG98X{rest}Y5I{pitch}P{columns}K1\nG75W60Q{corner}\n"),
        7 => format!("U60\nM8\nV60\nG98X5Y{rest}J{pitch}P1K{columns}D0\nG76W60Q{corner}\n"),
        8 => {
            // 50.5 along and 0.5 across, which are 51 and 1
            let (start, angle) = (at(999_948 + beyond), if x == 'X' { "0" } else { "90." });
            format!("G72{x}{start}{y}0\nG66I1.52J{angle}P1.01Q0.01\n")
        }
        _ => {
            let radius = at(random.within(1..=2));
            format!("G36I{pitch}P{columns}J0K0\nG72X9999.99\nG26I{radius}J0K1\n")
        }
    });
    text.push_str("G50\n");
    text.into_bytes()
}

/// Hits and moves at the ends of both machines' ranges, or one beyond.
pub fn range_ends(random: &mut Random, setting: Setting) -> Vec<u8> {
    let (width, right) = random.pick(&[(600, 61_020), (1_000, 101_020)]);
    let mut text = format!("G92X{width}.Y600.\n");
    for number in 0..1 + random.below(5) {
        let (letter, end) = random.pick(&[('X', -1_020), ('X', right), ('Y', -1_020), ('Y', 61_020)]);
        let inward = if end < 0 { 1 } else { -1 };
        let place = measure(setting, end + inward * random.pick(&[0, 0, 0, 0, 1, -1]));
        let code = random.pick(&["", "", "G90", "G70", "G70G90"]);
        text.push_str(&format!("{code}{letter}{place}T{}\n", 1 + number));
        if random.one_in(3) {
            let pattern = random.pick(&[
                "G28I0.01J0K2\n",
                "G29I0.01J0P90.K4\n",
                "G26I0.02J45.K-4\n",
                "G36I0.01P1J-0.01K1\n",
                "G66I1.52J0P1.01Q0.01D0.5\n",
                "G66I1.52J-90.P-1.01Q-0.01D0.5\n",
            ]);
            text.push_str(pattern);
        }
    }
    text.push_str("G50\n");
    text.into_bytes()
}

/// Lines, arcs, circles and shears with large radii or lengths and any angles, most of them on the sheet.
pub fn wide_patterns(random: &mut Random, setting: Setting) -> Vec<u8> {
    let mut text = String::from("G92X600.Y600.\nX300.Y300.T2\n");
    for _ in 0..1 + random.below(3) {
        let unit = random.pick(&[1, 100]);
        let mut within = |least: i32, most: i32| unit * random.within(least / unit..=most / unit);
        let radius = within(unit, 30_000);
        let angle = measure(setting, within(-999_999, 999_999));
        let step = measure(setting, within(-40_000, 40_000));
        let x = measure(setting, within(30_100, 30_999));
        let y = measure(setting, within(30_100, 30_999));
        let count = random.within(1..=999);
        let pitch = measure(setting, random.within(-radius..=radius) / count);
        let side = random.pick(&[1, -1]);
        let length = radius.max(200);
        let width = random.within(101..=2 * length / 3);
        let extra = measure(setting, random.within((width - length) / 2..=300));
        let [along, across] = [width, random.within(1..=3_000)].map(|size| measure(setting, side * size));
        let length = measure(setting, length);
        let radius = measure(setting, radius);
        let pattern = match random.below(6) {
            0 => format!("G26I{radius}J{angle}K{count}"),
            1 => format!("G26I{radius}J{angle}K-{count}"),
            2 => format!("G29I{radius}J{angle}P{step}K{count}"),
            3 => format!("G28I{pitch}J{angle}K{count}"),
            4 => format!("G66I{length}J{angle}P{along}"),
            _ => format!("G66I{length}J{angle}P{along}Q{across}D{extra}"),
        };
        let stop = random.pick(&["", "", "", "M0\n", "M01\n"]);
        text.push_str(&format!("G72X{x}Y{y}\n{stop}{pattern}\n"));
    }
    text.push_str("G50\n");
    text.into_bytes()
}

/// Blocks that change the state before a run.
const BEFORE_RUN: &str =
    "G72X300.Y300. M12 G91 G93X3.Y-2. A2G26I4.J0K3 T5X200.Y200. U2/X1./V2 U2/M1/V2 B1 A2G66I4.J0P-2.5 M0 G72X9./M1";

/// Blocks that change or show the state within a part.
const IN_PART: &str = "X10.Y10. B1 B1 B2 M12 M13 G91X1. G90Y5.T7 G72X3.Y4. A1G36I2.P1J2.K1 A1G28I1.5J90.K3 W60 \
    G70X2.T9 G91 G90 A2G29I3.J0P45.K3 G72Y1. G90G72X5. A1G66I3.J30.P2. G66I4.J120.P1.5D0.25T6 G91G66I3.J0P-2. \
    M0 M01 G72X6.Y5./M00 G72X4./M1/B1 G73X20.Y10.Q2W60 G73X9.5Y-3.Q4W60 G73Q3W60 G73X7.Q2W60 G73Y4.Q4W60 \
    G72X3./G73Q1W60";

/// Blocks that show the state after a run.
const AFTER_RUN: &str = "B1 B2 G28I2.J0K2 G66I3.J45.P2.D-0.25 X-1. G91X1. G90X5. W60 Y3.T8 G72X1.Y1. G93X1. M8 M0 \
    M1/B1 G73Q2W60 G73X4.Q4W60";

/// A layout with a part that changes all of the state, and blocks that show the state afterwards.
pub fn layout_states(random: &mut Random, setting: Setting) -> Vec<u8> {
    let mut text = String::from("G92X600.Y600.\nG70X400.Y400.\nA1G28I5.J30.K2T3\n");
    add_blocks(random, &mut text, BEFORE_RUN, 2);
    let (columns, rows) = (random.below(4), random.below(4));
    let gap = random.pick(&["", "D0.5", "D3."]);
    text.push_str(&format!("G98X80.Y90.I60.J50.P{columns}K{rows}{gap}\n"));
    text.push_str("U60\nG28I1.J0K2\nV60\nU1\n");
    add_blocks(random, &mut text, IN_PART, 6);
    text.push_str("V1\n");
    for _ in 0..1 + random.below(2) {
        add_blocks(random, &mut text, BEFORE_RUN, 1);
        text.push_str(random.pick(&["", "G73X12.Y7.25Q1W60\n"]));
        let code = random.pick(&[75, 76]);
        text.push_str(&format!("G{code}W1Q{}\n", 1 + random.below(4)));
        add_blocks(random, &mut text, AFTER_RUN, 2);
    }
    text.push_str("G50\n");
    written_for(setting, &text).into_bytes()
}

/// Adds so many blocks at most; a slash stands for a line feed.
fn add_blocks(random: &mut Random, text: &mut String, blocks: &str, most: usize) {
    let blocks: Vec<&str> = blocks.split_whitespace().collect();
    for _ in 0..random.below(most + 1) {
        text.push_str(&random.pick(&blocks).replace('/', "\n"));
        text.push('\n');
    }
}
