//! Programs that change tools often: in positions, moves and patterns, in bodies and parts, with stops between, and some
//! that are refused after their hits.

use tolkjirp::Setting;

use crate::notation::written_for;
use crate::random::Random;

/// Blocks that may stand anywhere; a bar stands for a tool, a slash for a line feed.
const BLOCKS: &str = "X10.T| X11.Y10.T| Y12.T| X13. Y14. G91X0.5T| G90X15.T| T|X16. N5X17.T| G70X18.T| G70Y19.T| \
    G28I1.J0K3T| G28I1.J90.K2 A1G26I2.J0K3T| A1G28I0.5J45.K2 B1 B1 G29I3.J30.P45.K2T| G36I2.P1J2.K1T| G37I1.P2J1.K0 \
    G36I0P0J0K0T| G66I3.J0P2.T| G72X20.Y21./G26I1.J0K4T| G72X22./M1/B1 X10.T|/X12.T| X11.T|/M0/X13.T|/M1/X14.T| M12 M13 \
    G91 G90 M8";

/// Stops and optional stops.
const STOPS: [&str; 6] = ["M0", "M00", "M01", "M1", "N7M0", "M001"];

/// What a program is refused by after its hits; a slash stands for a line feed.
const FAULTS: &str = "X G0 X1.T0 X1.T100 G50/M0 V5 W77 G72X0./G28I9999.J0K2 G90X-10.21 G66I1.J0P1. U60 B5 M2 G75W1Q1";

/// A program for a setting.
pub fn tools(random: &mut Random, setting: Setting) -> Vec<u8> {
    let palette = palette(random);
    let mut text = beginning(random, &palette);
    match random.below(8) {
        0 => there_and_back(random, &mut text),
        1..=4 => in_parts(random, &palette, &mut text),
        _ => in_macros(random, &palette, &mut text),
    }
    if random.one_in(5) {
        let faults: Vec<&str> = FAULTS.split_whitespace().collect();
        text.push_str(&random.pick(&faults).replace('/', "\n"));
        text.push('\n');
    }
    text.push_str("G50\n");
    written_for(setting, &text).into_bytes()
}

/// The tools of a program, most often two to five with the first or the last among them; now and then all of them.
fn palette(random: &mut Random) -> Vec<i32> {
    if random.one_in(6) {
        return (1..=99).collect();
    }
    let mut palette = vec![random.pick(&[1, 99, 99, 1, 50])];
    for _ in 0..1 + random.below(4) {
        let any = random.within(1..=99);
        palette.push(random.pick(&[1, 2, 98, 99, any, any, any, any]));
    }
    palette
}

/// A tool as it is written, now and then with zeros in front.
fn written(random: &mut Random, palette: &[i32]) -> String {
    let tool = random.pick(palette);
    let width = random.pick(&[0, 0, 0, 0, 0, 2, 3, 6]);
    format!("{tool:0width$}")
}

/// G92, and usually a tool and a pattern in memory 1.
fn beginning(random: &mut Random, palette: &[i32]) -> String {
    let code = random.pick(&["", "G70"]);
    let tool = format!("{code}X30.Y31.T{}\n", written(random, palette));
    let first = match random.below(12) {
        0 => String::new(),
        1 => tool,
        _ => format!("{tool}A1G28I1.5J90.K2\n"),
    };
    format!("G92X600.Y600.\n{first}")
}

/// All tools one after the other, up and down or down and up, with stops between.
fn there_and_back(random: &mut Random, text: &mut String) {
    let is_down_first = random.one_in(2);
    let times = random.pick(&[2, 5, 30]);
    for number in (1..=99).chain((1..=99).rev()) {
        let tool = if is_down_first { 100 - number } else { number };
        text.push_str(&format!("X{}.T{tool}\n", 10 + tool));
        if random.one_in(times) {
            text.push_str(random.pick(&["M0\n", "M01\n"]));
        }
    }
}

/// A part that changes tools over a layout, run a few times with other blocks between.
fn in_parts(random: &mut Random, palette: &[i32], text: &mut String) {
    add_macro(random, palette, text, 61, "");
    let (columns, rows) = (random.below(5), random.below(4));
    let pitches = random.pick(&["I60.J50.", "I60.J50.D0.5", "", "I5.", "J7.25"]);
    text.push_str(&format!("G98X80.Y90.{pitches}P{columns}K{rows}\n"));
    let call = random.pick(&["", "", "W61\n", "G73X40.Y30.Q2W61\n"]);
    add_macro(random, palette, text, 1, call);
    for _ in 0..1 + random.below(3) {
        add_blocks(random, palette, text, 2);
        let (code, corner) = (random.pick(&[75, 76]), 1 + random.below(4));
        text.push_str(&format!("G{code}W{}Q{corner}\n", random.pick(&[1, 1, 61])));
    }
    add_blocks(random, palette, text, 3);
}

/// Macros that change tools, run at their U line or called, one of them within another, with blocks between.
fn in_macros(random: &mut Random, palette: &[i32], text: &mut String) {
    add_blocks(random, palette, text, 4);
    add_macro(random, palette, text, 60, "");
    add_macro(random, palette, text, 2, "W60\n");
    for _ in 0..1 + random.below(5) {
        text.push_str(random.pick(&[
            "",
            "W60\n",
            "W2\n",
            "W60\nW60\n",
            "G93X1.Y2.\n",
            "G73X90.Y80.Q4W60\n",
            "G73X70.Y60.Q1W2\n",
        ]));
        add_blocks(random, palette, text, 3);
    }
}

/// A macro whose body ends with a line.
fn add_macro(random: &mut Random, palette: &[i32], text: &mut String, number: u8, last: &str) {
    text.push_str(&format!("U{number}\n"));
    add_blocks(random, palette, text, 6);
    text.push_str(&format!("{last}V{number}\n"));
}

/// So many blocks at most, one in four a stop.
fn add_blocks(random: &mut Random, palette: &[i32], text: &mut String, most: usize) {
    let blocks: Vec<&str> = BLOCKS.split_whitespace().collect();
    for _ in 0..random.below(most + 1) {
        if random.one_in(4) {
            text.push_str(random.pick(&STOPS));
        } else {
            for letter in random.pick(&blocks).chars() {
                match letter {
                    '|' => text.push_str(&written(random, palette)),
                    '/' => text.push('\n'),
                    _ => text.push(letter),
                }
            }
        }
        text.push('\n');
    }
}
