//! Programs with G73: macros mirrored by each Q, one within the other, with letters left out, in first runs and in
//! parts, and places at the limits before the mirrors and after them.

use tolkjirp::Setting;

use crate::notation::{measure, written_for};
use crate::random::Random;

/// Blocks that may stand anywhere; a slash stands for a line feed.
const BLOCKS: &str = "X10.Y10. X20.T3 Y15. X25.Y-3.T7 X-0.5Y30.25 G91X1. G91Y-0.5T99 G90X12.5 G91 G90 M12 M13 M8 M0 \
    M01 G70X15. G70Y-2.T8 G70G91Y2. G72X30.Y40. G72Y5. G91G72X1. G28I1.J0K2 G28I2.5J33.33K3 G28I-1.J90.K2 \
    G29I5.J30.P45.K3T4 G29I0.01J30.P60.K6 A1G26I2.J10.K3 G26I7.25J0K-5 A2G36I2.P1J3.K2 G37I1.5P2J-2.K1 G66I5.J30.P2. \
    G66I4.J120.P-1.5D0.25 B1 B1 B2 G72X8./B1 G72X3.Y4./M0/G28I1.J45.K2 G72X3.Y4./G36I1.P2J1.K1 X1.Y1./G91X2./Y3./G90";

/// Distances of mirrors, in words with points.
const DISTANCES: [&str; 14] = [
    "0", "-0", "0.01", "-0.5", "30.", "33.33", "+60.", "60.5", "100.", "100.", "150.", "-35.", "-80.25", "0050.50",
];

/// G73 blocks that are refused wherever they stand, by 5, 6 or 10.
const FAULTS: &str = "G73 G73X1.Y1.Q1 G73X1.Y1.W60 G73X1.Y1.Q1W60T2 G90G73X1.Y1.Q1W60 G73X1.Y1.Q0W60 G73X1.Y1.Q5W60 \
    G73X1.Y1.Q1W0 G73X1.Y1.Q1W90 G73X1.Y1.Q4W77 A1G73X1.Y1.Q1W60 G73X1.Y1.Q+1W60 G73Q1W60N1 G73Q9W77 G73X1.Q1W60M0";

/// How far from zero a number or a place may lie, in hundredths.
const FARTHEST: i32 = 999_999;

/// A program for a setting.
pub fn mirrors(random: &mut Random, setting: Setting) -> Vec<u8> {
    let mut text = match random.below(10) {
        0..=2 => near_limits(random, setting),
        3..=5 => written_for(setting, &in_parts(random)),
        _ => written_for(setting, &in_macros(random)),
    };
    if random.one_in(10) {
        text.push_str(&written_for(setting, &picked(random, FAULTS)));
    }
    text.push_str("G50\n");
    text.into_bytes()
}

/// One of some blocks, with its line feed; a slash stands for another.
fn picked(random: &mut Random, blocks: &str) -> String {
    let blocks: Vec<&str> = blocks.split_whitespace().collect();
    format!("{}\n", random.pick(&blocks).replace('/', "\n"))
}

/// Macros that mirror others, run at their U line or called, with blocks between.
fn in_macros(random: &mut Random) -> String {
    let mut text = beginning(random);
    text.push_str(&macro_with(random, 61, &[60]));
    text.push_str(&macro_with(random, 62, &[60, 61]));
    for _ in 0..2 + random.below(5) {
        text.push_str(&match random.below(10) {
            0 => picked(random, "G93X150. G93Y210.5 G93X200.Y180. G90G93X160."),
            1 => macro_with(random, 1, &[60, 61]),
            2 => macro_with(random, 60, &[]),
            3 => blocks(random, 2),
            _ => call(random, &[60, 60, 61, 61, 62]),
        });
    }
    text.push_str(&blocks(random, 2));
    text
}

/// A part with mirrors over a layout, run once or a few times.
fn in_parts(random: &mut Random) -> String {
    let mut text = beginning(random);
    text.push_str(&macro_with(random, 61, &[60]));
    let (columns, rows) = (random.below(4), random.below(3));
    let pitches = random.pick(&["I60.J50.", "I60.J50.D0.5", "", "I5.", "J7.25", "I100.J80."]);
    text.push_str(&format!("G93X20.\nG98X150.Y160.{pitches}P{columns}K{rows}\n"));
    text.push_str(&macro_with(random, 1, &[60, 60, 61]));
    for _ in 0..1 + random.below(3) {
        text.push_str(&blocks(random, 1));
        let (code, corner) = (random.pick(&[75, 76]), 1 + random.below(4));
        text.push_str(&format!("G{code}W{}Q{corner}\n", random.pick(&[1, 1, 1, 60, 61])));
        if random.one_in(2) {
            text.push_str(&call(random, &[60, 61, 1]));
        }
    }
    text.push_str(&blocks(random, 2));
    text
}

/// G92, an origin on the sheet, usually a tool and patterns in two memories, macro 60, and usually a G73 with both
/// letters.
fn beginning(random: &mut Random) -> String {
    let machine = random.pick(&["G92X600.Y600.\n", "G92X1000.Y600.\n"]);
    let origin = random.pick(&[
        "G93X200.Y200.\n",
        "G93X200.Y200.\n",
        "G93X180.25Y220.\n",
        "G93X300.\n",
        "",
    ]);
    let tool = match random.below(15) {
        0 => "",
        1 => "G70X1.Y1.T2\n",
        _ => "X1.Y1.T2\nA1G28I1.5J60.K2\nA2G29I3.J0P45.K2\n",
    };
    let body = macro_with(random, 60, &[]);
    let first = if random.one_in(4) {
        String::new()
    } else {
        mirror(random, 60, "")
    };
    format!("{machine}{origin}{tool}{body}{first}")
}

/// So many blocks at most.
fn blocks(random: &mut Random, most: usize) -> String {
    (0..random.below(most + 1)).map(|_| picked(random, BLOCKS)).collect()
}

/// A macro with calls of others among its blocks.
fn macro_with(random: &mut Random, number: i32, called: &[i32]) -> String {
    let mut body = blocks(random, 3);
    if !called.is_empty() {
        for _ in 0..1 + random.below(3) {
            body.push_str(&call(random, called));
            body.push_str(&blocks(random, 2));
        }
    }
    format!("U{number}\n{body}V{number}\n")
}

/// W or, more often, G73 of one of some macros.
fn call(random: &mut Random, called: &[i32]) -> String {
    let number = random.pick(called);
    if random.one_in(5) {
        return format!("W{number}\n");
    }
    let left_out = random.pick(&["", "", "X", "Y", "XY"]);
    mirror(random, number, left_out)
}

/// A G73 with the letters that are not left out; now and then G91 or a block number stands before it.
fn mirror(random: &mut Random, number: i32, left_out: &str) -> String {
    let mut words = vec![
        "G73".to_string(),
        format!("W{number}"),
        format!("Q{}", 1 + random.below(4)),
    ];
    for letter in ['X', 'Y'] {
        if !left_out.contains(letter) {
            words.push(format!("{letter}{}", random.pick(&DISTANCES)));
        }
    }
    if random.one_in(2) {
        random.shuffle(&mut words);
    }
    let before = random.pick(&["", "", "", "", "", "", "G91\n", "N5"]);
    format!("{before}{}\n", words.concat())
}

/// A block in mirrors, whose place as written or after all of them is at a limit, or one hundredth from there.
fn near_limits(random: &mut Random, setting: Setting) -> String {
    let at = |hundredths| measure(setting, hundredths);
    let (width, right) = random.pick(&[(600, 61_020), (1_000, 101_020)]);
    let (x, y, q) = random.pick(&[('X', 'Y', 2), ('Y', 'X', 3), ('X', 'Y', 4), ('Y', 'X', 4)]);
    let right = if x == 'X' { right } else { 61_020 };
    let origin = origin(random);
    let mut place = image(random, right) - origin;
    let mut calls = Vec::new();
    for _ in 0..random.pick(&[1, 1, 1, 2, 2, 3, 4]) {
        let inner = before_mirror(random, place, origin);
        let distance = (place + inner).clamp(-FARTHEST, FARTHEST);
        calls.push(format!("G73{x}{}{y}0Q{q}", at(distance)));
        place = inner;
    }
    let block = block_at(random, &format!("{x}{}", at(place)), y);
    let mut text = format!("G92X{width}.Y600.\nG93{x}{}\nU60\n{block}V60\n", at(origin));
    let outermost = 60 + calls.len() - 1;
    for (number, call) in (60..outermost).zip(calls.iter().skip(1).rev()) {
        let next = number + 1;
        text.push_str(&format!("U{next}\n{call}W{number}\nV{next}\n"));
    }
    text.push_str(&format!("{}W{outermost}\n", calls[0]));
    text
}

/// An origin's coordinate, near or far.
fn origin(random: &mut Random) -> i32 {
    let near = random.within(0..=60_000);
    let far = random.within(-FARTHEST..=FARTHEST);
    random.pick(&[0, near, near, near, far, FARTHEST, -FARTHEST])
}

/// Where a place lies after all mirrors: at a limit of 15 or of the range, one hundredth from there, or on the sheet.
fn image(random: &mut Random, right: i32) -> i32 {
    let near = random.within(-1..=1);
    match random.below(5) {
        0 => random.pick(&[FARTHEST, -FARTHEST]) + near,
        1..=2 => random.pick(&[-1_020, right]) + near,
        _ => random.within(0..=60_000),
    }
}

/// A place, from the origin, that a mirror can turn into another: any, or one that is near the limit of 15.
fn before_mirror(random: &mut Random, place: i32, origin: i32) -> i32 {
    let (least, most) = (-FARTHEST - place, FARTHEST - place);
    let (least, most) = (least.clamp(-FARTHEST, FARTHEST), most.clamp(-FARTHEST, FARTHEST));
    let limit = random.pick(&[FARTHEST, -FARTHEST]) + random.within(-1..=1) - origin;
    let any = random.within(least..=most);
    random.pick(&[any, any, least, most, limit.clamp(least, most)])
}

/// Blocks with something at a place, or just beside it; the place is on one axis, and the other axis is at zero.
fn block_at(random: &mut Random, place: &str, other: char) -> String {
    let along = if other == 'Y' { "0" } else { "90." };
    match random.below(8) {
        0..=1 => format!("{place}{other}0T2\n"),
        2 => format!("G70{place}{other}0\n"),
        3 => format!("G91{place}T2\nG90{other}1.\n"),
        4 => format!("G72{place}\nG28I0.01J{along}K2T2\n"),
        5 => format!("G70{place}T2\nG72{other}1.\nG26I0.01J0K4\n"),
        6 => format!("G70{place}T2\nG36I0.01P1J0.01K1\nG28I-0.01J{along}K1\n"),
        _ => format!("{place}{other}1.T2\nG91{other}-1.\nM0\nG72{other}0.5\n"),
    }
}
