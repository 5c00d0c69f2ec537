//! G66 blocks near their limits: those of refusal 18, of the steps, of the sheet, and of the longest line.

use tolkjirp::Setting;

use crate::notation::measure;
use crate::random::Random;

/// The I, D and size of P of a G66 block, in hundredths.
struct Edge {
    length: i32,
    extra: i32,
    width: i32,
}

/// Sizes along the line, odd ones and even ones, from just above a millimetre on.
const WIDTHS: [i32; 14] = [
    101, 101, 102, 103, 149, 150, 151, 199, 200, 201, 333, 1_000, 1_001, 2_500,
];

/// Angles: quarter turns, with which halves stay, and others.
const ANGLES: [i32; 12] = [
    0, 9_000, 18_000, -9_000, 36_000, 3_000, 4_500, 6_000, 21_000, 3_130, -12_345, 999_999,
];

/// Directions of far starts: an angle, and its cosine and sine in millionths.
const FAR: [(i32, i64, i64); 7] = [
    (0, 1_000_000, 0),
    (9_000, 0, 1_000_000),
    (18_000, -1_000_000, 0),
    (-9_000, 0, -1_000_000),
    (4_500, 707_107, 707_107),
    (21_000, -866_025, -500_000),
    (3_130, 854_459, 519_519),
];

/// One to three G66 blocks near a limit, most of them on the sheet.
pub fn shears(random: &mut Random, setting: Setting) -> Vec<u8> {
    let mut text = random.pick(&["G92X600.Y600.\n", "G92X1000.Y600.\n"]).to_string();
    if !random.one_in(12) {
        text.push_str("G70X300.Y300.T2\n");
    }
    for _ in 0..1 + random.below(3) {
        text.push_str(&match random.below(12) {
            0 => longest_line(random, setting),
            1 => whole_sheet(random, setting),
            _ => near_limit(random, setting),
        });
    }
    text.push_str("G50\n");
    text.into_bytes()
}

/// A block with a number at one of its limits, or one hundredth from there; now and then it is run once more from memory.
fn near_limit(random: &mut Random, setting: Setting) -> String {
    let edge = edge(random);
    let angle = if random.one_in(4) {
        random.within(-36_000..=36_000)
    } else {
        random.pick(&ANGLES)
    };
    let at = |hundredths| measure(setting, hundredths);
    let origin = |random: &mut Random| {
        let (x, y) = (random.within(28_000..=32_000), random.within(28_000..=32_000));
        format!("G72X{}Y{}\n", at(x), at(y))
    };
    let block = block(random, setting, &edge, angle);
    if random.one_in(4) {
        let memory = 1 + random.below(5);
        let again = if random.one_in(2) {
            origin(random)
        } else {
            String::new()
        };
        return format!("{}A{memory}{block}\n{again}B{memory}\n", origin(random));
    }
    format!("{}{block}\n", origin(random))
}

/// An I, D and P near one of the limits.
fn edge(random: &mut Random) -> Edge {
    let near = random.within(-1..=1);
    let width = if random.one_in(3) {
        random.within(101..=3_000)
    } else {
        random.pick(&WIDTHS)
    };
    match random.below(6) {
        // P is a millimetre
        0 => Edge {
            length: random.within(150..=400),
            extra: random.pick(&[0, 0, 20, -20]),
            width: 100 + near,
        },
        // I is 1.5 times P
        1 => Edge {
            length: (3 * width + 1) / 2 + near,
            extra: random.within(-width / 4..=width),
            width,
        },
        // L is P
        2 => {
            let extra = -random.within(width / 4..=width);
            Edge {
                length: width - 2 * extra + near,
                extra,
                width,
            }
        }
        // all steps are the longest
        3..=4 => {
            let longest = width - 50;
            let steps = random.within(1..=(20_000 / longest).min(60));
            let full = width + steps * longest + near;
            let most = (full - (3 * width + 1) / 2) / 2;
            let extra = random.within(-2 * width..=most.max(0));
            let extra = random.pick(&[0, extra]);
            Edge {
                length: full - 2 * extra,
                extra,
                width,
            }
        }
        // D is large, and the first hit lies before the start
        _ => Edge {
            length: random.within((3 * width + 1) / 2..=4 * width),
            extra: random.within(width / 2..=6_000),
            width,
        },
    }
}

/// A line with as many steps as there can be, or nearly, whose first hits are on the sheet.
fn longest_line(random: &mut Random, setting: Setting) -> String {
    let at = |hundredths| measure(setting, hundredths);
    let few = random.pick(&[1, 3, 900_000]);
    let mut long = || 999_999 - random.below(few) as i32;
    let edge = Edge {
        length: long(),
        extra: long(),
        width: random.pick(&[101, 101, 102]),
    };
    let (angle, cosine, sine) = random.pick(&FAR);
    let mut start = |part: i64| {
        let far = i64::from(edge.extra) * part / 1_000_000;
        at((far as i32 + random.within(-500..=20_000)).clamp(-999_999, 999_999))
    };
    let (x, y) = (start(cosine), start(sine));
    format!("G72X{x}Y{y}\n{}\n", block(random, setting, &edge, angle))
}

/// A line from one end of the range to the other, or one hundredth further.
fn whole_sheet(random: &mut Random, setting: Setting) -> String {
    let at = |hundredths| measure(setting, hundredths);
    let (x, y, angle, reach) = random.pick(&[
        (-1_020, 20_000, 0, 62_040),
        (-1_020, 20_000, 0, 102_040),
        (61_020, 20_000, 18_000, 62_040),
        (20_000, -1_020, 9_000, 62_040),
        (20_000, 61_020, -9_000, 62_040),
    ]);
    let width = random.pick(&WIDTHS);
    let edge = Edge {
        length: reach + random.pick(&[0, 0, 1, -1]),
        extra: width / 2,
        width,
    };
    let block = block(random, setting, &edge, angle);
    format!("G72X{}Y{}\n{block}\n", at(x), at(y))
}

/// Writes a block; seldom, P and Q don't have one sign.
fn block(random: &mut Random, setting: Setting, edge: &Edge, angle: i32) -> String {
    let at = |hundredths| measure(setting, hundredths);
    let side = random.pick(&[1, -1]);
    let along = match random.below(40) {
        0 => random.pick(&["0", "-0", "0.", "-0.00"]).to_string(),
        _ => at(side * edge.width),
    };
    let across = match random.below(24) {
        0..=9 => String::new(),
        10 => random.pick(&["Q0", "Q-0", "Q+0.", "Q-0.00"]).to_string(),
        11 => format!("Q{}", at(-side * edge.width)),
        12..=17 => format!("Q{}", at(side * random.within(1..=9))),
        _ => format!("Q{}", at(side * random.within(1..=3_000))),
    };
    let extra = match edge.extra {
        0 => random.pick(&["", "", "D0", "D-0"]).to_string(),
        extra => format!("D{}", at(extra)),
    };
    let reading = random.pick(&["", "", "", "", "", "", "G90", "G91"]);
    let tool = random.pick(&["", "", "", "", "T1", "T99"]);
    let (length, angle) = (at(edge.length), at(angle));
    format!("G66{reading}I{length}J{angle}P{along}{across}{extra}{tool}")
}
