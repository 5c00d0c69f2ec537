//! Blocks: which words stand together, and what their numbers may be.

use crate::layouts::{Corner, Layout};
use crate::mirrors::Symmetry;
use crate::order::Along;
use crate::patterns::{Pattern, TURN};
use crate::press::{Mode, Point, Reading, Tool};
use crate::refusal::Refusal;
use crate::setting::Setting;
use crate::shear::Shear;
use crate::words::{letters, Code, Number, Words};

/// The X and Y of a block, where they are named.
#[derive(Clone, Copy)]
pub struct Axes {
    pub x: Option<i32>,
    pub y: Option<i32>,
}

/// What a block asks for.
#[derive(Clone, Copy)]
pub enum Action {
    /// G92
    Machine(Point),
    /// X, Y: a position to punch at.
    Punch(Axes),
    /// G70: a position to move to.
    Move(Axes),
    /// A lone G90 or G91.
    Read,
    /// G72
    Origin(Axes),
    /// G93
    Offset(Axes),
    /// G98
    Layout(Layout),
    /// G26, G28, G29, G36, G37, G66, stored in a memory if A stands before.
    Pattern(Pattern, Option<u8>),
    /// B
    Memory(u8),
    /// W
    Call(u8),
    /// G73
    Mirror { number: u8, symmetry: Symmetry },
    /// G75, G76
    Copies { number: u8, along: Along, corner: Corner },
    /// M12, M13
    Mode(Mode),
    /// M00, or M01 if it is optional.
    Stop { is_optional: bool },
    /// M08, M09
    Nothing,
    /// G50
    End,
    /// A U line.
    Open(u8),
    /// A V line.
    Close(u8),
}

/// A block: what it asks for, with the words that may stand beside it.
#[derive(Clone, Copy)]
pub struct Block {
    pub reading: Option<Reading>,
    pub tool: Option<Tool>,
    pub action: Action,
}

/// What the letters and codes of a block say that it is.
#[derive(Clone, Copy, PartialEq)]
enum Kind {
    Position,
    Lone,
    M,
    B,
    W,
    U,
    V,
    /// A G code other than G90 and G91.
    G(i32),
}

/// The letters of a block with a G code.
struct Letters {
    /// All of these are there,
    required: u32,
    /// at least one of these, if there are any,
    choice: u32,
    /// and perhaps some of these.
    optional: u32,
    /// The codes that may stand beside it.
    beside: &'static [Reading],
}

const BOTH: &[Reading] = &[Reading::Absolute, Reading::Relative];
const N: u32 = letters(b"N");
const XY: u32 = letters(b"XY");
const XYT: u32 = letters(b"XYT");

/// The listed letters of each G code; once a G73 had X and Y, later ones may leave them out.
fn letters_of(code: i32, has_given: bool) -> Option<Letters> {
    let (required, choice, optional, beside): (u32, u32, u32, &[Reading]) = match code {
        26 | 28 => (letters(b"IJK"), 0, letters(b"AT"), BOTH),
        29 | 36 | 37 => (letters(b"IJPK"), 0, letters(b"AT"), BOTH),
        50 => (0, 0, 0, &[]),
        66 => (letters(b"IJP"), 0, letters(b"QDAT"), BOTH),
        70 => (0, XY, letters(b"T"), BOTH),
        72 => (0, XY, 0, BOTH),
        73 if has_given => (letters(b"WQ"), 0, XY, &[]),
        73 => (letters(b"WQXY"), 0, 0, &[]),
        75 | 76 => (letters(b"WQ"), 0, 0, &[]),
        92 => (XY, 0, 0, &[]),
        93 => (0, XY, 0, &[Reading::Absolute]),
        98 => (XY, 0, letters(b"IJPKD"), &[]),
        _ => return None,
    };
    Some(Letters {
        required,
        choice,
        optional,
        beside,
    })
}

impl Letters {
    fn allow(&self, set: u32) -> bool {
        set & self.required == self.required
            && (self.choice == 0 || set & self.choice != 0)
            && set & !(self.required | self.choice | self.optional) == 0
    }
}

impl Block {
    /// Reads a line as a block, with the X and Y of the last G73, if there was one; refusals 4, 5 and 6.
    pub fn read(words: &mut Words, given: Option<&Point>, line: &[u8]) -> Result<Block, Refusal> {
        words.read(line)?;
        let (kind, reading) = kind_of(words, given)?;
        if words.setting() == Setting::Millimetres {
            words.count_hundredths(measures_of(kind))?;
        }
        if let Some(number) = words.get(b'N') {
            whole(number, 0, 9999)?;
        }
        Ok(Block {
            reading,
            tool: tool_of(words)?,
            action: action_of(kind, words, given)?,
        })
    }
}

/// The kind of a block and the G90 or G91 in it; refusal 5.
fn kind_of(words: &Words, given: Option<&Point>) -> Result<(Kind, Option<Reading>), Refusal> {
    if words.is_misplaced() {
        return Err(Refusal::UnknownBlock);
    }
    let kind = match words.codes() {
        [] => plain_kind(words).map(|kind| (kind, None)),
        [code] => match reading_of(code) {
            Some(reading) => read_kind(words).map(|kind| (kind, Some(reading))),
            None => coded_kind(words, given, code, None),
        },
        [first, second] => match (reading_of(first), reading_of(second)) {
            (Some(reading), None) => coded_kind(words, given, second, Some(reading)),
            (None, Some(reading)) => coded_kind(words, given, first, Some(reading)),
            _ => None,
        },
        _ => None,
    };
    kind.ok_or(Refusal::UnknownBlock)
}

/// A G word's reading, if it is G90 or G91.
fn reading_of(code: &Code) -> Option<Reading> {
    match whole_code(code.number)? {
        90 => Some(Reading::Absolute),
        91 => Some(Reading::Relative),
        _ => None,
    }
}

/// A code without sign and point.
fn whole_code(number: Number) -> Option<i32> {
    number.is_bare().then_some(number.value)
}

/// A block without G: a position, or a letter that stands alone.
fn plain_kind(words: &Words) -> Option<Kind> {
    const M: u32 = letters(b"M");
    const B: u32 = letters(b"B");
    const W: u32 = letters(b"W");
    const U: u32 = letters(b"U");
    const V: u32 = letters(b"V");
    let set = words.letters() & !N;
    match set {
        M => matches!(whole_code(words.number(b'M'))?, 0 | 1 | 8 | 9 | 12 | 13).then_some(Kind::M),
        B => Some(Kind::B),
        W => Some(Kind::W),
        U if words.letters() == U => Some(Kind::U),
        V if words.letters() == V => Some(Kind::V),
        _ => is_position(set).then_some(Kind::Position),
    }
}

/// A block with G90 or G91 and no other code.
fn read_kind(words: &Words) -> Option<Kind> {
    match words.letters() & !N {
        0 => Some(Kind::Lone),
        set => is_position(set).then_some(Kind::Position),
    }
}

/// Whether letters are those of a position block: X or Y, and perhaps T.
fn is_position(set: u32) -> bool {
    set & XY != 0 && set & !XYT == 0
}

/// A block with another G code than G90 and G91.
fn coded_kind(
    words: &Words,
    given: Option<&Point>,
    code: &Code,
    reading: Option<Reading>,
) -> Option<(Kind, Option<Reading>)> {
    let number = whole_code(code.number)?;
    let listed = letters_of(number, given.is_some())?;
    let fits = listed.allow(words.letters() & !N)
        && reading.is_none_or(|reading| listed.beside.contains(&reading))
        && words.memory_place().is_none_or(|place| place < code.place);
    fits.then_some((Kind::G(number), reading))
}

/// The letters of a kind of block that are lengths or angles; its other numbers are whole.
fn measures_of(kind: Kind) -> u32 {
    match kind {
        Kind::Position | Kind::G(70 | 72 | 73 | 92 | 93) => XY,
        Kind::G(26 | 28 | 36 | 37) => letters(b"IJ"),
        Kind::G(29) => letters(b"IJP"),
        Kind::G(66) => letters(b"IJPQD"),
        Kind::G(98) => letters(b"XYIJD"),
        _ => 0,
    }
}

/// What a block of a kind asks for, with the X and Y of the last G73; refusal 6.
fn action_of(kind: Kind, words: &Words, given: Option<&Point>) -> Result<Action, Refusal> {
    let count = |letter, least, most| whole(words.number(letter), least, most);
    let macro_number = |letter| count(letter, 1, 89).map(|number| number as u8);
    Ok(match kind {
        Kind::Position => Action::Punch(axes_of(words)),
        Kind::Lone => Action::Read,
        Kind::M => m_action(words.number(b'M').value),
        Kind::B => Action::Memory(count(b'B', 1, 5)? as u8),
        Kind::W => Action::Call(macro_number(b'W')?),
        Kind::U => Action::Open(macro_number(b'U')?),
        Kind::V => Action::Close(macro_number(b'V')?),
        Kind::G(50) => Action::End,
        Kind::G(70) => Action::Move(axes_of(words)),
        Kind::G(72) => Action::Origin(axes_of(words)),
        Kind::G(93) => Action::Offset(axes_of(words)),
        Kind::G(92) => Action::Machine(point_of(words)),
        Kind::G(98) => Action::Layout(layout_of(words)?),
        Kind::G(73) => Action::Mirror {
            number: macro_number(b'W')?,
            symmetry: Symmetry::from_number(count(b'Q', 1, 4)?, distance_of(words, given)),
        },
        Kind::G(code @ (75 | 76)) => Action::Copies {
            number: macro_number(b'W')?,
            along: if code == 75 { Along::X } else { Along::Y },
            corner: Corner::from_number(count(b'Q', 1, 4)?),
        },
        Kind::G(code) => Action::Pattern(pattern_of(code, words)?, memory_of(words)?),
    })
}

fn axes_of(words: &Words) -> Axes {
    Axes {
        x: words.get(b'X').map(|number| number.value),
        y: words.get(b'Y').map(|number| number.value),
    }
}

fn point_of(words: &Words) -> Point {
    Point {
        x: words.number(b'X').value,
        y: words.number(b'Y').value,
    }
}

/// The X and Y of a G73; those that do not stand there are the last one's.
fn distance_of(words: &Words, given: Option<&Point>) -> Point {
    let Axes { x, y } = axes_of(words);
    let given = given.unwrap_or(&Point::ZERO);
    Point {
        x: x.unwrap_or(given.x),
        y: y.unwrap_or(given.y),
    }
}

/// What an M code asks for.
fn m_action(code: i32) -> Action {
    match code {
        0 => Action::Stop { is_optional: false },
        1 => Action::Stop { is_optional: true },
        12 => Action::Mode(Mode::Nibble),
        13 => Action::Mode(Mode::Punch),
        _ => Action::Nothing,
    }
}

fn tool_of(words: &Words) -> Result<Option<Tool>, Refusal> {
    match words.get(b'T') {
        Some(number) => Ok(Tool::new(whole(number, 1, 99)? as u8)),
        None => Ok(None),
    }
}

fn memory_of(words: &Words) -> Result<Option<u8>, Refusal> {
    match words.get(b'A') {
        Some(number) => Ok(Some(whole(number, 1, 5)? as u8)),
        None => Ok(None),
    }
}

/// The numbers of a pattern, by its code.
fn pattern_of(code: i32, words: &Words) -> Result<Pattern, Refusal> {
    let value = |letter| words.number(letter).value;
    let count = |letter, least| whole(words.number(letter), least, 999);
    Ok(match code {
        28 => Pattern::Line {
            pitch: value(b'I'),
            angle: value(b'J'),
            count: count(b'K', 1)?,
        },
        29 => Pattern::Arc {
            radius: above_zero(words.number(b'I'))?,
            angle: value(b'J'),
            step: value(b'P'),
            count: count(b'K', 1)?,
        },
        26 => Pattern::Circle {
            radius: above_zero(words.number(b'I'))?,
            angle: value(b'J'),
            count: circle_count(words.number(b'K'))?,
        },
        66 => Pattern::Shear {
            shear: Shear {
                length: value(b'I'),
                along: value(b'P'),
                across: words.get(b'Q').map_or(value(b'P'), |across| across.value),
                extra: value(b'D'),
            },
            angle: value(b'J').rem_euclid(TURN) as u16,
        },
        _ => Pattern::Grid {
            along: if code == 36 { Along::X } else { Along::Y },
            pitch: Point {
                x: value(b'I'),
                y: value(b'J'),
            },
            columns: count(b'P', 0)?,
            rows: count(b'K', 0)?,
        },
    })
}

/// The numbers of a G98 block, none of them negative.
fn layout_of(words: &Words) -> Result<Layout, Refusal> {
    let length = |letter| not_negative(words.number(letter));
    let count = |letter| whole(words.number(letter), 0, 99);
    let gap = length(b'D')?;
    Ok(Layout {
        reference: Point {
            x: length(b'X')?,
            y: length(b'Y')?,
        },
        pitch: Point {
            x: length(b'I')? + gap,
            y: length(b'J')? + gap,
        },
        columns: count(b'P')?,
        rows: count(b'K')?,
    })
}

/// A whole number within a range, without sign and point.
fn whole(number: Number, least: i32, most: i32) -> Result<i32, Refusal> {
    check(number.is_bare() && (least..=most).contains(&number.value), number.value)
}

/// The count of a circle, which may have a sign.
fn circle_count(number: Number) -> Result<i32, Refusal> {
    check(
        !number.has_point() && (1..=999).contains(&number.value.abs()),
        number.value,
    )
}

fn above_zero(number: Number) -> Result<i32, Refusal> {
    check(number.value > 0, number.value)
}

fn not_negative(number: Number) -> Result<i32, Refusal> {
    check(number.value >= 0, number.value)
}

fn check(is_right: bool, value: i32) -> Result<i32, Refusal> {
    if is_right {
        Ok(value)
    } else {
        Err(Refusal::NumberRange)
    }
}

#[cfg(test)]
mod tests {
    use super::*;

    fn refusal_after(given: Option<Point>, setting: Setting, line: &str) -> u8 {
        let block = Block::read(&mut Words::new(setting), given.as_ref(), line.as_bytes());
        block.map_or_else(|refusal| refusal as u8, |_| 0)
    }

    fn refusal(setting: Setting, line: &str) -> u8 {
        refusal_after(None, setting, line)
    }

    fn all_give_at(setting: Setting, number: u8, lines: &str) {
        for line in lines.split_whitespace() {
            assert_eq!(refusal(setting, line), number, "{line} {setting:?}");
        }
    }

    fn all_give(number: u8, lines: &str) {
        all_give_at(Setting::Hundredths, number, lines);
        all_give_at(Setting::Millimetres, number, lines);
    }

    #[test]
    fn listed_blocks_are_read() {
        all_give(
            0,
            "N5G92X600.Y600. X1 Y1T2 T2X1 G90X1 G91 N0G90 G70G91X1T2 G91G70Y1 G72X1 G90G93Y-1 G98X1Y1 \
             G98X1Y1I1J1P99K0D1 A1G28I1J1K1T9 G90A5G28I1J1K1 J1A2G26I1K-999 G29I1J1P-1.5K999 \
             G36I0P0J0K0 G37I-1P999J1K999 N9B5 N9W89 G75W1Q4 G076Q1W89 M0 M01 M000001 N7M8 M09 M013 G50 N9999G050 U1 V89 \
             X-0Y+0 G98X-0Y0 G66I1J1P1 A1G66I1J1P1Q1D1T9 D-1.5G90Q-2.P-2.A5G066J-1I0.01 G91G66I-0J0P0Q-1 N9D+1J1P1I1G66 \
             G73X1Y1Q1W1 G073W89Y-1.5X+2Q4 N9Q2W60X-0Y0G73 X1G73W1Q3Y1",
        );
    }

    #[test]
    fn other_sets_are_refused() {
        all_give(
            5,
            "N1 T2 G90T2 G70T2 X1N1 X1X2 N1U60 N1V60 U1N1 B1T2 B1X1 G28I1J1K1X1 G28I1J1 G28A1I1J1K1 \
             G28G90A1I1J1K1 A1X1 A1 G91G93X1 G90G92X1Y1 G92X1 G98X1 G90G98X1Y1 G90G90 G90G91X1 \
             G28G29I1J1P1K1 G90G91G70X1 G+28I1J1K1 G28.I1J1K1 M2 M+0 M0. M-1 M1. M10 M0X1 M0T2 M0M1 G90M0 G50X1 G75W1 G75W1Q1T1 \
             G72X1T1 G25 C1 U1V1 M0W1 G66 G66I1J1P1K1 G66I1J1Q1D1 G66I1P1Q1D1 G66J1P1Q1D1 G66A1I1J1P1 G66I1J1P1X1 \
             G66I1J1P1Q1Q1 G66I1J1P1W1 G66I1J1P1B1 G66G28I1J1P1K1 G90G91G66I1J1P1 G66.I1J1P1 G+66I1J1P1 I1J1P1Q1D1 \
             G28I1J1K1Q1 G28I1J1K1D1 G36I1J1P1K1Q1 G73 G73X1Y1 G73X1Y1Q1 G73X1Y1W1 G90G73X1Y1Q1W1 G73G91X1Y1Q1W1 \
             G73X1Y1Q1W1T2 A1G73X1Y1Q1W1 G73X1Y1Q1W1I1 G73X1Y1Q1W1B1 G73X1Y1Q1W1M0 G73X1X1Y1Q1W1 G73X1Y1Q1Q2W1 \
             G73X1Y1Q1W1N1 G73X1Y1Q1W1U1 G73G75X1Y1Q1W1 G73.X1Y1Q1W1 G-73X1Y1Q1W1 G74X1Y1Q1W1 X1Y1Q1W1",
        );
    }

    #[test]
    fn numbers_out_of_range_are_refused() {
        all_give(
            6,
            "N10000X1 N1.X1 X1T0 X1T100 X1T+2 X1T2. U0 U90 V90 W0 A6G28I1J1K1 A0G28I1J1K1 B0 B6 \
             G75W1Q5 G75W1Q0 G28I1J1K0 G28I1J1K1000 G28I1J1K-1 G26I1J1K0 G26I1J1K-0 G26I1J1K+1000 \
             G26I0J1K1 G26I-1J1K1 G29I0J1P1K1 G36I1J1P-1K1 G36I1J1P1000K1 G98X-1Y1 G98X1Y1D-1 \
             G98X1Y1P100 G98X1Y1K+1 A6G66I1J1P1 G66I1J1P1T0 G66I1J1P1T2. N10000G66I1J1P1 \
             G73X1Y1Q0W1 G73X1Y1Q5W1 G73X1Y1Q1.W1 G73X1Y1Q+1W1 G73X1Y1Q1W0 G73X1Y1Q1W90 G73X1Y1Q1W1. G73X1Y1Q-1W1 \
             N10000G73X1Y1Q1W1",
        );
    }

    #[test]
    fn lengths_and_angles_past_the_limit_are_refused_at_setting_0() {
        let lines = "X10000 Y-10000 X1Y010000T2 G90X999999 G70X-999999 G72Y10000 G92X60000Y60000 G92X600Y10000 \
             G93X10000 G98X10000Y1 G98X1Y10000 G98X1Y1I10000 G98X1Y1J10000 G98X1Y1D10000 G28I10000J0K1 \
             G28I0J-10000K1 G29I10000J0P0K1 G29I1J10000P0K1 G29I1J0P10000K1 G26I10000J0K1 G26I1J10000K1 \
             G36I10000P0J0K0 G36I0P0J10000K0 G37I-10000P0J0K0 G37I0P0J-10000K0 A1G28I0J10000K1 \
             G66I10000J0P2. G66I-10000J0P2. G66I1J10000P2. G66I1J0P10000 G66I1J0P-10000 G66I1J0P2.Q10000 \
             G66I1J0P2.D10000 G66I1J0P2.D-010000 G73X10000Y1Q1W1 G73X1Y-10000Q2W1";
        all_give_at(Setting::Millimetres, 6, lines);
        all_give_at(Setting::Hundredths, 0, lines);
    }

    #[test]
    fn lengths_and_angles_may_have_9999_at_setting_0() {
        all_give(
            0,
            "X9999Y-9999 X009999 G70X9999 G72Y-9999 G92X9999Y9999 G93X9999Y-9999 G98X9999Y9999I9999J9999D9999 \
             G28I-9999J9999K1 G29I9999J-9999P9999K1 G26I9999J9999K1 G36I9999P0J-9999K0 G37I-9999P0J009999K0 \
             X9999.99Y-9999.99 G28I9999.99J-9999.99K1 G66I9999J-9999P9999Q-9999D009999 G66I9999.99J9999.99P-9999.99 \
             G73X9999Y-9999Q1W1 G73X-9999.99Y009999Q4W89",
        );
    }

    #[test]
    fn whole_numbers_do_not_go_by_the_setting() {
        all_give(
            0,
            "N9999M0 X1T99 U89 W89 B5 G75W89Q4 G73X1Y1W89Q4 G28I1J1K999 G26I1J1K-999 G36I1P999J1K999 G98X1Y1P99K99",
        );
        all_give(
            6,
            "N10000M0 X1T10000 W10000 G28I1J1K10000 G36I1P10000J1K1 G98X1Y1P10000",
        );
    }

    #[test]
    fn form_comes_before_letters_and_letters_before_numbers() {
        all_give(4, "X1X C1T0N X1X1.234");
        all_give(5, "T100X1X1 N10000 X10000X1 G72X10000T1 G28I10000J1 G92X10000");
    }

    #[test]
    fn a_first_g73_has_both_letters() {
        // before 6, and whichever of them it uses
        all_give(
            5,
            "G73Q1W1 G73X1Q2W1 G73Y1Q3W1 G73X1Q1W1 G73Y1Q4W1 G73Q0W1 G73X10000Q9W90 N10000G73Q1W1",
        );
        all_give(4, "G73Q1W");
        for line in ["G73Q1W1", "G73X1Q3W1", "G73Y-1Q2W1", "N7W89Q4G73", "G73X1Y1Q4W1"] {
            let given = Some(Point { x: 5, y: -7 });
            assert_eq!(refusal_after(given, Setting::Hundredths, line), 0, "{line}");
        }
    }

    #[test]
    fn letters_left_out_are_the_last_ones() {
        let distance = |line: &str| {
            let given = Some(&Point { x: 5, y: -7 });
            let read = Block::read(&mut Words::new(Setting::Hundredths), given, line.as_bytes());
            match read.map(|block| block.action) {
                Ok(Action::Mirror { symmetry, .. }) => (symmetry.distance.x, symmetry.distance.y),
                _ => panic!("{line} is no G73"),
            }
        };
        assert_eq!(distance("G73Q1W1"), (5, -7));
        assert_eq!(distance("G73X1.Q1W1"), (100, -7));
        assert_eq!(distance("G73Y0Q4W1"), (5, 0));
        assert_eq!(distance("G73Y3X-2Q2W1"), (-2, 3));
    }
}
