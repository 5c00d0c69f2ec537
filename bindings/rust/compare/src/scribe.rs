//! Writing words and blocks in the many ways that the rules allow.

use tolkjirp::Setting;

use crate::random::Random;

/// How often values at the ends of their ranges are written.
#[derive(Clone, Copy, PartialEq)]
pub enum Temper {
    /// Never.
    Calm,
    /// Now and then.
    Edgy,
    /// Every other time.
    Wild,
}

/// Where spaces stand.
#[derive(Clone, Copy, PartialEq)]
enum Spacing {
    None,
    BetweenWords,
    Anywhere,
}

/// Writes a text for a setting.
pub struct Scribe {
    pub random: Random,
    pub temper: Temper,
    setting: Setting,
    pub text: Vec<u8>,
    spacing: Spacing,
    writes_plainly: bool,
}

/// Lengths at which something changes, in hundredths.
const EDGES: [i32; 20] = [
    0, 1, -1, -1_020, -1_021, 59_999, 60_000, 61_020, 61_021, 100_000, 101_020, 101_021, 939_999, 940_000, 899_999,
    900_000, 999_999, -999_999, 999_998, 499_999,
];

/// Whole millimetres or degrees at which setting 0 refuses, and those before them.
const WHOLE_EDGES: [i32; 6] = [9_999, -9_999, 10_000, -10_000, 99_999, 999_999];

impl Scribe {
    pub fn new(seed: u64, setting: Setting) -> Scribe {
        let mut random = Random::new(seed);
        let temper = match random.below(6) {
            0..=2 => Temper::Calm,
            3..=4 => Temper::Edgy,
            _ => Temper::Wild,
        };
        let spacing = random.pick(&[Spacing::None, Spacing::BetweenWords, Spacing::Anywhere]);
        let writes_plainly = random.one_in(2);
        Scribe {
            random,
            temper,
            setting,
            text: Vec::new(),
            spacing,
            writes_plainly,
        }
    }

    /// Whether a value at an end of its range is due.
    fn is_edge_due(&mut self) -> bool {
        match self.temper {
            Temper::Calm => false,
            Temper::Edgy => self.random.one_in(12),
            Temper::Wild => self.random.one_in(2),
        }
    }

    /// A length in hundredths, usually within the given limits.
    pub fn length(&mut self, least: i32, most: i32) -> i32 {
        if self.is_edge_due() {
            self.edge()
        } else {
            self.within(least, most)
        }
    }

    /// So many hundredths within limits; for setting 0 mostly whole millimetres or degrees.
    fn within(&mut self, least: i32, most: i32) -> i32 {
        match self.setting {
            Setting::Millimetres if !self.random.one_in(6) => {
                let least = (least + 99).div_euclid(100);
                100 * self.random.within(least..=most / 100)
            }
            _ => self.random.within(least..=most),
        }
    }

    /// A length or an angle at which something changes.
    fn edge(&mut self) -> i32 {
        match self.setting {
            Setting::Millimetres if self.random.one_in(4) => 100 * self.random.pick(&WHOLE_EDGES),
            _ => self.random.pick(&EDGES),
        }
    }

    /// A count within its range, usually a small one.
    pub fn count(&mut self, least: i32, most: i32) -> i32 {
        if self.is_edge_due() {
            self.random.pick(&[least, most, most - 1, most + 1, (least - 1).max(0)])
        } else {
            self.random.within(least..=most.min(least + 5))
        }
    }

    /// An angle in hundredths of a degree.
    pub fn angle(&mut self) -> i32 {
        if self.is_edge_due() {
            return self.edge();
        }
        match self.random.below(4) {
            0 => 100 * self.random.within(-360..=360),
            1 => 1_500 * self.random.within(-24..=24),
            2 => self.within(-36_000, 36_000),
            _ => self.within(-999_999, 999_999),
        }
    }

    /// A word with a length or an angle of so many hundredths.
    pub fn measure(&mut self, letter: char, value: i32) -> String {
        let sign = self.sign(value);
        let size = value.unsigned_abs();
        let digits = if self.is_point_due(size) {
            self.with_point(size)
        } else {
            self.without_point(size)
        };
        format!("{letter}{sign}{digits}")
    }

    /// The same, with a point.
    pub fn pointed(&mut self, letter: char, value: i32) -> String {
        let sign = self.sign(value);
        let digits = self.with_point(value.unsigned_abs());
        format!("{letter}{sign}{digits}")
    }

    /// Whether so many hundredths are to be written with a point, which takes fewer than a million.
    fn is_point_due(&mut self, size: u32) -> bool {
        match (self.setting, size % 100) {
            (Setting::Hundredths, 0) => !self.random.one_in(6),
            (Setting::Hundredths, _) => self.random.one_in(2),
            (Setting::Millimetres, 0) => size < 1_000_000 && self.random.one_in(6),
            (Setting::Millimetres, _) => true,
        }
    }

    /// The digits of so many hundredths without a point.
    fn without_point(&mut self, size: u32) -> String {
        match self.setting {
            Setting::Hundredths => self.padded(size, 6),
            Setting::Millimetres => self.padded(size / 100, 6),
        }
    }

    /// The digits of so many hundredths with a point.
    fn with_point(&mut self, size: u32) -> String {
        let decimals = size % 100;
        let decimals = match decimals {
            0 => self.random.pick(&["", "", "", "0", "00"]).to_string(),
            10 | 20 | 30 | 40 | 50 if self.random.one_in(2) => (decimals / 10).to_string(),
            _ => format!("{decimals:02}"),
        };
        format!("{}.{decimals}", self.padded(size / 100, 4))
    }

    /// A word with a whole number.
    pub fn whole(&mut self, letter: char, value: i32) -> String {
        let sign = if value < 0 { "-" } else { "" };
        format!("{letter}{sign}{}", self.padded(value.unsigned_abs(), 6))
    }

    /// A G or M word.
    pub fn code(&mut self, letter: char, code: i32) -> String {
        if self.random.one_in(20) {
            return format!("{letter}{}", self.padded(code as u32, 6));
        }
        format!("{letter}{code:02}")
    }

    fn sign(&mut self, value: i32) -> &'static str {
        if value < 0 {
            "-"
        } else if !self.writes_plainly && self.random.one_in(15) {
            if value == 0 {
                "-"
            } else {
                "+"
            }
        } else {
            ""
        }
    }

    /// A number, now and then with zeros in front.
    fn padded(&mut self, value: u32, most: usize) -> String {
        if self.writes_plainly || !self.random.one_in(15) {
            return value.to_string();
        }
        let width = self.random.below(most + 1);
        format!("{value:0width$}")
    }

    /// Writes a block; its words may come in any order, A before the pattern's code.
    pub fn block(&mut self, words: &mut [String]) {
        if self.random.one_in(3) {
            self.random.shuffle(words);
            put_memory_first(words);
        }
        if self.random.one_in(8) {
            let number = self.count(0, 9_999);
            let word = self.whole('N', number);
            self.word(&word);
        }
        for word in words {
            self.word(word);
        }
        self.end_line();
    }

    /// Writes a line as it is.
    pub fn line(&mut self, line: &str) {
        self.text.extend_from_slice(line.as_bytes());
        self.text.push(b'\n');
    }

    /// Writes a word, with spaces by the text's habit.
    fn word(&mut self, word: &str) {
        match self.spacing {
            Spacing::None => self.text.extend_from_slice(word.as_bytes()),
            Spacing::BetweenWords => {
                self.text.extend_from_slice(word.as_bytes());
                self.text.push(b' ');
            }
            Spacing::Anywhere => {
                for byte in word.bytes() {
                    self.text.push(byte);
                    if self.random.one_in(6) {
                        self.text.push(b' ');
                    }
                }
            }
        }
    }

    fn end_line(&mut self) {
        self.text.push(b'\n');
        if self.random.one_in(15) {
            let blank = self.random.pick(&["\n", " \n", "\n\n  \n"]);
            self.text.extend_from_slice(blank.as_bytes());
        }
    }
}

/// Moves an A word to the front.
fn put_memory_first(words: &mut [String]) {
    if let Some(place) = words.iter().position(|word| word.starts_with('A')) {
        words.swap(0, place);
    }
}
