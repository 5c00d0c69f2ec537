//! Words: a letter with a number.

use crate::press::is_far;
use crate::refusal::Refusal;
use crate::setting::Setting;

/// The number of a word as it is written.
#[derive(Clone, Copy, Default)]
pub struct Number {
    /// In hundredths if there is a point or the word is a length or an angle, at setting 0 once they have been turned
    /// into hundredths; else a whole number.
    pub value: i32,
    marks: u32,
}

impl Number {
    const SIGN: u32 = 1;
    const POINT: u32 = 2;

    /// Whether it has neither sign nor point.
    pub fn is_bare(self) -> bool {
        self.marks == 0
    }

    pub fn has_point(self) -> bool {
        self.marks & Number::POINT != 0
    }
}

/// A G word and how many words stand before it.
#[derive(Clone, Copy, Default)]
pub struct Code {
    pub number: Number,
    pub place: u32,
}

/// The words of a block, by letter. One value serves all blocks, so that it is not cleared for each.
pub struct Words {
    /// What lengths and angles without a point count.
    setting: Setting,
    /// The numbers of the letters that occur; the others are left from earlier blocks.
    numbers: [Number; 26],
    letters: u32,
    codes: [Code; 2],
    code_count: usize,
    count: u32,
    memory_place: u32,
    is_misplaced: bool,
}

/// The set of the given letters.
pub const fn letters(names: &[u8]) -> u32 {
    let mut set = 0;
    let mut i = 0;
    while i < names.len() {
        set |= 1 << (names[i] - b'A');
        i += 1;
    }
    set
}

impl Words {
    /// No words yet.
    pub fn new(setting: Setting) -> Words {
        Words {
            setting,
            numbers: [Number::default(); 26],
            letters: 0,
            codes: [Code::default(); 2],
            code_count: 0,
            count: 0,
            memory_place: 0,
            is_misplaced: false,
        }
    }

    pub fn setting(&self) -> Setting {
        self.setting
    }

    /// Reads the words of a line in place of those read before; refusal 4.
    pub fn read(&mut self, line: &[u8]) -> Result<(), Refusal> {
        self.letters = 0;
        self.code_count = 0;
        self.count = 0;
        self.is_misplaced = false;
        let mut rest = line;
        while let [letter @ b'A'..=b'Z', after @ ..] = rest {
            let (number, next) = read_number(after)?;
            self.add(*letter, number);
            rest = next;
        }
        if rest.is_empty() {
            Ok(())
        } else {
            Err(Refusal::WordForm)
        }
    }

    fn add(&mut self, letter: u8, number: Number) {
        if letter == b'G' {
            self.add_code(number);
        } else {
            let set = letters(&[letter]);
            self.is_misplaced |= self.letters & set != 0 || letter == b'N' && self.count > 0;
            self.letters |= set;
            self.numbers[usize::from(letter - b'A')] = number;
            if letter == b'A' {
                self.memory_place = self.count;
            }
        }
        self.count += 1;
    }

    fn add_code(&mut self, number: Number) {
        if let Some(code) = self.codes.get_mut(self.code_count) {
            *code = Code {
                number,
                place: self.count,
            };
            self.code_count += 1;
        } else {
            self.is_misplaced = true;
        }
    }

    /// Turns the numbers of these letters, where they have no point, from whole millimetres or degrees into hundredths;
    /// refusal 6. Not inlined, so that it takes no time at setting 1.
    #[inline(never)]
    pub fn count_hundredths(&mut self, measures: u32) -> Result<(), Refusal> {
        let mut left = measures & self.letters;
        while left != 0 {
            let number = &mut self.numbers[left.trailing_zeros() as usize];
            if !number.has_point() {
                number.value *= 100;
            }
            if is_far(number.value) {
                return Err(Refusal::NumberRange);
            }
            left &= left - 1;
        }
        Ok(())
    }

    /// The letters that occur, G not counted.
    pub fn letters(&self) -> u32 {
        self.letters
    }

    /// Whether a letter stands twice, G three times, or N after another word.
    pub fn is_misplaced(&self) -> bool {
        self.is_misplaced
    }

    /// The G words, in order.
    pub fn codes(&self) -> &[Code] {
        &self.codes[..self.code_count]
    }

    /// How many words stand before A, if it occurs.
    pub fn memory_place(&self) -> Option<u32> {
        (self.letters & letters(b"A") != 0).then_some(self.memory_place)
    }

    /// The number of a letter, if it occurs.
    pub fn get(&self, letter: u8) -> Option<Number> {
        let occurs = self.letters & letters(&[letter]) != 0;
        occurs.then_some(self.numbers[usize::from(letter - b'A')])
    }

    /// The number of a letter, 0 if it does not occur.
    pub fn number(&self, letter: u8) -> Number {
        self.get(letter).unwrap_or_default()
    }
}

/// Reads a number: an optional sign, then 1 to 6 digits, or 1 to 4 digits, a point and 0 to 2 digits.
fn read_number(bytes: &[u8]) -> Result<(Number, &[u8]), Refusal> {
    let (direction, sign, rest) = match bytes {
        [b'+', rest @ ..] => (1, Number::SIGN, rest),
        [b'-', rest @ ..] => (-1, Number::SIGN, rest),
        rest => (1, 0, rest),
    };
    let (whole, digits, rest) = read_digits(rest, 0, 6);
    if digits == 0 {
        return Err(Refusal::WordForm);
    }
    let (size, point, rest) = match rest {
        [b'.', rest @ ..] if digits <= 4 => {
            let (size, decimals, rest) = read_digits(rest, whole, 2);
            (size * [100, 10, 1][decimals], Number::POINT, rest)
        }
        rest => (whole, 0, rest),
    };
    let number = Number {
        value: direction * size,
        marks: sign | point,
    };
    Ok((number, rest))
}

/// Reads at most so many digits and appends them to a value; gives the value, the count of digits and what follows.
fn read_digits(bytes: &[u8], value: i32, most: usize) -> (i32, usize, &[u8]) {
    let mut value = value;
    let mut count = 0;
    while count < most {
        match bytes.get(count) {
            Some(byte @ b'0'..=b'9') => value = 10 * value + i32::from(byte - b'0'),
            _ => break,
        }
        count += 1;
    }
    (value, count, &bytes[count..])
}

#[cfg(test)]
mod tests {
    use super::*;

    fn value(line: &[u8]) -> Option<i32> {
        let mut words = Words::new(Setting::Hundredths);
        words.read(line).ok()?;
        words.get(b'X').map(|number| number.value)
    }

    #[test]
    fn numbers_have_the_form() {
        assert_eq!(value(b"X100."), Some(10000));
        assert_eq!(value(b"X10000"), Some(10000));
        assert_eq!(value(b"X-45.5"), Some(-4550));
        assert_eq!(value(b"X+9999.99"), Some(999_999));
        assert_eq!(value(b"X000002"), Some(2));
        assert_eq!(value(b"X-0"), Some(0));
    }

    /// X in hundredths at setting 0, unless it is refused.
    fn hundredths(line: &str) -> Option<i32> {
        let mut words = Words::new(Setting::Millimetres);
        words.read(line.as_bytes()).ok()?;
        words.count_hundredths(letters(b"X")).ok()?;
        words.get(b'X').map(|number| number.value)
    }

    #[test]
    fn lengths_without_a_point_are_multiplied_at_setting_0() {
        assert_eq!(hundredths("X100"), Some(10_000));
        assert_eq!(hundredths("X000100"), Some(10_000));
        assert_eq!(hundredths("X-7"), Some(-700));
        assert_eq!(hundredths("X-0"), Some(0));
        assert_eq!(hundredths("X9999"), Some(999_900));
        assert_eq!(hundredths("X-009999"), Some(-999_900));
        assert_eq!(hundredths("X10000"), None);
        assert_eq!(hundredths("X-010000"), None);
        assert_eq!(hundredths("X999999"), None);
        assert_eq!(hundredths("X1Y10000"), Some(100));
    }

    #[test]
    fn lengths_with_a_point_stay_at_setting_0() {
        for line in ["X100.", "X1.", "X0.01", "X-45.5", "X9999.99", "X-9999."] {
            assert_eq!(hundredths(line), value(line.as_bytes()), "{line}");
        }
    }

    #[test]
    fn other_forms_are_refused() {
        let wrong = "X X+ X.5 X1234567 X12345. X1.234 X1.2. X--1 1X1 X1- XX1 . -";
        for line in wrong.split_whitespace() {
            assert_eq!(value(line.as_bytes()), None, "{line}");
        }
    }

    #[test]
    fn places_are_kept() {
        let mut words = Words::new(Setting::Hundredths);
        assert_eq!(words.read(b"A1G90Y5G28"), Ok(()));
        assert_eq!(words.memory_place(), Some(0));
        assert!(!words.is_misplaced());
        let places: Vec<_> = words.codes().iter().map(|code| code.place).collect();
        assert_eq!(places, [1, 3]);
    }

    #[test]
    fn repeated_and_late_words_are_noticed() {
        let mut words = Words::new(Setting::Hundredths);
        for (line, is_misplaced) in [
            ("N1X1", false),
            ("X1N1", true),
            ("G1G2", false),
            ("X1X1", true),
            ("G1G2G3", true),
        ] {
            assert_eq!(words.read(line.as_bytes()), Ok(()));
            assert_eq!(words.is_misplaced(), is_misplaced, "{line}");
        }
    }

    #[test]
    fn earlier_words_are_forgotten() {
        let mut words = Words::new(Setting::Hundredths);
        assert_eq!(words.read(b"X5G90"), Ok(()));
        assert_eq!(words.read(b"Y5"), Ok(()));
        assert!(words.get(b'X').is_none());
        assert_eq!(words.number(b'X').value, 0);
        assert!(words.codes().is_empty());
    }
}
