//! Programs that are mostly valid, with every kind of block.

use tolkjirp::Setting;

use crate::scribe::{Scribe, Temper};

/// Writes programs.
pub struct Programmer {
    pub scribe: Scribe,
    /// Whether G91 holds, as far as it is known.
    is_relative: Option<bool>,
    /// Macros with a body, as far as they are known.
    stored: Vec<i32>,
    /// Memories with a pattern, as far as they are known.
    memories: Vec<i32>,
    /// Whether a G73 came before, as far as it is known.
    has_mirrored: bool,
    is_within_body: bool,
}

impl Programmer {
    pub fn new(seed: u64, setting: Setting) -> Programmer {
        Programmer {
            scribe: Scribe::new(seed, setting),
            is_relative: Some(false),
            stored: Vec::new(),
            memories: Vec::new(),
            has_mirrored: false,
            is_within_body: false,
        }
    }

    /// A whole program.
    pub fn write(mut self) -> Vec<u8> {
        self.machine();
        if !self.scribe.random.one_in(20) {
            self.first_position();
        }
        let steps = 1 + self.scribe.random.below(8);
        for _ in 0..steps {
            self.step();
        }
        if !self.scribe.random.one_in(50) {
            self.scribe.block(&mut ["G50".to_string()]);
        }
        if self.scribe.random.one_in(4) {
            self.scribe.text.pop();
        }
        self.scribe.text
    }

    /// G92, usually with one of the two machines.
    pub fn machine(&mut self) {
        let scribe = &mut self.scribe;
        let (mut x, mut y) = scribe.random.pick(&[(60_000, 60_000), (100_000, 60_000)]);
        if scribe.temper != Temper::Calm && scribe.random.one_in(40) {
            (x, y) = scribe
                .random
                .pick(&[(60_000, 60_001), (100_000, 100_000), (600, 600), (-60_000, 60_000)]);
        }
        // With points it is the same machine at the other setting.
        let [x, y] = if scribe.random.one_in(2) {
            [scribe.pointed('X', x), scribe.pointed('Y', y)]
        } else {
            [scribe.measure('X', x), scribe.measure('Y', y)]
        };
        let mut words = ["G92".to_string(), x, y];
        scribe.block(&mut words);
    }

    /// One block or a few that belong together.
    pub fn step(&mut self) {
        let steps = if self.is_within_body { 13 } else { 19 };
        match self.scribe.random.below(steps) {
            0..=2 => self.position(),
            3 => self.movement(),
            4 => {
                self.origin();
                if self.scribe.random.one_in(3) {
                    self.stop();
                }
                self.pattern();
            }
            5..=6 => self.pattern(),
            7 => self.recall(),
            8 => self.mode(),
            9 => self.reading(),
            10 => self.call(),
            11 => self.origin(),
            12 => self.stop(),
            13..=15 => self.macro_body(),
            16 => self.offset(),
            _ => self.layout(),
        }
    }

    /// G90 or G91, if it is to be written, and whether positions are relative then.
    fn choose_reading(&mut self, words: &mut Vec<String>) -> bool {
        let relative = match self.is_relative {
            Some(relative) if !self.scribe.random.one_in(4) => return relative,
            _ => self.scribe.random.one_in(3),
        };
        words.push(self.scribe.code('G', 90 + i32::from(relative)));
        self.is_relative = Some(relative);
        relative
    }

    /// X, Y or both.
    fn axes(&mut self, words: &mut Vec<String>, is_relative: bool) {
        let (least, most) = match (is_relative, self.is_within_body) {
            (true, _) => (-1_000, 1_000),
            (false, true) => (3_000, 8_000),
            (false, false) => (5_000, 35_000),
        };
        let both = self.scribe.random.below(4);
        if both != 0 {
            let x = self.scribe.length(least, most);
            words.push(self.scribe.measure('X', x));
        }
        if both != 1 {
            let y = self.scribe.length(least, most);
            words.push(self.scribe.measure('Y', y));
        }
    }

    /// A tool: the first or the last, any, or most often one of a few.
    fn tool(&mut self, words: &mut Vec<String>) {
        let tool = match self.scribe.random.below(6) {
            0 => self.scribe.random.pick(&[1, 99]),
            1 => self.scribe.random.within(1..=99),
            _ => self.scribe.count(1, 99),
        };
        words.push(self.scribe.whole('T', tool));
    }

    /// A position with both axes and a tool.
    fn first_position(&mut self) {
        let (x, y) = (self.scribe.length(5_000, 35_000), self.scribe.length(5_000, 35_000));
        let mut words = vec![self.scribe.measure('X', x), self.scribe.measure('Y', y)];
        self.tool(&mut words);
        self.scribe.block(&mut words);
    }

    fn position(&mut self) {
        let mut words = Vec::new();
        let is_relative = self.choose_reading(&mut words);
        self.axes(&mut words, is_relative);
        if self.scribe.random.one_in(3) {
            self.tool(&mut words);
        }
        self.scribe.block(&mut words);
    }

    fn movement(&mut self) {
        let mut words = vec![self.scribe.code('G', 70)];
        let is_relative = self.choose_reading(&mut words);
        self.axes(&mut words, is_relative);
        if self.scribe.random.one_in(4) {
            self.tool(&mut words);
        }
        self.scribe.block(&mut words);
    }

    fn origin(&mut self) {
        let mut words = vec![self.scribe.code('G', 72)];
        let is_relative = self.choose_reading(&mut words);
        self.axes(&mut words, is_relative);
        self.scribe.block(&mut words);
    }

    fn reading(&mut self) {
        let is_relative = self.scribe.random.one_in(2);
        self.is_relative = Some(is_relative);
        let code = self.scribe.code('G', 90 + i32::from(is_relative));
        self.scribe.block(&mut [code]);
    }

    /// An M code that makes no entry.
    fn mode(&mut self) {
        let number = self.scribe.random.pick(&[8, 9, 12, 12, 12, 13, 13]);
        let code = self.scribe.code('M', number);
        self.scribe.block(&mut [code]);
    }

    /// M00 or M01, with any zeros in front.
    fn stop(&mut self) {
        let number = self.scribe.random.below(2);
        let width = self.scribe.random.pick(&[1, 2, 2, 2, 3, 6]);
        self.scribe.block(&mut [format!("M{number:0width$}")]);
    }

    fn pattern(&mut self) {
        let mut words = Vec::new();
        if self.scribe.random.one_in(4) {
            let memory = self.scribe.count(1, 5);
            self.memories.push(memory);
            words.push(self.scribe.whole('A', memory));
        }
        let code = self.scribe.random.pick(&[26, 28, 29, 36, 37, 66]);
        words.push(self.scribe.code('G', code));
        if self.scribe.random.one_in(8) {
            self.choose_reading(&mut words);
        }
        match code {
            26 | 28 | 29 => self.round_words(&mut words, code),
            66 => self.shear_words(&mut words),
            _ => self.grid_words(&mut words),
        }
        if self.scribe.random.one_in(3) {
            self.tool(&mut words);
        }
        self.scribe.block(&mut words);
    }

    /// The numbers of a line, an arc or a circle.
    fn round_words(&mut self, words: &mut Vec<String>, code: i32) {
        let least = if code == 28 { -500 } else { 1 };
        let length = self.scribe.length(least, 800);
        words.push(self.scribe.measure('I', length));
        let angle = self.scribe.angle();
        words.push(self.scribe.measure('J', angle));
        if code == 29 {
            let step = self.scribe.angle();
            words.push(self.scribe.measure('P', step));
        }
        let mut count = self.scribe.count(1, 999);
        if code == 26 && self.scribe.random.one_in(2) {
            count = -count;
        }
        words.push(self.scribe.whole('K', count));
    }

    /// The numbers of a grid.
    fn grid_words(&mut self, words: &mut Vec<String>) {
        for (pitch, count) in [('I', 'P'), ('J', 'K')] {
            let length = self.scribe.length(-300, 900);
            words.push(self.scribe.measure(pitch, length));
            let spaces = self.scribe.count(0, 999);
            words.push(self.scribe.whole(count, spaces));
        }
    }

    /// The numbers of a shear, which usually fit together.
    fn shear_words(&mut self, words: &mut Vec<String>) {
        let width = self.scribe.length(101, 900);
        let size = width.abs().clamp(101, 2_000);
        let least = (3 * size + 1) / 2;
        let further = self.scribe.random.pick(&[200, 1_500, 1_500, 1_500, 15_000]);
        let length = self.scribe.length(least, least + further);
        words.push(self.scribe.measure('I', length));
        let angle = self.scribe.angle();
        words.push(self.scribe.measure('J', angle));
        let side = self.scribe.random.pick(&[1, -1]);
        words.push(self.scribe.measure('P', side * width));
        if self.scribe.random.one_in(2) {
            let across = self.scribe.length(1, 900);
            words.push(self.scribe.measure('Q', side * across));
        }
        if self.scribe.random.one_in(2) {
            let least = (size - length) / 2;
            let extra = self.scribe.length(least, least.max(0) + 400);
            words.push(self.scribe.measure('D', extra));
        }
    }

    /// B, usually of a memory that has a pattern.
    fn recall(&mut self) {
        let memory = match self.memories.last() {
            Some(&memory) if !self.scribe.random.one_in(15) => memory,
            _ if !self.scribe.random.one_in(10) => return self.pattern(),
            _ => self.scribe.count(1, 5),
        };
        let word = self.scribe.whole('B', memory);
        self.scribe.block(&mut [word]);
    }

    /// The number of a macro, usually of one that has a body.
    fn stored_number(&mut self) -> Option<i32> {
        if !self.stored.is_empty() && !self.scribe.random.one_in(15) {
            return Some(self.scribe.random.pick(&self.stored));
        }
        self.scribe.random.one_in(10).then(|| self.macro_number())
    }

    fn macro_number(&mut self) -> i32 {
        match self.scribe.random.below(4) {
            0 => self.scribe.random.pick(&[1, 59, 60, 89]),
            1 => self.scribe.random.within(1..=3),
            2 => self.scribe.random.within(60..=62),
            _ => self.scribe.count(1, 89),
        }
    }

    /// W or G73.
    fn call(&mut self) {
        if let Some(number) = self.stored_number() {
            let mut words = vec![self.scribe.whole('W', number)];
            if self.scribe.random.one_in(2) {
                self.mirror_words(&mut words);
            }
            self.scribe.block(&mut words);
            self.is_relative = None;
        }
    }

    /// The code and the numbers of a G73, usually with both distances if none were given before.
    fn mirror_words(&mut self, words: &mut Vec<String>) {
        words.push(self.scribe.code('G', 73));
        let sides = self.scribe.count(1, 4);
        words.push(self.scribe.whole('Q', sides));
        for letter in ['X', 'Y'] {
            let times = if self.has_mirrored { 2 } else { 25 };
            if !self.scribe.random.one_in(times) {
                let length = self.scribe.length(8_000, 20_000);
                words.push(self.scribe.measure(letter, length));
            }
        }
        self.has_mirrored |= !self.is_within_body;
    }

    /// A U line, its body and its V line.
    fn macro_body(&mut self) {
        let number = self.macro_number();
        let open = self.scribe.whole('U', number);
        self.scribe.line(&open);
        self.body();
        let close = self.scribe.whole('V', number);
        self.scribe.line(&close);
        self.stored.push(number);
        self.is_relative = None;
        if self.scribe.random.one_in(2) {
            self.call();
        }
    }

    /// Blocks of a body, seldom with one that may not stand there.
    fn body(&mut self) {
        self.is_within_body = true;
        self.is_relative = None;
        let memories = self.memories.len();
        for _ in 0..self.scribe.random.below(6) {
            if self.scribe.temper == Temper::Wild && self.scribe.random.one_in(30) {
                self.offset();
            } else {
                self.step();
            }
        }
        self.is_within_body = false;
        self.memories.truncate(memories);
    }

    fn offset(&mut self) {
        let mut words = vec![self.scribe.code('G', 93)];
        if self.scribe.random.one_in(4) {
            words.push(self.scribe.code('G', 90));
            self.is_relative = Some(false);
        }
        let axes = self.scribe.random.below(4);
        for (letter, omitted) in [('X', 0), ('Y', 1)] {
            if axes != omitted {
                let length = self.scribe.length(-3_000, 5_000);
                words.push(self.scribe.measure(letter, length));
            }
        }
        self.scribe.block(&mut words);
    }

    /// G98, usually with a part and its runs.
    fn layout(&mut self) {
        let mut words = vec![self.scribe.code('G', 98)];
        for letter in ['X', 'Y'] {
            let length = self.scribe.length(1_000, 10_000);
            words.push(self.scribe.measure(letter, length));
        }
        for (letter, most) in [('I', 6_000), ('J', 6_000), ('D', 500)] {
            if !self.scribe.random.one_in(5) {
                let length = self.scribe.length(0, most);
                words.push(self.scribe.measure(letter, length));
            }
        }
        for letter in ['P', 'K'] {
            if !self.scribe.random.one_in(5) {
                let count = self.scribe.count(0, 99);
                words.push(self.scribe.whole(letter, count));
            }
        }
        self.scribe.block(&mut words);
        if !self.scribe.random.one_in(5) {
            self.macro_body();
        }
        self.runs();
    }

    /// G75 and G76 blocks.
    pub fn runs(&mut self) {
        for _ in 0..1 + self.scribe.random.below(3) {
            if let Some(number) = self.stored_number() {
                let code = self.scribe.random.pick(&[75, 76]);
                let corner = self.scribe.count(1, 4);
                let mut words = [
                    self.scribe.code('G', code),
                    self.scribe.whole('W', number),
                    self.scribe.whole('Q', corner),
                ];
                self.scribe.block(&mut words);
                self.is_relative = None;
            }
        }
    }
}
