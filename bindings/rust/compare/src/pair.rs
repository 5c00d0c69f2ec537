//! Two expanders side by side.

use std::fmt::Write;

use tolkjirp::{Setting, Tool, NUMBERS_PER_ENTRY, TOOLS};

use crate::libraries;
use crate::tally::{self, is_stop, Tally};

/// The three numbers of an answer.
#[derive(Clone, Copy, Debug, PartialEq, Eq)]
pub struct Answer {
    /// The number of the refusal, 0 if the text is accepted.
    pub number: u8,
    /// The count of entries.
    pub count: usize,
    pub line: u64,
}

/// An expander and what it is called.
#[derive(Clone, Copy)]
pub struct Expander {
    pub name: &'static str,
    /// Expands a text, at the setting that a number states, into a list and a tally.
    pub expand: fn(i32, &[u8], &mut [i32], &mut Tally) -> Answer,
    /// Whether it writes the tally.
    pub has_tally: bool,
}

/// The proved library.
pub const LIBRARY: Expander = Expander {
    name: "library",
    expand: library,
    has_tally: true,
};

/// The expander in plain Rust.
pub const PLAIN: Expander = Expander {
    name: "plain",
    expand: plain,
    has_tally: true,
};

/// What the proved library answers: by its safe interface at setting 0 and 1, by its function at other numbers.
pub fn library(setting: i32, text: &[u8], list: &mut [i32], tally: &mut Tally) -> Answer {
    match setting {
        0 => safe_library(Setting::Millimetres, text, list, tally),
        1 => safe_library(Setting::Hundredths, text, list, tally),
        _ => libraries::function(setting, text, list, tally),
    }
}

fn safe_library(setting: Setting, text: &[u8], list: &mut [i32], tally: &mut Tally) -> Answer {
    let tools = tally.map(|[hits, first, last]| Tool { hits, first, last });
    let mut lent = tolkjirp::Tally { tools };
    let answer = match tolkjirp::expand_into(setting, text, list, &mut lent) {
        Ok(entries) => Answer {
            number: 0,
            count: entries.len(),
            line: 0,
        },
        Err(refused) => Answer {
            number: refused.refusal.number(),
            count: 0,
            line: refused.line,
        },
    };
    *tally = lent.tools.map(|tool| [tool.hits, tool.first, tool.last]);
    answer
}

/// What the plain expander answers.
pub fn plain(setting: i32, text: &[u8], list: &mut [i32], tally: &mut Tally) -> Answer {
    match plain::expand(setting, text, list, tally) {
        plain::Answer::Entries(count) => Answer {
            number: 0,
            count,
            line: 0,
        },
        plain::Answer::Refused { number, line } => Answer { number, count: 0, line },
    }
}

/// A setting, text and list length for which the library and another expander differ, or the tally is wrong.
pub struct Difference {
    pub setting: i32,
    pub text: Box<[u8]>,
    pub list_length: usize,
    pub library: Answer,
    /// The other's name and answer.
    pub other: (&'static str, Answer),
    /// What is wrong besides the answers.
    pub faults: Vec<String>,
}

impl Difference {
    /// All that is needed to see the difference again.
    pub fn describe(&self) -> String {
        let mut report = String::new();
        let text = self.text.escape_ascii();
        writeln!(report, "text    b\"{text}\"").expect("a string takes all");
        writeln!(report, "setting {}", self.setting).expect("a string takes all");
        writeln!(report, "list    {} numbers", self.list_length).expect("a string takes all");
        writeln!(report, "library {:?}", self.library).expect("a string takes all");
        let (name, answer) = self.other;
        writeln!(report, "{name:<7} {answer:?}").expect("a string takes all");
        for fault in &self.faults {
            writeln!(report, "{fault}").expect("a string takes all");
        }
        report
    }
}

/// A list and a tally to lend.
pub struct Lent {
    pub list: Vec<i32>,
    pub tally: Tally,
}

impl Lent {
    /// A list with room for so many numbers.
    pub fn new(longest: usize) -> Lent {
        Lent {
            list: vec![0; longest],
            tally: [[0; 3]; TOOLS],
        }
    }

    /// Lends a list of a length and the tally to an expander, both full of a number, so that it is seen what is left as it
    /// was.
    fn expand(&mut self, number: i32, expander: Expander, setting: i32, text: &[u8], list_length: usize) -> Answer {
        let list = &mut self.list[..list_length];
        list.fill(number);
        self.tally = [[number as u64; 3]; TOOLS];
        (expander.expand)(setting, text, list, &mut self.tally)
    }
}

/// Two lists and tallies for comparing.
pub struct Pair {
    first: Lent,
    second: Lent,
}

impl Pair {
    /// Lists with room for so many numbers.
    pub fn new(longest: usize) -> Pair {
        Pair {
            first: Lent::new(longest),
            second: Lent::new(longest),
        }
    }

    /// Compares the library with the plain expander.
    pub fn compare(&mut self, setting: i32, text: &[u8], list_length: usize) -> Result<Answer, Difference> {
        self.compare_with(PLAIN, setting, text, list_length)
    }

    /// Expands a text at a setting by the library and another into two lists of a length and two tallies, all full of other
    /// numbers before, and gives the common answer. The tally also has to be the one that is taken from the list.
    pub fn compare_with(
        &mut self,
        other: Expander,
        setting: i32,
        text: &[u8],
        list_length: usize,
    ) -> Result<Answer, Difference> {
        let library = self.first.expand(-77_777_777, LIBRARY, setting, text, list_length);
        let answer = self.second.expand(77_777_777, other, setting, text, list_length);
        let mut faults = self.differences(other, list_length);
        if library == answer && faults.is_empty() {
            let entries = &self.first.list[..NUMBERS_PER_ENTRY * library.count];
            match tally::fault(&self.first.tally, entries) {
                None => return Ok(library),
                Some(fault) => faults.push(fault),
            }
        }
        Err(Difference {
            setting,
            text: text.into(),
            list_length,
            library,
            other: (other.name, answer),
            faults,
        })
    }

    /// Where the lists of a length differ, and the tallies, if the other has one.
    fn differences(&self, other: Expander, list_length: usize) -> Vec<String> {
        let first = &self.first.list[..list_length];
        let second = &self.second.list[..list_length];
        let mut differences = Vec::new();
        if first != second {
            let place = first.iter().zip(second).position(|(a, b)| a != b);
            differences.extend(place.map(|place| format!("the lists differ at number {place}")));
        }
        if other.has_tally {
            let figures = tally::difference(&self.first.tally, &self.second.tally);
            differences
                .extend(figures.map(|(tool, first, second)| format!("tool {tool} has {first:?} and {second:?}")));
        }
        differences
    }

    /// How many of the entries are stops after a comparison that came to an answer.
    pub fn stops(&self, answer: Answer) -> usize {
        let entries = self.first.list.chunks_exact(NUMBERS_PER_ENTRY).take(answer.count);
        entries.filter(|entry| is_stop(entry)).count()
    }

    /// The tally after a comparison that came to an answer.
    pub fn tally(&self) -> &Tally {
        &self.first.tally
    }
}

#[cfg(test)]
mod tests {
    use super::*;

    const TEXT: &[u8] = b"G92X600.Y600.\nX1.T1\nM0\nX2.T99\nX3.T1\nG50";

    /// The plain expander, with a tally that is made wrong afterwards.
    fn told(expand: fn(i32, &[u8], &mut [i32], &mut Tally) -> Answer, text: &[u8]) -> Vec<String> {
        let wrong = Expander {
            name: "wrong",
            expand,
            has_tally: true,
        };
        match Pair::new(16).compare_with(wrong, 1, text, 16) {
            Ok(_) => Vec::new(),
            Err(difference) => difference.faults,
        }
    }

    #[test]
    fn right_tallies_are_taken() {
        assert!(told(plain, TEXT).is_empty());
    }

    #[test]
    fn each_figure_is_compared() {
        fn last_of_99(setting: i32, text: &[u8], list: &mut [i32], tally: &mut Tally) -> Answer {
            let answer = plain(setting, text, list, tally);
            tally[98][2] += 1;
            answer
        }
        assert_eq!(told(last_of_99, TEXT), ["tool 99 has [1, 3, 3] and [1, 3, 4]"]);
        let refused = b"G92X600.Y600.\nX1.T99\nX700.\nG50";
        assert_eq!(told(last_of_99, refused), ["tool 99 has [0, 0, 0] and [0, 0, 1]"]);
    }

    #[test]
    fn a_tally_that_is_not_written_is_told() {
        fn unwritten(setting: i32, text: &[u8], list: &mut [i32], _: &mut Tally) -> Answer {
            plain(setting, text, list, &mut [[0; 3]; TOOLS])
        }
        assert_eq!(
            told(unwritten, TEXT),
            ["tool 1 has [2, 1, 4] and [77777777, 77777777, 77777777]"]
        );
        // as one that has none, it is not looked at
        let without = Expander {
            name: "without",
            expand: unwritten,
            has_tally: false,
        };
        assert!(Pair::new(16).compare_with(without, 1, TEXT, 16).is_ok());
    }
}
