//! Entries of the list: hits and stops.

use std::fmt;
use std::iter::FusedIterator;
use std::slice::ChunksExact;

/// How many numbers of the list an entry takes.
pub const NUMBERS_PER_ENTRY: usize = 4;

/// How a hit is made.
#[derive(Clone, Copy, Debug, PartialEq, Eq, Hash)]
pub enum Mode {
    /// Single punching, number 0.
    Punch,
    /// Nibbling, between M12 and M13, number 1.
    Nibble,
}

/// A single hit of the press.
#[derive(Clone, Copy, Debug, PartialEq, Eq, Hash)]
pub struct Hit {
    /// X in hundredths of a millimetre.
    pub x: i32,
    /// Y in hundredths of a millimetre.
    pub y: i32,
    /// The tool, 1 to 99.
    pub tool: u8,
    /// The mode.
    pub mode: Mode,
}

/// One entry of the list: what the press does next.
#[derive(Clone, Copy, Debug, PartialEq, Eq, Hash)]
pub enum Entry {
    /// It makes a hit.
    Hit(Hit),
    /// It stops, so that scrap can be lifted out. In the list, X, Y and tool of a stop are zero.
    Stop {
        /// False for M00, mode number 2. True for M01, mode number 3: the press stops there only if its optional stop
        /// is switched on.
        optional: bool,
    },
}

impl Entry {
    /// The hit, if the entry is one.
    pub fn hit(self) -> Option<Hit> {
        match self {
            Entry::Hit(hit) => Some(hit),
            Entry::Stop { .. } => None,
        }
    }

    /// An entry from its four numbers in the list.
    pub(crate) fn from_numbers(numbers: &[i32]) -> Entry {
        match *numbers {
            [x, y, tool @ 1..=99, mode @ 0..=1] => Entry::Hit(Hit {
                x,
                y,
                tool: tool as u8,
                mode: if mode == 0 { Mode::Punch } else { Mode::Nibble },
            }),
            [0, 0, 0, mode @ 2..=3] => Entry::Stop { optional: mode == 3 },
            _ => panic!("the library gives the entry {numbers:?}"),
        }
    }
}

/// The entries in a list, one after the other.
#[derive(Clone, Debug)]
pub struct Entries<'a> {
    numbers: ChunksExact<'a, i32>,
}

impl<'a> Entries<'a> {
    /// The first so many entries of a list that has them.
    pub(crate) fn first(list: &'a [i32], count: usize) -> Entries<'a> {
        let numbers = &list[..NUMBERS_PER_ENTRY * count];
        Entries {
            numbers: numbers.chunks_exact(NUMBERS_PER_ENTRY),
        }
    }
}

impl Iterator for Entries<'_> {
    type Item = Entry;

    fn next(&mut self) -> Option<Entry> {
        self.numbers.next().map(Entry::from_numbers)
    }

    fn size_hint(&self) -> (usize, Option<usize>) {
        self.numbers.size_hint()
    }
}

impl DoubleEndedIterator for Entries<'_> {
    fn next_back(&mut self) -> Option<Entry> {
        self.numbers.next_back().map(Entry::from_numbers)
    }
}

impl ExactSizeIterator for Entries<'_> {}

impl FusedIterator for Entries<'_> {}

impl fmt::Display for Mode {
    /// The letter of the mode: P or N.
    fn fmt(&self, f: &mut fmt::Formatter) -> fmt::Result {
        f.write_str(match self {
            Mode::Punch => "P",
            Mode::Nibble => "N",
        })
    }
}

impl fmt::Display for Hit {
    /// X, Y, tool and mode.
    fn fmt(&self, f: &mut fmt::Formatter) -> fmt::Result {
        write!(f, "{} {} {} {}", self.x, self.y, self.tool, self.mode)
    }
}

impl fmt::Display for Entry {
    /// X, Y, tool and mode, as `hitlist` prints them; the letter of a stop is S, that of an optional stop O.
    fn fmt(&self, f: &mut fmt::Formatter) -> fmt::Result {
        match self {
            Entry::Hit(hit) => hit.fmt(f),
            Entry::Stop { optional: false } => f.write_str("0 0 0 S"),
            Entry::Stop { optional: true } => f.write_str("0 0 0 O"),
        }
    }
}
