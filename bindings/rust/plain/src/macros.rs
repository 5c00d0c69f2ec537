//! Macros: bodies in the text, and the store of them.

use std::ops::Range;

use crate::blocks::{Action, Block};
use crate::refusal::Refusal;
use crate::text::Text;
use crate::words::Words;

/// The most characters that all stored bodies may have.
const MOST_CHARACTERS: u32 = 3_100;

/// The calls that may be open at a time.
pub const MOST_CALLS: u32 = 4;

/// The lowest number of the macros that are only stored.
const ONLY_STORED: u8 = 60;

/// A body: its blocks as a range of the text's lines, and its characters.
#[derive(Clone, Copy, Default)]
pub struct Body {
    first: u32,
    end: u32,
    characters: u32,
}

impl Body {
    /// Finds the body of the U line at an index, which ends at its own V line; refusal 9.
    pub fn find(text: &Text, words: &mut Words, opening: usize, number: u8) -> Result<Body, Refusal> {
        let lines = text.lines();
        let following = &lines[opening + 1..];
        let blocks = following
            .iter()
            .position(|&line| matches!(text.first_byte(line), b'U' | b'V'))
            .ok_or(Refusal::UnmatchedMacro)?;
        let (open, close) = (lines[opening], following[blocks]);
        match Block::read(words, None, text.bytes(close)).map(|block| block.action) {
            Ok(Action::Close(closed)) if closed == number => {}
            _ => return Err(Refusal::UnmatchedMacro),
        }
        let line_feeds = close.number - open.number - 1;
        Ok(Body {
            first: opening as u32 + 1,
            end: (opening + 1 + blocks) as u32,
            characters: close.start - open.end + line_feeds,
        })
    }

    /// Whether there is anything to carry out.
    pub fn has_blocks(self) -> bool {
        self.first < self.end
    }

    /// The indexes of its lines.
    pub fn lines(self) -> Range<usize> {
        self.first as usize..self.end as usize
    }
}

/// Whether a macro runs when its U line comes: numbers 1 to 59, unless G98 is in force.
pub fn runs_first(number: u8, has_layout: bool) -> bool {
    number < ONLY_STORED && !has_layout
}

/// The stored bodies, by number.
pub struct Store {
    bodies: [Option<Body>; 90],
    characters: u32,
}

impl Store {
    pub fn new() -> Store {
        Store {
            bodies: [None; 90],
            characters: 0,
        }
    }

    /// The body of a number; refusal 10.
    pub fn get(&self, number: u8) -> Result<Body, Refusal> {
        self.bodies[usize::from(number)].ok_or(Refusal::NothingStored)
    }

    /// Judges whether a body would fit in place of its old one; refusal 12.
    pub fn judge(&self, number: u8, body: Body) -> Result<(), Refusal> {
        if self.characters_with(number, body) > MOST_CHARACTERS {
            Err(Refusal::MacrosFull)
        } else {
            Ok(())
        }
    }

    /// Stores a body in place of its old one.
    pub fn put(&mut self, number: u8, body: Body) {
        self.characters = self.characters_with(number, body);
        self.bodies[usize::from(number)] = Some(body);
    }

    /// The characters of all bodies with a new one in place of its old one.
    fn characters_with(&self, number: u8, body: Body) -> u32 {
        let old = self.bodies[usize::from(number)].map_or(0, |old| old.characters);
        self.characters - old + body.characters
    }
}
