//! Refusals.

use std::error::Error;
use std::fmt;

/// Why a program is refused. The value of a variant is the number of the refusal; the order is that of checking, but that
/// [`ShearUnfit`](Refusal::ShearUnfit) is checked after [`NoLayout`](Refusal::NoLayout).
#[derive(Clone, Copy, Debug, PartialEq, Eq, PartialOrd, Ord, Hash)]
#[repr(u8)]
pub enum Refusal {
    /// The text has 0 or more than 60,000 bytes.
    TextLength = 1,
    /// A byte is not a capital, digit, space, line feed, plus, minus or point.
    StrayByte = 2,
    /// 100,000 blocks have been carried out and another follows.
    TooManyBlocks = 3,
    /// A word is not a letter with a well-formed number.
    WordForm = 4,
    /// A code is unknown, or the words don't make a block; a G73 has no X or no Y, and none before it gave that letter.
    UnknownBlock = 5,
    /// A number is of the wrong kind or out of its range; at setting 0 also a length or an angle that passes 9,999.99 mm
    /// or degrees.
    NumberRange = 6,
    /// A block stands in a wrong place, or G92 or G50 is missing.
    WrongPlace = 7,
    /// G92 names neither machine.
    UnknownMachine = 8,
    /// A U line has no V line of its own, or a V line stands alone.
    UnmatchedMacro = 9,
    /// A macro or memory is called, by W, G73, G75, G76 or B, in which nothing is stored.
    NothingStored = 10,
    /// A call comes while four calls are open; G73 is a call.
    TooManyCalls = 11,
    /// The stored macros would pass 3,100 characters.
    MacrosFull = 12,
    /// G75 or G76 comes without a G98 in force.
    NoLayout = 13,
    /// A hit has no tool chosen.
    NoTool = 14,
    /// A place or a reach passes 9,999.99 mm; hits and ends of moves are judged where they lie after all mirrors.
    TooFar = 15,
    /// A hit or the end of a move is outside the machine's range, after all mirrors.
    OutOfRange = 16,
    /// The list has no place left for an entry.
    ListFull = 17,
    /// The numbers of a G66 don't fit together: P and Q differ in sign or one is zero, the size of P is not above 1 mm, I is
    /// under 1.5 times that size, or I with D at both ends is under it. That is checked before the block's hits.
    ShearUnfit = 18,
}

impl Refusal {
    /// All refusals, by number.
    pub const ALL: [Refusal; 18] = [
        Refusal::TextLength,
        Refusal::StrayByte,
        Refusal::TooManyBlocks,
        Refusal::WordForm,
        Refusal::UnknownBlock,
        Refusal::NumberRange,
        Refusal::WrongPlace,
        Refusal::UnknownMachine,
        Refusal::UnmatchedMacro,
        Refusal::NothingStored,
        Refusal::TooManyCalls,
        Refusal::MacrosFull,
        Refusal::NoLayout,
        Refusal::NoTool,
        Refusal::TooFar,
        Refusal::OutOfRange,
        Refusal::ListFull,
        Refusal::ShearUnfit,
    ];

    /// The number of the refusal, 1 to 18.
    pub fn number(self) -> u8 {
        self as u8
    }

    /// The reason in words.
    fn reason(self) -> &'static str {
        match self {
            Refusal::TextLength => "the text is empty or has more than 60,000 bytes",
            Refusal::StrayByte => "a byte is not allowed in program texts",
            Refusal::TooManyBlocks => "more than 100,000 blocks would be carried out",
            Refusal::WordForm => "a word is malformed",
            Refusal::UnknownBlock => "a code or a set of words is unknown",
            Refusal::NumberRange => "a number is of the wrong kind or out of its range",
            Refusal::WrongPlace => "a block stands in a wrong place or is missing",
            Refusal::UnknownMachine => "G92 names neither machine",
            Refusal::UnmatchedMacro => "a U line and a V line don't match",
            Refusal::NothingStored => "nothing is stored under the number",
            Refusal::TooManyCalls => "four calls are open already",
            Refusal::MacrosFull => "the macros would pass 3,100 characters",
            Refusal::NoLayout => "no G98 is in force",
            Refusal::NoTool => "no tool is chosen",
            Refusal::TooFar => "a place or a reach passes 9,999.99 mm",
            Refusal::OutOfRange => "a place is outside the machine's range",
            Refusal::ListFull => "the list has no place left for an entry",
            Refusal::ShearUnfit => "the numbers of a G66 don't fit together",
        }
    }
}

impl fmt::Display for Refusal {
    fn fmt(&self, f: &mut fmt::Formatter) -> fmt::Result {
        f.write_str(self.reason())
    }
}

/// The error of a number that is not 1 to 18.
#[derive(Clone, Copy, Debug, PartialEq, Eq)]
pub struct NoSuchRefusal(pub u8);

impl fmt::Display for NoSuchRefusal {
    fn fmt(&self, f: &mut fmt::Formatter) -> fmt::Result {
        write!(f, "{} is not the number of a refusal", self.0)
    }
}

impl Error for NoSuchRefusal {}

impl TryFrom<u8> for Refusal {
    type Error = NoSuchRefusal;

    fn try_from(number: u8) -> Result<Refusal, NoSuchRefusal> {
        let index = usize::from(number).wrapping_sub(1);
        Refusal::ALL.get(index).copied().ok_or(NoSuchRefusal(number))
    }
}

/// A refusal, with the line that it is given for.
#[derive(Clone, Copy, Debug, PartialEq, Eq, Hash)]
pub struct Refused {
    /// Why the program is refused.
    pub refusal: Refusal,
    /// The line, from 1; 0 if the length of the text is refused.
    pub line: u64,
}

impl Refused {
    /// A refusal from the numbers of the library's answer.
    pub(crate) fn from_numbers(number: u64, line: u64) -> Refused {
        let refusal = u8::try_from(number)
            .ok()
            .and_then(|number| Refusal::try_from(number).ok());
        match refusal {
            Some(refusal) if (refusal == Refusal::TextLength) == (line == 0) => Refused { refusal, line },
            _ => panic!("the library gives refusal {number} in line {line}"),
        }
    }
}

impl fmt::Display for Refused {
    fn fmt(&self, f: &mut fmt::Formatter) -> fmt::Result {
        write!(f, "refusal {}", self.refusal.number())?;
        if self.line != 0 {
            write!(f, " in line {}", self.line)?;
        }
        write!(f, ": {}", self.refusal)
    }
}

impl Error for Refused {}
