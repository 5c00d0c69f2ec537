//! The eighteen refusals, in checking order, but that 18 is judged after 13.

/// Why a program is refused; the value is the number of the refusal.
#[derive(Clone, Copy, Debug, PartialEq, Eq)]
#[repr(u8)]
pub enum Refusal {
    TextLength = 1,
    StrayByte = 2,
    TooManyBlocks = 3,
    WordForm = 4,
    UnknownBlock = 5,
    NumberRange = 6,
    WrongPlace = 7,
    UnknownMachine = 8,
    UnmatchedMacro = 9,
    NothingStored = 10,
    TooManyCalls = 11,
    MacrosFull = 12,
    NoLayout = 13,
    NoTool = 14,
    TooFar = 15,
    OutOfRange = 16,
    ListFull = 17,
    ShearUnfit = 18,
}

/// A refusal and the line that it is given for.
#[derive(Clone, Copy, Debug, PartialEq, Eq)]
pub struct Refused {
    pub refusal: Refusal,
    pub line: u32,
}

impl Refusal {
    /// This refusal, given for a line.
    pub fn at(self, line: u32) -> Refused {
        Refused { refusal: self, line }
    }
}
