//! Entries, which are hits and stops, and the lent list that they are written to.

use crate::press::{Mode, Point, Tool};
use crate::refusal::Refusal;
use crate::tally::{count_hit, Tally};

/// How many numbers an entry takes: X, Y, tool, mode.
pub const NUMBERS: usize = 4;

/// What the press is to do next.
#[derive(Clone, Copy)]
pub enum Entry {
    Hit {
        place: Point,
        tool: Tool,
        mode: Mode,
    },
    /// M00, or M01 if it is optional.
    Stop {
        is_optional: bool,
    },
}

impl Entry {
    /// X, Y, tool and mode as numbers.
    fn numbers(self) -> [i32; NUMBERS] {
        match self {
            Entry::Hit { place, tool, mode } => [place.x, place.y, i32::from(tool.get()), mode as i32],
            Entry::Stop { is_optional: false } => [0, 0, 0, 2],
            Entry::Stop { is_optional: true } => [0, 0, 0, 3],
        }
    }
}

/// The lent list, the entries in it, and the tally of their hits.
pub struct EntryList<'l> {
    numbers: &'l mut [i32],
    count: usize,
    tally: &'l mut Tally,
}

impl<'l> EntryList<'l> {
    /// No entry in a list yet, with a tally that has no hits.
    pub fn new(numbers: &'l mut [i32], tally: &'l mut Tally) -> EntryList<'l> {
        EntryList {
            numbers,
            count: 0,
            tally,
        }
    }

    pub fn count(&self) -> usize {
        self.count
    }

    /// Adds an entry and counts it, if it is a hit, for its tool; refusal 17.
    pub fn add(&mut self, entry: Entry) -> Result<(), Refusal> {
        let start = NUMBERS * self.count;
        let place = self.numbers.get_mut(start..start + NUMBERS);
        place.ok_or(Refusal::ListFull)?.copy_from_slice(&entry.numbers());
        self.count += 1;
        if let Entry::Hit { tool, .. } = entry {
            count_hit(self.tally, tool, self.count as u64);
        }
        Ok(())
    }
}
