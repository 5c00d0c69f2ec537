//! The press: its state, its range, and the entries that it makes.

use std::num::NonZeroU8;

use crate::blocks::Axes;
use crate::entries::{Entry, EntryList};
use crate::mirrors::{Mirror, Symmetry};
use crate::patterns::Pattern;
use crate::refusal::Refusal;

/// How far from zero a place may lie, in hundredths of a millimetre.
pub const FARTHEST: i32 = 999_999;

/// A place in hundredths of a millimetre.
#[derive(Clone, Copy, PartialEq, Eq, Debug)]
pub struct Point {
    pub x: i32,
    pub y: i32,
}

impl Point {
    pub const ZERO: Point = Point { x: 0, y: 0 };

    /// The place that lies so far to the right and up.
    pub fn plus(self, x: i32, y: i32) -> Point {
        Point {
            x: self.x + x,
            y: self.y + y,
        }
    }

    /// The place itself, unless it lies too far; refusal 15.
    pub fn judged(self) -> Result<Point, Refusal> {
        if is_far(self.x) || is_far(self.y) {
            Err(Refusal::TooFar)
        } else {
            Ok(self)
        }
    }
}

/// Whether a coordinate or a reach passes the limit.
pub fn is_far(length: i32) -> bool {
    length.abs() > FARTHEST
}

/// How X and Y are read: G90 or G91.
#[derive(Clone, Copy, PartialEq, Eq, Debug)]
pub enum Reading {
    Absolute,
    Relative,
}

/// The number of a tool.
pub type Tool = NonZeroU8;

/// The mode of hits; the value is its number in the list.
#[derive(Clone, Copy, PartialEq, Eq, Debug)]
pub enum Mode {
    Punch = 0,
    Nibble = 1,
}

/// The range of a machine: from -10.2 mm to 10.2 mm beyond its G92 values.
#[derive(Clone, Copy)]
pub struct Range {
    right: i32,
    top: i32,
}

impl Range {
    const MARGIN: i32 = 1_020;
    const ARIES_222: Point = Point { x: 60_000, y: 60_000 };
    const ARIES_224: Point = Point { x: 100_000, y: 60_000 };

    /// The range of the machine that G92 names; refusal 8.
    pub fn of_machine(corner: Point) -> Result<Range, Refusal> {
        if corner == Range::ARIES_222 || corner == Range::ARIES_224 {
            Ok(Range {
                right: corner.x + Range::MARGIN,
                top: corner.y + Range::MARGIN,
            })
        } else {
            Err(Refusal::UnknownMachine)
        }
    }

    /// Judges a hit or the end of a move; refusals 15 and 16.
    fn judge(self, place: Point) -> Result<(), Refusal> {
        let x_fits = (-Range::MARGIN..=self.right).contains(&place.x);
        let y_fits = (-Range::MARGIN..=self.top).contains(&place.y);
        if x_fits && y_fits {
            return Ok(());
        }
        place.judged()?;
        Err(Refusal::OutOfRange)
    }
}

/// What one block leaves to the next, and each copy of a part begins with.
#[derive(Clone, Copy)]
pub struct State {
    pub at: Point,
    pub origin: Point,
    /// The origin that G72 has set for the next pattern.
    pub waiting: Option<Point>,
    pub reading: Reading,
    pub mode: Mode,
    pub tool: Option<Tool>,
    pub memories: [Option<Pattern>; 5],
    /// The X and Y of the last G73, if there was one.
    pub given: Option<Point>,
}

impl State {
    /// Makes the place of a copy its origin and current point; no origin waits there.
    pub fn begin_copy(&mut self, place: Point) {
        self.origin = place;
        self.return_to_origin();
    }

    /// Makes the origin the current point; no pattern origin waits there.
    fn return_to_origin(&mut self) {
        self.at = self.origin;
        self.waiting = None;
    }
}

/// A press that carries out positions.
pub struct Press<'l> {
    pub state: State,
    /// What the open mirrors do, if any are open; the places of the state are those as written.
    pub mirror: Option<Mirror>,
    range: Range,
    list: EntryList<'l>,
}

impl<'l> Press<'l> {
    /// A press as it is before G92.
    pub fn new(list: EntryList<'l>) -> Press<'l> {
        Press {
            state: State {
                at: Point::ZERO,
                origin: Point::ZERO,
                waiting: None,
                reading: Reading::Absolute,
                mode: Mode::Punch,
                tool: None,
                memories: [None; 5],
                given: None,
            },
            mirror: None,
            range: Range { right: 0, top: 0 },
            list,
        }
    }

    /// How many entries are made so far.
    pub fn entries(&self) -> usize {
        self.list.count()
    }

    /// G92: names the machine and makes its corner the current point.
    pub fn set_machine(&mut self, corner: Point) -> Result<(), Refusal> {
        self.range = Range::of_machine(corner)?;
        self.state.at = corner;
        Ok(())
    }

    /// Takes on the G90 or G91 and the tool of a block, which hold for that block already.
    pub fn choose(&mut self, reading: Option<Reading>, tool: Option<Tool>) {
        if let Some(reading) = reading {
            self.state.reading = reading;
        }
        if tool.is_some() {
            self.state.tool = tool;
        }
    }

    /// A: stores a pattern.
    pub fn remember(&mut self, memory: u8, pattern: Pattern) {
        self.state.memories[usize::from(memory) - 1] = Some(pattern);
    }

    /// B: the pattern stored; refusal 10.
    pub fn recall(&self, memory: u8) -> Result<Pattern, Refusal> {
        self.state.memories[usize::from(memory) - 1].ok_or(Refusal::NothingStored)
    }

    /// The place that X and Y name; an omitted axis stays.
    fn target(&self, axes: Axes) -> Point {
        let from = match self.state.reading {
            Reading::Absolute => self.state.origin,
            Reading::Relative => self.state.at,
        };
        Point {
            x: axes.x.map_or(self.state.at.x, |x| from.x + x),
            y: axes.y.map_or(self.state.at.y, |y| from.y + y),
        }
    }

    /// A position block: drops a waiting origin and punches.
    pub fn punch_at(&mut self, axes: Axes) -> Result<(), Refusal> {
        self.state.waiting = None;
        let target = self.target(axes);
        self.hit(self.image(target))?;
        self.state.at = target;
        Ok(())
    }

    /// G70: a position block that only moves.
    pub fn move_to(&mut self, axes: Axes) -> Result<(), Refusal> {
        self.state.waiting = None;
        let target = self.target(axes);
        self.range.judge(self.image(target))?;
        self.state.at = target;
        Ok(())
    }

    /// G72: sets the origin that waits for the next pattern.
    pub fn set_waiting(&mut self, axes: Axes) -> Result<(), Refusal> {
        self.state.waiting = Some(self.target(axes).judged()?);
        Ok(())
    }

    /// G73: opens a mirror within those that are open, which it gives; the current point becomes the origin.
    pub fn open_mirror(&mut self, symmetry: Symmetry) -> Option<Mirror> {
        let outer = self.mirror;
        let mirror = Mirror::of(symmetry, self.state.origin);
        self.mirror = Some(outer.map_or(mirror, |outer| mirror.within(outer)));
        self.state.given = Some(symmetry.distance);
        self.state.return_to_origin();
        outer
    }

    /// Goes back to the mirrors that were open before; the current point becomes the origin.
    pub fn close_mirror(&mut self, outer: Option<Mirror>) {
        self.mirror = outer;
        self.state.return_to_origin();
    }

    /// Where a place lies after all mirrors.
    fn image(&self, place: Point) -> Point {
        self.mirror.map_or(place, |mirror| mirror.image(place))
    }

    /// Makes a hit at a place as it stands after all mirrors; refusals 14 to 17.
    pub fn hit(&mut self, place: Point) -> Result<(), Refusal> {
        let tool = self.state.tool.ok_or(Refusal::NoTool)?;
        self.range.judge(place)?;
        let mode = self.state.mode;
        self.list.add(Entry::Hit { place, tool, mode })
    }

    /// M00, M01: makes a stop, which changes nothing of the state; refusal 17.
    pub fn stop(&mut self, is_optional: bool) -> Result<(), Refusal> {
        self.list.add(Entry::Stop { is_optional })
    }
}
