//! Patterns: lines, arcs, circles, grids and shears of hits.

use crate::order::Along;
use crate::press::{is_far, Point, Press};
use crate::refusal::Refusal;
use crate::shear::Shear;
use crate::sine::Direction;

/// A full turn, in hundredths of a degree.
pub const TURN: i32 = 36_000;

/// A pattern's code and numbers.
#[derive(Clone, Copy)]
pub enum Pattern {
    /// G28
    Line { pitch: i32, angle: i32, count: i32 },
    /// G29
    Arc {
        radius: i32,
        angle: i32,
        step: i32,
        count: i32,
    },
    /// G26; clockwise if the count is negative.
    Circle { radius: i32, angle: i32, count: i32 },
    /// G36 along X, G37 along Y; one more column and row than counted, the start left out.
    Grid {
        along: Along,
        pitch: Point,
        columns: i32,
        rows: i32,
    },
    /// G66; the angle is within a turn, so that no pattern takes more room than a grid.
    Shear { shear: Shear, angle: u16 },
}

impl Pattern {
    /// Makes the hits from the waiting origin or the current point on; the current point becomes the pattern's end.
    pub fn run(self, press: &mut Press) -> Result<(), Refusal> {
        let start = press.state.waiting.take().unwrap_or(press.state.at);
        self.judge()?;
        // The mirrors are looked up once, since looking them up for each hit takes time.
        press.state.at = match press.mirror {
            None => self.punch(start, |place| press.hit(place))?,
            Some(mirror) => self.punch(start, |place| press.hit(mirror.image(place)))?,
        };
        Ok(())
    }

    /// Punches from a start on by a function that makes a hit, and gives the end.
    fn punch(self, start: Point, mut hit: impl FnMut(Point) -> Result<(), Refusal>) -> Result<Point, Refusal> {
        match self {
            Pattern::Line { pitch, angle, count } => punch_line(hit, start, pitch, angle, count),
            Pattern::Arc {
                radius,
                angle,
                step,
                count,
            } => punch_arc(hit, start, radius, count, |k| angle + k * step),
            Pattern::Circle { radius, angle, count } => {
                let (size, sign) = (count.abs(), count.signum());
                let angle = |k| angle + sign * circle_turn(k, size);
                punch_arc(hit, start, radius, size, angle)?;
                Ok(start)
            }
            Pattern::Grid {
                along,
                pitch,
                columns,
                rows,
            } => {
                let place = |column, row| start.plus(column * pitch.x, row * pitch.y);
                punch_grid(hit, along, columns, rows, place)
            }
            Pattern::Shear { shear, angle } => {
                for (x, y) in shear.offsets(Direction::of(i32::from(angle))) {
                    hit(start.plus(x, y))?;
                }
                Ok(start)
            }
        }
    }

    /// What is judged before the hits: the reach of lines and grids, refusal 15, and the numbers of a shear, refusal 18.
    fn judge(self) -> Result<(), Refusal> {
        let is_too_far = match self {
            Pattern::Line { pitch, count, .. } => is_far(count * pitch),
            Pattern::Grid {
                pitch, columns, rows, ..
            } => is_far(columns * pitch.x) || is_far(rows * pitch.y),
            Pattern::Arc { .. } | Pattern::Circle { .. } => false,
            Pattern::Shear { shear, .. } => return shear.judge(),
        };
        if is_too_far {
            Err(Refusal::TooFar)
        } else {
            Ok(())
        }
    }
}

/// Punches at 1 to `count` pitches from the start and gives the last place.
fn punch_line(
    mut hit: impl FnMut(Point) -> Result<(), Refusal>,
    start: Point,
    pitch: i32,
    angle: i32,
    count: i32,
) -> Result<Point, Refusal> {
    let direction = Direction::of(angle);
    let mut place = start;
    for k in 1..=count {
        let (x, y) = direction.offset(k * pitch);
        place = start.plus(x, y);
        hit(place)?;
    }
    Ok(place)
}

/// Punches around the start at angles 0 to `count - 1` and gives the last place.
fn punch_arc(
    mut hit: impl FnMut(Point) -> Result<(), Refusal>,
    start: Point,
    radius: i32,
    count: i32,
    angle: impl Fn(i32) -> i32,
) -> Result<Point, Refusal> {
    let mut place = start;
    for k in 0..count {
        let (x, y) = Direction::of(angle(k)).offset(radius);
        place = start.plus(x, y);
        hit(place)?;
    }
    Ok(place)
}

/// The angle of hit k of n around a circle, to the nearest hundredth of a degree, halves up.
fn circle_turn(k: i32, n: i32) -> i32 {
    (2 * TURN * k + n) / (2 * n)
}

/// Punches all places of a grid but the first and gives the last one.
fn punch_grid(
    mut hit: impl FnMut(Point) -> Result<(), Refusal>,
    along: Along,
    columns: i32,
    rows: i32,
    place: impl Fn(i32, i32) -> Point,
) -> Result<Point, Refusal> {
    along.visit(columns, rows, |column, row| {
        if (column, row) == (0, 0) {
            return Ok(());
        }
        hit(place(column, row))
    })?;
    let (column, row) = along.last(columns, rows);
    Ok(place(column, row))
}

#[cfg(test)]
mod tests {
    use super::{circle_turn, Pattern};

    #[test]
    fn patterns_take_little_room() {
        // each copy of a part begins with five of them
        assert_eq!(size_of::<Option<Pattern>>(), 20);
    }

    #[test]
    fn turns_are_rounded_halves_up() {
        assert_eq!(circle_turn(1, 7), 5_143);
        assert_eq!(circle_turn(1, 64), 563);
        assert_eq!(circle_turn(3, 64), 1_688);
        assert_eq!(circle_turn(998, 999), 35_964);
    }
}
