//! Layouts: the places of the copies of a part.

use crate::order::Along;
use crate::press::Point;

/// The place that a run begins with.
#[derive(Clone, Copy)]
pub struct Corner {
    is_right: bool,
    is_upper: bool,
}

impl Corner {
    /// Q: 1 lower left, 2 lower right, 3 upper left, 4 upper right.
    pub fn from_number(number: i32) -> Corner {
        Corner {
            is_right: number == 2 || number == 4,
            is_upper: number == 3 || number == 4,
        }
    }
}

/// A G98 block: `columns + 1` by `rows + 1` places, the lower left one at the origin.
#[derive(Clone, Copy)]
pub struct Layout {
    pub reference: Point,
    pub pitch: Point,
    pub columns: i32,
    pub rows: i32,
}

impl Layout {
    /// Visits the places of all copies in order, from a corner on, until the visitor gives an error.
    pub fn visit<E>(
        &self,
        origin: Point,
        along: Along,
        corner: Corner,
        mut visit: impl FnMut(Point) -> Result<(), E>,
    ) -> Result<(), E> {
        along.visit(self.columns, self.rows, |column, row| {
            visit(self.place(origin, corner, column, row))
        })
    }

    /// The place that lies so many columns and rows from a corner.
    fn place(&self, origin: Point, corner: Corner, column: i32, row: i32) -> Point {
        let right = if corner.is_right { self.columns - column } else { column };
        let up = if corner.is_upper { self.rows - row } else { row };
        origin.plus(right * self.pitch.x, up * self.pitch.y)
    }
}
