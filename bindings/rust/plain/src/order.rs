//! The order of places in grids and layouts: back and forth, lane by lane.

/// The axis along which lanes run.
#[derive(Clone, Copy, PartialEq, Eq, Debug)]
pub enum Along {
    X,
    Y,
}

impl Along {
    /// Visits all places of `columns + 1` by `rows + 1`, the first lane away from (0, 0), the next back, and so on,
    /// until the visitor gives an error.
    pub fn visit<E>(self, columns: i32, rows: i32, mut visit: impl FnMut(i32, i32) -> Result<(), E>) -> Result<(), E> {
        match self {
            Along::X => back_and_forth(rows, columns, |row, column| visit(column, row)),
            Along::Y => back_and_forth(columns, rows, visit),
        }
    }

    /// The last place that is visited.
    pub fn last(self, columns: i32, rows: i32) -> (i32, i32) {
        match self {
            Along::X => (end_of_lane(rows, columns), rows),
            Along::Y => (columns, end_of_lane(columns, rows)),
        }
    }
}

/// Visits lanes 0 to `lanes` in turn, each with steps 0 to `steps`, backwards in odd lanes.
fn back_and_forth<E>(lanes: i32, steps: i32, mut visit: impl FnMut(i32, i32) -> Result<(), E>) -> Result<(), E> {
    for lane in 0..=lanes {
        for done in 0..=steps {
            visit(lane, if lane % 2 == 0 { done } else { steps - done })?;
        }
    }
    Ok(())
}

/// The step at which a lane ends.
fn end_of_lane(lane: i32, steps: i32) -> i32 {
    if lane % 2 == 0 {
        steps
    } else {
        0
    }
}

#[cfg(test)]
mod tests {
    use super::*;

    fn places(along: Along, columns: i32, rows: i32) -> Vec<(i32, i32)> {
        let mut places = Vec::new();
        let visited: Result<(), ()> = along.visit(columns, rows, |column, row| {
            places.push((column, row));
            Ok(())
        });
        assert_eq!(visited, Ok(()));
        assert_eq!(places.last(), Some(&along.last(columns, rows)));
        places
    }

    #[test]
    fn lanes_go_back_and_forth() {
        assert_eq!(places(Along::X, 1, 2), [(0, 0), (1, 0), (1, 1), (0, 1), (0, 2), (1, 2)]);
        assert_eq!(places(Along::Y, 1, 2), [(0, 0), (0, 1), (0, 2), (1, 2), (1, 1), (1, 0)]);
        assert_eq!(places(Along::X, 0, 0), [(0, 0)]);
    }
}
