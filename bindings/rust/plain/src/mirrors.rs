//! Mirrors: the symmetry that a G73 asks for, and what all open ones do to a place.

use crate::press::Point;

/// A G73 block without its macro.
#[derive(Clone, Copy)]
pub struct Symmetry {
    /// X and Y: the place into which the origin is turned, from the origin.
    pub distance: Point,
    pub turns_x: bool,
    pub turns_y: bool,
}

impl Symmetry {
    /// Q: 1 turns nothing, 2 each X, 3 each Y, 4 both.
    pub fn from_number(number: i32, distance: Point) -> Symmetry {
        Symmetry {
            distance,
            turns_x: number == 2 || number == 4,
            turns_y: number == 3 || number == 4,
        }
    }
}

/// What becomes of a coordinate: it is multiplied by 1 or -1, then something is added.
#[derive(Clone, Copy)]
struct Turn {
    sign: i32,
    added: i32,
}

impl Turn {
    /// The turn of an axis that puts the origin's coordinate so far away, if it is to be turned.
    fn about(is_turned: bool, origin: i32, distance: i32) -> Turn {
        if is_turned {
            Turn {
                sign: -1,
                added: 2 * origin + distance,
            }
        } else {
            Turn { sign: 1, added: 0 }
        }
    }

    fn turned(self, coordinate: i32) -> i32 {
        self.sign * coordinate + self.added
    }

    /// This turn first, and then the outer one.
    fn within(self, outer: Turn) -> Turn {
        Turn {
            sign: self.sign * outer.sign,
            added: outer.turned(self.added),
        }
    }
}

/// What all mirrors that are open do to a place, the innermost first.
#[derive(Clone, Copy)]
pub struct Mirror {
    x: Turn,
    y: Turn,
}

impl Mirror {
    /// The mirror of a symmetry about an origin.
    pub fn of(symmetry: Symmetry, origin: Point) -> Mirror {
        let Symmetry {
            distance,
            turns_x,
            turns_y,
        } = symmetry;
        Mirror {
            x: Turn::about(turns_x, origin.x, distance.x),
            y: Turn::about(turns_y, origin.y, distance.y),
        }
    }

    /// This mirror within others.
    pub fn within(self, outer: Mirror) -> Mirror {
        Mirror {
            x: self.x.within(outer.x),
            y: self.y.within(outer.y),
        }
    }

    /// Where a place as written lies on the sheet.
    pub fn image(self, place: Point) -> Point {
        Point {
            x: self.x.turned(place.x),
            y: self.y.turned(place.y),
        }
    }
}

#[cfg(test)]
mod tests {
    use super::*;

    const ORIGIN: Point = Point { x: 1_000, y: 200 };
    const PLACE: Point = Point { x: 1_010, y: 203 };

    fn symmetry(number: i32, x: i32, y: i32) -> Symmetry {
        Symmetry::from_number(number, Point { x, y })
    }

    /// PLACE from the origin, after mirrors that are opened one within the other.
    fn seen(symmetries: &[Symmetry]) -> (i32, i32) {
        let mirrors = symmetries.iter().map(|&symmetry| Mirror::of(symmetry, ORIGIN));
        let image = mirrors
            .reduce(|outer, inner| inner.within(outer))
            .map_or(PLACE, |mirror| mirror.image(PLACE));
        (image.x - ORIGIN.x, image.y - ORIGIN.y)
    }

    #[test]
    fn places_are_turned_as_q_says() {
        assert_eq!(seen(&[]), (10, 3));
        assert_eq!(seen(&[symmetry(1, 500, 70)]), (10, 3));
        assert_eq!(seen(&[symmetry(2, 500, 70)]), (490, 3));
        assert_eq!(seen(&[symmetry(3, 500, 70)]), (10, 67));
        assert_eq!(seen(&[symmetry(4, 500, 70)]), (490, 67));
    }

    #[test]
    fn the_inner_mirror_comes_first() {
        let (outer, inner) = (symmetry(2, 500, 70), symmetry(4, 30, -9));
        // 30 - 10 and -9 - 3, then 500 less that
        assert_eq!(seen(&[outer, inner]), (480, -12));
        // 500 - 10, then 30 and -9 less that
        assert_eq!(seen(&[inner, outer]), (-460, -12));
    }

    #[test]
    fn one_mirror_twice_is_none() {
        for number in 1..=4 {
            let mirror = symmetry(number, 500, 70);
            assert_eq!(seen(&[mirror, mirror]), seen(&[]), "Q{number}");
        }
    }

    #[test]
    fn both_axes_are_one_after_the_other() {
        let [x, y, both] = [2, 3, 4].map(|number| symmetry(number, 500, 70));
        assert_eq!(seen(&[x, y]), seen(&[both]));
        assert_eq!(seen(&[y, x]), seen(&[both]));
    }

    #[test]
    fn four_mirrors_are_applied_one_by_one() {
        let mirrors = [(4, 999_999, -999_999), (2, -999_999, 0), (3, 5, 999_999), (4, 7, 8)]
            .map(|(number, x, y)| symmetry(number, x, y));
        let mut expected = (10, 3);
        for mirror in mirrors.iter().rev() {
            if mirror.turns_x {
                expected.0 = mirror.distance.x - expected.0;
            }
            if mirror.turns_y {
                expected.1 = mirror.distance.y - expected.1;
            }
        }
        assert_eq!(seen(&mirrors), expected);
    }
}
