//! Shears: long edges, cut by a line of hits with a rectangular tool.

use crate::refusal::Refusal;
use crate::sine::Direction;

/// The largest size of a tool along the line that is too small, in hundredths.
const TOO_NARROW: i32 = 100;

/// How far neighbouring hits overlap at least, in hundredths.
const OVERLAP: i32 = 50;

/// The lengths of a G66 block, in hundredths.
#[derive(Clone, Copy)]
pub struct Shear {
    /// I: the length of the edge.
    pub length: i32,
    /// P: the tool's size along the line, negative if the tool lies to the right of it.
    pub along: i32,
    /// Q: the tool's size across the line, with the sign of P.
    pub across: i32,
    /// D: what is added at both ends.
    pub extra: i32,
}

impl Shear {
    /// Judges whether the lengths fit together; refusal 18.
    pub fn judge(&self) -> Result<(), Refusal> {
        let has_one_side = self.along.signum() * self.across.signum() == 1;
        let width = self.width();
        let is_long = 2 * self.length >= 3 * width && self.full_length() >= width;
        if has_one_side && width > TOO_NARROW && is_long {
            Ok(())
        } else {
            Err(Refusal::ShearUnfit)
        }
    }

    /// The offsets of the hits from the start, in order, on a line in a direction; the lengths fit together.
    pub fn offsets(&self, direction: Direction) -> impl Iterator<Item = (i32, i32)> {
        let steps = i64::from(self.steps());
        // Distances are counted in parts, twice as many of a hundredth as there are steps.
        let scale = steps.max(1);
        let first = scale * i64::from(self.width() - 2 * self.extra);
        let step = 2 * i64::from(self.way());
        let left = scale * i64::from(self.across);
        (0..=steps).map(move |k| direction.offset_aside(first + k * step, left, 2 * scale))
    }

    /// The size of P.
    fn width(&self) -> i32 {
        self.along.abs()
    }

    /// What is cut in all.
    fn full_length(&self) -> i32 {
        self.length + 2 * self.extra
    }

    /// How far the last hit lies from the first.
    fn way(&self) -> i32 {
        self.full_length() - self.width()
    }

    /// The fewest equal steps of the way that leave the overlap.
    fn steps(&self) -> i32 {
        let longest = self.width() - OVERLAP;
        (self.way() + longest - 1) / longest
    }
}

#[cfg(test)]
mod tests {
    use super::*;

    /// A shear with a square tool.
    fn shear(length: i32, along: i32, extra: i32) -> Shear {
        Shear {
            length,
            along,
            across: along,
            extra,
        }
    }

    /// The offsets of a shear along X.
    fn offsets(shear: Shear) -> Vec<(i32, i32)> {
        shear.offsets(Direction::of(0)).collect()
    }

    fn fits(shear: Shear) -> bool {
        shear.judge().is_ok()
    }

    #[test]
    fn sizes_have_one_sign() {
        let with = |along, across| Shear {
            across,
            ..shear(900, along, 0)
        };
        assert!(fits(with(200, 1)) && fits(with(-200, -1)) && fits(with(200, 999_999)));
        assert!(!fits(with(200, -200)) && !fits(with(-200, 200)));
        assert!(!fits(with(200, 0)) && !fits(with(-200, 0)));
        assert!(!fits(with(0, 200)) && !fits(with(0, -200)) && !fits(with(0, 0)));
    }

    #[test]
    fn the_width_is_above_a_millimetre() {
        assert!(fits(shear(900, 101, 0)) && fits(shear(900, -101, 0)));
        assert!(!fits(shear(900, 100, 0)) && !fits(shear(900, -100, 0)));
    }

    #[test]
    fn the_length_is_one_and_a_half_widths() {
        assert!(fits(shear(300, 200, 0)) && !fits(shear(299, 200, 0)));
        assert!(fits(shear(300, -200, 0)) && !fits(shear(299, -200, 0)));
        // one and a half times 2.01 mm is 3.015 mm
        assert!(fits(shear(302, 201, 0)) && !fits(shear(301, 201, 0)));
        // what D adds does not help
        assert!(!fits(shear(299, 200, 900)) && !fits(shear(0, 200, 900)) && !fits(shear(-300, 200, 900)));
    }

    #[test]
    fn the_full_length_is_a_width() {
        assert!(fits(shear(300, 200, -50)) && !fits(shear(300, 200, -51)));
        assert!(fits(shear(301, 200, -50)) && !fits(shear(301, 200, -51)));
        assert!(!fits(shear(300, 200, -999_999)) && fits(shear(300, 200, 999_999)));
    }

    #[test]
    fn steps_are_the_fewest() {
        // two of exactly 49.5 mm; a hundredth more takes a third
        assert_eq!(shear(14_900, 5_000, 0).steps(), 2);
        assert_eq!(shear(14_901, 5_000, 0).steps(), 3);
        // 199 mm by at most 19.5 mm
        assert_eq!(shear(21_900, 2_000, 0).steps(), 11);
        assert_eq!(shear(300, 200, -50).steps(), 0);
        assert_eq!(shear(301, 200, -50).steps(), 1);
        assert_eq!(shear(999_999, 101, 999_999).steps(), 58_822);
        for width in [101, 102, 150, 333, 2_000] {
            for length in width..width + 3_000 {
                let (steps, way) = (shear(length, width, 0).steps(), length - width);
                assert!(way <= steps * (width - 50), "{length} {width}");
                assert!(way > (steps - 1) * (width - 50), "{length} {width}");
            }
        }
    }

    #[test]
    fn one_hit_lies_in_the_middle() {
        assert_eq!(offsets(shear(300, 200, -50)), [(150, 100)]);
    }

    #[test]
    fn the_longest_line_ends_as_far_as_its_length() {
        let offsets = offsets(shear(999_999, 101, 999_999));
        assert_eq!(offsets.len(), 58_823);
        // 50.5 less 999,999; the steps are 2,999,896 / 58,822; then 2,999,896 more than the first
        assert_eq!(offsets[0], (-999_949, 51));
        assert_eq!(offsets[1], (-999_898, 51));
        assert_eq!(offsets[58_822], (1_999_948, 51));
    }
}
