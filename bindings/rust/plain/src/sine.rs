//! Sines of hundredths of a degree, in units of 10^-9.

/// One, in the units of the sines.
const UNIT: i64 = 1_000_000_000;

/// A quarter of a turn, in hundredths of a degree.
const QUARTER: i32 = 9_000;

/// The value of π that the tables are made with.
#[expect(clippy::approx_constant, reason = "the rules give these digits")]
const PI: f64 = 3.141_592_653_589_79;

/// S: the sines of 0 to 90 degrees.
const DEGREES: [i64; 91] = {
    let mut table = [0; 91];
    let mut d = 0;
    while d < 91 {
        table[d] = series(d as f64 * PI / 180.0, 1);
        d += 1;
    }
    table
};

/// s and c: the sines and cosines of 0 to 99 hundredths of a degree.
const HUNDREDTHS: [(i64, i64); 100] = {
    let mut table = [(0, 0); 100];
    let mut h = 0;
    while h < 100 {
        let angle = h as f64 * PI / 18_000.0;
        table[h] = (series(angle, 1), series(angle, 0));
        h += 1;
    }
    table
};

/// The sines of a quarter turn, hundredth by hundredth.
static SINES: [i32; QUARTER as usize + 1] = {
    let mut table = [0; QUARTER as usize + 1];
    let mut angle = 0;
    while angle < table.len() {
        table[angle] = joined(angle / 100, angle % 100);
        angle += 1;
    }
    table
};

/// The series of the sine through the power 17 (first power 1) or of the cosine through 16 (first power 0), as the
/// nearest whole number of units.
const fn series(angle: f64, first_power: u32) -> i64 {
    let mut term = if first_power == 1 { angle } else { 1.0 };
    let mut sum = term;
    let mut power = first_power;
    while power < first_power + 16 {
        term = -term * angle * angle / ((power + 1) * (power + 2)) as f64;
        sum += term;
        power += 2;
    }
    (sum * UNIT as f64 + 0.5) as i64
}

/// The sine of d degrees and h hundredths, by the sum of the two angles.
const fn joined(d: usize, h: usize) -> i32 {
    let (sine, cosine) = HUNDREDTHS[h];
    in_units(DEGREES[d] * cosine + DEGREES[90 - d] * sine) as i32
}

/// A product divided by the unit, to the nearest, halves away from zero.
const fn in_units(product: i64) -> i64 {
    if product < 0 {
        (product - UNIT / 2) / UNIT
    } else {
        (product + UNIT / 2) / UNIT
    }
}

/// The sine of an angle in hundredths of a degree.
fn sine(angle: i32) -> i32 {
    let turned = angle.rem_euclid(4 * QUARTER);
    let within = |angle: i32| SINES[angle as usize];
    match turned / QUARTER {
        0 => within(turned),
        1 => within(2 * QUARTER - turned),
        2 => -within(turned - 2 * QUARTER),
        _ => -within(4 * QUARTER - turned),
    }
}

/// The cosine and sine of an angle.
#[derive(Clone, Copy)]
pub struct Direction {
    cosine: i32,
    sine: i32,
}

impl Direction {
    /// The direction of an angle in hundredths of a degree.
    pub fn of(angle: i32) -> Direction {
        Direction {
            cosine: sine(QUARTER - angle),
            sine: sine(angle),
        }
    }

    /// The offsets in X and Y at a distance in this direction.
    pub fn offset(self, distance: i32) -> (i32, i32) {
        let part = |sine: i32| in_units(i64::from(distance) * i64::from(sine)) as i32;
        (part(self.cosine), part(self.sine))
    }

    /// The offsets in X and Y of a place that lies `along / parts` in this direction and `left / parts` to the left of it.
    pub fn offset_aside(self, along: i64, left: i64, parts: i64) -> (i32, i32) {
        let (cosine, sine) = (i128::from(self.cosine), i128::from(self.sine));
        let (along, left) = (i128::from(along), i128::from(left));
        let denominator = parts * UNIT;
        (
            nearest(along * cosine - left * sine, denominator),
            nearest(along * sine + left * cosine, denominator),
        )
    }
}

/// A fraction with an even denominator as the nearest whole number, halves away from zero.
fn nearest(numerator: i128, denominator: i64) -> i32 {
    let half = i128::from(denominator / 2);
    let raised = if numerator < 0 {
        numerator - half
    } else {
        numerator + half
    };
    // Most numerators have 64 bits, and dividing these is faster.
    match i64::try_from(raised) {
        Ok(raised) => (raised / denominator) as i32,
        Err(_) => (raised / i128::from(denominator)) as i32,
    }
}

#[cfg(test)]
mod tests {
    use super::*;

    /// One, in the units of the exact series.
    const FINE: i128 = 1_000_000_000_000_000_000;

    /// The same series in whole numbers: the angle is a numerator over 18,000 times 3.14159265358979.
    fn exact(hundredths: i128, first_power: i128) -> i64 {
        let angle = hundredths * 314_159_265_358_979 * (FINE / 100_000_000_000_000) / 18_000;
        let times = |a: i128, b: i128| a * b / FINE;
        let mut term = if first_power == 1 { angle } else { FINE };
        let mut sum = term;
        for half in 0..8 {
            let power = first_power + 2 * half;
            term = -times(times(term, angle), angle) / ((power + 1) * (power + 2));
            sum += term;
        }
        let step = FINE / i128::from(UNIT);
        ((sum + step / 2) / step) as i64
    }

    #[test]
    fn tables_follow_the_series() {
        for (d, &sine) in DEGREES.iter().enumerate() {
            assert_eq!(sine, exact(100 * d as i128, 1), "S({d})");
        }
        for (h, &(sine, cosine)) in HUNDREDTHS.iter().enumerate() {
            assert_eq!(sine, exact(h as i128, 1), "s({h})");
            assert_eq!(cosine, exact(h as i128, 0), "c({h})");
        }
    }

    #[test]
    fn other_angles_are_reflected() {
        assert_eq!(sine(0), 0);
        assert_eq!(sine(3_000), 500_000_000);
        assert_eq!(sine(4_500), 707_106_781);
        assert_eq!(sine(9_000), 1_000_000_000);
        for angle in [-999_999, -1, 1, 4_567, 8_999, 12_345, 998_999_001] {
            assert_eq!(sine(-angle), -sine(angle));
            assert_eq!(sine(18_000 - angle), sine(angle));
            assert_eq!(sine(angle % 36_000), sine(angle));
        }
    }

    #[test]
    fn offsets_are_rounded_away_from_zero() {
        let diagonal = Direction::of(4_500);
        assert_eq!(diagonal.offset(5_000), (3_536, 3_536));
        assert_eq!(diagonal.offset(-5_000), (-3_536, -3_536));
        assert_eq!(Direction::of(3_000).offset(-1), (-1, -1));
    }

    #[test]
    fn places_aside_are_rounded_once() {
        let rightwards = Direction::of(0);
        assert_eq!(rightwards.offset_aside(7, 3, 2), (4, 2));
        assert_eq!(rightwards.offset_aside(-7, -3, 2), (-4, -2));
        assert_eq!(rightwards.offset_aside(7, 8, 3), (2, 3));
        assert_eq!(Direction::of(9_000).offset_aside(7, 3, 2), (-2, 4));
        // 50.5 x 0.866025404 - 50.5 x 0.5 is 18.48; of rounded parts it would be 44 - 25
        assert_eq!(Direction::of(3_000).offset_aside(101, 101, 2), (18, 69));
    }

    #[test]
    fn fractions_of_any_size_are_rounded_alike() {
        // from 79,000 on the numerators have more than 64 bits
        let denominator = 117_644 * UNIT;
        for whole in [0, 1, -1, 5, 78_000, -78_000, 79_000, -79_000, 1_999_999, -1_999_999] {
            let numerator = i128::from(whole) * i128::from(denominator);
            let half = i128::from(denominator / 2);
            assert_eq!(nearest(numerator, denominator), whole);
            assert_eq!(nearest(numerator + half - 1, denominator), whole);
            assert_eq!(nearest(numerator - half + 1, denominator), whole);
        }
        assert_eq!(nearest(i128::from(5 * UNIT), 2 * UNIT), 3);
        assert_eq!(nearest(i128::from(-5 * UNIT), 2 * UNIT), -3);
    }
}
