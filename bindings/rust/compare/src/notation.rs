//! How lengths and angles are written for a setting.

use tolkjirp::Setting;

/// The number of a length or an angle of so many hundredths, without a point where that can be.
pub fn measure(setting: Setting, hundredths: i32) -> String {
    let sign = if hundredths < 0 { "-" } else { "" };
    let size = hundredths.unsigned_abs();
    match (setting, size % 100) {
        (Setting::Hundredths, _) => format!("{sign}{size}"),
        (Setting::Millimetres, 0) => format!("{sign}{}", size / 100),
        (Setting::Millimetres, decimals) => format!("{sign}{}.{decimals:02}", size / 100),
    }
}

/// A text whose lengths and angles have a point or are 0; for setting 0, points that end a number are left out.
pub fn written_for(setting: Setting, text: &str) -> String {
    let mut parts = text.split('.');
    let mut written = parts.next().unwrap_or_default().to_string();
    for part in parts {
        if setting == Setting::Hundredths || part.starts_with(|first: char| first.is_ascii_digit()) {
            written.push('.');
        }
        written.push_str(part);
    }
    written
}

#[cfg(test)]
mod tests {
    use super::*;

    #[test]
    fn numbers_mean_their_hundredths() {
        for (hundredths, at_1, at_0) in [
            (10_000, "10000", "100"),
            (-150, "-150", "-1.50"),
            (5, "5", "0.05"),
            (0, "0", "0"),
            (1_000_000, "1000000", "10000"),
        ] {
            assert_eq!(measure(Setting::Hundredths, hundredths), at_1);
            assert_eq!(measure(Setting::Millimetres, hundredths), at_0);
        }
    }

    #[test]
    fn points_that_end_a_number_are_left_out() {
        let text = "X600.Y-5.25\nG28 I10. J0 K2\nX1.";
        assert_eq!(written_for(Setting::Hundredths, text), text);
        let in_millimetres = "X600Y-5.25\nG28 I10 J0 K2\nX1";
        assert_eq!(written_for(Setting::Millimetres, text), in_millimetres);
    }
}
