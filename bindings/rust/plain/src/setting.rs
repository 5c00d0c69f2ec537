//! The decimal point setting.

/// What lengths and angles without a point count.
#[derive(Clone, Copy, Debug, PartialEq, Eq)]
pub enum Setting {
    /// Setting 1: hundredths of a millimetre or a degree.
    Hundredths,
    /// Setting 0: whole millimetres or degrees.
    Millimetres,
}

impl Setting {
    /// The setting that a number states: 0 is setting 0, any other number counts as 1.
    pub fn from_number(number: i32) -> Setting {
        match number {
            0 => Setting::Millimetres,
            _ => Setting::Hundredths,
        }
    }
}
