//! The decimal point setting.

/// What a length or an angle written without a point counts, in the whole of a text. One with a point is the same at
/// both settings, and so are counts, tools and the numbers of memories and macros. The value of a variant is the number
/// of the setting.
#[derive(Clone, Copy, Debug, PartialEq, Eq, Hash)]
#[repr(i32)]
pub enum Setting {
    /// Setting 1: hundredths of a millimetre or a degree, so that X100 is 1 mm.
    Hundredths = 1,
    /// Setting 0: whole millimetres or degrees, so that X100 is 100 mm. More than 9,999 of them are refused by
    /// [`NumberRange`](crate::Refusal::NumberRange).
    Millimetres = 0,
}

impl Setting {
    /// The number of the setting, 1 or 0.
    pub fn number(self) -> i32 {
        self as i32
    }
}
