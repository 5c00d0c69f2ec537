//! An expander of ARIES punch code in plain Rust.
//!
//! It is written from the rules alone and shares no code with the proved library, so that the two can be compared.
//!
//! ```
//! let mut list = [-1; 16];
//! let mut tally = [[7; 3]; plain::TOOLS];
//! let text = b"G92 X600. Y600.\nG90 X100. Y100. T2\nM00\nG28 I10. J45. K1\nG50\n";
//! assert_eq!(plain::expand(1, text, &mut list, &mut tally), plain::Answer::Entries(3));
//! assert_eq!(list, [10000, 10000, 2, 0, 0, 0, 0, 2, 10707, 10707, 2, 0, 0, 0, 0, 0]);
//! assert_eq!(tally[..3], [[0, 0, 0], [2, 1, 3], [0, 0, 0]]);
//! ```

mod blocks;
mod entries;
mod layouts;
mod macros;
mod mirrors;
mod order;
mod patterns;
mod press;
mod program;
mod refusal;
mod setting;
mod shear;
mod sine;
mod tally;
mod text;
mod words;

use entries::{EntryList, NUMBERS};
use press::Press;
use program::Expander;
use refusal::Refused;
use setting::Setting;
use tally::NO_HITS;
use text::Text;

pub use tally::{Tally, TOOLS};

/// What a text comes to.
#[derive(Clone, Copy, Debug, PartialEq, Eq)]
pub enum Answer {
    /// The program is accepted and makes this many entries.
    Entries(usize),
    /// The program is refused: the number of the refusal, 1 to 18, and its line, 0 for the text as a whole.
    Refused { number: u8, line: u64 },
}

/// Expands a text into the lent list, four numbers an entry: X, Y, tool, mode. The mode of a hit is 0 punching, 1
/// nibbling; that of a stop is 2, or 3 if it is optional, and its other numbers are zero. The lent tally has the hits of
/// each tool, and the first and the last index where it stands.
///
/// The setting is the decimal point setting: at 0, lengths and angles without a point count whole millimetres and
/// degrees; any other number counts as 1, and they count hundredths. The numbers after the entries are zero, and after a
/// refusal all numbers and the tally.
pub fn expand(setting: i32, text: &[u8], list: &mut [i32], tally: &mut Tally) -> Answer {
    *tally = NO_HITS;
    match expand_entries(Setting::from_number(setting), text, list, tally) {
        Ok(count) => {
            list[NUMBERS * count..].fill(0);
            Answer::Entries(count)
        }
        Err(refused) => {
            list.fill(0);
            *tally = NO_HITS;
            Answer::Refused {
                number: refused.refusal as u8,
                line: u64::from(refused.line),
            }
        }
    }
}

/// Writes the entries of a text to the start of the list, counts them, and adds their hits to the tally.
fn expand_entries(setting: Setting, text: &[u8], list: &mut [i32], tally: &mut Tally) -> Result<usize, Refused> {
    let text = Text::read(text)?;
    Expander::new(setting, &text, Press::new(EntryList::new(list, tally))).run()
}
