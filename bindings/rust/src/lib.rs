//! Safe Rust interface to the proved expander of ARIES punch code.
//!
//! A program text goes in, with the decimal point setting that it is written for; the list of entries for the press
//! comes out, with the tally of its hits by tool, or a refusal with its line. An entry is a hit, or a stop: that of M00,
//! or the optional one of M01.
//!
//! ```
//! use tolkjirp::{expand, Entry, Hit, Mode, Setting, Tool};
//!
//! let text = b"G92 X600. Y600.\nG90 X100. Y100. T2\nG28 I10. J45. K2\nM00\nG50\n";
//! let expansion = expand(Setting::Hundredths, text, 4096)?;
//! let entries = &expansion.entries;
//! assert_eq!(entries.len(), 4);
//! assert_eq!(entries[1], Entry::Hit(Hit { x: 10707, y: 10707, tool: 2, mode: Mode::Punch }));
//! assert_eq!(entries[3], Entry::Stop { optional: false });
//!
//! let used: Vec<_> = expansion.tally.used().collect();
//! assert_eq!(used, [(2, Tool { hits: 3, first: 1, last: 3 })]);
//!
//! let in_millimetres = b"G92 X600 Y600\nG90 X100 Y100 T2\nG28 I10 J45 K2\nM00\nG50\n";
//! assert_eq!(expand(Setting::Millimetres, in_millimetres, 4096)?, expansion);
//! # Ok::<(), tolkjirp::Failure>(())
//! ```
//!
//! The library keeps no state, so threads may call it at the same time. A call uses up to 84 kB of the stack, whatever
//! the text; that is measured and not proved, so a thread of its own should have 128 kB or more.

mod entry;
mod failure;
mod library;
mod refusal;
mod setting;
mod tally;

pub use entry::{Entries, Entry, Hit, Mode, NUMBERS_PER_ENTRY};
pub use failure::Failure;
pub use refusal::{NoSuchRefusal, Refusal, Refused};
pub use setting::Setting;
pub use tally::{Tally, Tool, TOOLS};

/// The most bytes that a text may have; a longer one is refused.
pub const LONGEST_TEXT: usize = 60_000;

/// What an accepted text comes to.
#[derive(Clone, Debug, PartialEq, Eq, Hash)]
pub struct Expansion {
    /// The list, in order; the entry with index i stands at `entries[i - 1]`.
    pub entries: Vec<Entry>,
    /// Its hits by tool.
    pub tally: Tally,
}

/// Expands a program text at a setting, with places for so many entries.
///
/// Fails if the text is refused, or if the memory for so many places can't be had.
///
/// ```
/// use tolkjirp::{expand, Failure, Refusal, Refused, Setting};
///
/// let failure = expand(Setting::Hundredths, b"G92 X600. Y600.\nX10. T2\nY10.\nG50\n", 1).unwrap_err();
/// assert_eq!(failure, Failure::Refused(Refused { refusal: Refusal::ListFull, line: 3 }));
/// assert_eq!(failure.to_string(), "refusal 17 in line 3: the list has no place left for an entry");
///
/// let failure = expand(Setting::Hundredths, b"G92 X600. Y600.\nG50\n", usize::MAX).unwrap_err();
/// assert_eq!(failure, Failure::NoMemory);
/// ```
pub fn expand(setting: Setting, text: &[u8], places: usize) -> Result<Expansion, Failure> {
    let mut list = zeros(places)?;
    let mut tally = Tally::new();
    let entries = expand_into(setting, text, &mut list, &mut tally)?;
    let mut taken = Vec::new();
    taken.try_reserve_exact(entries.len()).map_err(|_| Failure::NoMemory)?;
    taken.extend(entries);
    Ok(Expansion { entries: taken, tally })
}

/// A list with places for so many entries.
fn zeros(places: usize) -> Result<Vec<i32>, Failure> {
    let length = places.checked_mul(NUMBERS_PER_ENTRY).ok_or(Failure::NoMemory)?;
    let mut list = Vec::new();
    list.try_reserve_exact(length).map_err(|_| Failure::NoMemory)?;
    list.resize(length, 0);
    Ok(list)
}

/// Expands a program text at a setting into a lent list and a lent tally, and gives the entries in the list; nothing is
/// allocated.
///
/// An entry takes four numbers: X, Y, tool and mode (0 punching, 1 nibbling, 2 a stop, 3 an optional stop). X, Y and
/// tool of a stop are zero. The numbers after the entries are zero, and after a refusal all numbers and all of the tally.
/// Fewer than four numbers at the end of the list are no place for an entry. What list and tally hold before does not
/// matter, so that both may be used again for the next text.
///
/// ```
/// use tolkjirp::{expand_into, Entry, Refusal, Setting, Tally, Tool};
///
/// let mut list = [-1; 10];
/// let mut tally = Tally::new();
/// let text = b"G92 X600. Y600.\nM01\nX10. T2\nG50";
/// let entries = expand_into(Setting::Hundredths, text, &mut list, &mut tally)?;
/// assert_eq!(entries.len(), 2);
/// for entry in entries {
///     match entry {
///         Entry::Hit(hit) => assert_eq!((hit.x, hit.y, hit.tool), (1000, 60000, 2)),
///         Entry::Stop { optional } => assert!(optional),
///     }
/// }
/// assert_eq!(list, [0, 0, 0, 3, 1000, 60000, 2, 0, 0, 0]);
/// assert_eq!(tally.tool(2), Some(Tool { hits: 1, first: 2, last: 2 }));
///
/// let text = b"G92 X600. Y600.\nX10. T2\nY-99.\nG50";
/// let refused = expand_into(Setting::Hundredths, text, &mut list, &mut tally).unwrap_err();
/// assert_eq!((refused.refusal, refused.line), (Refusal::OutOfRange, 3));
/// assert_eq!(list, [0; 10]);
/// assert_eq!(tally, Tally::new());
/// # Ok::<(), tolkjirp::Refused>(())
/// ```
pub fn expand_into<'a>(
    setting: Setting,
    text: &[u8],
    list: &'a mut [i32],
    tally: &mut Tally,
) -> Result<Entries<'a>, Refused> {
    let most = list.len() / NUMBERS_PER_ENTRY;
    match library::call(setting.number(), text, list, tally) {
        [0, entries, 0] => match usize::try_from(entries) {
            Ok(count) if count <= most => {
                tally.check(entries);
                Ok(Entries::first(list, count))
            }
            _ => panic!("the library counts {entries} entries in a list for {most}"),
        },
        [number, 0, line] => {
            tally.check(0);
            Err(Refused::from_numbers(number, line))
        }
        answer => panic!("the library answers {answer:?}"),
    }
}

#[cfg(test)]
mod tests;
