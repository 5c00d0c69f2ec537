//! The tally: hits by tool.

use std::fmt;

/// How many tools there are; they have the numbers 1 to 99.
pub const TOOLS: usize = 99;

/// What a tally has of one tool. All three are zero if the tool makes no hit.
///
/// Indexes are those of the list, from 1, and stops have indexes too: the entry with index i stands at `entries[i - 1]`.
#[derive(Clone, Copy, Debug, Default, PartialEq, Eq, Hash)]
#[repr(C)]
pub struct Tool {
    /// How many hits it makes.
    pub hits: u64,
    /// The index of its first hit.
    pub first: u64,
    /// The index of its last hit.
    pub last: u64,
}

/// The hits of a program by tool.
///
/// ```
/// use tolkjirp::{expand, Setting, Tool};
///
/// let text = b"G92 X600. Y600.\nX10. T7\nM00\nX20. T2\nX30.\nX40. T7\nG50\n";
/// let tally = expand(Setting::Hundredths, text, 4096)?.tally;
/// assert_eq!(tally.tool(7), Some(Tool { hits: 2, first: 1, last: 5 }));
/// assert_eq!(tally.tool(8), Some(Tool { hits: 0, first: 0, last: 0 }));
/// assert_eq!(tally.hits(), 4);
/// for (number, tool) in tally.used() {
///     println!("tool {number} makes {} hits", tool.hits);
/// }
/// # Ok::<(), tolkjirp::Failure>(())
/// ```
#[derive(Clone, PartialEq, Eq, Hash)]
#[repr(C)]
pub struct Tally {
    /// By number, tool 1 first: tool t stands at index t - 1.
    pub tools: [Tool; TOOLS],
}

impl Tally {
    /// A tally without hits.
    pub const fn new() -> Tally {
        const UNUSED: Tool = Tool {
            hits: 0,
            first: 0,
            last: 0,
        };
        Tally { tools: [UNUSED; TOOLS] }
    }

    /// The tool with a number, used or not; none if the number is not from 1 to 99.
    pub fn tool(&self, number: u8) -> Option<Tool> {
        let index = usize::from(number).checked_sub(1)?;
        self.tools.get(index).copied()
    }

    /// The tools that make hits, each with its number, in the order of their numbers.
    pub fn used(&self) -> impl Iterator<Item = (u8, Tool)> + '_ {
        self.numbered().filter(|(_, tool)| tool.hits > 0)
    }

    /// The hits of all tools together: so many entries of the list are not stops.
    pub fn hits(&self) -> u64 {
        self.tools.iter().map(|tool| tool.hits).sum()
    }

    /// All tools with their numbers.
    fn numbered(&self) -> impl Iterator<Item = (u8, Tool)> + '_ {
        (1..).zip(self.tools.iter().copied())
    }

    /// Panics if it can't be the tally of a list with so many entries.
    pub(crate) fn check(&self, entries: u64) {
        if let Some((number, tool)) = self.numbered().find(|(_, tool)| !tool.can_stand_among(entries)) {
            panic!("the library gives tool {number} the figures {tool} among {entries} entries");
        }
        let hits = self.hits();
        assert!(
            hits <= entries,
            "the library counts {hits} hits among {entries} entries"
        );
    }
}

impl Tool {
    /// Whether its figures can be those of a tool in a list with so many entries.
    fn can_stand_among(self, entries: u64) -> bool {
        let Tool { hits, first, last } = self;
        match hits {
            0 => first == 0 && last == 0,
            1 => 0 < first && first == last && last <= entries,
            _ => 0 < first && first < last && last <= entries && hits - 1 <= last - first,
        }
    }
}

impl Default for Tally {
    fn default() -> Tally {
        Tally::new()
    }
}

impl fmt::Debug for Tally {
    /// The tools that make hits, by number.
    fn fmt(&self, f: &mut fmt::Formatter) -> fmt::Result {
        f.debug_map().entries(self.used()).finish()
    }
}

impl fmt::Display for Tool {
    /// Hits, first and last index, as `hitlist` prints them after the tool's number.
    fn fmt(&self, f: &mut fmt::Formatter) -> fmt::Result {
        write!(f, "{} {} {}", self.hits, self.first, self.last)
    }
}
