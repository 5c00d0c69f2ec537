//! The tally: hits by tool, kept up as they come.

use crate::press::Tool;

/// How many tools there are; they have the numbers 1 to 99.
pub const TOOLS: usize = 99;

/// Three figures for each tool, tool 1 first: its hits, and the first and the last index where it stands in the list, from
/// 1 and with stops counted. All three are zero if it makes no hit.
pub type Tally = [[u64; 3]; TOOLS];

/// A tally without hits.
pub const NO_HITS: Tally = [[0; 3]; TOOLS];

/// Counts a hit by a tool, which is the entry with an index.
pub fn count_hit(tally: &mut Tally, tool: Tool, index: u64) {
    let [hits, first, last] = &mut tally[usize::from(tool.get()) - 1];
    if *hits == 0 {
        *first = index;
    }
    *hits += 1;
    *last = index;
}
