//! Tallies as numbers, and the tally that is taken from a finished list.

use tolkjirp::{NUMBERS_PER_ENTRY, TOOLS};

/// The figures of a tool: its hits, and the first and the last index where it stands, from 1 and with stops counted.
pub type Figures = [u64; 3];

/// The figures of all tools, tool 1 first.
pub type Tally = [Figures; TOOLS];

/// The least mode of stops; hits have smaller ones.
const FIRST_STOP_MODE: i32 = 2;

/// Whether the four numbers of an entry are those of a stop.
pub fn is_stop(entry: &[i32]) -> bool {
    entry[3] >= FIRST_STOP_MODE
}

/// The tally of entries, of which nothing but their numbers in the list is known.
pub fn taken_from(entries: &[i32]) -> Tally {
    let mut tally = [[0; 3]; TOOLS];
    let entries = entries.chunks_exact(NUMBERS_PER_ENTRY).enumerate();
    let hits = entries.filter(|(_, entry)| !is_stop(entry));
    let hits = hits.map(|(place, entry)| (place as u64 + 1, entry[2] as usize - 1));
    for (index, tool) in hits.clone() {
        let [count, _, last] = &mut tally[tool];
        *count += 1;
        *last = index;
    }
    for (index, tool) in hits.rev() {
        let [_, first, _] = &mut tally[tool];
        *first = index;
    }
    tally
}

/// The first tool in which two tallies differ, and its figures in both.
pub fn difference(first: &Tally, second: &Tally) -> Option<(usize, Figures, Figures)> {
    let tools = (1..).zip(first.iter().zip(second));
    let mut differing = tools.filter(|(_, (first, second))| first != second);
    differing.next().map(|(tool, (&first, &second))| (tool, first, second))
}

/// What is wrong with the tally of a finished list: it is not the one taken from the entries, or its hits don't add up to
/// those that are not stops.
pub fn fault(tally: &Tally, entries: &[i32]) -> Option<String> {
    let taken = taken_from(entries);
    if let Some((tool, kept, taken)) = difference(tally, &taken) {
        return Some(format!(
            "tool {tool} has {kept:?} in the tally and {taken:?} in the list"
        ));
    }
    let added: u64 = tally.iter().map(|[hits, ..]| hits).sum();
    let entries = entries.chunks_exact(NUMBERS_PER_ENTRY);
    let hits = entries.filter(|entry| !is_stop(entry)).count() as u64;
    (added != hits).then(|| format!("the tally has {added} hits and the list {hits}"))
}

#[cfg(test)]
mod tests {
    use super::*;

    const STOP: [i32; 4] = [0, 0, 0, 2];
    const OPTIONAL_STOP: [i32; 4] = [0, 0, 0, 3];

    /// A list in which tools 1 and 99 stand, with stops before, between and behind.
    fn entries() -> Vec<i32> {
        [
            STOP,
            [1, 2, 99, 0],
            [3, 4, 1, 1],
            OPTIONAL_STOP,
            [5, 6, 99, 1],
            [0, 0, 99, 0],
            STOP,
        ]
        .concat()
    }

    /// A tally with the figures of tools 1 and 99.
    fn tally(first: Figures, last: Figures) -> Tally {
        let mut tally = [[0; 3]; TOOLS];
        tally[0] = first;
        tally[98] = last;
        tally
    }

    #[test]
    fn a_tally_is_taken_from_a_list() {
        assert_eq!(taken_from(&entries()), tally([1, 3, 3], [3, 2, 6]));
        assert_eq!(taken_from(&[]), [[0; 3]; TOOLS]);
        assert_eq!(taken_from(&[STOP, OPTIONAL_STOP].concat()), [[0; 3]; TOOLS]);
    }

    #[test]
    fn wrong_tallies_are_told() {
        assert_eq!(fault(&tally([1, 3, 3], [3, 2, 6]), &entries()), None);
        for (first, last, tool) in [
            // a stop counted, last kept as first, first as last, places for indexes, stops without indexes
            ([1, 3, 3], [4, 2, 7], 99),
            ([1, 3, 3], [3, 2, 2], 99),
            ([1, 3, 3], [3, 6, 6], 99),
            ([1, 2, 2], [3, 1, 5], 1),
            ([1, 2, 2], [3, 1, 4], 1),
            ([0, 0, 0], [4, 2, 6], 1),
        ] {
            let told = fault(&tally(first, last), &entries()).unwrap();
            assert!(told.starts_with(&format!("tool {tool} has ")), "{told}");
        }
    }

    #[test]
    fn figures_left_after_a_refusal_are_told() {
        assert_eq!(fault(&[[0; 3]; TOOLS], &[]), None);
        assert!(fault(&tally([0, 0, 0], [0, 0, 1]), &[]).is_some());
    }
}
