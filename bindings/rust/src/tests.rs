use std::mem::offset_of;

use super::Setting::{Hundredths, Millimetres};
use super::*;

/// A program for the ARIES-222 with the given blocks between G92 and G50.
fn program(blocks: &str) -> Vec<u8> {
    format!("G92 X600. Y600.\n{blocks}\nG50\n").into_bytes()
}

/// The hits of a text at a setting, with places for so many entries and no stop among them.
fn hits(setting: Setting, text: &[u8], places: usize) -> Vec<Hit> {
    let entries = expand(setting, text, places).unwrap().entries;
    entries.iter().map(|entry| entry.hit().expect("no stop")).collect()
}

/// The entries of a text in a lent list.
fn expand_list<'a>(setting: Setting, text: &[u8], list: &'a mut [i32]) -> Result<Entries<'a>, Refused> {
    expand_into(setting, text, list, &mut Tally::new())
}

/// The entries of blocks as they are printed.
fn printed(blocks: &str) -> Vec<String> {
    let entries = expand(Hundredths, &program(blocks), 4096).unwrap().entries;
    entries.iter().map(Entry::to_string).collect()
}

/// The tools that blocks use, as they are printed.
fn printed_tools(blocks: &str) -> Vec<String> {
    let tally = expand(Hundredths, &program(blocks), 4096).unwrap().tally;
    tally.used().map(|(number, tool)| format!("{number} {tool}")).collect()
}

/// A tally full of other numbers.
fn other_numbers() -> Tally {
    let tool = Tool {
        hits: u64::MAX,
        first: 7,
        last: 77,
    };
    Tally { tools: [tool; TOOLS] }
}

/// The refusal of a text, with places for so many entries.
fn refused(text: &[u8], places: usize) -> Refused {
    match expand(Hundredths, text, places) {
        Err(Failure::Refused(refused)) => refused,
        answer => panic!("{answer:?}"),
    }
}

fn refusal(blocks: &str) -> (u8, u64) {
    let refused = refused(&program(blocks), 4096);
    (refused.refusal.number(), refused.line)
}

#[test]
fn refusals_have_their_numbers() {
    for (index, refusal) in Refusal::ALL.into_iter().enumerate() {
        let number = index as u8 + 1;
        assert_eq!(refusal.number(), number);
        assert_eq!(Refusal::try_from(number), Ok(refusal));
    }
    for number in [0, 19, 255] {
        assert_eq!(Refusal::try_from(number), Err(NoSuchRefusal(number)));
    }
}

#[test]
fn refusals_are_told_apart_in_words() {
    let mut words: Vec<_> = Refusal::ALL.iter().map(Refusal::to_string).collect();
    words.sort();
    words.dedup();
    assert_eq!(words.len(), 18);
}

#[test]
fn a_rack_of_eight_by_twelve_has_96_hits() {
    let hits = hits(Hundredths, &program("X50. Y50. T2\nG36 I9. P11 J9. K7"), 4096);
    assert_eq!(hits.len(), 96);
    assert_eq!((hits[1].x, hits[1].y), (5900, 5000));
    assert_eq!((hits[95].x, hits[95].y), (5000, 11300));
}

#[test]
fn copies_follow_the_layout() {
    let layout = "G98 X20. Y100. I250. J150. P1 K1\nU1\nX10. Y10. T2\nV1\n";
    let places = |run: &str| -> Vec<_> {
        let hits = hits(Hundredths, &program(&format!("{layout}{run}")), 4);
        hits.iter().map(|hit| (hit.x, hit.y)).collect()
    };
    assert_eq!(
        places("G76 W1 Q4"),
        [(28000, 26000), (28000, 11000), (3000, 11000), (3000, 26000)]
    );
    assert_eq!(
        places("G75 W1 Q4"),
        [(28000, 26000), (3000, 26000), (3000, 11000), (28000, 11000)]
    );
}

#[test]
fn a_long_edge_is_cut_in_equal_steps() {
    let edge = |setting, block: &str| -> Vec<_> {
        let text = program(&format!("G72 X100. Y100.\n{block} T2"));
        let hits = hits(setting, &text, 4096);
        hits.iter().map(|hit| (hit.x, hit.y)).collect()
    };
    // 80 mm in steps of at most 19.5 mm: five of 16 mm
    let along = [11_000, 12_600, 14_200, 15_800, 17_400, 19_000];
    let left = along.map(|x| (x, 10_250));
    assert_eq!(edge(Hundredths, "G66 I100. J0 P20. Q5."), left);
    assert_eq!(edge(Millimetres, "G66 I100 J0 P20 Q5"), left);
    assert_eq!(edge(Hundredths, "G66 I100. J0 P-20. Q-5."), along.map(|x| (x, 9_750)));
    // 10 mm less at both ends
    assert_eq!(edge(Hundredths, "G66 I40. J90. P20. D-10."), [(9_000, 12_000)]);
}

#[test]
fn edges_that_do_not_fit_are_refused_before_their_hits() {
    // no tool is chosen
    assert_eq!(refusal("G66 I3. J0 P2."), (14, 2));
    for block in [
        "G66 I3. J0 P2. Q-2.",
        "G66 I3. J0 P2. Q0",
        "G66 I3. J0 P1.",
        "G66 I2.99 J0 P2.",
        "G66 I3. J0 P2. D-0.51",
    ] {
        assert_eq!(refusal(block), (18, 2), "{block}");
    }
    let refused = refused(&program("\nG66 I1. J0 P1. T2"), 1);
    assert_eq!(refused.refusal, Refusal::ShearUnfit);
    assert_eq!(
        refused.to_string(),
        "refusal 18 in line 3: the numbers of a G66 don't fit together"
    );
}

#[test]
fn a_left_rack_mirrors_the_right_one() {
    let rack = "G93 X100. Y50.\nU60\nX10. Y20. T2\nG28 I5. J30. K1\nM00\nV60\n";
    let run = |q: u8| printed(&format!("{rack}G73 X200. Y90. Q{q} W60"));
    let right = ["11000 7000 2 P", "11433 7250 2 P", "0 0 0 S"];
    assert_eq!(run(1), right);
    // 200 less X and 90 less Y, measured from the origin
    assert_eq!(run(2), ["29000 7000 2 P", "28567 7250 2 P", "0 0 0 S"]);
    assert_eq!(run(3), ["11000 12000 2 P", "11433 11750 2 P", "0 0 0 S"]);
    assert_eq!(run(4), ["29000 12000 2 P", "28567 11750 2 P", "0 0 0 S"]);
    // distances left out are the last ones, and twice by one Q gives the first hits again
    let twice = format!("{rack}U61\nG73 Q2 W60\nV61\nG73 X200. Y90. Q2 W61");
    assert_eq!(printed(&twice), right);
    let in_millimetres = program("U60\nX10 Y20 T2\nV60\nG73 X200 Y90 Q4 W60");
    let mirrored = hits(Millimetres, &in_millimetres, 1);
    assert_eq!((mirrored[0].x, mirrored[0].y), (19_000, 7_000));
}

#[test]
fn mirrors_are_refused_by_letters_macros_and_places() {
    let hit = "U60\nX10. Y20. T2\nV60\n";
    assert_eq!(refusal("G73 X9. Y9. Q1 W60"), (10, 2));
    for block in ["G73 X9. Q2 W60", "G73 Y9. Q3 W60", "G73 Q1 W60"] {
        assert_eq!(refusal(&format!("{hit}{block}")), (5, 5), "{block}");
    }
    assert_eq!(refusal(&format!("{hit}G73 X9. Y9. Q1 W60 T2")), (5, 5));
    assert_eq!(refusal(&format!("{hit}G73 X9. Y9. Q5 W60")), (6, 5));
    assert_eq!(refusal("U60\nG73 X9. Y9. Q1 W60\nV60\nW60"), (11, 3));
    // where the hit lies after the mirror
    assert_eq!(printed(&format!("{hit}G73 X-0.2 Y9. Q2 W60")), ["-1020 2000 2 P"]);
    assert_eq!(refusal(&format!("{hit}G73 X-0.21 Y9. Q2 W60")), (16, 3));
    assert_eq!(refusal("U60\nX-9. Y20. T2\nV60\nG73 X9999. Y9. Q2 W60"), (15, 3));
}

#[test]
fn modes_and_tools_are_given() {
    assert_eq!(
        printed("X10. T7\nM12\nX20.\nM13\nX30. T99"),
        ["1000 60000 7 P", "2000 60000 7 N", "3000 60000 99 P"]
    );
}

#[test]
fn stops_are_entries() {
    let stop = Entry::Stop { optional: false };
    let optional_stop = Entry::Stop { optional: true };
    // without a tool, by any writing of the code
    let entries = expand(Hundredths, &program("M00\nM01\nM0\nN7 M 001\nM08"), 4)
        .unwrap()
        .entries;
    assert_eq!(entries, [stop, optional_stop, stop, optional_stop]);
    assert_eq!(entries.into_iter().filter_map(Entry::hit).count(), 0);
    // a waiting origin stays, and so does the mode
    assert_eq!(
        printed("M12\nG72 X10. Y20.\nM00\nG28 I5. J0 K1 T3\nM1"),
        ["0 0 0 S", "1500 2000 3 N", "0 0 0 O"]
    );
}

#[test]
fn stops_are_not_moved_with_their_part() {
    let part = "G98 X20. Y100. I250. P1\nU1\nX10. Y10. T2\nM00\nV1";
    let (left, right) = ("3000 11000 2 P", "28000 11000 2 P");
    assert_eq!(
        printed(&format!("{part}\nG75 W1 Q2")),
        [right, "0 0 0 S", left, "0 0 0 S"]
    );
}

#[test]
fn a_stop_needs_a_place() {
    let text = program("X1. T2\nM00\n\nM01");
    let mut list = [-1; 12];
    assert_eq!(expand_list(Hundredths, &text, &mut list).unwrap().len(), 3);
    assert_eq!(list, [100, 60_000, 2, 0, 0, 0, 0, 2, 0, 0, 0, 3]);
    let list_full = |line| Refused {
        refusal: Refusal::ListFull,
        line,
    };
    assert_eq!(refused(&text, 2), list_full(5));
    assert_eq!(refused(&text, 1), list_full(3));
    assert_eq!(
        refused(&text, 1).to_string(),
        "refusal 17 in line 3: the list has no place left for an entry"
    );
}

#[test]
fn lengths_and_angles_without_a_point_go_by_the_setting() {
    let text = program("X100 Y2.5 T7\nG28 I5 J90 K1");
    let places = |setting| -> Vec<_> {
        let hits = hits(setting, &text, 2);
        hits.iter().map(|hit| (hit.x, hit.y, hit.tool)).collect()
    };
    // the sine of 0.90 degrees is 0.0157, and five hundredths times that are rounded to nothing
    assert_eq!(places(Hundredths), [(100, 250, 7), (105, 250, 7)]);
    assert_eq!(places(Millimetres), [(10_000, 250, 7), (10_000, 750, 7)]);
}

#[test]
fn a_rack_in_whole_millimetres_is_the_same_rack() {
    let with_points = "G92 X600. Y600.\nX50. Y50. T2\nG36 I9. P11 J9. K7\nG50\n";
    let without = with_points.replace('.', "");
    let expansion = expand(Hundredths, with_points.as_bytes(), 96).unwrap();
    assert_eq!(expand(Millimetres, with_points.as_bytes(), 96).unwrap(), expansion);
    assert_eq!(expand(Millimetres, without.as_bytes(), 96).unwrap(), expansion);
}

#[test]
fn lengths_past_the_limit_are_refused_at_setting_0() {
    let answer = |blocks| expand_list(Millimetres, &program(blocks), &mut []).map(|entries| entries.len());
    assert_eq!(answer("G72 X9999 Y-009999"), Ok(0));
    let refused = Refused {
        refusal: Refusal::NumberRange,
        line: 2,
    };
    assert_eq!(answer("G72 X10000"), Err(refused));
    assert_eq!(answer("G28 I1 J-10000 K1"), Err(refused));
}

#[test]
fn refusals_give_number_and_line() {
    assert_eq!(refusal("X610.21 T2"), (16, 2));
    assert_eq!(refusal("U60\nW60\nV60\nW60"), (11, 3));
    assert_eq!(refusal("X1. T2\n\nG28 I9999. J0 K2"), (15, 4));
    assert_eq!(refusal("?"), (2, 2));
}

#[test]
fn a_text_of_wrong_length_has_no_line() {
    for text in [&b""[..], &[b' '; LONGEST_TEXT + 1]] {
        let refused = refused(text, 1);
        assert_eq!(refused.refusal, Refusal::TextLength);
        assert_eq!(refused.line, 0);
        assert_eq!(
            refused.to_string(),
            "refusal 1: the text is empty or has more than 60,000 bytes"
        );
    }
}

#[test]
fn empty_lists_are_allowed() {
    assert_eq!(expand_list(Hundredths, &program(""), &mut []).unwrap().len(), 0);
    for block in ["X1. T2", "M00", "M01"] {
        let refused = expand_list(Hundredths, &program(block), &mut []).unwrap_err();
        assert_eq!(refused.refusal, Refusal::ListFull, "{block}");
    }
}

#[test]
fn the_rest_of_the_list_is_zero() {
    let mut list = [-1; 11];
    assert_eq!(
        expand_list(Hundredths, &program("X1. Y2. T3"), &mut list)
            .unwrap()
            .len(),
        1
    );
    assert_eq!(list, [100, 200, 3, 0, 0, 0, 0, 0, 0, 0, 0]);
    let mut list = [-1; 7];
    assert!(expand_list(Hundredths, &program("X1. Y2. T3\nX2."), &mut list).is_err());
    assert_eq!(list, [0; 7]);
}

#[test]
fn entries_are_read_from_the_list() {
    let mut list = [-1; 18];
    let entries = expand_list(Hundredths, &program("X1. Y2. T3\nM12\nM01\nX4."), &mut list).unwrap();
    assert_eq!(entries.len(), 3);
    let first = Hit {
        x: 100,
        y: 200,
        tool: 3,
        mode: Mode::Punch,
    };
    let second = Hit {
        x: 400,
        mode: Mode::Nibble,
        ..first
    };
    let (first, second) = (Entry::Hit(first), Entry::Hit(second));
    let stop = Entry::Stop { optional: true };
    assert_eq!(entries.clone().collect::<Vec<_>>(), [first, stop, second]);
    assert_eq!(entries.rev().collect::<Vec<_>>(), [second, stop, first]);
}

#[test]
fn a_list_that_no_memory_holds_is_an_error() {
    for places in [usize::MAX, usize::MAX / 4, isize::MAX as usize / 16, 1 << 44] {
        assert_eq!(expand(Hundredths, &program(""), places), Err(Failure::NoMemory));
    }
}

#[test]
fn a_thread_of_128_kb_is_enough() {
    let nested = "U60\nG28 I1. J185. K3 T2\nW60\nV60\nW60";
    let thread = std::thread::Builder::new().stack_size(128_000);
    let run = move || {
        let mut list = [0; 64];
        let refused = expand_list(Hundredths, &program(nested), &mut list).unwrap_err();
        (refused.refusal, refused.line)
    };
    assert_eq!(thread.spawn(run).unwrap().join().unwrap(), (Refusal::TooManyCalls, 4));
}

#[test]
fn tools_have_their_hits_and_indexes() {
    assert_eq!(printed_tools(""), [""; 0]);
    assert_eq!(printed_tools("M00\nG70 X1. T2"), [""; 0]);
    assert_eq!(printed_tools("X1. T3\nX2."), ["3 2 1 2"]);
    // stops have indexes and are not counted
    assert_eq!(
        printed_tools("M00\nX1. T99\nM01\nX2. T1\nX3.\nM00\nX4. T99\nM00"),
        ["1 2 4 5", "99 2 2 7"]
    );
}

#[test]
fn copies_change_tools_too() {
    let part = "G98 X20. Y100. I250. P1\nU1\nX10. Y10.\nM00\nG28 I1. J0 K3 T5\nV1";
    assert_eq!(
        printed_tools(&format!("X1. T2\n{part}\nG75 W1 Q2")),
        ["2 3 1 7", "5 6 4 11"]
    );
}

#[test]
fn all_tools_have_a_place() {
    let blocks: String = (1..=99).rev().map(|tool| format!("X{tool}. T{tool}\n")).collect();
    let tally = expand(Hundredths, &program(&blocks), 99).unwrap().tally;
    assert_eq!(tally.hits(), 99);
    assert!(tally.used().map(|(number, _)| number).eq(1..=99));
    for number in 1..=99 {
        let index = 100 - u64::from(number);
        let tool = Tool {
            hits: 1,
            first: index,
            last: index,
        };
        assert_eq!(tally.tool(number), Some(tool));
        assert_eq!(tally.tools[usize::from(number) - 1], tool);
    }
}

#[test]
fn other_numbers_than_1_to_99_are_no_tools() {
    let tally = expand(Hundredths, &program("X1. T99"), 1).unwrap().tally;
    for number in [0, 100, 255] {
        assert_eq!(tally.tool(number), None);
    }
    assert_eq!(tally.tool(98), Some(Tool::default()));
}

#[test]
fn a_tool_is_found_where_its_indexes_say() {
    let text = program("M00\nX1. T4\nM01\nG28 I1. J0 K3 T9\nX2. T4\nM00");
    let Expansion { entries, tally } = expand(Hundredths, &text, 10).unwrap();
    let tools: Vec<_> = entries.iter().map(|entry| entry.hit().map(|hit| hit.tool)).collect();
    for (number, tool) in tally.used() {
        assert_eq!(
            tools.iter().position(|&tool| tool == Some(number)),
            Some(tool.first as usize - 1)
        );
        assert_eq!(
            tools.iter().rposition(|&tool| tool == Some(number)),
            Some(tool.last as usize - 1)
        );
        assert_eq!(
            tools.iter().filter(|&&tool| tool == Some(number)).count(),
            tool.hits as usize
        );
    }
    assert_eq!(tally.hits() as usize, entries.len() - 3);
}

#[test]
fn what_a_tally_held_before_does_not_matter() {
    let mut tally = other_numbers();
    let mut list = [-1; 8];
    let text = program("X1. T2\nM00");
    assert_eq!(expand_into(Hundredths, &text, &mut list, &mut tally).unwrap().len(), 2);
    let mut expected = Tally::new();
    expected.tools[1] = Tool {
        hits: 1,
        first: 1,
        last: 1,
    };
    assert_eq!(tally, expected);
    assert_eq!(tally, expand(Hundredths, &text, 2).unwrap().tally);
}

#[test]
fn after_a_refusal_a_tally_has_no_hits() {
    for (text, number) in [
        (program("X1. T2\nX2. T3\nX700."), 16),
        (program("X1. T2\nX2.\nX3. T3"), 17),
        (program("X1. T2\nG50"), 7),
        (program("?"), 2),
        (Vec::new(), 1),
    ] {
        let mut tally = other_numbers();
        let refused = expand_into(Hundredths, &text, &mut [-1; 8], &mut tally).unwrap_err();
        assert_eq!(refused.refusal.number(), number);
        assert_eq!(tally, Tally::new());
    }
}

#[test]
fn a_tally_shows_the_tools_used() {
    assert_eq!(format!("{:?}", Tally::default()), "{}");
    let tally = expand(Hundredths, &program("X1. T2\nX2. T1"), 2).unwrap().tally;
    assert_eq!(
        format!("{tally:?}"),
        "{1: Tool { hits: 1, first: 2, last: 2 }, 2: Tool { hits: 1, first: 1, last: 1 }}"
    );
}

/// A tally in which tool 3 has these figures.
fn third_tool(hits: u64, first: u64, last: u64) -> Tally {
    let mut tally = Tally::new();
    tally.tools[2] = Tool { hits, first, last };
    tally
}

#[test]
fn figures_that_a_list_can_have_are_taken() {
    Tally::new().check(0);
    Tally::new().check(5);
    for (hits, first, last) in [(1, 1, 1), (1, 5, 5), (2, 1, 5), (5, 1, 5), (2, 4, 5)] {
        third_tool(hits, first, last).check(5);
    }
}

#[test]
fn figures_that_no_list_has_are_caught() {
    for (hits, first, last) in [
        (0, 1, 1),
        (0, 0, 1),
        (1, 0, 0),
        (1, 0, 1),
        (1, 1, 2),
        (1, 6, 6),
        (2, 3, 3),
        (2, 4, 3),
        (3, 3, 4),
        (2, 0, 1),
        (2, 5, 6),
        (6, 1, 5),
        (u64::MAX, 7, 77),
    ] {
        let tally = third_tool(hits, first, last);
        let checked = std::panic::catch_unwind(|| tally.check(5));
        let message = checked.expect_err(&format!("{tally:?}"));
        let expected = format!("the library gives tool 3 the figures {hits} {first} {last} among 5 entries");
        assert_eq!(message.downcast_ref(), Some(&expected));
    }
}

#[test]
#[should_panic(expected = "counts 6 hits among 5 entries")]
fn more_hits_than_entries_are_caught() {
    let mut tally = third_tool(3, 1, 5);
    tally.tools[98] = tally.tools[2];
    tally.check(5);
}

#[test]
#[should_panic(expected = "gives tool 3 the figures 1 1 1 among 0 entries")]
fn hits_after_a_refusal_are_caught() {
    third_tool(1, 1, 1).check(0);
}

/// The header for C, which says some things once more.
const HEADER: &str = include_str!("../../c/tolkjirp.h");

#[test]
fn the_header_has_the_same_refusals() {
    for refusal in Refusal::ALL {
        let name = capitals(&format!("{refusal:?}"));
        assert!(
            HEADER.contains(&format!("    TOLKJIRP_{name} = {}", refusal.number())),
            "{name}"
        );
        let case = format!("case TOLKJIRP_{name}:\n        return \"{refusal}\";");
        assert!(HEADER.contains(&case), "{case}");
    }
}

#[test]
fn the_header_has_the_same_settings() {
    for (setting, number) in [(Hundredths, 1), (Millimetres, 0)] {
        assert_eq!(setting.number(), number);
        let name = capitals(&format!("{setting:?}"));
        assert!(HEADER.contains(&format!("    TOLKJIRP_{name} = {number}")), "{name}");
    }
}

#[test]
fn the_header_has_the_same_entries() {
    assert!(HEADER.contains(&format!("#define TOLKJIRP_NUMBERS_PER_ENTRY {NUMBERS_PER_ENTRY}\n")));
    for (name, numbers, letter) in [
        ("PUNCH", [5, -5, 99, 0], "P"),
        ("NIBBLE", [5, -5, 99, 1], "N"),
        ("STOP", [0, 0, 0, 2], "S"),
        ("OPTIONAL_STOP", [0, 0, 0, 3], "O"),
    ] {
        let [x, y, tool, mode] = numbers;
        assert!(HEADER.contains(&format!("    TOLKJIRP_{name} = {mode}")), "{name}");
        let entry = Entry::from_numbers(&numbers);
        assert_eq!(entry.to_string(), format!("{x} {y} {tool} {letter}"));
    }
}

#[test]
fn the_header_has_the_same_tally() {
    assert!(HEADER.contains(&format!("#define TOLKJIRP_TOOLS {TOOLS}\n")));
    let fields = ["hits", "first", "last"].map(|name| format!("    uint64_t {name};"));
    let places = fields.map(|field| HEADER.find(&field).expect(&field));
    assert!(places.is_sorted(), "{places:?}");
    let places = [offset_of!(Tool, hits), offset_of!(Tool, first), offset_of!(Tool, last)];
    assert_eq!(places, [0, 8, 16]);
}

/// A name such as TextLength as TEXT_LENGTH.
fn capitals(name: &str) -> String {
    let parted = name.chars().enumerate().flat_map(|(place, letter)| {
        let line = (place > 0 && letter.is_uppercase()).then_some('_');
        line.into_iter().chain([letter.to_ascii_uppercase()])
    });
    parted.collect()
}

#[test]
fn the_header_has_the_same_version_and_longest_text() {
    let version = env!("CARGO_PKG_VERSION");
    assert!(HEADER.contains(&format!("#define TOLKJIRP_VERSION \"{version}\"\n")));
    assert!(HEADER.contains(&format!("#define TOLKJIRP_LONGEST_TEXT {LONGEST_TEXT}\n")));
}

#[test]
#[should_panic(expected = "gives refusal 19")]
fn an_unknown_refusal_is_caught() {
    Refused::from_numbers(19, 1);
}

#[test]
#[should_panic(expected = "gives the entry [0, 0, 0, 0]")]
fn a_hit_without_tool_is_caught() {
    Entry::from_numbers(&[0, 0, 0, 0]);
}

#[test]
#[should_panic(expected = "gives the entry [0, 0, 1, 2]")]
fn a_stop_with_a_tool_is_caught() {
    Entry::from_numbers(&[0, 0, 1, 2]);
}

#[test]
#[should_panic(expected = "gives the entry [0, 0, 0, 4]")]
fn an_unknown_mode_is_caught() {
    Entry::from_numbers(&[0, 0, 0, 4]);
}
