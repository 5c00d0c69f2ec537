//! Plates with known hits, and programs at the limits.

use plain::{expand, Answer, TOOLS};

/// The answer to a text at a setting, and the entries as X, Y, tool and mode.
fn expand_at(setting: i32, text: &str) -> (Answer, Vec<[i32; 4]>) {
    let mut list = vec![-1; 16_384];
    let answer = expand(setting, text.as_bytes(), &mut list, &mut [[0; 3]; TOOLS]);
    let count = match answer {
        Answer::Entries(count) => count,
        Answer::Refused { .. } => 0,
    };
    assert!(list[4 * count..].iter().all(|&number| number == 0));
    let entries = list.chunks_exact(4).take(count);
    (answer, entries.map(|entry| entry.try_into().unwrap()).collect())
}

/// The same at setting 1.
fn expand_text(text: &str) -> (Answer, Vec<[i32; 4]>) {
    expand_at(1, text)
}

/// The places of the hits between G92 of the ARIES-222 and G50.
fn places(blocks: &str) -> Vec<(i32, i32)> {
    let (answer, entries) = expand_text(&program(blocks));
    assert_eq!(answer, Answer::Entries(entries.len()));
    let hits = entries.iter().filter(|entry| entry[3] < 2);
    hits.map(|hit| (hit[0], hit[1])).collect()
}

fn refusal(blocks: &str) -> (u8, u64) {
    match expand_text(&program(blocks)).0 {
        Answer::Refused { number, line } => (number, line),
        Answer::Entries(count) => panic!("{count} entries"),
    }
}

fn program(blocks: &str) -> String {
    format!("G92 X600. Y600.\n{blocks}\nG50\n")
}

#[test]
fn a_line_is_not_summed_from_rounded_steps() {
    let line = places("G90 X100. Y100. T2\nG28 I10. J45. K5");
    assert_eq!(line[..3], [(10_000, 10_000), (10_707, 10_707), (11_414, 11_414)]);
    assert_eq!(line[5], (13_536, 13_536));
}

#[test]
fn grids_leave_out_their_start() {
    let by_rows = places("X50. Y50. T2\nG36 I9. P11 J9. K7");
    assert_eq!(
        (by_rows.len(), by_rows[1], by_rows[95]),
        (96, (5_900, 5_000), (5_000, 11_300))
    );
    let by_columns = places("X50. Y50. T2\nG37 I9. P11 J9. K7");
    assert_eq!((by_columns.len(), by_columns[95]), (96, (14_900, 5_000)));
}

#[test]
fn patterns_start_at_the_waiting_origin() {
    let line = places("G72 X300. Y200.\nG28 I25. J30. K6 T2");
    assert_eq!((line[0], line[5]), ((32_165, 21_250), (42_990, 27_500)));
    assert_eq!(
        places("G72 X60. Y60.\nG26 I25. J45. K4 T2"),
        [(7_768, 7_768), (4_232, 7_768), (4_232, 4_232), (7_768, 4_232)]
    );
}

#[test]
fn layouts_go_back_and_forth_from_each_corner() {
    let run = |call: &str| {
        places(&format!(
            "G98 X20. Y100. I250. J150. P1 K1\nU1\nX10. Y10. T2\nV1\n{call}"
        ))
    };
    let (lower_left, lower_right) = ((3_000, 11_000), (28_000, 11_000));
    let (upper_left, upper_right) = ((3_000, 26_000), (28_000, 26_000));
    assert_eq!(run("G76 W1 Q4"), [upper_right, lower_right, lower_left, upper_left]);
    assert_eq!(run("G75 W1 Q4"), [upper_right, upper_left, lower_left, lower_right]);
    assert_eq!(run("G75 W1 Q1"), [lower_left, lower_right, upper_right, upper_left]);
    assert_eq!(run("G76 W1 Q2"), [lower_right, upper_right, upper_left, lower_left]);
    assert_eq!(run("G75 W1 Q3"), [upper_left, upper_right, lower_right, lower_left]);
}

#[test]
fn copies_begin_with_the_state_found() {
    let part = "U1\nX1.\nM12\nG91 X1. T5\nV1";
    let text = program(&format!("X9. Y9. T2\nG98 X50. Y50. I10. P1\n{part}\nG75 W1 Q1\nX1."));
    let hits = expand_text(&text).1;
    assert_eq!(hits[1..3], [[5_100, 5_000, 2, 0], [5_200, 5_000, 5, 1]]);
    assert_eq!(hits[3..5], [[6_100, 5_000, 2, 0], [6_200, 5_000, 5, 1]]);
    assert_eq!(hits[5], [6_300, 5_000, 5, 1]);
}

#[test]
fn the_range_ends_are_inside() {
    assert_eq!(places("X610.2 T2"), [(61_020, 60_000)]);
    assert_eq!(refusal("X610.21 T2"), (16, 2));
    assert_eq!(refusal("G70 Y-10.21"), (16, 2));
}

#[test]
fn four_calls_may_be_open() {
    let macros = "U61\nX1.\nV61\nU62\nW61\nV62\nU63\nW62\nV63\nU64\nW63\nV64\nU65\nW64\nV65\nX2. T2\n";
    assert_eq!(places(&format!("{macros}W64")).len(), 2);
    assert_eq!(refusal(&format!("{macros}W65")), (11, 6));
    assert_eq!(refusal("U60\nW60\nV60\nW60"), (11, 3));
}

#[test]
fn bodies_may_have_3100_characters() {
    let body = |length: usize| format!("U60\nG90X100.Y100.T20\n{}V60", "\n".repeat(length - 17));
    assert_eq!(places(&body(3_100)), []);
    assert_eq!(refusal(&body(3_101)), (12, 2));
    assert_eq!(refusal(&format!("{}\nU61\n\nV61", body(3_100))), (12, 3_088));
}

#[test]
fn texts_may_have_60000_bytes() {
    let padded = |length: usize| {
        let text = program("");
        let padding = " ".repeat(length - text.len());
        expand_text(&(text + &padding)).0
    };
    assert_eq!(padded(60_000), Answer::Entries(0));
    assert_eq!(padded(60_001), Answer::Refused { number: 1, line: 0 });
}

#[test]
fn blocks_may_be_100000() {
    let macros = "U60\nM8\nM8\nM8\nM8\nM8\nM8\nM8\nM8\nM8\nV60\nG98 X1. Y1. P99 K99\nG75 W60 Q1\n";
    // G92, U60, G98, G75 and 90,000 of the body; G50 is the last.
    let blocks = "W60\n".repeat(999);
    assert_eq!(places(&format!("{macros}{blocks}M8\nM8\nM8\nM8\nM8")), []);
    assert_eq!(refusal(&format!("{macros}{blocks}M8\nM8\nM8\nM8\nM8\nM8")), (3, 1_020));
}

#[test]
fn a_list_may_be_exactly_full() {
    let text = program("X1. T2\nX2.");
    let expand_into = |list: &mut [i32]| expand(1, text.as_bytes(), list, &mut [[0; 3]; TOOLS]);
    assert_eq!(expand_into(&mut [-1; 8]), Answer::Entries(2));
    let mut list = [-1; 7];
    assert_eq!(expand_into(&mut list), Answer::Refused { number: 17, line: 3 });
    assert_eq!(list, [0; 7]);
}
