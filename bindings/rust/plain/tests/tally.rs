//! The tally of hits by tool, worked out by hand.

use plain::{expand, Answer, Tally, TOOLS};

/// A tool with its hits and the first and the last index where it stands.
type Row = (usize, [u64; 3]);

/// The answer to blocks after G92 of the ARIES-222, with places for so many entries, and the tally, which is full of other
/// numbers before.
fn tallied(places: usize, blocks: &str) -> (Answer, Tally) {
    let mut list = vec![-1; 4 * places];
    let mut tally = [[u64::MAX, 7, 77]; TOOLS];
    let text = format!("G92X600.Y600.\n{blocks}\nG50\n");
    (expand(1, text.as_bytes(), &mut list, &mut tally), tally)
}

/// The tools used by blocks that are accepted.
fn tools(blocks: &str) -> Vec<Row> {
    let (answer, tally) = tallied(4_096, blocks);
    assert!(matches!(answer, Answer::Entries(_)), "{blocks}: {answer:?}");
    let rows = (1..).zip(tally);
    rows.filter(|(_, figures)| *figures != [0; 3]).collect()
}

/// The refusal of blocks, after which the tally has no hits.
fn refusal(places: usize, blocks: &str) -> (u8, u64) {
    let (answer, tally) = tallied(places, blocks);
    assert_eq!(tally, [[0; 3]; TOOLS], "{blocks}");
    match answer {
        Answer::Refused { number, line } => (number, line),
        Answer::Entries(count) => panic!("{count} entries"),
    }
}

#[test]
fn a_tool_has_its_hits_and_its_first_and_last_index() {
    assert_eq!(tools("X1.T2"), [(2, [1, 1, 1])]);
    assert_eq!(tools("X1.T2\nX2.\nX3."), [(2, [3, 1, 3])]);
    assert_eq!(
        tools("X1.T2\nX2.T5\nX3.\nX4.T2\nX5.T5"),
        [(2, [2, 1, 4]), (5, [3, 2, 5])]
    );
    assert_eq!(
        tools("X1.T9\nX2.T8\nX3.T9"),
        [(8, [1, 2, 2]), (9, [2, 1, 3])],
        "tool order is not that of the list"
    );
}

#[test]
fn stops_have_indexes_and_are_not_counted() {
    assert_eq!(tools("M0\nM1"), []);
    assert_eq!(tools("M0\nX1.T2\nM1\nX2.\nM0"), [(2, [2, 2, 4])]);
    assert_eq!(
        tools("X1.T3\nM0\nM1\nX2.T4\nM0\nX3.T3"),
        [(3, [2, 1, 6]), (4, [1, 4, 4])]
    );
}

#[test]
fn the_first_tool_and_the_last_have_their_places() {
    assert_eq!(tools("X1.T1\nX2.T99\nX3.T1"), [(1, [2, 1, 3]), (99, [1, 2, 2])]);
    let all: String = (1..=99).rev().map(|tool| format!("X{tool}.T{tool}\n")).collect();
    let expected: Vec<Row> = (1..=99)
        .map(|tool| (tool, [1, 100 - tool as u64, 100 - tool as u64]))
        .collect();
    assert_eq!(tools(&all), expected);
}

#[test]
fn a_tool_that_makes_no_hit_is_not_used() {
    assert_eq!(tools(""), []);
    assert_eq!(tools("G70X1.Y1.T7"), []);
    assert_eq!(tools("X1.T2\nG70X2.T7\nX3.T2"), [(2, [2, 1, 2])]);
    // a grid of one place has no hit
    assert_eq!(tools("X1.T2\nG36I1.P0J1.K0T7"), [(2, [1, 1, 1])]);
    // a body that is only stored
    assert_eq!(tools("U60\nX1.T7\nV60\nX1.T2"), [(2, [1, 1, 1])]);
}

#[test]
fn patterns_are_counted_hit_by_hit() {
    assert_eq!(
        tools("G70X50.Y50.T2\nG36I9.P11J9.K7\nM0\nG28I1.J0K5T3"),
        [(2, [95, 1, 95]), (3, [5, 97, 101])]
    );
    // B punches with the tool that is chosen then
    assert_eq!(
        tools("G70X50.Y50.\nA1G26I5.J0K4T6\nX60.T7\nB1\nB1"),
        [(6, [4, 1, 4]), (7, [9, 5, 13])]
    );
    assert_eq!(tools("G72X100.Y100.\nG66I100.J0P20.Q5.T4\nM12\nX1."), [(4, [7, 1, 7])]);
}

#[test]
fn bodies_are_counted_each_time_they_run() {
    let body = "X1.T5\nM0\nX2.T6";
    // 1 to 59 run once at their U line
    assert_eq!(tools(&format!("U1\n{body}\nV1")), [(5, [1, 1, 1]), (6, [1, 3, 3])]);
    assert_eq!(
        tools(&format!("X9.T6\nU60\n{body}\nV60\nW60\nW60\nX3.")),
        [(5, [2, 2, 5]), (6, [4, 1, 8])]
    );
}

#[test]
fn copies_are_counted_in_their_order() {
    let layout = "G98X10.Y20.I50.J30.P1K1\nU1\nX1.Y1.\nM1\nX2.T9\nV1";
    for run in ["G75W1Q1", "G76W1Q4"] {
        // each copy begins with the tool that was found
        assert_eq!(
            tools(&format!("X1.T3\n{layout}\n{run}\nX3.")),
            [(3, [5, 1, 11]), (9, [5, 4, 14])],
            "{run}"
        );
    }
}

#[test]
fn after_a_refusal_there_are_no_hits() {
    assert_eq!(refusal(4_096, "X1.T2\nX2.T3\nX-20."), (16, 4));
    assert_eq!(refusal(4_096, "X1.T2\nG28I1.J0K3T99\nG50"), (7, 5));
    assert_eq!(refusal(2, "X1.T2\nM0\nX2.T3"), (17, 4));
    assert_eq!(refusal(0, "X1.T1"), (17, 2));
    assert_eq!(refusal(4_096, "?"), (2, 2));
    let mut tally = [[7; 3]; TOOLS];
    assert_eq!(
        expand(1, b"", &mut [], &mut tally),
        Answer::Refused { number: 1, line: 0 }
    );
    assert_eq!(tally, [[0; 3]; TOOLS]);
}
