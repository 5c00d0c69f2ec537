//! Stops in the list: M00 and M01.

use plain::{expand, Answer, TOOLS};

/// An entry: X, Y, tool and mode.
type Entry = [i32; 4];

const STOP: Entry = [0, 0, 0, 2];
const OPTIONAL_STOP: Entry = [0, 0, 0, 3];

/// The entries of blocks after G92 of the ARIES-222, with places for so many, or their refusal.
fn entries_in(places: usize, blocks: &str) -> Result<Vec<Entry>, (u8, u64)> {
    let mut list = vec![-1; 4 * places];
    let text = format!("G92X600.Y600.\n{blocks}\nG50\n");
    let answer = expand(1, text.as_bytes(), &mut list, &mut [[0; 3]; TOOLS]);
    let count = match answer {
        Answer::Entries(count) => count,
        Answer::Refused { .. } => 0,
    };
    assert!(list[4 * count..].iter().all(|&number| number == 0), "{blocks}");
    match answer {
        Answer::Entries(_) => {
            let entries = list.chunks_exact(4).take(count);
            Ok(entries.map(|entry| entry.try_into().unwrap()).collect())
        }
        Answer::Refused { number, line } => Err((number, line)),
    }
}

fn entries(blocks: &str) -> Vec<Entry> {
    entries_in(4_096, blocks).unwrap()
}

/// A hit by punching with tool 2.
fn hit(x: i32, y: i32) -> Entry {
    [x, y, 2, 0]
}

#[test]
fn m00_and_m01_make_entries_and_other_m_codes_make_none() {
    assert_eq!(entries("M00\nM01"), [STOP, OPTIONAL_STOP]);
    assert_eq!(entries("M08\nM09\nM12\nM13"), [] as [Entry; 0]);
    assert_eq!(entries("M00\nM08\nM00\nM9\nM1"), [STOP, STOP, OPTIONAL_STOP]);
}

#[test]
fn they_go_by_the_number_of_the_code() {
    for block in ["M0", "M00", "M000000", "N5M0", "N9999 M 0 0", "  M000"] {
        assert_eq!(entries(block), [STOP], "{block}");
    }
    for block in ["M1", "M01", "M000001", "N5M1", "N0 M 0 1", "M 001  "] {
        assert_eq!(entries(block), [OPTIONAL_STOP], "{block}");
    }
    for block in ["M+0", "M-1", "M0.", "M1.0", "M0X1", "M0T2", "G90M1", "M0M1", "M10"] {
        assert_eq!(entries_in(1, block), Err((5, 2)), "{block}");
    }
}

#[test]
fn they_stand_where_the_program_has_them() {
    let places = [hit(100, 200), hit(300, 200)];
    let [first, second] = places;
    assert_eq!(entries("M0\nX1.Y2.T2\nX3."), [STOP, first, second]);
    assert_eq!(entries("X1.Y2.T2\nM1\nX3."), [first, OPTIONAL_STOP, second]);
    assert_eq!(entries("X1.Y2.T2\nX3.\nM0"), [first, second, STOP]);
}

#[test]
fn nothing_of_the_state_changes() {
    // the current point, the waiting origin, G91, the mode, the tool and the memories
    let blocks = |stop: &str| {
        format!(
            "X1.Y2.T2\nM12\n{stop}\nG91X1.\nG72X5.Y5.\n{stop}\nA3G28I1.J0K2T7\n{stop}\nX1.\nG72X9.\n{stop}\n{stop}\nB3"
        )
    };
    let with = entries(&blocks("M0"));
    let without = entries(&blocks("M8"));
    assert_eq!(with.len(), without.len() + 5);
    let hits: Vec<_> = with.into_iter().filter(|&entry| entry != STOP).collect();
    assert_eq!(hits, without);
}

#[test]
fn no_tool_is_needed_and_no_place_is_judged() {
    assert_eq!(entries("M0"), [STOP]);
    // the waiting origin is far outside the range
    assert_eq!(entries("G72X9999.99Y9999.99\nM1"), [OPTIONAL_STOP]);
    assert_eq!(entries_in(1, "M0\nX1."), Err((14, 3)));
    assert_eq!(entries_in(1, "M0\nX700.T2"), Err((16, 3)));
}

#[test]
fn bodies_have_them_each_time_they_run() {
    // 1 to 59 run once at their U line, 60 to 89 do not
    assert_eq!(entries("U1\nM0\nV1\nW1"), [STOP, STOP]);
    assert_eq!(entries("U60\nM1\nV60"), [] as [Entry; 0]);
    assert_eq!(
        entries("U60\nM1\nV60\nU61\nW60\nM0\nW60\nV61\nW61"),
        [OPTIONAL_STOP, STOP, OPTIONAL_STOP]
    );
    // a waiting origin goes through a call that only stops
    assert_eq!(
        entries("U60\nM0\nV60\nG72X5.Y5.\nW60\nG28I1.J0K1T2"),
        [STOP, hit(600, 500)]
    );
}

const LAYOUT: &str = "G98X10.Y20.I50.J30.P1K1";

#[test]
fn copies_move_hits_and_leave_stops() {
    let part = format!("{LAYOUT}\nU1\nM0\nX1.Y1.T2\nM1\nV1");
    let copies = |places: [(i32, i32); 4]| places.map(|(x, y)| [STOP, hit(x, y), OPTIONAL_STOP]).concat();
    assert_eq!(
        entries(&format!("{part}\nG75W1Q1")),
        copies([(1_100, 2_100), (6_100, 2_100), (6_100, 5_100), (1_100, 5_100)])
    );
    assert_eq!(
        entries(&format!("{part}\nG76W1Q4")),
        copies([(6_100, 5_100), (6_100, 2_100), (1_100, 2_100), (1_100, 5_100)])
    );
}

#[test]
fn a_part_of_stops_alone_is_the_same_by_g75_and_g76() {
    let part = format!("{LAYOUT}\nU60\nM0\nM1\nV60");
    let run = |call: &str| entries(&format!("{part}\n{call}"));
    assert_eq!(run("G75W60Q3"), [STOP, OPTIONAL_STOP].repeat(4));
    assert_eq!(run("G75W60Q3"), run("G76W60Q3"));
    let part = format!("{LAYOUT}\nU60\nM0\nX1.Y1.T2\nV60");
    let run = |call: &str| entries(&format!("{part}\n{call}"));
    assert_ne!(run("G75W60Q3"), run("G76W60Q3"));
}

#[test]
fn a_list_may_be_exactly_full_by_a_stop() {
    let blocks = "X1.Y2.T2\nM0\n\nM1";
    let all = [hit(100, 200), STOP, OPTIONAL_STOP];
    assert_eq!(entries_in(3, blocks).unwrap(), all);
    assert_eq!(entries_in(2, blocks), Err((17, 5)));
    assert_eq!(entries_in(1, blocks), Err((17, 3)));
    assert_eq!(entries_in(0, blocks), Err((17, 2)));
    assert_eq!(entries_in(0, "M8\nM0"), Err((17, 3)));
    // fewer than four numbers are no place
    let mut list = [-1; 7];
    let answer = expand(1, b"G92X600.Y600.\nM0\nM0\nG50", &mut list, &mut [[0; 3]; TOOLS]);
    assert_eq!(answer, Answer::Refused { number: 17, line: 3 });
    assert_eq!(list, [0; 7]);
}

#[test]
fn a_stop_without_a_place_is_refused_in_its_own_line() {
    assert_eq!(entries_in(1, "U60\nM8\nM0\nV60\nW60\nW60"), Err((17, 4)));
    let part = format!("{LAYOUT}\nU60\nX1.Y1.T2\nM0\nV60\nG75W60Q1");
    assert_eq!(entries_in(8, &part).unwrap().len(), 8);
    assert_eq!(entries_in(7, &part), Err((17, 5)));
    assert_eq!(entries_in(6, &part), Err((17, 4)));
    // before what comes after it, and after what comes before it
    assert_eq!(entries_in(0, "M0\nX1."), Err((17, 2)));
    assert_eq!(entries_in(0, "X1.\nM0"), Err((14, 2)));
    assert_eq!(entries_in(0, "N10000M0"), Err((6, 2)));
    assert_eq!(entries_in(0, "G50\nM0"), Err((7, 3)));
}

#[test]
fn a_stop_is_a_block() {
    let macros = "U60\nM8\nM8\nM8\nM8\nM8\nM8\nM8\nM8\nM8\nV60\nG98X1.Y1.P99K99\nG75W60Q1\n";
    // G92, U60, G98, G75 and 90,000 of the body; G50 is the last
    let blocks = "W60\n".repeat(999);
    let stops = "M0\n".repeat(5);
    assert_eq!(entries_in(5, &format!("{macros}{blocks}{stops}")).unwrap(), [STOP; 5]);
    assert_eq!(entries_in(6, &format!("{macros}{blocks}{stops}M0")), Err((3, 1_020)));
    // the fifth stop finds no place before the blocks are spent
    assert_eq!(entries_in(4, &format!("{macros}{blocks}{stops}M0")), Err((17, 1_018)));
}
