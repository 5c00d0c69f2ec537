//! Long edges by G66: hits worked out by hand, and the limits of refusal 18.

use plain::{expand, Answer, TOOLS};

/// The hits of blocks after G92 of the ARIES-222, at a setting and with places for so many entries, as X, Y and
/// tool, or their refusal.
fn hits(setting: i32, places: usize, blocks: &str) -> Result<Vec<[i32; 3]>, (u8, u64)> {
    let mut list = vec![-1; 4 * places];
    let text = format!("G92X600.Y600.\n{blocks}\nG50\n");
    match expand(setting, text.as_bytes(), &mut list, &mut [[0; 3]; TOOLS]) {
        Answer::Entries(count) => {
            let hits = list.chunks_exact(4).take(count);
            Ok(hits.map(|hit| [hit[0], hit[1], hit[2]]).collect())
        }
        Answer::Refused { number, line } => Err((number, line)),
    }
}

/// The places of the hits at setting 1.
fn places(blocks: &str) -> Vec<(i32, i32)> {
    let hits = hits(1, 4_096, blocks).unwrap();
    hits.into_iter().map(|[x, y, _]| (x, y)).collect()
}

/// The places of the hits of one block that starts at (100 mm, 100 mm), from there.
fn offsets(block: &str) -> Vec<(i32, i32)> {
    let places = places(&format!("G72X100.Y100.\n{block}T2"));
    places.into_iter().map(|(x, y)| (x - 10_000, y - 10_000)).collect()
}

fn refusal(blocks: &str) -> (u8, u64) {
    hits(1, 4_096, blocks).unwrap_err()
}

/// The number of the refusal of one block on the sheet, 0 if it is accepted.
fn answer(block: &str) -> u8 {
    let blocks = format!("G72X300.Y300.\n{block}T2");
    hits(1, 4_096, &blocks).map_or_else(|(number, _)| number, |_| 0)
}

#[test]
fn hits_lie_along_the_line_and_to_its_left() {
    // 80 mm in steps of at most 19.5 mm: five of 16 mm
    let along = [1_000, 2_600, 4_200, 5_800, 7_400, 9_000];
    assert_eq!(offsets("G66I100.J0P20.Q5."), along.map(|along| (along, 250)));
    assert_eq!(offsets("G66I100.J90.P20.Q5."), along.map(|along| (-250, along)));
    assert_eq!(offsets("G66I100.J180.P20.Q5."), along.map(|along| (-along, -250)));
    assert_eq!(offsets("G66I100.J-90.P20.Q5."), along.map(|along| (250, -along)));
}

#[test]
fn a_minus_changes_the_side_only() {
    assert_eq!(offsets("G66I3.J0P2."), [(100, 100), (200, 100)]);
    assert_eq!(offsets("G66I3.J0P-2."), [(100, -100), (200, -100)]);
    assert_eq!(offsets("G66I3.J0P-2.Q-4."), [(100, -200), (200, -200)]);
}

#[test]
fn steps_are_not_rounded_before_they_are_added() {
    // seven steps of 130 / 7 mm; seven of 18.57 mm would end at 139.99 mm
    let along = [1_000, 2_857, 4_714, 6_571, 8_429, 10_286, 12_143, 14_000];
    assert_eq!(offsets("G66I150.J0P20.Q2."), along.map(|along| (along, 100)));
}

#[test]
fn a_step_may_be_the_width_less_half_a_millimetre() {
    assert_eq!(
        offsets("G66I149.J0P50."),
        [(2_500, 2_500), (7_450, 2_500), (12_400, 2_500)]
    );
    assert_eq!(offsets("G66I149.01J0P50.").len(), 4);
    // 199 mm by 19.5 mm
    assert_eq!(offsets("G66I219.J0P20.").len(), 12);
}

#[test]
fn halves_go_away_from_zero() {
    // 50.5 and 101.5 along, 50.5 across
    assert_eq!(offsets("G66I1.52J0P1.01"), [(51, 51), (102, 51)]);
    assert_eq!(offsets("G66I1.52J180.P1.01"), [(-51, -51), (-102, -51)]);
    assert_eq!(offsets("G66I1.52J90.P1.01"), [(-51, 51), (-51, 102)]);
    assert_eq!(offsets("G66I1.52J0P-1.01"), [(51, -51), (102, -51)]);
}

#[test]
fn each_axis_is_rounded_once() {
    // 50.5 x 0.866025404 - 50.5 x 0.5 is 18.48, and not 44 - 25; then 62.65 and 94.48
    assert_eq!(offsets("G66I1.52J30.P1.01"), [(18, 69), (63, 94)]);
    // to the right: 68.98 and -18.48, then 113.15 and 7.02
    assert_eq!(offsets("G66I1.52J30.P-1.01"), [(69, -18), (113, 7)]);
}

#[test]
fn both_ends_are_moved_by_d() {
    // from half a millimetre before the start in three steps of 4 / 3 mm
    assert_eq!(
        offsets("G66I3.J0P2.D1.5"),
        [(-50, 100), (83, 100), (217, 100), (350, 100)]
    );
    assert_eq!(offsets("G66I3.J0P2.D-0.25"), [(125, 100), (175, 100)]);
    assert_eq!(offsets("G66I3.J0P2.D-0.5"), [(150, 100)]);
    assert_eq!(offsets("G66I3.J0P2.D0"), [(100, 100), (200, 100)]);
}

#[test]
fn it_ends_at_its_start() {
    // B1 starts where the edge did, and so does G91
    assert_eq!(
        places("X10.Y10.T2\nG72X100.Y100.\nA1G66I3.J0P2.D-0.5\nB1\nG91X1."),
        [(1_000, 1_000), (10_150, 10_100), (10_150, 10_100), (10_100, 10_000)]
    );
    assert_eq!(
        places("X10.Y10.T2\nG66I3.J0P2.D-0.5\nG28I1.J0K1"),
        [(1_000, 1_000), (1_150, 1_100), (1_100, 1_000)]
    );
}

#[test]
fn it_stands_where_patterns_stand() {
    // B takes the tool that is chosen then
    let memory = hits(1, 4, "G72X5.Y5.\nA2G91G66I3.J0P2.D-0.5T7\nX1.T3\nB2").unwrap();
    assert_eq!(memory, [[650, 600, 7], [600, 500, 3], [750, 600, 3]]);
    let part = "G98X10.Y20.I50.P1\nU1\nA1G66I3.J90.P2.D-0.5T4\nB1\nV1\nG75W1Q2";
    let (left, right) = ([900, 2_150, 4], [5_900, 2_150, 4]);
    assert_eq!(hits(1, 4, part).unwrap(), [right, right, left, left]);
}

#[test]
fn all_its_numbers_go_by_the_setting() {
    let block = "G72X100.Y100.\nG66I9J90P4Q2D1T2";
    // 11 mm less 4 mm in steps of at most 3.5 mm, from 1 mm on
    let at_0 = [[9_900, 10_100, 2], [9_900, 10_450, 2], [9_900, 10_800, 2]];
    assert_eq!(hits(0, 3, block).unwrap(), at_0);
    assert_eq!(hits(1, 3, "G72X100.Y100.\nG66I9.J90.P4.Q2.D1.T2").unwrap(), at_0);
    assert_eq!(hits(1, 3, block), Err((18, 3)));
    assert_eq!(hits(0, 3, "G66I9J90P4Q2D10000"), Err((6, 2)));
    assert_eq!(hits(0, 3, "G66I9J90P4Q-10000"), Err((6, 2)));
}

#[test]
fn sizes_that_do_not_fit_are_refused() {
    for (block, number) in [
        ("G66I9.J0P2.Q-2.", 18),
        ("G66I9.J0P-2.Q2.", 18),
        ("G66I9.J0P-2.Q-2.", 0),
        ("G66I9.J0P2.Q0", 18),
        ("G66I9.J0P2.Q-0", 18),
        ("G66I9.J0P0", 18),
        ("G66I9.J0P-0Q-2.", 18),
        ("G66I9.J0P2.Q0.01", 0),
        ("G66I9.J0P1.", 18),
        ("G66I9.J0P-1.", 18),
        ("G66I9.J0P1.01", 0),
        ("G66I9.J0P-1.01", 0),
        ("G66I3.J0P2.", 0),
        ("G66I2.99J0P2.", 18),
        ("G66I2.99J0P2.D5.", 18),
        ("G66I3.01J0P2.01", 18),
        ("G66I3.02J0P2.01", 0),
        ("G66I0J0P2.", 18),
        ("G66I-9.J0P2.D9.", 18),
        ("G66I3.J0P2.D-0.5", 0),
        ("G66I3.J0P2.D-0.51", 18),
        ("G66I9.J0P-2.D-3.5", 0),
        ("G66I9.J0P-2.D-3.51", 18),
        ("G66I9.J0P2.D-9999.99", 18),
    ] {
        assert_eq!(answer(block), number, "{block}");
    }
}

#[test]
fn they_are_judged_before_the_hits() {
    let unfit = "G66I1.J0P1.";
    // without a tool, with no place left, and out of range
    assert_eq!(refusal(unfit), (18, 2));
    assert_eq!(hits(1, 0, &format!("\n{unfit}T2")), Err((18, 3)));
    assert_eq!(refusal(&format!("G72X9999.99Y9999.99\n{unfit}")), (18, 3));
    // 4 to 7 and an earlier block's 14 come first
    assert_eq!(refusal("G66I1.J0P1.234"), (4, 2));
    assert_eq!(refusal("G66I1.J0P1.K1"), (5, 2));
    assert_eq!(refusal("G66I1.J0P1.T0"), (6, 2));
    assert_eq!(refusal(&format!("G50\n{unfit}")), (7, 3));
    assert_eq!(refusal(&format!("X1.\n{unfit}")), (14, 2));
    assert_eq!(refusal("B1"), (10, 2));
    // in a body, the line is that of the body's block, and it is judged when it is run
    let body = format!("U60\n\n{unfit}\nV60");
    assert_eq!(places(&body), []);
    assert_eq!(refusal(&format!("{body}\nM8\nW60")), (18, 4));
}

#[test]
fn hits_are_judged_one_by_one() {
    assert_eq!(refusal("G72X5.Y5.\nG66I3.J0P2."), (14, 3));
    assert_eq!(refusal("G66I20.J0P2.T2"), (16, 2));
    // 50.5 further on
    assert_eq!(refusal("G72X9999.48Y0\nG66I9.J0P1.01T2"), (16, 3));
    assert_eq!(refusal("G72X9999.49Y0\nG66I9.J0P1.01T2"), (15, 3));
    // the first hit is in the range, the second is not
    let block = "G72X609.Y5.\nG66I3.J0P2.T2";
    assert_eq!(hits(1, 1, block), Err((16, 3)));
    assert_eq!(hits(1, 0, block), Err((17, 3)));
    // there is no reach to judge: of 58,823 hits 1,196 are in the range, the next one is not
    let long = "G72X9999.99Y0\nG66I9999.99J0P1.01D9999.99T2";
    assert_eq!(hits(1, 1_196, long), Err((16, 3)));
    assert_eq!(hits(1, 1_195, long), Err((17, 3)));
}
