//! Left and right handed racks by G73: places worked out by hand, and the limits of 5, 10, 11, 15 and 16.

use plain::{expand, Answer, TOOLS};

/// The entries of blocks after G92 of the ARIES-222, at a setting, as X, Y, tool and mode, or their refusal.
fn entries_at(setting: i32, blocks: &str) -> Result<Vec<[i32; 4]>, (u8, u64)> {
    let mut list = vec![-1; 16_384];
    let text = format!("G92X600.Y600.\n{blocks}\nG50\n");
    match expand(setting, text.as_bytes(), &mut list, &mut [[0; 3]; TOOLS]) {
        Answer::Entries(count) => {
            let entries = list.chunks_exact(4).take(count);
            Ok(entries.map(|entry| entry.try_into().unwrap()).collect())
        }
        Answer::Refused { number, line } => Err((number, line)),
    }
}

fn entries(blocks: &str) -> Result<Vec<[i32; 4]>, (u8, u64)> {
    entries_at(1, blocks)
}

/// The places of the entries of blocks that are accepted.
fn places(blocks: &str) -> Vec<(i32, i32)> {
    let entries = entries(blocks).unwrap_or_else(|refused| panic!("{blocks}: {refused:?}"));
    entries.iter().map(|entry| (entry[0], entry[1])).collect()
}

fn refusal(blocks: &str) -> (u8, u64) {
    entries(blocks).unwrap_err()
}

/// A macro 60 with a hit 1 mm to the right of the origin and 2 mm above it.
const ONE_HIT: &str = "U60\nX1.Y2.T2\nV60\n";

#[test]
fn a_pattern_is_turned_about_three_ways() {
    let pattern = "G90G93X110.Y120.\nU1\nX40.Y20.T31\nY70.\nG28I55.J0K2\nV1\n";
    let first = [(15_000, 14_000), (15_000, 19_000), (20_500, 19_000), (26_000, 19_000)];
    // with 300 mm and 200 mm from its place: 110 + 300 - (x - 110) and 120 + 200 - (y - 120)
    let (left, below) = (52_000, 44_000);
    let expected = [
        first,
        first.map(|(x, y)| (left - x, below - y)),
        first.map(|(x, y)| (x, below - y)),
        first.map(|(x, y)| (left - x, y)),
    ]
    .concat();
    let all = places(&format!("{pattern}G73X300.Y200.Q4W1\nG73Q3W1\nG73Q2W1\nG91X150.Y100."));
    assert_eq!(all[..16], expected);
    // an increment after it goes on from the pattern's place
    assert_eq!(all[16], (26_000, 22_000));
}

#[test]
fn each_q_turns_its_axes() {
    let run = |q: u8| places(&format!("G93X100.Y50.\n{ONE_HIT}G73X30.Y40.Q{q}W60"));
    assert_eq!(run(1), [(10_100, 5_200)]);
    assert_eq!(run(2), [(12_900, 5_200)]);
    assert_eq!(run(3), [(10_100, 8_800)]);
    assert_eq!(run(4), [(12_900, 8_800)]);
}

#[test]
fn distances_have_any_sign_and_go_by_the_setting() {
    let in_millimetres = "G93X100Y50\nU60\nX1Y2T2\nV60\nG73X-30Y-0Q4W60";
    assert_eq!(entries_at(0, in_millimetres).unwrap(), [[6_900, 4_800, 2, 0]]);
    let limit = |x: &str| entries_at(0, &format!("U60\nV60\nG73X{x}Y1Q1W60"));
    assert_eq!(limit("9999"), Ok(vec![]));
    assert_eq!(limit("-9999.99"), Ok(vec![]));
    assert_eq!(limit("10000"), Err((6, 4)));
    assert_eq!(limit("-010000"), Err((6, 4)));
}

#[test]
fn points_are_expanded_and_then_mirrored() {
    // the fifth of a line lies 3536 off, rounded once, on both sides of the mirror
    let line = "U60\nG70X0Y0T2\nG28I10.J45.K5\nV60\nG93X100.Y100.\n";
    let plain = places(&format!("{line}G73X50.Y60.Q1W60"));
    assert_eq!(plain[4], (13_536, 13_536));
    let turned: Vec<_> = plain.iter().map(|&(x, y)| (25_000 - x, 26_000 - y)).collect();
    assert_eq!(places(&format!("{line}G73X50.Y60.Q4W60")), turned);
    // halves go away from zero before the mirror: 0.5 is 1, and turned it is -1
    let arc = "U60\nG29I0.01J30.P120.K2T2\nV60\nG93X100.Y100.\nG73X0Y0Q";
    assert_eq!(places(&format!("{arc}1W60")), [(10_001, 10_001), (9_999, 10_001)]);
    assert_eq!(places(&format!("{arc}4W60")), [(9_999, 9_999), (10_001, 9_999)]);
}

#[test]
fn nothing_but_hits_and_ends_is_mirrored() {
    // G91, an omitted axis, the start of a pattern and a waiting origin go by the points as written
    assert_eq!(
        places("G93X100.Y100.\nU60\nX1.Y0T2\nG91X1.\nY3.\nV60\nG73X9.Y0Q2W60"),
        [(10_800, 10_000), (10_700, 10_000), (10_700, 10_300)]
    );
    assert_eq!(
        places("G93X100.Y100.\nU60\nX5.T2\nG28I1.J0K2\nG72Y7.\nG28I1.J90.K1\nV60\nG73X9.Y0Q2W60"),
        [(10_400, 10_000), (10_300, 10_000), (10_200, 10_000), (10_200, 10_800)]
    );
    // an omitted axis is the origin's, which is turned
    assert_eq!(
        places("G93X100.Y100.\nU60\nY5.T2\nV60\nG73X9.Y0Q2W60"),
        [(10_900, 10_500)]
    );
    // stops are as they were
    assert_eq!(
        entries("U60\nM0\nM1\nV60\nG73X9.Y9.Q4W60"),
        Ok(vec![[0, 0, 0, 2], [0, 0, 0, 3]])
    );
}

#[test]
fn the_macro_begins_at_the_origin_and_the_caller_goes_on_there() {
    // a waiting origin of the caller is gone, and so is the macro's
    assert_eq!(
        places(
            "G93X100.Y100.\nU60\nG28I1.J0K1\nG72X50.Y50.\nV60\nX20.Y20.T2\nG72X30.Y30.\nG73X9.Y9.Q2W60\nG28I1.J90.K1"
        ),
        [(12_000, 12_000), (10_800, 10_000), (10_000, 10_100)]
    );
    assert_eq!(places("U60\nV60\nG73X1.Y1.Q4W60\nG91X1.T2"), [(100, 0)]);
}

#[test]
fn what_else_the_macro_does_stays() {
    assert_eq!(
        entries("U60\nA1G28I1.J90.K1T5\nG91\nM12\nV60\nG73X9.Y9.Q3W60\nX1.\nB1").unwrap(),
        [[0, 800, 5, 0], [100, 0, 5, 1], [100, 100, 5, 1]]
    );
}

#[test]
fn a_mirror_within_a_mirror_comes_first() {
    let nested = |outer: &str, inner: &str| {
        let macros = format!("U60\nX20.Y3.T2\nV60\nU61\nG73{inner}W60\nV61\n");
        places(&format!("{macros}G73{outer}W61"))
    };
    // 10 - (7 - 20), and not 7 - (10 - 20)
    assert_eq!(nested("X10.Y0Q2", "X7.Q2"), [(2_300, 300)]);
    assert_eq!(nested("X50.Y60.Q4", "X7.Y8.Q4"), [(6_300, 5_500)]);
    assert_eq!(nested("X50.Y60.Q2", "Q2"), [(2_000, 300)]);
    assert_eq!(nested("X50.Y60.Q2", "Q3"), nested("X50.Y60.Q1", "Q4"));
    assert_eq!(nested("X50.Y60.Q4", "X9.Y9.Q1"), [(3_000, 5_700)]);
}

#[test]
fn the_outer_macro_goes_on_mirrored_from_the_origin() {
    assert_eq!(
        places(&format!(
            "{ONE_HIT}U61\nX10.Y10.T3\nG73X7.Q2W60\nG91X1.\nW60\nV61\nG93X100.\nG73X50.Y0Q2W61\nG90X1."
        )),
        // 50 - 10; 50 - (7 - 1); 50 - 1; 50 - (1 + 1); and outside all mirrors
        [(14_000, 1_000), (14_400, 200), (14_900, 0), (14_800, 200), (10_100, 0)]
    );
}

#[test]
fn letters_left_out_are_the_last_ones_carried_out() {
    let hit = "U60\nX1.Y0T2\nV60\n";
    // those of the outer G73 in its body, and those of the inner one after it
    assert_eq!(
        places(&format!(
            "{hit}U61\nG73Q2W60\nG73X7.Q1W60\nV61\nG73X5.Y5.Q1W61\nG73Q2W60"
        )),
        [(400, 0), (100, 0), (600, 0)]
    );
    // letter by letter, in first runs too; a body that is only stored gives none
    assert_eq!(
        places(&format!(
            "{hit}U1\nG73X9.Y8.Q4W60\nV1\nU61\nG73X0Y0Q1W60\nV61\nG73X7.Q4W60\nG73Y6.Q4W60\nG73Q4W60"
        )),
        [(800, 800), (600, 800), (600, 600), (600, 600)]
    );
}

#[test]
fn a_letter_that_none_gave_is_refused() {
    for block in ["G73Q1W60", "G73X1.Q2W60", "G73Y1.Q3W60", "G73X1.Q1W60", "G73Y1.Q2W60"] {
        assert_eq!(refusal(&format!("{ONE_HIT}{block}")), (5, 5), "{block}");
    }
    // in a body when it is run, and there a body that is stored has given nothing
    let inner = "U61\nG73X1.Y1.Q1W60\nV61\n";
    assert_eq!(refusal(&format!("{ONE_HIT}{inner}U62\nG73Q1W60\nV62\nW62")), (5, 9));
    // before 6, 7 and 10, and after 4
    assert_eq!(refusal("G73Q9W60"), (5, 2));
    assert_eq!(refusal("G73Q1W77"), (5, 2));
    assert_eq!(refusal("G50\nG73Q1W60"), (5, 3));
    assert_eq!(refusal("G50\nG73X1.Y1.Q1W60"), (7, 3));
    assert_eq!(refusal("G73Q1W60.123"), (4, 2));
    // after a G73 it is 7 there
    assert_eq!(refusal(&format!("{ONE_HIT}G73X1.Y1.Q1W60\nG50\nG73Q1W60")), (7, 7));
    let text = |block: &str| expand(1, block.as_bytes(), &mut [], &mut [[0; 3]; TOOLS]);
    assert_eq!(text("G73Q1W60\nG50"), Answer::Refused { number: 5, line: 1 });
    assert_eq!(text("G73X1Y1Q1W60\nG50"), Answer::Refused { number: 7, line: 1 });
}

#[test]
fn a_g73_is_a_call() {
    assert_eq!(refusal("G73X1.Y1.Q1W60"), (10, 2));
    assert_eq!(refusal("U7\nG73X1.Y1.Q1W7\nV7"), (10, 3));
    let macros = "U61\nX1.Y1.T2\nV61\nU62\nG73X9.Y9.Q2W61\nV62\nU63\nW62\nV63\nU64\nG73X8.Y8.Q2W63\nV64\n";
    // 7 - (8 - (9 - 1))
    assert_eq!(places(&format!("{macros}G73X7.Y7.Q2W64")), [(700, 100)]);
    assert_eq!(refusal(&format!("{macros}U65\nG73Q1W64\nV65\nG73Q1W65")), (5, 17));
    assert_eq!(refusal(&format!("{macros}U65\nW64\nV65\nG73X7.Y7.Q1W65")), (11, 6));
    // 10 before 11
    let deep = "U61\nG73X1.Y1.Q1W77\nV61\nU62\nW61\nV62\nU63\nW62\nV63\nU64\nW63\nV64\nG73X1.Y1.Q1W64";
    assert_eq!(refusal(deep), (10, 3));
}

#[test]
fn a_g73_is_a_block_besides_its_macro_s() {
    let macros = "U60\nM8\nM8\nM8\nM8\nM8\nM8\nM8\nM8\nM8\nV60\nG98X1.Y1.P99K99\nG75W60Q1\nG73X1.Y1.Q4W60\n";
    // G92, U60, G98, G75 and 90,000 of the body; then ten for each G73, and G50 is the last
    let blocks = "G73Q1W60\n".repeat(998);
    let last = "M8\n".repeat(5);
    assert_eq!(places(&format!("{macros}{blocks}{last}")), []);
    assert_eq!(refusal(&format!("{macros}{blocks}{last}M8")), (3, 1_020));
}

#[test]
fn hits_and_ends_are_judged_after_all_mirrors() {
    let run = |origin: &str, block: &str, call: &str| {
        entries(&format!("G93X{origin}\nU60\n{block}\nV60\nG73{call}W60")).map(|entries| entries.len())
    };
    // written past the limit or the range, mirrored on the sheet
    assert_eq!(run("100.", "X9950.Y0T2", "X9990.Y0Q2"), Ok(1));
    assert_eq!(run("100.", "G70X9950.Y0", "X9990.Y0Q2"), Ok(0));
    assert_eq!(run("100.", "X9950.Y0T2", "X9990.Y0Q1"), Err((15, 4)));
    assert_eq!(run("100.", "X9950.Y0T2", "X9990.Y0Q3"), Err((15, 4)));
    assert_eq!(run("0", "X-500.Y0T2", "X100.Y0Q2"), Ok(1));
    // written on the sheet, mirrored past the range or the limit
    assert_eq!(run("0", "X10.Y0T2", "X-0.2Y0Q2"), Ok(1));
    assert_eq!(run("0", "X10.Y0T2", "X-0.21Y0Q2"), Err((16, 4)));
    assert_eq!(run("0", "G70X10.Y0", "X-0.21Y0Q2"), Err((16, 4)));
    assert_eq!(run("9999.99", "G70X0Y0", "X0.01Y0Q2"), Err((15, 4)));
    assert_eq!(run("9999.99", "G70X0Y0", "X0Y0Q2"), Err((16, 4)));
    assert_eq!(run("0", "X-5000.Y0T2", "X5000.Y0Q2"), Err((15, 4)));
    assert_eq!(run("0", "X-5000.Y0T2", "X4999.99Y0Q2"), Err((16, 4)));
    // the tool comes first
    assert_eq!(run("0", "X-5000.Y0", "X5000.Y0Q2"), Err((14, 4)));
}

#[test]
fn waiting_origins_and_reach_are_judged_as_written() {
    let run = |block: &str| entries(&format!("G93X100.\nU60\n{block}\nV60\nG73X9990.Y0Q2W60")).map(|all| all.len());
    assert_eq!(run("G72X9899.99"), Ok(0));
    assert_eq!(run("G72X9900."), Err((15, 4)));
    assert_eq!(run("G72X9899.99\nG28I1.J0K2T2"), Ok(2));
    assert_eq!(run("G70X9950.Y0\nG72Y1."), Err((15, 5)));
    assert_eq!(run("G70X9950.Y0\nG28I10.J0K1T2"), Ok(1));
    assert_eq!(run("G28I9999.J0K2T2"), Err((15, 4)));
}

#[test]
fn the_limits_hold_after_nested_mirrors() {
    let run = |x: &str| {
        let macros = "U60\nX9999.99Y0T2\nV60\nU61\nG73X9999.99Q2W60\nV61\nU62\nG73X-9999.99Q2W61\nV62\n";
        entries(&format!("{macros}U63\nG73X{x}Q2W62\nV63\nG73X9999.99Y0Q2W63"))
    };
    // 0, then -9999.99, then x + 9999.99, then -x
    assert_eq!(run("-5."), Ok(vec![[500, 0, 2, 0]]));
    assert_eq!(run("10.2"), Ok(vec![[-1_020, 0, 2, 0]]));
    assert_eq!(run("10.21"), Err((16, 3)));
    // places written twice as far as the limit
    let far = "G93X9999.99\nU60\nX9999.99Y0T2\nG91X1.\nV60\nG73X5.Y0Q2W60";
    assert_eq!(entries(far), Ok(vec![[500, 0, 2, 0], [400, 0, 2, 0]]));
}

const LAYOUT: &str = "G98X10.Y20.I50.J30.P1K1\n";

#[test]
fn a_part_with_mirrors_is_moved_with_its_copies() {
    let part = format!("{LAYOUT}{ONE_HIT}U61\nG73X9.Y8.Q4W60\nX3.Y3.\nV61\n");
    let copies = |places: [(i32, i32); 4]| places.map(|(x, y)| [(x + 800, y + 600), (x + 300, y + 300)]).concat();
    assert_eq!(
        places(&format!("{part}G75W61Q1")),
        copies([(1_000, 2_000), (6_000, 2_000), (6_000, 5_000), (1_000, 5_000)])
    );
    assert_eq!(
        places(&format!("{part}G76W61Q4")),
        copies([(6_000, 5_000), (6_000, 2_000), (1_000, 2_000), (1_000, 5_000)])
    );
}

#[test]
fn each_copy_begins_with_the_letters_found() {
    let hit = "U60\nX0Y0T2\nV60\n";
    let part = "G98X0Y0I100.P1\nU61\nG73Q2W60\nG73X9.Q2W60\nV61\n";
    assert_eq!(
        places(&format!("{hit}G73X5.Y0Q1W60\n{part}G75W61Q1\nG73Q2W60")),
        // and after the run they are the last copy's
        [(0, 0), (500, 0), (900, 0), (10_500, 0), (10_900, 0), (900, 0)]
    );
    // none found: each copy has to give its own
    assert_eq!(refusal(&format!("{hit}{part}G75W61Q1")), (5, 7));
    let part = "G98X0Y0I100.P1\nU61\nG73X5.Y0Q2W60\nG73Q2W60\nV61\n";
    assert_eq!(
        places(&format!("{hit}{part}G76W61Q2\nG73Q2W60")),
        [(10_500, 0), (10_500, 0), (500, 0), (500, 0), (500, 0)]
    );
}

#[test]
fn a_list_may_be_exactly_full_by_mirrored_hits() {
    let text = format!("G92X600.Y600.\n{ONE_HIT}G73X9.Y9.Q4W60\nM0\nG73Q2W60\nG50");
    let mut tally = [[7; 3]; TOOLS];
    let mut list = [-1; 12];
    assert_eq!(expand(1, text.as_bytes(), &mut list, &mut tally), Answer::Entries(3));
    assert_eq!(list, [800, 700, 2, 0, 0, 0, 0, 2, 800, 200, 2, 0]);
    assert_eq!(tally[1], [2, 1, 3]);
    let answer = expand(1, text.as_bytes(), &mut list[..11], &mut tally);
    assert_eq!(answer, Answer::Refused { number: 17, line: 3 });
}
