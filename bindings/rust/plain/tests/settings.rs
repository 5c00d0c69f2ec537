//! The decimal point setting: plates in whole millimetres, and the limit of their numbers.

use plain::{expand, Answer, TOOLS};

/// The hits of a text at a setting, as X, Y, tool and mode, or the number and line of its refusal.
fn hits(setting: i32, text: &str) -> Result<Vec<[i32; 4]>, (u8, u64)> {
    let mut list = vec![-1; 16_384];
    match expand(setting, text.as_bytes(), &mut list, &mut [[0; 3]; TOOLS]) {
        Answer::Entries(count) => {
            let hits = list.chunks_exact(4).take(count);
            Ok(hits.map(|hit| hit.try_into().unwrap()).collect())
        }
        Answer::Refused { number, line } => Err((number, line)),
    }
}

/// The places of the hits of blocks after G92 of the ARIES-222, at setting 0, or their refusal.
fn places(blocks: &str) -> Result<Vec<(i32, i32)>, (u8, u64)> {
    let hits = hits(0, &format!("G92X600Y600\n{blocks}\nG50\n"))?;
    Ok(hits.iter().map(|hit| (hit[0], hit[1])).collect())
}

/// Plates M1 to M7 with a point behind each length and angle: the same at both settings.
const PLATES: [&str; 7] = [
    "G92 X600. Y600.\nG90 X100. Y100. T2\nG28 I10. J45. K2\nG50\n",
    "G92 X600. Y600.\nX50. Y50. T2\nG36 I9. P11 J9. K7\nG50\n",
    "G92 X600. Y600.\nX50. Y50. T2\nG37 I9. P11 J9. K7\nG50\n",
    "G92 X600. Y600.\nG72 X300. Y200.\nG28 I25. J30. K6 T2\nG50\n",
    "G92 X600. Y600.\nG72 X60. Y60.\nG26 I25. J45. K4 T2\nG50\n",
    "G92 X600. Y600.\nG98 X20. Y100. I250. J150. P1 K1\nU1\nX10. Y10. T2\nV1\nG76 W1 Q4\nG50\n",
    "G92 X600. Y600.\nG98 X20. Y100. I250. J150. P1 K1\nU1\nX10. Y10. T2\nV1\nG75 W1 Q4\nG50\n",
];

#[test]
fn plates_in_whole_millimetres_have_the_same_hits() {
    for (plate, count) in PLATES.into_iter().zip([3, 96, 96, 6, 4, 4, 4]) {
        let in_hundredths = plate.replace(". ", "00 ").replace(".\n", "00\n");
        let in_millimetres = plate.replace('.', "");
        let expected = hits(1, plate).unwrap();
        assert_eq!(expected.len(), count, "{plate}");
        assert_eq!(hits(0, plate).unwrap(), expected, "{plate}");
        assert_eq!(hits(1, &in_hundredths).unwrap(), expected, "{in_hundredths}");
        assert_eq!(hits(0, &in_millimetres).unwrap(), expected, "{in_millimetres}");
        assert_eq!(hits(1, &in_millimetres), Err((8, 1)), "{in_millimetres}");
        assert_eq!(hits(0, &in_hundredths), Err((6, 1)), "{in_hundredths}");
    }
}

#[test]
fn every_number_but_0_counts_as_1() {
    let text = "G92X600.Y600.\nX100Y2.5T7\nG28I5J0K1\nG50\n";
    let at_1 = [[100, 250, 7, 0], [105, 250, 7, 0]];
    for setting in [1, -1, 2, 100, i32::MIN, i32::MAX] {
        assert_eq!(hits(setting, text).unwrap(), at_1, "{setting}");
    }
    assert_eq!(hits(0, text).unwrap(), [[10_000, 250, 7, 0], [10_500, 250, 7, 0]]);
}

#[test]
fn p_is_an_angle_in_g29_and_a_count_elsewhere() {
    let arc = "G72X100Y100\nG29I10J0P90K2T2";
    let grid = "G36I1P1J1K0";
    assert_eq!(
        places(&format!("{arc}\n{grid}")).unwrap(),
        [(11_000, 10_000), (10_000, 11_000), (10_100, 11_000)]
    );
    let layout = "G98X10Y10I5J5P1K0\nU1\nX0Y0T2\nV1\nG75W1Q1";
    assert_eq!(places(layout).unwrap(), [(1_000, 1_000), (1_500, 1_000)]);
}

#[test]
fn the_setting_holds_in_bodies_and_copies() {
    let first_run_and_call = "U1\nG90X20Y30T2\nG91X1\nV1\nW1";
    let twice = [(2_000, 3_000), (2_100, 3_000)].repeat(2);
    assert_eq!(places(first_run_and_call).unwrap(), twice);
    let copies = "G93X1\nG98X100Y50I8J9D2P1K1\nU60\nX1Y2T3\nV60\nG75W60Q1";
    assert_eq!(
        places(copies).unwrap(),
        [(10_200, 5_200), (11_200, 5_200), (11_200, 6_300), (10_200, 6_300)]
    );
    let memory = "X50Y50T2\nA1G28I10J90K1\nB1";
    assert_eq!(
        places(memory).unwrap(),
        [(5_000, 5_000), (5_000, 6_000), (5_000, 7_000)]
    );
}

#[test]
fn the_limit_is_judged_with_the_other_numbers() {
    assert_eq!(places("G72X9999Y-9999"), Ok(vec![]));
    assert_eq!(places("G72X10000"), Err((6, 2)));
    assert_eq!(places("G72Y-10000"), Err((6, 2)));
    assert_eq!(places("G28I0J9999K1T1"), Ok(vec![(60_000, 60_000)]));
    assert_eq!(places("G28I0J10000K1T1"), Err((6, 2)));
    // before 7, 8 and 15, after 4 and 5
    assert_eq!(places("G92X60000Y60000"), Err((6, 2)));
    assert_eq!(hits(0, "G92X60000Y60000\nG50"), Err((6, 1)));
    assert_eq!(hits(0, "G92X60000Y600.0.\nG50"), Err((4, 1)));
    assert_eq!(hits(0, "G92X60000\nG50"), Err((5, 1)));
    assert_eq!(places("G93X9999\nG72X9999"), Err((15, 3)));
    assert_eq!(places("G93X9999\nG72X10000"), Err((6, 3)));
    assert_eq!(places("G50\nX10000"), Err((6, 3)));
    // used or not
    assert_eq!(places("G36I10000P0J0K0"), Err((6, 2)));
    assert_eq!(places("G98X1Y1D10000"), Err((6, 2)));
}

#[test]
fn a_body_is_judged_when_it_is_run() {
    let body = "U60\nX1T1\nX10000\nV60";
    assert_eq!(places(body), Ok(vec![]));
    assert_eq!(places(&format!("{body}\nW60")), Err((6, 4)));
    assert_eq!(places("U1\nX10000\nV1"), Err((6, 3)));
}
