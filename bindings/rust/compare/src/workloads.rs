//! Texts to measure with.

use tolkjirp::Setting;

use crate::notation::written_for;

/// A text, what it is, its setting, and the numbers of its list.
pub struct Workload {
    pub name: &'static str,
    pub setting: Setting,
    pub text: Vec<u8>,
    pub list_length: usize,
}

const G92: &str = "G92 X600. Y600.\n";
const G50: &str = "G50\n";

/// The most bytes of a text.
const MOST_BYTES: usize = 60_000;

/// The numbers of a list for 4,096 entries.
const USUAL: usize = 16_384;

/// The name and the bytes of a text, and the numbers of its list.
type Row = (&'static str, String, usize);

/// All texts to measure with: those for setting 1, and then some of them as they are written for setting 0.
pub fn workloads() -> Vec<Workload> {
    let at = |setting| {
        move |(name, text, list_length): Row| Workload {
            name,
            setting,
            text: text.into_bytes(),
            list_length,
        }
    };
    let in_hundredths = in_hundredths().into_iter().map(at(Setting::Hundredths));
    let in_millimetres = in_millimetres().into_iter().map(at(Setting::Millimetres));
    in_hundredths.chain(in_millimetres).collect()
}

fn in_hundredths() -> Vec<Row> {
    vec![
        ("shortest program", shortest(), 16),
        ("shortest program", shortest(), USUAL),
        ("small plate", small_plate(), 64),
        ("small plate", small_plate(), USUAL),
        ("60,000 bytes without macros", flat(Setting::Hundredths), USUAL),
        ("90,000 blocks through nested macros", nested(), USUAL),
        ("grid of 4,096 hits", grid(), USUAL),
        ("arcs and circles", arcs(), USUAL),
        ("U and V pairs", macro_pairs(), USUAL),
        ("W lines", calls(""), USUAL),
        ("W lines and moves", calls("G70X1.Y2.\n"), USUAL),
        ("G93 lines", offsets(), USUAL),
        ("G75 lines", small_layouts(), USUAL),
        ("B lines", recalls(), USUAL),
        ("G28 lines of one hit", short_lines(), USUAL),
        ("G28 lines of 999 hits", long_lines(), USUAL),
        ("G66 lines of one hit", short_edges("I153J45.P101D-26", 1), USUAL),
        ("G66 lines of two hits", short_edges("I152J45.P101", 2), USUAL),
        ("G66 diagonal, whole degrees", diagonal("1190.", "31."), USUAL),
        (
            "G66 diagonal, degrees and hundredths",
            diagonal("1194.", "31.25"),
            USUAL,
        ),
        ("G66 of 58,822 steps, refused at once", most_steps("100."), USUAL),
        ("G66 of 58,822 steps, refused on its way", most_steps("9999.99"), USUAL),
        ("4 x 999 hits of a grid, by G73 Q1", mirrored_grid(1), USUAL),
        ("4 x 999 hits of a grid, by G73 Q4", mirrored_grid(4), USUAL),
        ("13 x 300 positions, by G73 Q1", mirrored_positions(1), USUAL),
        ("13 x 300 positions, by G73 Q4", mirrored_positions(4), USUAL),
        ("G73 lines", mirror_lines(), USUAL),
        ("G73 lines of one hit", mirrored_hits(), USUAL),
        ("90,000 blocks through nested mirrors", nested_mirrors(), USUAL),
        ("4,096 copies of a part", copies(), USUAL),
        ("1,024 copies of a part with stops", copies_with_stops(), USUAL),
        ("1,024 copies of a part of four tools", copies_with_tools(), USUAL),
        ("1,024 copies of a part of four mirrors", copies_with_mirrors(), USUAL),
        ("positions, each by another tool", tool_changes(), USUAL),
        ("M00 and M01 lines", stops(), USUAL),
        ("400 x 10,000 copies, empty part", empty_part("", 400), USUAL),
        ("  part of 40,000 spaces", empty_part(&spaces(40_000), 400), USUAL),
        ("  part of 3,000 line feeds", empty_part(&line_feeds(3_000), 400), USUAL),
        ("6,600 x 10,000 copies, empty part", empty_part("", 6_600), USUAL),
        ("5 x 10,000 copies, part of one block", one_block("", ""), USUAL),
        ("  after 30,000 spaces", one_block(&spaces(30_000), ""), USUAL),
        ("  with 30,000 spaces in it", one_block("", &spaces(30_000)), USUAL),
        ("  after 3,000 line feeds", one_block(&line_feeds(3_000), ""), USUAL),
        ("4 x 10,000 copies, two blocks far apart", two_blocks(), USUAL),
    ]
}

fn in_millimetres() -> Vec<Row> {
    let written = |text: String| written_for(Setting::Millimetres, &text);
    vec![
        ("small plate, whole millimetres", written(small_plate()), 64),
        ("60,000 bytes, whole millimetres", flat(Setting::Millimetres), USUAL),
        ("nested macros, whole millimetres", written(nested()), USUAL),
        ("4,096 copies, whole millimetres", written(copies()), USUAL),
    ]
}

fn spaces(count: usize) -> String {
    " ".repeat(count)
}

fn line_feeds(count: usize) -> String {
    "\n".repeat(count)
}

fn shortest() -> String {
    "G92X600.Y600.\nG50".to_string()
}

fn small_plate() -> String {
    format!("{G92}G90 X100. Y100. T2\nG28 I10. J45. K2\nG72 X300. Y200.\nG26 I25. J45. K4\n{G50}")
}

/// Positions, two in three with both axes, up to 60,000 bytes.
fn flat(setting: Setting) -> String {
    let mut text = written_for(setting, &format!("{G92}X10. Y10. T2\n"));
    for number in 0.. {
        let (x, y) = (number * 37 % 600, number * 91 % 600);
        let block = match number % 3 {
            0 => format!("G90 X{x}. Y{y}. T{}\n", 1 + number % 99),
            1 => format!("X{x}.5 Y{y}.25\n"),
            _ => format!("N{} G70 X{x}.\n", number % 10_000),
        };
        let block = written_for(setting, &block);
        if text.len() + block.len() + G50.len() > MOST_BYTES {
            break;
        }
        text.push_str(&block);
    }
    let missing = MOST_BYTES - text.len() - G50.len();
    format!("{text}{}{G50}", spaces(missing))
}

/// Three levels of macros, with moves at the bottom.
fn nested() -> String {
    nested_by("", ["", "", ""])
}

/// The same, each called by a G73 that leaves out its distances, with these given before.
fn nested_mirrors() -> String {
    nested_by("U60\nV60\nG73 X500. Y500. Q1 W60\n", ["G73 Q4 ", "G73 Q2 ", "G73 Q3 "])
}

/// Three levels of macros after some blocks, with moves at the bottom, each called with these words before its W.
fn nested_by(before: &str, [lowest, middle, upper]: [&str; 3]) -> String {
    let moves = "G70 X100. Y200. T3\nG91 G70 X1.5\nG90\nG72 X50. Y60.\nM12\nM13\nG70 X20. Y-5.25\nG90\n";
    let calls = |words: &str, number: u8, count| format!("{words}W{number}\n").repeat(count);
    format!(
        "{G92}{before}U60\n{moves}V60\nU61\n{}V61\nU62\n{}V62\n{}{G50}",
        calls(lowest, 60, 50),
        calls(middle, 61, 50),
        calls(upper, 62, 4)
    )
}

fn grid() -> String {
    format!("{G92}X1. Y1. T2\nG36 I9. P63 J9. K63\n{G50}")
}

fn arcs() -> String {
    let patterns = [
        "G29 I250. J10.5 P0.37 K400",
        "G26 I200.55 J45. K-601",
        "G28 I0.21 J33.33 K300",
    ];
    let blocks = patterns.map(|pattern| format!("G72 X300. Y300.\n{pattern}\n"));
    format!("{G92}X300. Y300. T5\n{}{G50}", blocks.concat().repeat(3))
}

/// As many repetitions of some lines as the text takes, after others.
fn filled(before: &str, lines: &str) -> String {
    let room = MOST_BYTES - G92.len() - before.len() - G50.len();
    format!("{G92}{before}{}{G50}", lines.repeat(room / lines.len()))
}

/// A macro stored again and again.
fn macro_pairs() -> String {
    filled("", "U60\nM8\nV60\n")
}

/// Calls of a short macro, each with some lines after it.
fn calls(after: &str) -> String {
    filled("U60\nM8\nV60\n", &format!("W60\n{after}"))
}

fn offsets() -> String {
    filled("", "G93X1.Y1.\n")
}

/// Runs of a short part over a layout of two by two.
fn small_layouts() -> String {
    filled("U60\nM8\nV60\nG98X1.Y1.I1.J1.P1K1\n", "G75W60Q1\n")
}

/// A pattern of one hit, recalled until the list is full.
fn recalls() -> String {
    let lines = "B1\n".repeat(USUAL / 4 - 1);
    format!("{G92}G70X100.Y100.T2\nA1G26I10.J45.K1\n{lines}{G50}")
}

/// Lines of one hit, there and back until the list is full.
fn short_lines() -> String {
    let lines = "G28I10.J45.K1\nG28I-10.J45.K1\n".repeat(USUAL / 8);
    format!("{G92}G70X100.Y100.T2\n{lines}{G50}")
}

/// Lines of as many hits as there can be, there and back, the hits as far from each other as those of the G66 diagonals.
fn long_lines() -> String {
    let lines = "G28I0.51J31.25K999\nG28I-0.51J31.25K999\n".repeat(2);
    format!("{G92}G70X10.Y10.T2\n{lines}{G50}")
}

/// Edges with so many hits each, all from one start, until the list or the text is full.
fn short_edges(numbers: &str, hits: usize) -> String {
    let before = "G70X100.Y100.T2\n";
    let line = format!("G66{numbers}\n");
    let room = MOST_BYTES - G92.len() - before.len() - G50.len();
    let lines = line.repeat((room / line.len()).min(USUAL / 4 / hits));
    format!("{G92}{before}{lines}{G50}")
}

/// An edge across the ARIES-224 by the smallest tool.
fn diagonal(length: &str, angle: &str) -> String {
    format!("G92 X1000. Y600.\nG72 X-10. Y-10.\nG66 I{length} J{angle} P1.01 T2\n{G50}")
}

/// The edge with the most steps, from a place at Y0 on: from one on the sheet its first hit is off the sheet, from the
/// farthest one many are on it.
fn most_steps(x: &str) -> String {
    format!("{G92}G72 X{x} Y0\nG66 I9999.99 J0 P1.01 D9999.99 T2\n{G50}")
}

/// A grid run by G73 four times, nearly filling the list.
fn mirrored_grid(q: u8) -> String {
    let calls = format!("G73 Q{q} W60\n").repeat(3);
    format!("{G92}U60\nG70 X1. Y1. T2\nG36 I9. P39 J9. K24\nV60\nG73 X500. Y500. Q{q} W60\n{calls}{G50}")
}

/// A body full of positions run by G73 until the list is nearly full.
fn mirrored_positions(q: u8) -> String {
    let position = |number| format!("X{}.Y{}.\n", 10 + number * 37 % 90, 10 + number * 91 % 90);
    let positions: String = (0..300).map(position).collect();
    let calls = format!("G73 Q{q} W60\n").repeat(12);
    format!("{G92}G70 X1. Y1. T2\nU60\n{positions}V60\nG73 X500. Y500. Q{q} W60\n{calls}{G50}")
}

/// A short macro, mirrored again and again.
fn mirror_lines() -> String {
    filled("U60\nM8\nV60\nG73X1.Y1.Q1W60\n", "G73Q4W60\n")
}

/// A macro of one hit, mirrored until the list is full.
fn mirrored_hits() -> String {
    let lines = "G73Q2W60\nG73Q3W60\n".repeat(USUAL / 8 - 1);
    format!("{G92}U60\nX100.Y90.T2\nV60\nG73X500.Y500.Q4W60\n{lines}{G50}")
}

fn copies() -> String {
    format!("{G92}G98 X5. Y5. I9. J9. P63 K63\nU1\nX1. Y1. T2\nV1\nG75 W1 Q4\n{G50}")
}

/// A part of two hits with a stop behind each, copied until the list is full.
fn copies_with_stops() -> String {
    format!("{G92}G98 X5. Y5. I9. J9. P31 K31\nU1\nX1. Y1. T2\nM00\nX2.\nM01\nV1\nG76 W1 Q2\n{G50}")
}

/// A part of four hits by four tools, copied until the list is full.
fn copies_with_tools() -> String {
    format!("{G92}G98 X5. Y5. I9. J9. P31 K31\nU1\nX1. Y1. T2\nX2. T99\nX3. T1\nX4. T50\nV1\nG75 W1 Q3\n{G50}")
}

/// A part that mirrors a hit to four corners, copied until the list is full.
fn copies_with_mirrors() -> String {
    let corners = "G73 X7. Y7. Q1 W60\nG73 Q2 W60\nG73 Q4 W60\nG73 Q3 W60\n";
    format!("{G92}U60\nX1. Y1. T2\nV60\nG98 X5. Y5. I9. J9. P31 K31\nU1\n{corners}V1\nG75 W1 Q1\n{G50}")
}

/// Positions with all tools in turn, until the list is full.
fn tool_changes() -> String {
    let positions = (0..USUAL / 4).map(|number| format!("X{}.T{}\n", number % 600, 1 + number % 99));
    format!("{G92}{}{G50}", positions.collect::<String>())
}

/// Stops until the list is full.
fn stops() -> String {
    format!("{G92}{}{G50}", "M00\nM01\n".repeat(USUAL / 8))
}

/// So many runs of a part without blocks.
fn empty_part(part: &str, count: usize) -> String {
    let runs = "G75W60Q4\n".repeat(count);
    format!("{G92}U60\n{part}\nV60\nG98X1.Y1.I1.J1.P99K99\n{runs}{G50}")
}

/// Runs of a part of one block, 50,000 times in all.
fn one_block(before: &str, within: &str) -> String {
    let runs = "G76W60Q2\n".repeat(5);
    format!("{G92}U60\n{before}G70X2.5{within}Y1.\nV60\nG98X1.Y1.I1.J1.P99K99\n{runs}{G50}")
}

/// Runs of a part of two blocks, 40,000 times in all.
fn two_blocks() -> String {
    let runs = "G76W60Q3\n".repeat(4);
    let apart = line_feeds(3_000);
    format!("{G92}U60\nG70X2.5Y1.\n{apart}M8\nV60\nG98X1.Y1.I1.J1.P99K99\n{runs}{G50}")
}

#[cfg(test)]
mod tests {
    use super::*;
    use crate::pair::Pair;

    #[test]
    fn workloads_are_accepted_unless_their_names_say_otherwise() {
        let mut pair = Pair::new(USUAL);
        for workload in workloads() {
            let compared = pair.compare(workload.setting.number(), &workload.text, workload.list_length);
            let answer = compared.unwrap_or_else(|difference| panic!("{}", difference.describe()));
            let is_refused = workload.name.contains("refused");
            assert_eq!(answer.number, if is_refused { 16 } else { 0 }, "{}", workload.name);
        }
    }
}
