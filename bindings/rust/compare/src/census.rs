//! How often each answer was met in a comparison.

use std::fmt::Display;

use crate::pair::Answer;
use crate::samples::Sample;
use crate::tally::Tally;

/// The setting that a text is written for, and the one at which it is expanded.
const COLUMNS: [(i32, i32); 4] = [(1, 1), (0, 0), (1, 0), (0, 1)];

/// How often an answer was met.
#[derive(Clone, Copy, Default)]
struct Row {
    texts: [u64; COLUMNS.len()],
    texts_in_bodies: u64,
    calls: u64,
}

/// A call of both expanders.
#[derive(Clone, Copy)]
pub struct Call<'a> {
    pub sample: &'a Sample,
    /// The number of the setting at which the text is expanded.
    pub setting: i32,
    pub answer: Answer,
    /// How many of the entries are stops.
    pub stops: usize,
    pub tools: Tools,
}

/// What is noted of the tools that make hits.
#[derive(Clone, Copy)]
pub struct Tools {
    /// There are several, and one of them stands again after something else.
    are_mixed: bool,
    /// The first and the last are among them.
    have_ends: bool,
}

impl Tools {
    /// Those of a tally.
    pub fn of(tally: &Tally) -> Tools {
        let used = tally.iter().filter(|[hits, ..]| *hits > 0);
        let mut apart = used.clone().filter(|[hits, first, last]| last - first >= *hits);
        let [[first_hits, ..], .., [last_hits, ..]] = tally;
        Tools {
            are_mixed: used.count() > 1 && apart.next().is_some(),
            have_ends: *first_hits > 0 && *last_hits > 0,
        }
    }
}

/// The answers of a comparison.
#[derive(Default)]
pub struct Census {
    answers: [Row; 19],
    /// Those accepted that have a G66.
    sheared: Row,
    /// Those accepted that have a G73.
    mirrored: Row,
    /// Those accepted with stops among their entries.
    stopped: Row,
    /// Those accepted with hits by several tools, one of which stands again after something else.
    mixed_tools: Row,
    /// Those accepted with hits by tools 1 and 99.
    end_tools: Row,
    /// Those by 6 that have a length or an angle past the limit of setting 0 in their line.
    past_limit: Row,
    /// Those by 17 that come from a stop.
    unplaced_stops: Row,
    all: Row,
}

impl Census {
    /// Notes the answer to a text at setting 0 or 1; its call is not counted.
    pub fn add_text(&mut self, call: Call) {
        let settings = (call.sample.setting.number(), call.setting);
        let is_in_body = is_in_body(&call.sample.text, call.answer.line);
        for row in self.rows(call) {
            for (count, column) in row.texts.iter_mut().zip(COLUMNS) {
                *count += u64::from(column == settings);
            }
            row.texts_in_bodies += u64::from(is_in_body);
        }
    }

    /// Notes a call.
    pub fn add_call(&mut self, call: Call) {
        for row in self.rows(call) {
            row.calls += 1;
        }
    }

    /// The rows that a call counts in.
    fn rows(&mut self, call: Call) -> impl Iterator<Item = &mut Row> {
        let Answer { number, line, .. } = call.answer;
        let text = &call.sample.text;
        let bytes = without_spaces(text);
        let is_sheared = number == 0 && has_code(&bytes, b"66");
        let is_mirrored = number == 0 && has_code(&bytes, b"73");
        let is_past_limit = (call.setting, number) == (0, 6) && has_long_number(text, line);
        // 17 comes from hits and from stops, and no hit has an M
        let is_unplaced_stop = number == 17 && line_of(text, line).contains(&b'M');
        let further = [
            is_sheared.then_some(&mut self.sheared),
            is_mirrored.then_some(&mut self.mirrored),
            (call.stops > 0).then_some(&mut self.stopped),
            call.tools.are_mixed.then_some(&mut self.mixed_tools),
            call.tools.have_ends.then_some(&mut self.end_tools),
            is_past_limit.then_some(&mut self.past_limit),
            is_unplaced_stop.then_some(&mut self.unplaced_stops),
        ];
        let answer = &mut self.answers[usize::from(number)];
        [answer, &mut self.all].into_iter().chain(further.into_iter().flatten())
    }

    pub fn print(&self) {
        println!("Texts by the setting that they are written for and the one at which they are expanded;");
        println!("G66, G73: those accepted that have one; stops: those accepted with stops in the list; tools: those");
        println!("accepted with hits by several tools, one of which stands again after something else; T1, T99: those");
        println!(
            "accepted with hits by both; limit: those by 6 that have a length or an angle past the limit of setting 0;"
        );
        println!("stop: those by 17 that come from a stop.");
        let titles = COLUMNS.map(|(written, expanded)| format!("{written} at {expanded}"));
        print_cells("answer", titles, ["in bodies", "calls"]);
        for (number, row) in self.answers.iter().enumerate() {
            match number {
                0 => row.print("accepted"),
                _ => row.print(&number.to_string()),
            }
            match number {
                0 => {
                    self.sheared.print("G66");
                    self.mirrored.print("G73");
                    self.stopped.print("stops");
                    self.mixed_tools.print("tools");
                    self.end_tools.print("T1, T99");
                }
                6 => self.past_limit.print("limit"),
                17 => self.unplaced_stops.print("stop"),
                _ => {}
            }
        }
        self.all.print("all");
    }
}

impl Row {
    fn print(&self, name: &str) {
        print_cells(name, self.texts, [self.texts_in_bodies, self.calls]);
    }
}

fn print_cells<T: Display, U: Display>(name: &str, texts: [T; COLUMNS.len()], others: [U; 2]) {
    let texts = texts.map(|cell| format!(" | {cell:>9}")).concat();
    let others = others.map(|cell| format!(" | {cell:>9}")).concat();
    println!("{name:>8}{texts}{others}");
}

/// Whether a line stands between a U line and the next U or V line.
fn is_in_body(text: &[u8], line: u64) -> bool {
    let before = text.split(|&byte| byte == b'\n').take(line.saturating_sub(1) as usize);
    let firsts = before.filter_map(|line| line.iter().find(|&&byte| byte != b' '));
    firsts.filter(|&&byte| byte == b'U' || byte == b'V').last() == Some(&b'U')
}

/// Whether a line has X, Y, I, J, D, in G29 and G66 P, or in G66 Q with more than four digits, zeros in front not counted.
fn has_long_number(text: &[u8], line: u64) -> bool {
    let bytes = without_spaces(line_of(text, line));
    let letters: &[u8] = if has_code(&bytes, b"66") {
        b"XYIJDPQ"
    } else if has_code(&bytes, b"29") {
        b"XYIJDP"
    } else {
        b"XYIJD"
    };
    (0..bytes.len()).any(|place| letters.contains(&bytes[place]) && digits(&bytes, place).count() > 4)
}

/// A line of a text, by its number.
fn line_of(text: &[u8], line: u64) -> &[u8] {
    let mut lines = text.split(|&byte| byte == b'\n');
    lines.nth(line.saturating_sub(1) as usize).unwrap_or_default()
}

/// Whether there is a G word with a code, in bytes without spaces.
fn has_code(bytes: &[u8], code: &[u8]) -> bool {
    (0..bytes.len()).any(|place| bytes[place] == b'G' && digits(bytes, place).eq(code))
}

/// The digits of the word at a place, zeros in front not counted.
fn digits(bytes: &[u8], place: usize) -> impl Iterator<Item = &u8> {
    let number = bytes[place + 1..].iter().skip_while(|byte| b"+-0".contains(byte));
    number.take_while(|byte| byte.is_ascii_digit())
}

fn without_spaces(bytes: &[u8]) -> Vec<u8> {
    bytes.iter().copied().filter(|&byte| byte != b' ').collect()
}

#[cfg(test)]
mod tests {
    use tolkjirp::TOOLS;

    use super::*;
    use crate::tally::Figures;

    #[test]
    fn lines_in_bodies_are_told() {
        let text = b"G92X1Y1\n U60\nM8\nV60\nM8";
        let lines: Vec<_> = (1..=5).filter(|&line| is_in_body(text, line)).collect();
        assert_eq!(lines, [3, 4]);
    }

    #[test]
    fn long_numbers_are_told() {
        let text = b"X9999\nX1 0 0 0 0\nY-010000T2\nI009999\nN10000\nJ9999.99\nG98X1Y1D10000\n\
            G29I1J0P10000K1\nP10000G90G029\nG29I1J0P9999K10000\nG36I1P10000J1K0\n\
            G66I3J0P10000\nQ-1 00 00G066I3J0P2\nG66I3J0P2Q9999D9999\nG75W1Q10000";
        let lines: Vec<_> = (1..=15).filter(|&line| has_long_number(text, line)).collect();
        assert_eq!(lines, [2, 3, 7, 8, 9, 12, 13]);
    }

    #[test]
    fn tools_are_told() {
        let told = |used: &[(usize, Figures)]| {
            let mut tally = [[0; 3]; TOOLS];
            used.iter().for_each(|&(tool, figures)| tally[tool - 1] = figures);
            let Tools { are_mixed, have_ends } = Tools::of(&tally);
            (are_mixed, have_ends)
        };
        assert_eq!(told(&[]), (false, false));
        assert_eq!(told(&[(1, [2, 1, 3])]), (false, false));
        assert_eq!(told(&[(1, [2, 1, 2]), (99, [1, 3, 3])]), (false, true));
        assert_eq!(told(&[(1, [2, 1, 3]), (98, [1, 2, 2])]), (true, false));
    }

    #[test]
    fn codes_are_told() {
        let has_shear = |text: &[u8]| has_code(&without_spaces(text), b"66");
        assert!(has_shear(b"G92X1Y1\nA1 G 0 6 6I1J1P1\nG50"));
        assert!(!has_shear(b"G92X66Y1\nG6\nG660\nG\n66"));
        let has_mirror = |text: &[u8]| has_code(&without_spaces(text), b"73");
        assert!(has_mirror(b"G92X1Y1\nN5 W60 Q 1 G0073\nG50"));
        assert!(!has_mirror(b"G92X73Y1\nG730\nN73\nG66I1J1P1"));
    }
}
