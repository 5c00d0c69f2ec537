//! The text: its bytes, its lines, and which of them are blocks.

use std::ops::Range;

use crate::refusal::{Refusal, Refused};

/// The most bytes that a text may have.
const LONGEST: usize = 60_000;

/// A line that is not blank, as a range of the bytes that are kept.
#[derive(Clone, Copy)]
pub struct Line {
    pub start: u32,
    pub end: u32,
    /// Its number in the text, from 1.
    pub number: u32,
}

/// A text without its spaces, line feeds and blank lines.
pub struct Text {
    bytes: Vec<u8>,
    lines: Vec<Line>,
    last_line: u32,
}

/// What is done with each byte.
const CLASSES: [u8; 256] = classes();
const SPACE: u8 = 0;
const KEPT: u8 = 1;
const LINE_FEED: u8 = 2;
const STRAY: u8 = 3;

const fn classes() -> [u8; 256] {
    let mut classes = [STRAY; 256];
    let mut byte = 0;
    while byte < 256 {
        classes[byte] = match byte as u8 {
            b'A'..=b'Z' | b'0'..=b'9' | b'+' | b'-' | b'.' => KEPT,
            b' ' => SPACE,
            b'\n' => LINE_FEED,
            _ => STRAY,
        };
        byte += 1;
    }
    classes
}

impl Text {
    /// Reads a text; refusals 1 and 2.
    pub fn read(bytes: &[u8]) -> Result<Text, Refused> {
        if bytes.is_empty() || bytes.len() > LONGEST {
            return Err(Refusal::TextLength.at(0));
        }
        let mut kept = vec![0; bytes.len()];
        let mut lines = Vec::with_capacity(bytes.len() / 8);
        let last_line = keep(bytes, &mut kept, &mut lines)?;
        let is_ended = bytes.ends_with(b"\n");
        Ok(Text {
            bytes: kept,
            lines,
            last_line: last_line - u32::from(is_ended),
        })
    }

    /// The number of the last line; blank lines count.
    pub fn last_line(&self) -> u32 {
        self.last_line
    }

    /// The lines that are blocks.
    pub fn lines(&self) -> &[Line] {
        &self.lines
    }

    /// The bytes of a line.
    pub fn bytes(&self, line: Line) -> &[u8] {
        &self.bytes[line.start as usize..line.end as usize]
    }

    /// The first byte of a line.
    pub fn first_byte(&self, line: Line) -> u8 {
        self.bytes[line.start as usize]
    }
}

/// Keeps the bytes and lines that matter, and gives the number of the line that the text ends in; refusal 2.
fn keep(bytes: &[u8], kept: &mut [u8], lines: &mut Vec<Line>) -> Result<u32, Refused> {
    let (mut start, mut end) = (0, 0);
    let mut number = 1;
    for &byte in bytes {
        let class = CLASSES[usize::from(byte)];
        if class < LINE_FEED {
            // A space is written too, and the next byte over it.
            kept[end] = byte;
            end += usize::from(class);
        } else if class == LINE_FEED {
            keep_line(lines, start..end, number);
            start = end;
            number += 1;
        } else {
            return Err(Refusal::StrayByte.at(number));
        }
    }
    keep_line(lines, start..end, number);
    Ok(number)
}

/// Keeps a line unless it is blank.
fn keep_line(lines: &mut Vec<Line>, range: Range<usize>, number: u32) {
    if !range.is_empty() {
        lines.push(Line {
            start: range.start as u32,
            end: range.end as u32,
            number,
        });
    }
}

#[cfg(test)]
mod tests {
    use super::*;

    fn refusal(bytes: &[u8]) -> Option<(u8, u32)> {
        Text::read(bytes)
            .err()
            .map(|refused| (refused.refusal as u8, refused.line))
    }

    #[test]
    fn length_is_judged_before_bytes() {
        assert_eq!(refusal(b""), Some((1, 0)));
        assert_eq!(refusal(&[b' '; 60_000]), None);
        assert_eq!(refusal(&[b'?'; 60_001]), Some((1, 0)));
    }

    #[test]
    fn first_stray_byte_gives_the_line() {
        assert_eq!(refusal(b"\n\nG5;\n\r"), Some((2, 3)));
    }

    #[test]
    fn lines_keep_their_numbers() {
        let text = Text::read(b"\n G5 0 \n   \nM0").unwrap();
        let lines: Vec<_> = text
            .lines()
            .iter()
            .map(|&line| (line.number, text.bytes(line)))
            .collect();
        assert_eq!(lines, [(2, &b"G50"[..]), (4, &b"M0"[..])]);
        assert_eq!(text.last_line(), 4);
        assert_eq!(Text::read(b"M0\n").unwrap().last_line(), 1);
        assert_eq!(Text::read(b"M0\n ").unwrap().last_line(), 2);
    }
}
