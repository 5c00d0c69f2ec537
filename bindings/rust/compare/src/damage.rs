//! Damage: faulty lines put into programs, and bytes, words and lines changed.

use std::sync::LazyLock;

use crate::random::Random;

/// Lines that are refused, some of them at one setting alone.
static FAULTS: LazyLock<Vec<String>> = LazyLock::new(|| lines_of(include_str!("faults.txt")));

/// Lines at the ends of what is allowed.
static FINE: LazyLock<Vec<String>> = LazyLock::new(|| lines_of(include_str!("fine.txt")));

/// The lines of a file: commas separate them, and a slash stands for a line feed.
fn lines_of(file: &str) -> Vec<String> {
    file.lines()
        .filter(|line| !line.starts_with('#'))
        .flat_map(|line| line.split(", "))
        .map(|line| line.replace('/', "\n"))
        .collect()
}

/// Bytes that texts are made of.
const ALPHABET: &[u8] = b"ABCDGIJKMNPQTUVWXY0123456789+-. \n";

/// Letters and numbers that words are made of.
const LETTERS: &[u8] = b"AABDGGGGIJKMMNPQTUVWXXYYZ";
const NUMBERS: &[&str] = &[
    "0", "1", "2", "5", "8", "12", "26", "28", "36", "50", "60", "66", "70", "72", "73", "90", "91", "93", "100",
    "10.", "2.5", "-1", "+3", "9999", "10000", "-9999", "-10000", "009999", "010000",
];

/// Puts one to three faulty lines, or lines at the ends of what is allowed, into a program.
pub fn insert_lines(random: &mut Random, text: &mut Vec<u8>) {
    for _ in 0..1 + random.below(3) {
        let lines = if random.one_in(3) { &FINE } else { &FAULTS };
        let line = &lines[random.below(lines.len())];
        let place = line_start(random, text);
        let bytes = line.bytes().chain([b'\n']);
        text.splice(place..place, bytes);
    }
}

/// The start of a line, seldom that of the first.
fn line_start(random: &mut Random, text: &[u8]) -> usize {
    let starts: Vec<usize> = text
        .iter()
        .enumerate()
        .filter(|(_, &byte)| byte == b'\n')
        .map(|(place, _)| place + 1)
        .collect();
    if starts.is_empty() || random.one_in(50) {
        0
    } else {
        random.pick(&starts)
    }
}

/// Changes one to four things of a text.
pub fn damage(random: &mut Random, text: &mut Vec<u8>) {
    for _ in 0..1 + random.below(4) {
        if text.is_empty() {
            return;
        }
        match random.below(12) {
            0..=2 => change_byte(random, text),
            3..=4 => drop_byte(random, text),
            5 => insert_byte(random, text),
            6 => swap_lines(random, text),
            7 => double_line(random, text),
            8 => drop_line(random, text),
            9..=10 => double_word(random, text),
            _ if random.one_in(5) => text.truncate(random.below(text.len()) + 1),
            _ => change_digit(random, text),
        }
    }
}

fn change_byte(random: &mut Random, text: &mut [u8]) {
    let place = random.below(text.len());
    text[place] = if random.one_in(12) {
        random.bits() as u8
    } else {
        random.pick(ALPHABET)
    };
}

fn change_digit(random: &mut Random, text: &mut [u8]) {
    let place = random.below(text.len());
    if text[place].is_ascii_digit() {
        text[place] = b'0' + random.below(10) as u8;
    }
}

fn drop_byte(random: &mut Random, text: &mut Vec<u8>) {
    text.remove(random.below(text.len()));
}

fn insert_byte(random: &mut Random, text: &mut Vec<u8>) {
    let byte = random.pick(ALPHABET);
    text.insert(random.below(text.len() + 1), byte);
}

fn swap_lines(random: &mut Random, text: &mut Vec<u8>) {
    change_lines(text, |lines| {
        let (first, second) = (random.below(lines.len()), random.below(lines.len()));
        lines.swap(first, second);
    });
}

fn double_line(random: &mut Random, text: &mut Vec<u8>) {
    change_lines(text, |lines| {
        let line = random.pick(lines);
        lines.insert(random.below(lines.len() + 1), line);
    });
}

fn drop_line(random: &mut Random, text: &mut Vec<u8>) {
    change_lines(text, |lines| {
        lines.remove(random.below(lines.len()));
    });
}

fn change_lines(text: &mut Vec<u8>, change: impl FnOnce(&mut Vec<&[u8]>)) {
    let mut lines: Vec<&[u8]> = text.split(|&byte| byte == b'\n').collect();
    change(&mut lines);
    *text = lines.join(&b'\n');
}

/// Copies the word at some place to another place, or right behind itself.
fn double_word(random: &mut Random, text: &mut Vec<u8>) {
    let letter = |byte: &u8| byte.is_ascii_uppercase();
    let from = random.below(text.len());
    let Some(start) = text[from..].iter().position(letter) else {
        return;
    };
    let start = from + start;
    let rest = &text[start + 1..];
    let length = rest.iter().position(|byte| letter(byte) || *byte == b'\n');
    let end = length.map_or(text.len(), |length| start + 1 + length);
    let word = text[start..end].to_vec();
    let place = if random.one_in(2) {
        end
    } else {
        random.below(text.len() + 1)
    };
    text.splice(place..place, word);
}

/// Any bytes of the alphabet, or any words, usually after G92.
pub fn noise(random: &mut Random) -> Vec<u8> {
    let mut text = Vec::new();
    if !random.one_in(8) {
        text.extend_from_slice(b"G92X600.Y600.\n");
    }
    if random.one_in(4) {
        let length = random.below(60);
        text.extend((0..length).map(|_| random.pick(ALPHABET)));
        return text;
    }
    for _ in 0..1 + random.below(3) {
        for _ in 0..1 + random.below(4) {
            text.push(random.pick(LETTERS));
            text.extend_from_slice(random.pick(NUMBERS).as_bytes());
        }
        text.push(b'\n');
    }
    text
}
