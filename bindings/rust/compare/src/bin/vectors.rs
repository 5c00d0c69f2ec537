//! Runs golden cases through both expanders.
//!
//! `vectors [FOLDER]` takes a folder like `crates/cases`, which is the one if nothing is said: `stdout` has for each case
//! a line with the name of a text in `data`, the number of the setting and the length of the list, and then the listing,
//! as the program `hitlist` prints it: the entries, and a line for each tool used.

use std::fmt::Write;
use std::iter::Peekable;
use std::path::{Path, PathBuf};
use std::process::ExitCode;
use std::{env, fs};

use compare::pair::{library, plain, Answer};
use compare::tally::{fault, Tally};
use tolkjirp::{NUMBERS_PER_ENTRY, TOOLS};

/// The golden cases of the repository.
const CASES: &str = concat!(env!("CARGO_MANIFEST_DIR"), "/../../../crates/cases");

/// A case: the text's name, the number of the setting, the length of the list, and the lines of the listing.
struct Case {
    name: String,
    setting: i32,
    length: usize,
    listing: String,
}

fn main() -> ExitCode {
    let words: Vec<_> = env::args_os().skip(1).collect();
    let folder = match &words[..] {
        [] => PathBuf::from(CASES),
        [folder] => PathBuf::from(folder),
        _ => return fail("usage: vectors [FOLDER]"),
    };
    match run(&folder) {
        Ok((_, 0)) => ExitCode::SUCCESS,
        Ok(_) => ExitCode::FAILURE,
        Err(reason) => fail(&reason),
    }
}

fn fail(reason: &str) -> ExitCode {
    eprintln!("vectors: {reason}");
    ExitCode::from(2)
}

/// How many cases there are and how many differ, of which each is named.
fn run(folder: &Path) -> Result<(usize, usize), String> {
    let stored = folder.join("stdout");
    let listings = fs::read_to_string(&stored).map_err(|error| format!("{}: {error}", stored.display()))?;
    let cases = cases(&listings)?;
    let mut wrong = 0;
    for case in &cases {
        let path = folder.join("data").join(&case.name);
        let text = fs::read(&path).map_err(|error| format!("{}: {error}", path.display()))?;
        if !is_right(case, &text) {
            println!("{} {} {} differs", case.name, case.setting, case.length);
            wrong += 1;
        }
    }
    println!("{} cases, {wrong} differ", cases.len());
    Ok((cases.len(), wrong))
}

/// The cases of stored listings, of which there is at least one.
fn cases(listings: &str) -> Result<Vec<Case>, String> {
    // an argument that is no setting or no length has a line without a listing
    let is_case = |line: &&str| !line.ends_with(" NO SETTING") && !line.ends_with(" NO LENGTH");
    let mut lines = listings.lines().filter(is_case).peekable();
    let mut cases = Vec::new();
    while let Some(title) = lines.next() {
        cases.push(case(title, &mut lines).ok_or(format!("no case: {title:?}"))?);
    }
    if cases.is_empty() {
        return Err("there are no cases".to_string());
    }
    Ok(cases)
}

/// The case of a title and the lines behind it.
fn case<'a>(title: &str, lines: &mut Peekable<impl Iterator<Item = &'a str>>) -> Option<Case> {
    let words: Vec<&str> = title.split(' ').collect();
    let [name, setting, length] = words[..] else {
        return None;
    };
    let head = lines.next()?;
    let count = match head.strip_prefix("ENTRIES ") {
        Some(count) => count.parse().ok()?,
        None => 0,
    };
    let mut listing = format!("{head}\n");
    for line in lines.by_ref().take(count) {
        writeln!(listing, "{line}").expect("a string takes all");
    }
    while let Some(line) = lines.next_if(|line| is_tool(line)) {
        writeln!(listing, "{line}").expect("a string takes all");
    }
    Some(Case {
        name: name.to_string(),
        setting: setting.parse().ok()?,
        length: length.parse().ok()?,
        listing,
    })
}

/// Whether a line is that of a tool used: four numbers, where a title has three words.
fn is_tool(line: &str) -> bool {
    line.split(' ').count() == 4
}

/// Whether both give the listing of a case, with nothing else in the list and the tally.
fn is_right(case: &Case, text: &[u8]) -> bool {
    [library, plain].iter().all(|expand| {
        let mut list = vec![-1; case.length];
        let mut tally = [[7; 3]; TOOLS];
        let answer = expand(case.setting, text, &mut list, &mut tally);
        let (entries, rest) = list.split_at(NUMBERS_PER_ENTRY * answer.count);
        listing(answer, entries, &tally) == case.listing
            && rest.iter().all(|&number| number == 0)
            && fault(&tally, entries).is_none()
    })
}

/// The lines that `hitlist` prints.
fn listing(answer: Answer, entries: &[i32], tally: &Tally) -> String {
    if answer.number != 0 {
        return format!("REFUSED {} LINE {}\n", answer.number, answer.line);
    }
    let mut lines = format!("ENTRIES {}\n", answer.count);
    for (index, entry) in entries.chunks_exact(NUMBERS_PER_ENTRY).enumerate() {
        let (index, mode) = (index + 1, mode_letter(entry[3]));
        writeln!(lines, "{index} {} {} {} {mode}", entry[0], entry[1], entry[2]).expect("a string takes all");
    }
    for (tool, [hits, first, last]) in (1..).zip(tally).filter(|(_, [hits, ..])| *hits > 0) {
        writeln!(lines, "{tool} {hits} {first} {last}").expect("a string takes all");
    }
    lines
}

/// Punching, nibbling, a stop or an optional stop.
fn mode_letter(mode: i32) -> char {
    match mode {
        0 => 'P',
        1 => 'N',
        2 => 'S',
        _ => 'O',
    }
}
