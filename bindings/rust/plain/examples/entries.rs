//! Prints the entries of a program text, hits and stops, and after them a line for each tool used, as the plain expander
//! gives them: nothing is proved of it, and nothing but Rust is needed. `entries FILE` goes by decimal point setting 1,
//! `entries -0 FILE` by setting 0, at which X100 is 100 mm. It ends with 1 if the text is refused, with 2 if it can't be
//! read or the entries can't be written.

use std::io::{self, BufWriter, Write};
use std::process::ExitCode;
use std::{env, fs};

use plain::{expand, Answer, TOOLS};

/// The numbers of a list with places for 4,096 entries.
const LIST_LENGTH: usize = 16_384;

fn main() -> ExitCode {
    let words: Vec<_> = env::args_os().skip(1).collect();
    let (setting, name) = match &words[..] {
        [option, name] if option == "-0" => (0, name),
        [name] => (1, name),
        _ => {
            eprintln!("usage: entries [-0] FILE");
            return ExitCode::from(2);
        }
    };
    match fs::read(name).and_then(|text| print_answer(setting, &text)) {
        Ok(Answer::Entries(_)) => ExitCode::SUCCESS,
        Ok(Answer::Refused { .. }) => ExitCode::FAILURE,
        Err(error) => {
            eprintln!("entries: {error}");
            ExitCode::from(2)
        }
    }
}

fn print_answer(setting: i32, text: &[u8]) -> io::Result<Answer> {
    let mut list = vec![0; LIST_LENGTH];
    let mut tally = [[0; 3]; TOOLS];
    let answer = expand(setting, text, &mut list, &mut tally);
    let mut out = BufWriter::new(io::stdout().lock());
    match answer {
        Answer::Refused { number, line } => writeln!(out, "REFUSED {number} LINE {line}")?,
        Answer::Entries(count) => {
            writeln!(out, "ENTRIES {count}")?;
            for (index, entry) in list.chunks_exact(4).take(count).enumerate() {
                let mode = mode_letter(entry[3]);
                writeln!(out, "{} {} {} {} {mode}", index + 1, entry[0], entry[1], entry[2])?;
            }
            let used = (1..).zip(tally).filter(|(_, [hits, ..])| *hits > 0);
            for (tool, [hits, first, last]) in used {
                writeln!(out, "{tool} {hits} {first} {last}")?;
            }
        }
    }
    out.flush()?;
    Ok(answer)
}

/// Punching, nibbling, a stop or an optional stop.
fn mode_letter(mode: i32) -> char {
    match mode {
        0 => 'P',
        1 => 'N',
        2 => 'S',
        _ => 'O',
    }
}
