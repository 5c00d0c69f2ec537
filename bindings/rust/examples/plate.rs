//! Expands a plate and prints its entries and the tools used as `hitlist` does: that of a file, or a tip rack of eight by
//! twelve holes, twice on the sheet, with a stop behind each.
//!
//! `plate [FILE]` goes by decimal point setting 1, `plate -0 [FILE]` by setting 0, at which X100 is 100 mm.

use std::error::Error;
use std::io::{self, BufWriter, Write};
use std::process::ExitCode;
use std::{env, fs};

use tolkjirp::{expand, Expansion, Setting};

const PLATE: &str = "\
G92 X600. Y600.
G98 X20. Y100. I250. J150. P1 K0
U1
X15. Y15. T2
G36 I9. P11 J9. K7
M00
V1
G75 W1 Q1
G50
";

fn main() -> ExitCode {
    match run() {
        Ok(()) => ExitCode::SUCCESS,
        Err(error) => {
            eprintln!("plate: {error}");
            ExitCode::FAILURE
        }
    }
}

fn run() -> Result<(), Box<dyn Error>> {
    let words: Vec<_> = env::args_os().skip(1).collect();
    let (setting, names) = match &words[..] {
        [option, names @ ..] if option == "-0" => (Setting::Millimetres, names),
        names => (Setting::Hundredths, names),
    };
    let text = match names {
        [] => PLATE.as_bytes().to_vec(),
        [name] => fs::read(name)?,
        _ => return Err("usage: plate [-0] [FILE]".into()),
    };
    print(&expand(setting, &text, 4096)?)?;
    Ok(())
}

fn print(Expansion { entries, tally }: &Expansion) -> io::Result<()> {
    let mut out = BufWriter::new(io::stdout().lock());
    writeln!(out, "ENTRIES {}", entries.len())?;
    for (index, entry) in entries.iter().enumerate() {
        writeln!(out, "{} {entry}", index + 1)?;
    }
    for (number, tool) in tally.used() {
        writeln!(out, "{number} {tool}")?;
    }
    out.flush()
}
