//! Measures the proved library against the plain expander, and an older library if there is one, on the same texts.
//!
//! `bench [ROUNDS] [WORD]` takes the least of so many rounds, and only texts whose names have the word in them.

use std::env;
use std::hint::black_box;
use std::process::ExitCode;
use std::time::Duration;

use compare::arguments::rounds_and_word;
use compare::clock::thread_time;
use compare::libraries::{new_and_old, FUNCTION};
use compare::pair::{Answer, Difference, Expander, Lent, Pair, PLAIN};
use compare::workloads::{workloads, Workload};

/// The numbers of the longest list.
const LONGEST_LIST: usize = 16_384;

/// How long one timing lasts at least, and how many there are of each if nothing is said.
const SHORTEST: Duration = Duration::from_millis(1);
const USUAL_ROUNDS: usize = 31;

fn main() -> ExitCode {
    let words: Vec<_> = env::args().skip(1).collect();
    let (rounds, word) = match rounds_and_word(&words, USUAL_ROUNDS) {
        Ok(arguments) => arguments,
        Err(reason) => {
            eprintln!("bench: {reason}\nusage: bench [ROUNDS] [WORD]");
            return ExitCode::from(2);
        }
    };
    let mut workloads = workloads();
    workloads.retain(|workload| workload.name.contains(&word));
    if workloads.is_empty() {
        println!("no text has {word:?} in its name");
        return ExitCode::FAILURE;
    }
    let new_and_old = new_and_old();
    print_head(rounds, new_and_old.is_some());
    let mut pair = Pair::new(LONGEST_LIST);
    for workload in workloads {
        match check(&mut pair, new_and_old, &workload) {
            Ok((answer, expanders)) => {
                let times = measure(&workload, expanders, rounds);
                print_times(&workload, answer, &times, new_and_old.is_some());
            }
            Err(difference) => {
                println!("{}\n{}", workload.name, difference.describe());
                return ExitCode::FAILURE;
            }
        }
    }
    ExitCode::SUCCESS
}

/// The answer to a text, if the library and the plain expander give the same, and the expanders to measure: these two, and
/// the older library if there is one that answers alike.
fn check(
    pair: &mut Pair,
    new_and_old: Option<[Expander; 2]>,
    workload: &Workload,
) -> Result<(Answer, Vec<Expander>), Difference> {
    let (setting, text) = (workload.setting.number(), &workload.text);
    let mut alike = |other| pair.compare_with(other, setting, text, workload.list_length);
    let answer = alike(PLAIN)?;
    let Some([new, old]) = new_and_old else {
        return Ok((answer, vec![FUNCTION, PLAIN]));
    };
    alike(new)?;
    let mut expanders = vec![new, PLAIN];
    expanders.extend(alike(old).is_ok().then_some(old));
    Ok((answer, expanders))
}

/// Measures all expanders in turn and gives the least nanoseconds of each.
fn measure(workload: &Workload, expanders: Vec<Expander>, rounds: usize) -> Vec<f64> {
    let mut lent = Lent::new(workload.list_length);
    let new_timing = |expander| Timing::new(expander, workload, &mut lent);
    let mut timings: Vec<_> = expanders.into_iter().map(new_timing).collect();
    for _ in 0..rounds {
        for timing in &mut timings {
            timing.repeat(workload, &mut lent);
        }
    }
    timings.iter().map(|timing| timing.least).collect()
}

fn print_head(rounds: usize, has_old: bool) {
    println!("Processor time of one call, the least of {rounds} rounds; ratio is library to plain.");
    println!("List and tally are not cleared by the caller; clearing them is part of each call.");
    println!();
    let mut cells = ["list", "answer", "library ns", "plain ns", "ratio"]
        .map(String::from)
        .to_vec();
    if has_old {
        cells.extend(["old ns", "new / old"].map(String::from));
    }
    print_row("text", &cells);
}

/// Prints a row with the times of all expanders.
fn print_times(workload: &Workload, answer: Answer, times: &[f64], has_old: bool) {
    let mut cells = vec![workload.list_length.to_string(), describe(answer)];
    let nanoseconds = |time: f64| format!("{time:.0}");
    let ratio = |other: f64| format!("{:.2}", times[0] / other);
    cells.extend([nanoseconds(times[0]), nanoseconds(times[1]), ratio(times[1])]);
    match times.get(2) {
        Some(&old) => cells.extend([nanoseconds(old), ratio(old)]),
        None if has_old => cells.push("differs".to_string()),
        None => {}
    }
    print_row(workload.name, &cells);
}

fn print_row(text: &str, cells: &[String]) {
    print!("{text:<39}");
    for (cell, width) in cells.iter().zip([6, 12, 10, 10, 6, 10, 9]) {
        print!(" | {cell:>width$}");
    }
    println!();
}

fn describe(answer: Answer) -> String {
    match answer.number {
        0 => format!("{} entries", answer.count),
        number => format!("refused {number}"),
    }
}

/// The timings of an expander on a text.
struct Timing {
    expander: Expander,
    /// How many calls make a timing long enough.
    calls: u32,
    /// The least nanoseconds of one call.
    least: f64,
}

impl Timing {
    fn new(expander: Expander, workload: &Workload, lent: &mut Lent) -> Timing {
        let mut calls = 1;
        while time(expander, workload, lent, calls) < SHORTEST {
            calls *= 2;
        }
        Timing {
            expander,
            calls,
            least: f64::INFINITY,
        }
    }

    fn repeat(&mut self, workload: &Workload, lent: &mut Lent) {
        let taken = time(self.expander, workload, lent, self.calls);
        let of_one = taken.as_nanos() as f64 / f64::from(self.calls);
        self.least = self.least.min(of_one);
    }
}

/// The processor time that so many calls take.
fn time(expander: Expander, workload: &Workload, lent: &mut Lent, calls: u32) -> Duration {
    let (expand, setting, text) = (expander.expand, workload.setting.number(), &workload.text);
    let start = thread_time();
    for _ in 0..calls {
        let Lent { list, tally } = black_box(&mut *lent);
        black_box(expand(setting, black_box(text), list, tally));
    }
    thread_time() - start
}
