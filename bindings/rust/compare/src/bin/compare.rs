//! Compares the proved library with the plain expander on texts made by numbers.
//!
//! `compare [COUNT [SEED]]` tries texts SEED to SEED + COUNT - 1, each at both decimal point settings. It ends with 1 at a
//! difference, with 2 if its arguments are wrong.

use std::process::ExitCode;
use std::sync::atomic::{AtomicU64, Ordering::Relaxed};
use std::{env, panic};

use compare::arguments::seeds;
use compare::census::{Call, Census, Tools};
use compare::pair::{Answer, Difference, Pair};
use compare::random::Random;
use compare::samples::{sample, Sample};

/// The numbers of the usual list, with places for 4,096 entries.
const USUAL_LENGTH: usize = 16_384;

/// The numbers of a list for texts that fill the usual one.
const LONG_LENGTH: usize = 100_003;

/// The settings by number, and other numbers, which count as 1.
const SETTINGS: [i32; 2] = [1, 0];
const OTHER_NUMBERS: [i32; 4] = [-1, 2, i32::MIN, i32::MAX];

fn main() -> ExitCode {
    let words: Vec<_> = env::args().skip(1).collect();
    let seeds = match seeds(&words) {
        Ok(seeds) => seeds,
        Err(reason) => {
            eprintln!("compare: {reason}\nusage: compare [COUNT [SEED]]");
            return ExitCode::from(2);
        }
    };
    let mut pair = Pair::new(LONG_LENGTH);
    let mut census = Census::default();
    tell_seed_at_panics();
    for seed in seeds {
        SEED.store(seed, Relaxed);
        if let Err(difference) = try_text(&mut pair, &mut census, seed) {
            println!("{}rerun   compare 1 {seed}", difference.describe());
            return ExitCode::FAILURE;
        }
    }
    census.print();
    println!("no difference");
    ExitCode::SUCCESS
}

/// The number of the text that is tried.
static SEED: AtomicU64 = AtomicU64::new(0);

/// The safe interface panics where the library answers what can't be; this adds the number of the text.
fn tell_seed_at_panics() {
    let usual = panic::take_hook();
    panic::set_hook(Box::new(move |information| {
        usual(information);
        eprintln!("rerun   compare 1 {}", SEED.load(Relaxed));
    }));
}

/// Compares the answers for one text at both settings, and now and then at another number.
fn try_text(pair: &mut Pair, census: &mut Census, seed: u64) -> Result<(), Difference> {
    let sample = sample(seed);
    for setting in SETTINGS {
        try_lists(pair, census, seed, &sample, setting)?;
    }
    let mut random = Random::new(!seed ^ 0x5e77);
    if random.one_in(4) {
        let number = random.pick(&OTHER_NUMBERS);
        census.add_call(call(pair, &sample, number, USUAL_LENGTH)?);
    }
    Ok(())
}

/// Compares the answers for one text at a setting and several lengths of the list.
fn try_lists(pair: &mut Pair, census: &mut Census, seed: u64, sample: &Sample, setting: i32) -> Result<(), Difference> {
    let usual = call(pair, sample, setting, USUAL_LENGTH)?;
    census.add_text(usual);
    census.add_call(usual);
    for length in other_lengths(seed, usual.answer) {
        census.add_call(call(pair, sample, setting, length)?);
    }
    Ok(())
}

/// Calls both expanders.
fn call<'a>(pair: &mut Pair, sample: &'a Sample, setting: i32, length: usize) -> Result<Call<'a>, Difference> {
    let answer = pair.compare(setting, &sample.text, length)?;
    Ok(Call {
        sample,
        setting,
        answer,
        stops: pair.stops(answer),
        tools: Tools::of(pair.tally()),
    })
}

/// Further lengths of the list: short ones, those near the length that the entries need, and one at which some entry
/// finds no place.
fn other_lengths(seed: u64, answer: Answer) -> Vec<usize> {
    let mut random = Random::new(!seed);
    match answer.number {
        0 => {
            let needed = 4 * answer.count;
            let mut lengths = vec![0, 3, 7, needed, needed + 3, random.below(needed + 1)];
            lengths.extend(needed.checked_sub(1));
            lengths
        }
        1 | 2 => vec![0, 7],
        3 => vec![7],
        17 => vec![0, LONG_LENGTH],
        _ => vec![0, 3, 7, random.below(40), random.below(400)],
    }
}
