//! The texts of a comparison, by number.

use tolkjirp::Setting;

use crate::damage;
use crate::limits;
use crate::mirrors;
use crate::programs::Programmer;
use crate::random::Random;
use crate::shears;
use crate::stops;
use crate::tools;

/// A text, and the setting that it is written for.
#[derive(Debug, PartialEq, Eq)]
pub struct Sample {
    pub setting: Setting,
    pub text: Vec<u8>,
}

/// The sample that a seed gives.
pub fn sample(seed: u64) -> Sample {
    let mut random = Random::new(seed ^ 0x5eed);
    let setting = random.pick(&[Setting::Hundredths, Setting::Millimetres]);
    Sample {
        setting,
        text: text(&mut random, seed, setting),
    }
}

/// A text for a setting.
fn text(random: &mut Random, seed: u64, setting: Setting) -> Vec<u8> {
    let program = || Programmer::new(seed, setting).write();
    if random.one_in(1_000) {
        return limits::many_blocks(random);
    }
    if random.one_in(1_000) {
        return limits::long_text(random, program());
    }
    match random.below(132) {
        0..=34 => program(),
        35..=59 => {
            let mut text = program();
            damage::insert_lines(random, &mut text);
            text
        }
        60..=79 => {
            let mut text = program();
            damage::damage(random, &mut text);
            text
        }
        80..=81 => damage::noise(random),
        82 => limits::full_store(random),
        83..=86 => limits::deep_calls(random, setting),
        87..=90 => limits::far_places(random, setting),
        91..=92 => limits::range_ends(random, setting),
        93 => limits::wide_patterns(random, setting),
        94..=99 => limits::layout_states(random, setting),
        100..=105 => stops::stops(random, setting),
        106..=113 => tools::tools(random, setting),
        number => {
            let mut text = match number {
                114..=125 => mirrors::mirrors(random, setting),
                _ => shears::shears(random, setting),
            };
            if random.one_in(6) {
                damage::damage(random, &mut text);
            }
            text
        }
    }
}

#[cfg(test)]
mod tests {
    use tolkjirp::TOOLS;

    use super::*;
    use crate::pair::{plain, Pair};

    /// How many of 4,000 answers are met, by number.
    fn met(setting: Setting) -> [u32; 19] {
        let mut pair = Pair::new(16_384);
        let mut met = [0; 19];
        for seed in 0..4_000 {
            let list_length = if seed % 3 == 0 { 40 } else { 16_384 };
            let answer = pair.compare(setting.number(), &sample(seed).text, list_length);
            let answer = answer.unwrap_or_else(|difference| panic!("{}", difference.describe()));
            met[usize::from(answer.number)] += 1;
        }
        met
    }

    #[test]
    fn texts_follow_from_their_seeds() {
        assert_eq!(sample(5), sample(5));
        assert_ne!(sample(5), sample(6));
    }

    #[test]
    fn the_expanders_agree_and_refuse_in_many_ways() {
        for setting in [Setting::Hundredths, Setting::Millimetres] {
            let met = met(setting);
            let missing: Vec<_> = (0..19).filter(|&number| met[number] == 0).collect();
            assert!(missing.is_empty(), "never met at {setting:?}: {missing:?}");
        }
    }

    #[test]
    fn programs_are_mostly_accepted_at_their_own_setting() {
        for setting in [Setting::Hundredths, Setting::Millimetres] {
            let mut list = vec![0; 16_384];
            let mut tally = [[0; 3]; TOOLS];
            let mut is_accepted = |seed| {
                let text = Programmer::new(seed, setting).write();
                plain(setting.number(), &text, &mut list, &mut tally).number == 0
            };
            let accepted = (0..1_000).filter(|&seed| is_accepted(seed)).count();
            assert!(accepted > 500, "{accepted} of 1,000 at {setting:?}");
        }
    }

    #[test]
    fn stops_are_met_in_accepted_texts() {
        for setting in [Setting::Hundredths, Setting::Millimetres] {
            let mut pair = Pair::new(16_384);
            let mut stops_of = |text: &[u8]| {
                let answer = pair.compare(setting.number(), text, 16_384);
                let answer = answer.unwrap_or_else(|difference| panic!("{}", difference.describe()));
                pair.stops(answer)
            };
            let in_programs = |seed| Programmer::new(seed, setting).write();
            let met = (0..1_000).filter(|&seed| stops_of(&in_programs(seed)) > 0).count();
            assert!(met > 200, "{met} of 1,000 programs at {setting:?}");
            let full_of_stops = |seed| stops::stops(&mut Random::new(seed), setting);
            let met = (0..1_000).filter(|&seed| stops_of(&full_of_stops(seed)) > 0).count();
            assert!(met > 500, "{met} of 1,000 full of stops at {setting:?}");
        }
    }

    #[test]
    fn mirrors_are_met_in_accepted_texts() {
        for setting in [Setting::Hundredths, Setting::Millimetres] {
            let mut pair = Pair::new(16_384);
            let mut met = [0; 19];
            for seed in 0..1_000 {
                let text = mirrors::mirrors(&mut Random::new(seed), setting);
                let answer = pair.compare(setting.number(), &text, 16_384);
                let answer = answer.unwrap_or_else(|difference| panic!("{}", difference.describe()));
                met[usize::from(answer.number)] += 1;
            }
            assert!(met[0] > 500, "{} of 1,000 at {setting:?}", met[0]);
            let missing: Vec<_> = [5, 6, 10, 14, 15, 16]
                .into_iter()
                .filter(|&number| met[number] == 0)
                .collect();
            assert!(missing.is_empty(), "never met at {setting:?}: {missing:?}");
        }
    }

    /// How many of 1,000 texts have hits by several tools.
    fn with_several_tools(setting: Setting, text: impl Fn(u64) -> Vec<u8>) -> usize {
        let mut pair = Pair::new(16_384);
        let has_several = |seed: &u64| {
            let answer = pair.compare(setting.number(), &text(*seed), 16_384);
            answer.unwrap_or_else(|difference| panic!("{}", difference.describe()));
            pair.tally().iter().filter(|[hits, ..]| *hits > 0).count() > 1
        };
        (0..1_000).filter(has_several).count()
    }

    #[test]
    fn tools_change_in_accepted_texts() {
        for setting in [Setting::Hundredths, Setting::Millimetres] {
            let met = with_several_tools(setting, |seed| Programmer::new(seed, setting).write());
            assert!(met > 200, "{met} of 1,000 programs at {setting:?}");
            let met = with_several_tools(setting, |seed| tools::tools(&mut Random::new(seed), setting));
            assert!(met > 500, "{met} of 1,000 full of tools at {setting:?}");
        }
    }

    #[test]
    fn all_tools_make_hits_and_stand_again_after_others() {
        let mut pair = Pair::new(16_384);
        let mut again = [false; TOOLS];
        for seed in 0..3_000 {
            let Sample { setting, text } = sample(seed);
            let answer = pair.compare(setting.number(), &text, 16_384);
            answer.unwrap_or_else(|difference| panic!("{}", difference.describe()));
            for (again, [hits, first, last]) in again.iter_mut().zip(pair.tally()) {
                *again |= *hits > 1 && last - first >= *hits;
            }
        }
        let missing: Vec<_> = (1..).zip(again).filter(|(_, again)| !again).collect();
        assert!(missing.is_empty(), "{missing:?}");
    }
}
