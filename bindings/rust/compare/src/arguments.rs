//! The arguments of the programs.

use std::ops::RangeInclusive;

/// The numbers of the texts to compare, from a count of at least 1 and the first number: a million from 1 on if nothing
/// is said.
pub fn seeds(words: &[String]) -> Result<RangeInclusive<u64>, String> {
    let (count, first) = match words {
        [] => (1_000_000, 1),
        [count] => (number(count)?, 1),
        [count, seed] => (number(count)?, number(seed)?),
        _ => return Err("there are at most two arguments".to_string()),
    };
    let further = count.checked_sub(1).ok_or("no text is no comparison")?;
    let last = first
        .checked_add(further)
        .ok_or("the last text's number has more than 64 bits")?;
    Ok(first..=last)
}

/// The rounds of a measurement, at least 1, and the word of its texts; a whole number is the one, anything else the
/// other.
pub fn rounds_and_word(words: &[String], usual: usize) -> Result<(usize, String), String> {
    let (rounds, others): (Vec<_>, Vec<_>) = words.iter().partition(|word| word.parse::<usize>().is_ok());
    let rounds = match rounds[..] {
        [] => usual,
        [rounds] => rounds.parse().expect("it is a number"),
        _ => return Err("ROUNDS stands twice".to_string()),
    };
    match (rounds, &others[..]) {
        (0, _) => Err("no round is no measurement".to_string()),
        (_, []) => Ok((rounds, String::new())),
        (_, [word]) => Ok((rounds, word.to_string())),
        _ => Err("WORD stands twice; put one of several words between quotes".to_string()),
    }
}

fn number(word: &str) -> Result<u64, String> {
    word.parse()
        .map_err(|_| format!("{word:?} is not a whole number below 2^64"))
}

#[cfg(test)]
mod tests {
    use super::{rounds_and_word, seeds};

    fn words(line: &str) -> Vec<String> {
        line.split_whitespace().map(String::from).collect()
    }

    #[test]
    fn seeds_are_counted_from_the_first() {
        assert_eq!(seeds(&[]), Ok(1..=1_000_000));
        assert_eq!(seeds(&words("5")), Ok(1..=5));
        assert_eq!(seeds(&words("5 7")), Ok(7..=11));
        assert_eq!(seeds(&words("1 18446744073709551615")), Ok(u64::MAX..=u64::MAX));
    }

    #[test]
    fn wrong_seeds_are_errors() {
        for line in [
            "0",
            "0 5",
            "2 18446744073709551615",
            "x",
            "-1",
            "1 2 3",
            "18446744073709551616",
        ] {
            assert!(seeds(&words(line)).is_err(), "{line}");
        }
    }

    #[test]
    fn rounds_and_a_word_in_either_order() {
        assert_eq!(rounds_and_word(&words("W"), 31), Ok((31, "W".to_string())));
        assert_eq!(rounds_and_word(&words("W 5"), 31), Ok((5, "W".to_string())));
        for line in ["0", "1 2", "a b", "a 1 b"] {
            assert!(rounds_and_word(&words(line), 31).is_err(), "{line}");
        }
    }
}
