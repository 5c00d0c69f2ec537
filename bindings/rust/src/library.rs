//! The call of the static library.

use crate::Tally;

extern "C" {
    fn tolkjirp_expand(
        setting: i32,
        text: *const u8,
        text_length: usize,
        list: *mut i32,
        list_length: usize,
        tally: *mut Tally,
        answer: *mut [u64; 3],
    );
}

// The library has the tally as 297 numbers.
const _: () = assert!(size_of::<Tally>() == 297 * size_of::<u64>());

/// What no library answers.
const NO_ANSWER: [u64; 3] = [u64::MAX; 3];

/// Expands a text at the setting of a number into a list and a tally, and gives the three numbers of the answer: refusal,
/// count of entries, line.
pub fn call(setting: i32, text: &[u8], list: &mut [i32], tally: &mut Tally) -> [u64; 3] {
    let mut answer = NO_ANSWER;
    // SAFETY: the pointers and lengths come from slices, so they are not null, are valid for so many elements, and
    // span at most isize::MAX bytes. List and tally are borrowed exclusively, so they overlap neither the text nor each
    // other, and the answer is a variable of its own. The tally consists of 297 numbers.
    unsafe {
        tolkjirp_expand(
            setting,
            text.as_ptr(),
            text.len(),
            list.as_mut_ptr(),
            list.len(),
            tally,
            &mut answer,
        );
    }
    // One without a tally takes the place of the tally for that of its answer.
    assert!(
        answer != NO_ANSWER,
        "the library that is linked is older than version 0.6.0"
    );
    answer
}
