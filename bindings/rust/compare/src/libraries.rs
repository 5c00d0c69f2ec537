//! The C function of the library, called with any number for the setting; and copies of two libraries in one program, the
//! one to measure and an older one, if the build names an older one.

use crate::pair::{Answer, Expander};
use crate::tally::Tally;

/// The function of a library: setting, text and its length, list and its length, tally, answer.
type Function = unsafe extern "C" fn(i32, *const u8, usize, *mut i32, usize, *mut Tally, *mut [u64; 3]);

extern "C" {
    fn tolkjirp_expand(
        setting: i32,
        text: *const u8,
        text_length: usize,
        list: *mut i32,
        list_length: usize,
        tally: *mut Tally,
        answer: *mut [u64; 3],
    );
}

/// The library's function, to measure without the safe interface.
pub const FUNCTION: Expander = Expander {
    name: "library",
    expand: function,
    has_tally: true,
};

/// What the library's function answers.
pub fn function(setting: i32, text: &[u8], list: &mut [i32], tally: &mut Tally) -> Answer {
    call(tolkjirp_expand, setting, text, list, tally)
}

fn call(function: Function, setting: i32, text: &[u8], list: &mut [i32], tally: &mut Tally) -> Answer {
    let mut numbers = [0; 3];
    // SAFETY: the function is that of a library. The pointers and lengths come from slices, list and tally are borrowed
    // exclusively, and the answer is a variable of its own.
    unsafe {
        function(
            setting,
            text.as_ptr(),
            text.len(),
            list.as_mut_ptr(),
            list.len(),
            tally,
            &mut numbers,
        );
    }
    answer_of(numbers)
}

/// An answer from its numbers.
fn answer_of([number, count, line]: [u64; 3]) -> Answer {
    Answer {
        number: u8::try_from(number).expect("refusals have small numbers"),
        count: count as usize,
        line,
    }
}

/// The new library and the old one.
#[cfg(not(old_library))]
pub fn new_and_old() -> Option<[Expander; 2]> {
    None
}

/// The new library and the old one, which may have no tally.
#[cfg(old_library)]
pub fn new_and_old() -> Option<[Expander; 2]> {
    let has_tally = linked::old_has_tally();
    let new = Expander {
        name: "new",
        expand: linked::new,
        has_tally: true,
    };
    let old = Expander {
        name: "old",
        expand: if has_tally {
            linked::old
        } else {
            linked::old_without_tally
        },
        has_tally,
    };
    Some([new, old])
}

#[cfg(old_library)]
mod linked {
    use std::mem::transmute;

    use tolkjirp::TOOLS;

    use super::{answer_of, call, Function};
    use crate::pair::Answer;
    use crate::tally::Tally;

    /// The function of a library before version 0.6.0, which has no tally.
    type FunctionWithoutTally = unsafe extern "C" fn(i32, *const u8, usize, *mut i32, usize, *mut [u64; 3]);

    extern "C" {
        fn tolkjirp_expand_new(
            setting: i32,
            text: *const u8,
            text_length: usize,
            list: *mut i32,
            list_length: usize,
            tally: *mut Tally,
            answer: *mut [u64; 3],
        );
        fn tolkjirp_expand_old(
            setting: i32,
            text: *const u8,
            text_length: usize,
            list: *mut i32,
            list_length: usize,
            tally: *mut Tally,
            answer: *mut [u64; 3],
        );
    }

    pub fn new(setting: i32, text: &[u8], list: &mut [i32], tally: &mut Tally) -> Answer {
        call(tolkjirp_expand_new, setting, text, list, tally)
    }

    /// The old library, if it has a tally.
    pub fn old(setting: i32, text: &[u8], list: &mut [i32], tally: &mut Tally) -> Answer {
        call(tolkjirp_expand_old, setting, text, list, tally)
    }

    /// The old library, if it has none; the tally is left as it is.
    pub fn old_without_tally(setting: i32, text: &[u8], list: &mut [i32], _: &mut Tally) -> Answer {
        let mut numbers = [0; 3];
        // SAFETY: this is the function as that library has it; otherwise it is called as in `call`.
        unsafe {
            let function = transmute::<Function, FunctionWithoutTally>(tolkjirp_expand_old);
            function(
                setting,
                text.as_ptr(),
                text.len(),
                list.as_mut_ptr(),
                list.len(),
                &mut numbers,
            );
        }
        answer_of(numbers)
    }

    /// Whether the old library has a tally: it answers behind it then. One without takes the place of the tally, which is
    /// large enough, for that of its answer, and does not look at what comes behind: on Linux on x86-64 the first six
    /// arguments are handed over in registers and a seventh on the stack.
    pub fn old_has_tally() -> bool {
        const NO_ANSWER: [u64; 3] = [u64::MAX; 3];
        let mut answer = NO_ANSWER;
        // SAFETY: the empty text and the empty list have pointers that are not used, and the others are to variables.
        unsafe {
            tolkjirp_expand_old(1, [].as_ptr(), 0, [].as_mut_ptr(), 0, &mut [[0; 3]; TOOLS], &mut answer);
        }
        answer != NO_ANSWER
    }
}
