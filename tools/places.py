#!/usr/bin/env python3
"""Counts the places in crates/*/src where an older form of the language stands, point by point (docs/DESIGN-PASS.md).

    python3 tools/places.py            the work tree
    python3 tools/places.py COMMIT     a commit
    python3 tools/places.py -l ..      each place too, as file:line
"""
import re
import subprocess
import sys

PATTERNS = [
    # point, what is counted, the pattern (over a whole file)
    ("1a", "enums of two variants, one of them without a value or a refusal: Option's or Result's shape",
     r"enum \w+ \{\n(?:    //[^\n]*\n)*    (?:\w+|\w+\([^\n]*\)),\n(?:    //[^\n]*\n)*    (?:\w+|\w+\([^\n]*\)),\n\}"),
    ("1b", "a status, or a number that is a refusal or 0, in a field beside what is left",
     r"pub (?:status: Status|number: u8),"),
    ("1c", "a flag in a field beside the value that it tells of", r"pub (?:written|good|blank|coded|read|formed): bool,"),
    ("1d", "a refusal by its number", r"\brefusal::[A-Z][A-Z_]+|: u8 = \d+;\n\n(?=pub const [A-Z_]+: u8|// Of G66)"),
    ("1e", "0, or a number that is none, for what is not there", r"(?:counted from 1, or 0|or 0 where there is none|answers 0|NO_NUMBER)"),
    ("2a", "functions or tables that differ in a number, a type or a constant",
     r"fn (?:one|two|three|one_to_hundredths|two_to_hundredths|five_to_hundredths|expand_tiny|expand_short|expand_long|degree_sines|hundredth_sines|hundredth_cosines|punch_line|punch_arc|punch_circle|punch_grid|punch_shear|times_in_table|times_in_list|first_missing|first_too_many|is_missing|is_too_many|is_in_row|is_in_entry)\("),
    ("2b", "functions and types that two crates have alike", r"(?:fn (?:byte_at|is_digit|is_sign|hundredths_of|read_digits|print_through|print_listing|is_given|read_full|read_text|times)\(|struct Digits)"),
    ("3", "loops that count an index by hand", r"\bwhile [^\n]*\{\n(?:(?!\n    \}|\n        \}\n    \}).)*?\b\w+ (?:\+|-)= \d", ),
    ("4a", "casts with `as`", r"\bas (?:u8|u16|u32|u64|usize|i32|i64)\b"),
    ("4b", "arms `=> true` and `=> false` that a macro or a derive says", r"=> (?:true|false),"),
    ("4c", "comparisons and conversions by a function of the crate signed", r"\bsigned::(?:equal|is_negative|is_positive|between|size_at_most|size|widen|of_count)\("),
    ("5a", "the two lists of a block's words, side by side", r"forms: &\[u8; 26\],?\s+numbers: &(?:mut )?\[i32; 26\]"),
    ("5b", "the three tables of sines, side by side", r"degrees: &\[u32; 91\],\s+sines: &\[u32; 100\],\s+cosines: &\[u32; 100\]"),
    ("5c", "a place of the text and its line, side by side", r"\b(?:from|at|end|start): usize,\s+(?:first|line): u64"),
    ("5d", "list and tally, side by side", r"list: &mut \[i32\],\s+tally: &mut \[u64; FIGURES\]"),
    ("5e", "that a letter is one of A to Z, in a clause", r"65 ≤ \w+\) × \(\w+ ≤ 90"),
    ("6", "arrays side by side, and a store that is copied", r"(?:\[u16; SLOTS\]|macros: Macros,)"),
    ("7", "steps that are chosen by a match and are one loop", r"=> punch_(?:line|arc|circle|grid|shear)\(|^            punch_shear\(list"),
]


def files(commit):
    if commit is None:
        names = subprocess.run(["git", "ls-files", "crates"], capture_output=True, text=True, check=True).stdout.split()
    else:
        names = subprocess.run(["git", "ls-tree", "-r", "--name-only", commit, "crates"], capture_output=True, text=True, check=True).stdout.split()
    for name in names:
        if "/src/" in name and name.endswith(".rt"):
            if commit is None:
                yield name, open(name, encoding="utf-8").read()
            else:
                yield name, subprocess.run(["git", "show", f"{commit}:{name}"], capture_output=True, text=True, check=True).stdout


def main():
    arguments = [a for a in sys.argv[1:] if a != "-l"]
    listed = "-l" in sys.argv
    texts = list(files(arguments[0] if arguments else None))
    for point, what, pattern in PATTERNS:
        found = []
        for name, text in texts:
            for match in re.finditer(pattern, text, re.S if point == "3" else re.M):
                found.append(f"{name}:{text.count(chr(10), 0, match.start()) + 1}")
        print(f"{point:3} {len(found):4}  {what}")
        if listed:
            for place in found:
                print(f"          {place}")


if __name__ == "__main__":
    main()
