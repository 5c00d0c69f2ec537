#!/usr/bin/env python3
"""Brought the repository's own definitions and lemmas to snake case, once.

    tools/respell.py --look     prints each name with the new one, and what falls together
    tools/respell.py            rewrites the .antt and .rt files of crates/, and writes tools/respelled.txt
    tools/respell.py --pages    rewrites, by tools/respelled.txt, what the pages have in backquotes

A definition or lemma is what a file of specs/ or proofs/ declares. A capital inside a name that begins with a small letter becomes an
underscore and a small letter; a dash between plain words becomes an underscore, and one between two names of definitions stays. A lemma
that would then have the name of a definition gets _lem. Types, constructors, functions of src/ and their fields keep their names.
"""
import glob
import os
import re
import sys

HOME = os.path.dirname(os.path.dirname(os.path.abspath(__file__)))
LIST = os.path.join(HOME, "tools", "respelled.txt")
WORD = r"[^\s(){}\[\]:,;.\"`'λ|]+'*"
DECLARED = re.compile(r"(?m)^( *)(?:abbrev |unfoldable |pub |data |record |ruleset )*(" + WORD + r") :(?: |$)")
# names of the library that own lemmas speak of
LIBRARY = set("length drop take append set replicate get_or map reverse cond eqb leb ltb pos negsuc neg_ℤ nat_abs to_z of_z le_z lt_z".split())
# also the name of a law of the library
KEPT = {"add-mul"}
# lemmas that fall together with a definition
LEMMAS = {
    "block-then": "block_then_lem",
    "count_fits": "count_fits_lem",
    "cut-of": "cut_of_lem",
    "hundredth-cosine": "hundredth_cosine_lem",
    "hundredth-sine": "hundredth_sine_lem",
    "is-after": "is_after_lem",
    "is-counted": "is_counted_lem",
    "is-end": "is_end_lem",
    "line_step": "line_step_lem",
    "pass-after": "pass_after_lem",
    "pass_all": "pass_all_lem",
    "tally-of": "tally_of_lem",
}


def files(*kinds):
    found = []
    for kind in kinds:
        found += glob.glob(os.path.join(HOME, "crates/*/**/*." + kind), recursive=True)
    return sorted(f for f in found if "/out/" not in f)


def read(path):
    with open(path, encoding="utf-8") as f:
        return f.read()


def write(path, text):
    with open(path, "w", encoding="utf-8") as f:
        f.write(text)


def small(part):
    """One part of a name in snake case."""
    if not re.match(r"[a-z]", part):
        return part
    part = re.sub(r"(?<=[a-z0-9'])(?=[A-Z])", "_", part)
    return re.sub(r"[A-Z]+", lambda m: m.group(0).lower(), part).replace("negℤ", "neg_ℤ")


def declared():
    """The names that specs/ and the law files of proofs/ declare, and those of definitions among them."""
    names, definitions = set(), set()
    for f in files("antt"):
        part = os.path.relpath(f, HOME).split(os.sep)
        if part[2] == "proofs" and len(part) > 4:
            continue
        for m in DECLARED.finditer(read(f)):
            names.add(m.group(2))
            if part[2] == "specs":
                definitions.add(m.group(2))
    return names, definitions


def respelled():
    names, definitions = declared()
    words = {small(d) for d in definitions} | LIBRARY
    turned = dict(LEMMAS)
    for n in names:
        if n in turned or n in KEPT or n.startswith("-") or n.endswith("-") or not re.match(r"[a-z]", n):
            continue
        parts = [small(p) for p in n.split("-")]
        new = parts[0]
        for p in parts[1:]:
            symbol = not re.match(r"[a-z]", p)
            new += ("-" if symbol or (new in words and p in words) else "_") + p
        if new != n:
            turned[n] = new
    return turned


def turn(text, turned, rust):
    def one(m):
        word = m.group(0)
        if word not in turned or (rust and word == small(word)):
            return word
        if word in LEMMAS and text[m.start() - 1 : m.start()] == ".":
            return word.replace("-", "_")
        return turned[word]

    return re.sub(WORD, one, text)


def together(turned):
    """Prints where a new name stands already, and the old names that become one."""
    back = {}
    for old, new in turned.items():
        back.setdefault(new, []).append(old)
    for new, olds in sorted(back.items()):
        if len(olds) > 1:
            print("one name:", new, "of", *olds)
    for f in files("antt", "rt"):
        words = set(re.findall(WORD, read(f)))
        for old, new in sorted(turned.items()):
            if old in words and new in words:
                print("stands already:", os.path.relpath(f, HOME), old, "->", new)


def pages():
    turned = dict(line.split() for line in read(LIST).splitlines())
    found = [os.path.join(HOME, p) for p in ("README.md", "CONTRIBUTING.md")] + glob.glob(os.path.join(HOME, "docs/**/*.md"), recursive=True)
    for f in sorted(found):
        before = read(f)
        after = re.sub(r"`[^`\n]+`", lambda m: turn(m.group(0), turned, False), before)
        if after != before:
            write(f, after)


def main():
    if sys.argv[1:] == ["--pages"]:
        return pages()
    if sys.argv[1:] not in ([], ["--look"]):
        sys.exit(__doc__)
    turned = respelled()
    if sys.argv[1:] == ["--look"]:
        together(turned)
        for old, new in sorted(turned.items()):
            print(old, new)
        return
    if os.path.exists(LIST):
        sys.exit("the names are respelled already: tools/respelled.txt has them")
    for f in files("antt", "rt"):
        before = read(f)
        after = turn(before, turned, f.endswith(".rt"))
        if after != before:
            write(f, after)
    write(LIST, "".join(f"{old} {new}\n" for old, new in sorted(turned.items())))


if __name__ == "__main__":
    main()
