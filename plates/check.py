#!/usr/bin/env python3
"""Holds the sample plates to their drawings, and looks for places that are hit twice.

    plates/check.py            each plate of this folder: its hits and stops are those of its drawing, no place is hit
                               twice with one tool, holes lie within the plate and beside its windows, no two of them
                               meet but the hits of a slot, and tools that cut an edge lie against it, the plate's
                               from outside, a window's from inside; README.md has its tools as hitlist prints them;
                               the left handed plate is the mirror of the right handed one, and their programs differ
                               in one word
    plates/check.py LISTING..  listings that hitlist printed (- for standard input): no place twice with one tool, and the
                               lines of tools are those of the entries

It ends with 1 if something is wrong. The entries, hits and stops, are those of the expander in crates/cases/derive, so
nothing has to be built; the golden cases hold the library to the same listings.
"""
import math
import os
import re
import sys

HOME = os.path.dirname(os.path.abspath(__file__))
CASES = os.path.join(HOME, '../crates/cases')
sys.dont_write_bytecode = True
sys.path.insert(0, os.path.join(CASES, 'derive'))

# The diameters of the round tools and the sides of the rectangular ones along X and Y, in hundredths of a millimetre.
DIAMETERS = {2: 700, 3: 300, 4: 350, 5: 450, 6: 660, 7: 400, 8: 550, 9: 500, 14: 2800}
SIDES = {10: (5000, 500), 11: (500, 5000)}

# The left handed plate of each right handed one, and the words in which their programs differ.
LEFT_OF = {'rack-right': 'rack-left'}
HANDS = (b'Q1', b'Q2')


def is_stop(entry):
    """A stop, by M00 or by M01, has no place that is hit."""
    return entry[3] in ('S', 'O')


def tally_of(entries):
    """Of each tool used, in tool order: the tool, its hits, and the first and the last index where it stands."""
    indexes = {}
    for index, entry in enumerate(entries, 1):
        if not is_stop(entry):
            indexes.setdefault(entry[2], []).append(index)
    return [(tool, len(stands), stands[0], stands[-1]) for tool, stands in sorted(indexes.items())]


def counted(entries):
    """How many hits there are, by which tools, and stops if there are any."""
    stops = sum(map(is_stop, entries))
    tools = ', '.join('T%d %d' % (tool, hits) for tool, hits, first, last in tally_of(entries))
    hits = '%d hits' % (len(entries) - stops) + (' (%s)' % tools if tools else '')
    return hits + (' and %d stop%s' % (stops, 's' if stops > 1 else '') if stops else '')


def twice(entries):
    """What is said of each hit on a place that its tool has hit before."""
    seen, said = {}, []
    for index, entry in enumerate(entries, 1):
        x, y, tool, mode = entry
        first = index if is_stop(entry) else seen.setdefault((x, y, tool), index)
        if first != index:
            said.append('entries %d and %d are one place, %d %d, with tool %d' % (first, index, x, y, tool))
    return said


def holes_of(drawing):
    """The hits of round tools."""
    return [entry for entry in drawing.drawn if entry[2] in DIAMETERS]


def cuts_of(drawing):
    """The hits of rectangular tools."""
    return [entry for entry in drawing.drawn if entry[2] in SIDES]


def in_hundredths(sizes):
    return [round(100 * size) for size in sizes]


def outside(drawing):
    """Holes that pass the plate's edge or that of a window."""
    width, height = in_hundredths(drawing.size)
    windows = [in_hundredths(window) for window in drawing.windows]
    said = []
    for x, y, tool, mode in holes_of(drawing):
        radius = DIAMETERS[tool] / 2
        if min(x, y, width - x, height - y) < radius:
            said.append('the hole at %d %d passes the edge' % (x, y))
        for left, low, across, up in windows:
            if math.hypot(max(left - x, 0, x - left - across), max(low - y, 0, y - low - up)) < radius:
                said.append('the hole at %d %d meets a window' % (x, y))
    return said


def off_the_edge(drawing):
    """Cuts whose tool lies neither against the plate from outside nor against a window from inside: into the plate, or away
    from the edge."""
    width, height = in_hundredths(drawing.size)
    windows = [in_hundredths(window) for window in drawing.windows]
    said = []
    for x, y, tool, mode in cuts_of(drawing):
        wide, high = SIDES[tool][0] // 2, SIDES[tool][1] // 2
        gaps = [max(-x - wide, x - wide - width, -y - high, y - high - height)]
        gaps += [min(x - wide - left, left + across - x - wide, y - high - low, low + up - y - high)
                 for left, low, across, up in windows]
        if 0 not in gaps:
            said.append('the cut at %d %d is not against the edge' % (x, y))
    return said


def least_metal(drawing):
    """The least metal between two holes, in hundredths; the hits of a slot are one hole."""
    holes = holes_of(drawing)
    return min(math.dist(a[:2], b[:2]) - (DIAMETERS[a[2]] + DIAMETERS[b[2]]) / 2
               for i, a in enumerate(holes) for b in holes[:i] if 'P' in (a[3], b[3]))


def mirrored(drawing):
    """The entries of a drawing with right and left exchanged: X measured from the plate's right edge."""
    width = in_hundredths(drawing.size)[0]
    return [entry if is_stop(entry) else (width - entry[0],) + entry[1:] for entry in drawing.drawn]


def not_a_pair(right, left, drawings):
    """What is wrong with a right handed plate and a left handed one."""
    said = []
    if drawings[left].size != drawings[right].size or drawings[left].drawn != mirrored(drawings[right]):
        said.append('%s is not drawn as the mirror of %s' % (left, right))
    texts = [open(os.path.join(HOME, name + '.nc'), 'rb').read() for name in (right, left)]
    if texts[0].count(HANDS[0]) != 1 or texts[0].replace(*HANDS) != texts[1]:
        said.append('%s and %s differ in more than one word' % (right, left))
    return said


def tools_shown(name):
    """The lines of tools that README.md has for a plate."""
    with open(os.path.join(HOME, 'README.md')) as file:
        section = file.read().partition('## %s.nc\n' % name)[2].partition('\n## ')[0]
    return [tuple(map(int, line.split())) for line in re.findall(r'^    ((?:\d+ ){3}\d+)$', section, re.M)]


def check_plate(name, drawing):
    """What is wrong with a plate."""
    from expander import expand
    with open(os.path.join(HOME, name + '.nc'), 'rb') as file:
        text = file.read()
    number, rest = expand(text, 16384)
    if number:
        return ['refusal %d in line %d' % (number, rest)]
    said = twice(rest) + outside(drawing) + off_the_edge(drawing)
    if rest != drawing.entries():
        said.append('the hits and stops are not those of the drawing')
    if least_metal(drawing) <= 0:
        said.append('two holes meet')
    if tools_shown(name) != tally_of(drawing.drawn):
        said.append('README.md has other lines of tools')
    golden = os.path.join(CASES, 'data', 'samples-%s.nc' % name)
    if os.path.exists(golden) and open(golden, 'rb').read() != text:
        said.append('crates/cases has another text: run derive/check.py there')
    return said


def check_plates():
    from cases_plates import DRAWINGS
    files = {file[:-3] for file in os.listdir(HOME) if file.endswith('.nc')}
    wrong = ['%s has no drawing' % name for name in sorted(files - set(DRAWINGS))]
    for name, drawing in DRAWINGS.items():
        said = check_plate(name, drawing)
        wrong += ['%s: %s' % (name, what) for what in said]
        if not said:
            metal = least_metal(drawing) / 100
            print('%s: %s, as drawn, no place twice, %.2f mm between holes' % (name, counted(drawing.drawn), metal))
    for right, left in LEFT_OF.items():
        said = not_a_pair(right, left, DRAWINGS)
        wrong += said
        if not said:
            print('%s: the mirror of %s' % (left, right))
    return wrong


def entries_and_tools(lines):
    """The entries of a listing and its lines of tools, or None where it is no listing or its entries are cut short."""
    try:
        head, count = lines[0].split()
        behind = 1 + int(count)
        entries = [(int(x), int(y), int(tool), mode) for index, x, y, tool, mode in (line.split() for line in lines[1:behind])]
        tools = [(int(tool), int(hits), int(first), int(last))
                 for tool, hits, first, last in (line.split() for line in lines[behind:])]
    except (IndexError, ValueError):
        return None
    return (entries, tools) if head == 'ENTRIES' and count == str(len(entries)) else None


def miscounted(entries, tools):
    """What is said of lines of tools that are not those of the entries."""
    right = tally_of(entries)
    said = ['the line %d %d %d %d of a tool is not that of the entries' % line for line in tools if line not in right]
    said += ['the line %d %d %d %d of a tool is missing' % line for line in right if line not in tools]
    return said or ([] if tools == right else ['the lines of tools are not in tool order, once each'])


def check_listings(names):
    wrong = []
    for name in names:
        lines = (sys.stdin if name == '-' else open(name)).read().splitlines()
        listing = entries_and_tools(lines)
        said = ['not a whole listing'] if listing is None else twice(listing[0]) + miscounted(*listing)
        wrong += ['%s: %s' % (name, what) for what in said]
        if not said:
            print('%s: %s, no place twice' % (name, counted(listing[0])))
    return wrong


if __name__ == '__main__':
    wrong = check_listings(sys.argv[1:]) if sys.argv[1:] else check_plates()
    print('\n'.join(wrong), end='\n' if wrong else '')
    sys.exit(1 if wrong else 0)
