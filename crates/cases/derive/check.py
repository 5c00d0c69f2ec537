"""Checks the case table against the expander; with a folder, writes data/, args, stdout and cases.md there.

    check.py         compare every expectation that was worked out by hand with the expander
    check.py FOLDER  the same, then write the golden files
"""
import os
import sys
from table import CASES, R, E, STOP, OPTIONAL
import cases_text, cases_press, cases_shear, cases_stops, cases_tally, cases_mirrors, cases_limits, cases_manual, cases_page, cases_plates, cases_settings
from expander import expand, printed, tally


def in_tool_order(tools):
    """The figures of tools worked out by hand, as the expander has them."""
    return [(tool,) + tools[tool] for tool in sorted(tools)]


bad = 0
answers = []
for name, setting, length, text, hand, reason in CASES:
    number, rest = expand(text, length, setting)
    answers.append((number, rest))
    if isinstance(hand, R):
        ok = (number, rest) == (hand.number, hand.line)
    else:
        ok = number == 0 and len(rest) == hand.count and all(rest[k - 1 if k > 0 else k] == e for k, e in hand.some.items())
        ok = ok and (hand.tools is None or tally(rest) == in_tool_order(hand.tools))
    if not ok:
        bad += 1
        want = 'R%d/%d' % (hand.number, hand.line) if isinstance(hand, R) else 'E%d' % hand.count
        print('DIFFERS', name, 'hand', want, 'expander', printed((number, rest))[:70].replace('\n', ' '))
        if isinstance(hand, E) and number == 0:
            for k, e in hand.some.items():
                if abs(k) <= len(rest) and rest[k - 1 if k > 0 else k] != e:
                    print('    entry', k, 'hand', e, 'expander', rest[k - 1 if k > 0 else k])
            if hand.tools is not None and tally(rest) != in_tool_order(hand.tools):
                print('    tools: hand', in_tool_order(hand.tools), 'expander', tally(rest))
    if number == 0 and sum(hits for tool, hits, first, last in tally(rest)) != len(rest) - rest.count(STOP) - rest.count(OPTIONAL):
        bad += 1
        print('DIFFERS', name, 'the hits of all tools do not add up to the entries that are no stops')
print(len(CASES), 'cases,', bad, 'differ')

GROUPS = ['plates', 'page', 'tempting', 'text', 'words', 'letters', 'codes', 'two', 'ranges', 'kinds', 'settings', 'moves', 'origin', 'patterns', 'memory', 'sine', 'shear', 'stops', 'tally', 'macros',
          'layouts', 'mirrors', 'lists', 'characters', 'calls', 'blocks', 'reach', 'refusal', 'order', 'decision', 'manual', 'samples']
HEADS = {
    'plates': 'The plates of document 01', 'page': 'The examples of docs/PUNCH-CODE.md', 'tempting': 'Four readings that tempt', 'text': 'Bytes, lines, spaces', 'words': 'The form of a word (4)',
    'letters': 'The letters of each block (5)', 'codes': 'Codes (5)', 'two': 'Two G words (5)', 'ranges': 'Range ends and one beyond (6, 16)',
    'kinds': 'Signs and points on whole numbers (6)', 'settings': 'The decimal point setting (6, and what a number means)', 'moves': 'Moving and punching', 'origin': 'The waiting origin', 'patterns': 'Patterns',
    'memory': 'Pattern memory', 'sine': 'Sines', 'shear': 'Shear proof, G66 (18)', 'stops': 'Stops, M00 and M01', 'tally': 'The tally of hits by tool', 'macros': 'Macros', 'layouts': 'Layouts', 'mirrors': 'Left and right handed racks, G73', 'lists': 'Lists (17)', 'characters': 'Characters of bodies (12)',
    'calls': 'Open calls (11)', 'blocks': 'Blocks carried out (3)', 'reach': 'Reach (15)', 'refusal': 'Each refusal at the top, in a body, in a first run, in a copy',
    'order': 'Two faults in one block', 'decision': 'Decisions', 'manual': 'Examples of the manuals',
    'samples': 'The sample plates',
}


# arguments that are no setting: no number, past both ends of 32 bits, a digit's neighbours, another sign
NO_SETTINGS = ['x', '-', '2147483648', '-2147483649', '99999999999999999999', '1x', '-1x', '1:', '1/', '--1', '+1', '1-', '0.']

# arguments that are no length of a list: no number, too long for the longest list, a digit's neighbours
NO_LENGTHS = ['x', '16385', '99999', '12x', '1:', '1/', '-4']

# what the golden program prints of a tally with figures that its listing does not show; no answer has it
UNCLEARED = 'TALLY NOT CLEARED'

golden = list(zip(CASES, answers))
golden.sort(key=lambda ca: (GROUPS.index(ca[0][0].split('-')[0]), ca[0][0] if ca[0][0].split('-')[0] in ('order', 'refusal') else ''))

HOME = os.path.dirname(os.path.abspath(__file__))
PAIRS = open(os.path.join(HOME, 'pairs.md')).read()
DECISIONS = open(os.path.join(HOME, 'decisions.md')).read()


def called(setting, length):
    """What of the call is not as usual."""
    said = (['setting %d' % setting] if setting != 1 else []) + (['list of %d' % length] if length != 16384 else [])
    return ', '.join(said) + ': ' if said else ''


def told(answer):
    number, rest = answer
    if number:
        return '%d in line %d' % (number, rest)
    if not rest:
        return 'no entry'
    if len(rest) <= 3:
        return ', '.join('(%d %d %d %s)' % e for e in rest)
    return '%d entries, (%d %d %d %s) to (%d %d %d %s)' % ((len(rest),) + rest[0] + rest[-1])


def told_of_tools(hand):
    """The lines of the tools, where they were worked out by hand."""
    if isinstance(hand, R) or hand.tools is None:
        return ''
    lines = ['(%d %d %d %d)' % figures for figures in in_tool_order(hand.tools)]
    if len(lines) > 4:
        return '; %d tools, %s to %s' % (len(lines), lines[0], lines[-1])
    return '; ' + (('tools ' if len(lines) > 1 else 'tool ') + ', '.join(lines) if lines else 'no tool')


def shown(text):
    """A short text on one line: a slash, which no text has, for a line feed between two lines."""
    if len(text) > 120 or not text or any(b > 126 or (b < 32 and b != 10) or b in b'/|`' for b in text):
        return 'in the file' if text else 'no bytes'
    s = text.decode()
    s = s[:-1] if s.endswith('\n') else s
    return '`%s`' % s.replace('\n', '/')


def write(folder):
    data = os.path.join(folder, 'data')
    os.makedirs(data, exist_ok=True)
    for f in os.listdir(data):
        os.remove(os.path.join(data, f))
    words, out = [], []
    first = golden[0][0][0] + '.nc'
    for setting in NO_SETTINGS:
        words += [setting, '16384', first]
        out.append('%s NO SETTING\n' % first)
    for length in NO_LENGTHS:
        words += ['1', length, first]
        out.append('%s NO LENGTH\n' % first)
    for (name, setting, length, text, hand, reason), answer in golden:
        file = name + '.nc'
        with open(os.path.join(data, file), 'wb') as f:
            f.write(text)
        words += [str(setting), str(length), file]
        out.append('%s %d %d\n%s' % (file, setting, length, printed(answer)))
    assert not any(UNCLEARED in o for o in out)
    with open(os.path.join(folder, 'args'), 'w') as f:
        f.write('\n'.join(words) + '\n')
    with open(os.path.join(folder, 'stdout'), 'w') as f:
        f.write(''.join(out))
    with open(os.path.join(folder, 'cases.md'), 'w') as f:
        f.write(intro())
        group = None
        for (name, setting, length, text, hand, reason), answer in golden:
            g = name.split('-')[0]
            if g != group:
                group = g
                f.write('\n## %s\n\n' % HEADS[g])
                if g == 'shear':
                    f.write('In the last column w is the size of P, L is I + 2 x D, and the travel is L less w. Along and across are from the start, in hundredths.\n\n')
                if g == 'tally':
                    f.write('Behind the entries stands the line of each tool that has hits: tool, hits, first index, last index.\n\n')
                if g == 'mirrors':
                    f.write('A point as written is one of the macro before it is mirrored.\n\n')
                if g == 'order':
                    f.write(PAIRS)
                if g == 'decision':
                    f.write(DECISIONS)
                f.write('| case | program | answer | why |\n|---|---|---|---|\n')
            f.write('| %s | %s | %s%s%s | %s |\n' % (name, shown(text), called(setting, length), told(answer), told_of_tools(hand), reason))
    print('written: %d files, %d bytes of data, %d of stdout' % (len(golden), sum(len(c[3]) for c, a in golden), sum(len(o) for o in out)))


def intro():
    return '''# The golden cases

A case is a program text in `data/` with a decimal point setting and a list length. `args` has, for each case, the
setting, the length and the file's name; `stdout` has the name, the setting, the length and the answer as hitlist prints
it. First come arguments that are no setting or no length. A name says what its case tests, so that the first line that
differs explains itself. The answers were worked out from the rules and not taken from the program.

The program lends a tally full of other numbers. A listing shows the figures of each tool that has hits; were a figure of
another tool not zero, or after a refusal any figure, a line `TALLY NOT CLEARED` would follow, which `stdout` does not have.

The table of cases is in `derive/`, each with what was worked out by hand: a refusal's number and line, or the count of
entries and some of them, and in some the figures of every tool. Beside it is an expander of its own, written from the rules
alone, which gives all entries and takes the tally from them. `derive/check.py` compares the two, and `derive/check.py .`
writes all files anew.

In the tables a slash stands for a line feed; a long text, or one with other bytes, is in its file. Lines count from 1,
blank ones too. The setting is 1 and the list has 16,384 numbers, so places for 4,096 entries, unless something else stands
before the answer. An answer is a refusal's number and line, or the entries: X, Y, tool, mode. A hit has mode P or N, a stop
S, an optional stop O. In the last column a number before a colon is that refusal's; 000, 001 and 002 are the manuals.
Document 01 is the specification, to which document 02 adds the decimal point setting, G66, stops, the tally and G73; the
rules are in docs/PUNCH-CODE.md, where the cases named page-.. are worked out step by step.
'''


if bad:
    sys.exit(1)
if len(sys.argv) > 1:
    write(sys.argv[1])
