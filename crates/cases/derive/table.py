"""What the case table is written in: texts, and the answers that were worked out by hand."""

CASES = []
NAMES = set()

A222 = 'G92X600.Y600.'
A224 = 'G92X1000.Y600.'

# the entries of M00 and of M01
STOP = (0, 0, 0, 'S')
OPTIONAL = (0, 0, 0, 'O')


class R:
    """A refusal: number and line."""

    def __init__(self, number, line):
        self.number, self.line = number, line


class E:
    """Entries: how many, and some of them by index from 1 (or -1 for the last), each X, Y, tool, mode.

    tools, where they were worked out as well: for every tool that has hits, how many, and the first and the last index where it
    stands."""

    def __init__(self, count, some=None, tools=None):
        self.count = count
        self.some = some or {}
        self.tools = tools


def all_of(*entries, tools=None):
    """Every entry."""
    return E(len(entries), dict(enumerate(entries, 1)), tools)


def p(body, head=A222):
    """A program: G92 in line 1, the body from line 2 (lines parted by a slash), G50."""
    return head + '/' + (body + '/' if body else '') + 'G50'


def case(name, text, answer, reason, length=16384, setting=1):
    """text: bytes as they are, or lines parted by a slash, each ending in a line feed. setting: the number that the caller states."""
    assert name not in NAMES, name
    assert name == name.lower() and ' ' not in name, name
    NAMES.add(name)
    if isinstance(text, str):
        text = (text.replace('/', '\n') + '\n').encode('ascii')
    CASES.append((name, setting, length, text, answer, reason))


def spent(n, extra=()):
    """Lines after which exactly n blocks have been carried out: G92, four stored bodies and calls of them.

    A W61 costs 11 blocks (itself and ten M08), W62 111, W63 1,111, W64 11,111. extra: lines of further U blocks that
    are stored first, each U line counting one."""
    lines = [A222]
    lines += ['U61'] + ['M08'] * 10 + ['V61']
    lines += ['U62'] + ['W61'] * 10 + ['V62']
    lines += ['U63'] + ['W62'] * 10 + ['V63']
    lines += ['U64'] + ['W63'] * 10 + ['V64']
    lines += list(extra)
    left = n - 5 - sum(1 for l in extra if l[0] == 'U') - sum(1 for l in extra if l[:3] == 'G98')
    for cost, call in ((11111, 'W64'), (1111, 'W63'), (111, 'W62'), (11, 'W61'), (1, 'M08')):
        lines += [call] * (left // cost)
        left %= cost
    return lines
