"""An expander of ARIES punch code, written from document 01, and from document 02 for the decimal point setting, G66, stops,
the tally of hits by tool and G73.

expand(text, length, setting) answers (0, entries) or (number, line). An entry is a hit or a stop: X, Y, tool, mode.
tally(entries) is taken from the finished list. Whole numbers throughout; the sine tables come from fractions. Slow and
plain on purpose: it is read beside the documents.
"""
import re
from fractions import Fraction

# ---------------------------------------------------------------- sine

PI = Fraction(314159265358979, 10**14)
UNIT = 10**9


def nearest(value):
    """The whole number nearest to a fraction, halves away from zero."""
    if value >= 0:
        return int((value + Fraction(1, 2)) // 1)
    return -int((-value + Fraction(1, 2)) // 1)


def series(x, first, last):
    """x^first/first! - x^(first+2)/(first+2)! + ... through the power last."""
    total, term = Fraction(0), Fraction(1)
    power = 0
    while power <= last:
        if power >= first and (power - first) % 2 == 0:
            total += term if (power - first) // 2 % 2 == 0 else -term
        power += 1
        term = term * x / power
    return total


DEGREE = [nearest(UNIT * series(d * PI / 180, 1, 17)) for d in range(91)]
SMALL_SINE = [nearest(UNIT * series(h * PI / 18000, 1, 17)) for h in range(100)]
SMALL_COSINE = [nearest(UNIT * series(h * PI / 18000, 0, 16)) for h in range(100)]


def divided(value, by):
    """value / by to the nearest whole number, halves away from zero."""
    size = (2 * abs(value) + by) // (2 * by)
    return size if value >= 0 else -size


def quarter(a):
    d, h = divmod(a, 100)
    return divided(DEGREE[d] * SMALL_COSINE[h] + DEGREE[90 - d] * SMALL_SINE[h], UNIT)


def sine(a):
    a %= 36000
    if a <= 9000:
        return quarter(a)
    if a <= 18000:
        return quarter(18000 - a)
    return -sine(a - 18000)


def cosine(a):
    return sine(9000 - a)


def polar(distance, angle):
    return divided(distance * cosine(angle), UNIT), divided(distance * sine(angle), UNIT)


# ---------------------------------------------------------------- words and blocks


class Refused(Exception):
    def __init__(self, number, line):
        self.number, self.line = number, line


ALLOWED = set(b'ABCDEFGHIJKLMNOPQRSTUVWXYZ0123456789 \n+-.')
FORM = re.compile(r'([A-Z])([+-]?)(?:(\d{1,6})|(\d{1,4})\.(\d{0,2}))\Z')


class Word:
    def __init__(self, letter, sign, whole, before, after):
        self.letter = letter
        self.sign = sign
        self.point = whole is None
        if self.point:
            self.size = int(before) * 100 + int((after + '00')[:2])
        else:
            self.size = int(whole)
        self.value = -self.size if sign == '-' else self.size
        self.plain = not sign and not self.point


def words_of(line, number):
    """Rule 4: the words of a block, spaces gone."""
    pieces = re.findall(r'[A-Z][^A-Z]*|^[^A-Z]+', line)
    words = []
    for piece in pieces:
        m = FORM.match(piece)
        if not m:
            raise Refused(4, number)
        words.append(Word(*m.groups()))
    return words


PATTERNS = {26: 'IJK', 28: 'IJK', 29: 'IJPK', 36: 'IPJK', 37: 'IPJK', 66: 'IJP'}
MAY_BE_ABSENT = {66: 'QD'}
CODES = {0, 1, 8, 9, 12, 13}
STOPS = {0: (0, 0, 0, 'S'), 1: (0, 0, 0, 'O')}     # the entries that M00 and M01 make
FAR = 999999

# the letters that are lengths or angles, by code; None is a position
LENGTHS = {26: 'IJ', 28: 'IJ', 29: 'IJP', 36: 'IJ', 37: 'IJ', 66: 'IJPQD', 70: 'XY', 72: 'XY', 73: 'XY', 92: 'XY', 93: 'XY', 98: 'XYIJD', None: 'XY'}


class Block:
    pass


def block_of(words, number, setting, given):
    """Rules 5 and 6: which block it is, and whether its numbers fit. Its lengths and angles are in hundredths then.

    given: the letters that a G73 may leave out, since one has given them before."""

    def unlisted():
        raise Refused(5, number)

    def unfit():
        raise Refused(6, number)

    b = Block()
    b.line = number
    letters = [w.letter for w in words]
    kind = None
    rest = words
    b.n = None
    if letters[0] in 'UV':
        if len(words) != 1:
            unlisted()
        kind = letters[0]
    else:
        if letters[0] == 'N':
            b.n = words[0]
            rest = words[1:]
    letters = [w.letter for w in rest]
    if not rest or 'N' in letters:
        unlisted()
    if any(letters.count(l) > 1 for l in letters if l != 'G'):
        unlisted()
    for w in rest:
        if w.letter in 'GM' and not w.plain:
            unlisted()
    b.words = {w.letter: w for w in rest if w.letter != 'G'}
    have = set(b.words)
    codes = [w.value for w in rest if w.letter == 'G']
    b.reading = None
    b.code = None
    if kind is None:
        if len(codes) > 2:
            unlisted()
        if len(codes) == 2:
            readings = [c for c in codes if c in (90, 91)]
            others = [c for c in codes if c not in (90, 91)]
            if len(readings) != 1:
                unlisted()
            b.reading, b.code = readings[0], others[0]
            if not (b.code in (70, 72) or b.code in PATTERNS or (b.code == 93 and b.reading == 90)):
                unlisted()
        elif len(codes) == 1:
            if codes[0] in (90, 91):
                b.reading = codes[0]
            else:
                b.code = codes[0]
        c = b.code
        if c is None:
            if b.reading is None and have in ({'M'}, {'B'}, {'W'}):
                kind = have.copy().pop()
                if kind == 'M' and b.words['M'].value not in CODES:
                    unlisted()
            elif have <= {'X', 'Y', 'T'} and (have & {'X', 'Y'} or (b.reading is not None and not have)):
                kind = 'position'
            else:
                unlisted()
        elif c == 50:
            if have:
                unlisted()
        elif c == 92:
            if have != {'X', 'Y'}:
                unlisted()
        elif c == 98:
            if not ({'X', 'Y'} <= have <= set('XYIJPKD')):
                unlisted()
        elif c == 70:
            if not (have & {'X', 'Y'} and have <= {'X', 'Y', 'T'}):
                unlisted()
        elif c in (72, 93):
            if not (have and have <= {'X', 'Y'}):
                unlisted()
        elif c == 73:
            if not ({'W', 'Q'} <= have <= set('XYWQ') <= have | given):
                unlisted()
        elif c in (75, 76):
            if have != {'W', 'Q'}:
                unlisted()
        elif c in PATTERNS:
            listed = set(PATTERNS[c])
            if not (listed <= have <= listed | set(MAY_BE_ABSENT.get(c, '')) | {'T', 'A'}):
                unlisted()
            if 'A' in have:
                order = [(w.letter, w.value) for w in rest]
                if letters.index('A') > order.index(('G', c)):
                    unlisted()
        else:
            unlisted()
        if kind is None:
            kind = 'G'
    b.kind = kind

    # 6; at setting 0 a length or an angle without a point counts whole millimetres or degrees
    if setting == 0:
        for w in (b.words[l] for l in LENGTHS.get(b.code, '') if l in b.words):
            if not w.point:
                w.size, w.value = 100 * w.size, 100 * w.value
            if w.size > FAR:
                unfit()

    def whole(letter, low, high):
        w = b.words.get(letter)
        if w is not None and not (w.plain and low <= w.value <= high):
            unfit()

    if b.n is not None and not (b.n.plain and b.n.value <= 9999):
        unfit()
    whole('T', 1, 99)
    for letter in 'UVW':
        whole(letter, 1, 89)
    for letter in 'AB':
        whole(letter, 1, 5)
    c = b.code
    if c in (73, 75, 76):
        whole('Q', 1, 4)
    if c in (28, 29):
        whole('K', 1, 999)
    if c in (36, 37):
        whole('P', 0, 999)
        whole('K', 0, 999)
    if c == 26:
        k = b.words['K']
        if k.point or not 1 <= k.size <= 999:
            unfit()
    if c in (26, 29) and b.words['I'].value <= 0:
        unfit()
    if c == 98:
        whole('P', 0, 99)
        whole('K', 0, 99)
        if any(b.words[l].value < 0 for l in 'XYIJD' if l in b.words):
            unfit()
    return b


# ---------------------------------------------------------------- the press

MACHINES = {(60000, 60000): 61020, (100000, 60000): 101020}


class State:
    """All that one block leaves to the next; list and block count apart."""

    def __init__(self):
        self.at = (0, 0)
        self.origin = (0, 0)
        self.waiting = None
        self.tool = None
        self.nibbling = False
        self.incremental = False
        self.memory = {}
        self.given = {}     # X and Y as the last G73 that had the letter gave it

    def copy(self):
        s = State()
        s.__dict__.update(self.__dict__)
        s.memory = dict(self.memory)
        s.given = dict(self.given)
        return s


class Expander:
    def __init__(self, text, length, setting):
        self.text = text
        self.places = length // 4
        self.setting = setting

    def run(self):
        try:
            entries = self.whole_text()
        except Refused as r:
            return r.number, r.line
        return 0, entries

    def whole_text(self):
        text = self.text
        if not 1 <= len(text) <= 60000:
            raise Refused(1, 0)
        for i, byte in enumerate(text):
            if byte not in ALLOWED:
                raise Refused(2, text[:i].count(b'\n') + 1)
        raw = text.decode('ascii').split('\n')
        if raw[-1] == '':
            raw.pop()
        self.lines = [l.replace(' ', '') for l in raw]
        self.parsed = {}
        self.entries = []
        self.blocks = 0
        self.state = State()
        self.machine = None
        self.ended = False
        self.reference = (0, 0)
        self.offset = (0, 0)
        self.layout = None
        self.bodies = {}
        self.mirrors = []   # those in force, the outermost first
        i = 0
        while i < len(self.lines):
            if self.lines[i] == '':
                i += 1
            else:
                i = self.top_block(i)
        if not self.ended:
            raise Refused(7, len(self.lines))
        return self.entries

    def judged(self, i):
        """3 to 6 of the block in line i (from 0)."""
        line = self.lines[i]
        number = i + 1
        if line[0] != 'V':
            if self.blocks == 100000:
                raise Refused(3, number)
            self.blocks += 1
        given = frozenset(self.state.given)
        if (i, given) not in self.parsed:
            self.parsed[i, given] = block_of(words_of(line, number), number, self.setting, given)
        return self.parsed[i, given]

    def top_block(self, i):
        b = self.judged(i)
        number = i + 1
        first = self.machine is None
        if first != (b.kind == 'G' and b.code == 92) or self.ended:
            raise Refused(7, number)
        if b.kind == 'V':
            raise Refused(9, number)
        if b.kind == 'U':
            return self.store(b, i)
        if b.kind == 'G' and b.code == 92:
            pair = (b.words['X'].value, b.words['Y'].value)
            if pair not in MACHINES:
                raise Refused(8, number)
            self.machine = MACHINES[pair]
            self.state.at = pair
        elif b.kind == 'G' and b.code == 50:
            self.ended = True
        elif b.kind == 'G' and b.code == 93:
            x, y = self.offset
            self.offset = (b.words['X'].value if 'X' in b.words else x, b.words['Y'].value if 'Y' in b.words else y)
            if b.reading == 90:
                self.state.incremental = False
            self.set_origin(number)
        elif b.kind == 'G' and b.code == 98:
            v = {l: b.words[l].value if l in b.words else 0 for l in 'XYIJPKD'}
            self.reference = (v['X'], v['Y'])
            self.layout = (v['I'] + v['D'], v['J'] + v['D'], v['P'], v['K'])
            self.set_origin(number)
        elif b.kind == 'G' and b.code in (75, 76):
            self.layout_run(b)
        else:
            self.ordinary(b, 0)
        return i + 1

    def set_origin(self, number):
        o = (self.reference[0] + self.offset[0], self.reference[1] + self.offset[1])
        self.near(o, number)
        self.state.origin = o

    def near(self, p, number):
        if abs(p[0]) > FAR or abs(p[1]) > FAR:
            raise Refused(15, number)

    # macros

    def store(self, b, i):
        number = i + 1
        n = b.words['U'].value
        j = i + 1
        while j < len(self.lines) and not self.lines[j][:1] in ('U', 'V'):
            j += 1
        if j == len(self.lines):
            raise Refused(9, number)
        m = FORM.match(self.lines[j])
        own = False
        if m and m.group(1) == 'V':
            w = Word(*m.groups())
            own = w.plain and w.value == n
        if not own:
            raise Refused(9, number)
        body = (i + 1, j)
        size = sum(len(self.lines[k]) + 1 for k in range(*body))
        total = size + sum(s for k, (_, s) in self.bodies.items() if k != n)
        if total > 3100:
            raise Refused(12, number)
        if n <= 59 and self.layout is None:
            self.run_body(body, 1)
        self.bodies[n] = (body, size)
        return j + 1

    def run_body(self, body, calls):
        for k in range(*body):
            if self.lines[k] == '':
                continue
            b = self.judged(k)
            if b.kind == 'G' and b.code in (50, 75, 76, 92, 93, 98):
                raise Refused(7, k + 1)
            self.ordinary(b, calls)

    def find(self, n, number):
        if n not in self.bodies:
            raise Refused(10, number)
        return self.bodies[n][0]

    def layout_run(self, b):
        number = b.line
        body = self.find(b.words['W'].value, number)
        if self.layout is None:
            raise Refused(13, number)
        pitch_x, pitch_y, p, k = self.layout
        q = b.words['Q'].value
        found = self.state
        origin = found.origin
        first_x = origin[0] + (p * pitch_x if q in (2, 4) else 0)
        first_y = origin[1] + (k * pitch_y if q in (3, 4) else 0)
        way_x = -1 if q in (2, 4) else 1
        way_y = -1 if q in (3, 4) else 1
        for m in range((p + 1) * (k + 1)):
            if b.code == 75:
                r, c = divmod(m, p + 1)
                if r % 2:
                    c = p - c
            else:
                c, r = divmod(m, k + 1)
                if c % 2:
                    r = k - r
            place = (first_x + way_x * c * pitch_x, first_y + way_y * r * pitch_y)
            self.near(place, number)
            self.state = found.copy()
            self.state.origin = self.state.at = place
            self.state.waiting = None
            self.run_body(body, 1)
        self.state.origin = origin

    def symmetry(self, b, calls):
        """G73: the macro from the origin, its hits and the ends of its G70 moves mirrored; then the current point is the origin."""
        body = self.find(b.words['W'].value, b.line)
        if calls == 4:
            raise Refused(11, b.line)
        self.state.given.update((l, b.words[l].value) for l in 'XY' if l in b.words)
        self.mirrors.append((b.words['Q'].value, self.state.given['X'], self.state.given['Y']))
        self.to_origin()
        self.run_body(body, calls + 1)
        self.to_origin()
        self.mirrors.pop()

    def to_origin(self):
        self.state.at = self.state.origin
        self.state.waiting = None

    def mirrored(self, p):
        """Where a point of a macro comes to lie: measured from the origin, by the innermost mirror first."""
        origin = self.state.origin
        x, y = p[0] - origin[0], p[1] - origin[1]
        for q, a, b in reversed(self.mirrors):
            x = a - x if q in (2, 4) else x
            y = b - y if q in (3, 4) else y
        return origin[0] + x, origin[1] + y

    # blocks that stand at the top and in bodies

    def ordinary(self, b, calls):
        s = self.state
        number = b.line
        if b.kind == 'M':
            code = b.words['M'].value
            if code in STOPS:
                self.enter(STOPS[code], number)
            elif code in (12, 13):
                s.nibbling = code == 12
            return
        if b.kind == 'W':
            body = self.find(b.words['W'].value, number)
            if calls == 4:
                raise Refused(11, number)
            self.run_body(body, calls + 1)
            return
        if b.code == 73:
            self.symmetry(b, calls)
            return
        if b.kind == 'B':
            n = b.words['B'].value
            if n not in s.memory:
                raise Refused(10, number)
            self.pattern(s.memory[n], number)
            return
        if b.reading is not None:
            s.incremental = b.reading == 91
        if 'T' in b.words:
            s.tool = b.words['T'].value
        if b.kind == 'position' or b.code in (70, 72):
            if b.code == 72:
                p = self.measured(b)
                self.near(p, number)
                s.waiting = p
                return
            s.waiting = None
            if 'X' not in b.words and 'Y' not in b.words:
                return
            p = self.measured(b)
            if b.code == 70:
                end = self.mirrored(p)
                self.near(end, number)
                self.within(end, number)
            else:
                self.hit(p, number)
            s.at = p
            return
        i, j, p, k, q, d = (b.words[l].value if l in b.words else 0 for l in 'IJPKQD')
        if 'Q' not in b.words:
            q = p
        numbers = (b.code, i, j, p, k, q, d)
        if 'A' in b.words:
            s.memory[b.words['A'].value] = numbers
        self.pattern(numbers, number)

    def measured(self, b):
        s = self.state
        p = []
        for axis, letter in enumerate('XY'):
            if letter not in b.words:
                p.append(s.at[axis])
            else:
                p.append((s.at if s.incremental else s.origin)[axis] + b.words[letter].value)
        return tuple(p)

    def within(self, p, number):
        if not (-1020 <= p[0] <= self.machine and -1020 <= p[1] <= 61020):
            raise Refused(16, number)

    def hit(self, p, number):
        s = self.state
        if s.tool is None:
            raise Refused(14, number)
        p = self.mirrored(p)
        self.near(p, number)
        self.within(p, number)
        self.enter((p[0], p[1], s.tool, 'N' if s.nibbling else 'P'), number)

    def enter(self, entry, number):
        """17: a hit or a stop takes a place of the list."""
        if len(self.entries) == self.places:
            raise Refused(17, number)
        self.entries.append(entry)

    def pattern(self, numbers, number):
        code, i, j, p, k, q, d = numbers
        s = self.state
        if code == 66 and not fits(i, p, q, d):
            raise Refused(18, number)
        start = s.at if s.waiting is None else s.waiting
        s.waiting = None
        if code == 28 and k * abs(i) > FAR:
            raise Refused(15, number)
        if code in (36, 37) and (abs(i) * p > FAR or abs(j) * k > FAR):
            raise Refused(15, number)
        at = start
        for o in sheared(i, j, p, q, d) if code == 66 else offsets(code, i, j, p, k):
            at = (start[0] + o[0], start[1] + o[1])
            self.hit(at, number)
        s.at = start if code in (26, 66) else at


def fits(i, p, q, d):
    """18: whether tool and lengths of a G66 fit. 1.5 times w is compared exactly."""
    w = abs(p)
    return (p > 0 and q > 0 or p < 0 and q < 0) and w > 100 and 2 * i >= 3 * w and i + 2 * d >= w


def steps(travel, longest):
    """The fewest equal steps of a travel, none longer than that; none for no travel."""
    n = 0
    while n * longest < travel:
        n += 1
    return n


def sheared(i, j, p, q, d):
    """The offsets of G66: along the line and across it, to its left, as fractions; each axis is rounded once."""
    w = abs(p)
    travel = i + 2 * d - w
    n = steps(travel, w - 50)
    c, s = Fraction(cosine(j), UNIT), Fraction(sine(j), UNIT)
    across = Fraction(q, 2)
    for m in range(n + 1):
        along = Fraction(w, 2) - d
        if n > 0:
            along += Fraction(travel * m, n)
        yield nearest(along * c - across * s), nearest(along * s + across * c)


def offsets(code, i, j, p, k):
    if code == 28:
        for n in range(1, k + 1):
            yield polar(n * i, j)
    elif code == 29:
        for n in range(k):
            yield polar(i, j + n * p)
    elif code == 26:
        size = abs(k)
        for n in range(size):
            turn = (2 * 36000 * n + size) // (2 * size)
            yield polar(i, j + turn if k > 0 else j - turn)
    elif code == 36:
        for r in range(k + 1):
            for c in range(p + 1):
                c = p - c if r % 2 else c
                if (c, r) != (0, 0):
                    yield c * i, r * j
    else:
        for c in range(p + 1):
            for r in range(k + 1):
                r = k - r if c % 2 else r
                if (c, r) != (0, 0):
                    yield c * i, r * j


def expand(text, length, setting=1):
    """At setting 0, or at setting 1, for which any other number stands."""
    return Expander(text, length, setting).run()


def tally(entries):
    """Of each tool that has hits, in tool order: the tool, its hits, and the first and the last index where it stands.

    Indexes are those of the list, from 1, stops counted. A stop is no tool's, its tool being zero."""
    tools = []
    for tool in range(1, 100):
        indexes = [index for index, entry in enumerate(entries, 1) if entry[2] == tool]
        if indexes:
            tools.append((tool, len(indexes), indexes[0], indexes[-1]))
    return tools


def printed(answer):
    number, rest = answer
    if number:
        return 'REFUSED %d LINE %d\n' % (number, rest)
    lines = ['ENTRIES %d' % len(rest)]
    lines += ['%d %d %d %d %s' % ((n,) + entry) for n, entry in enumerate(rest, 1)]
    lines += ['%d %d %d %d' % figures for figures in tally(rest)]
    return '\n'.join(lines) + '\n'
