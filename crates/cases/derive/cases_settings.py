"""The decimal point setting: texts at setting 0, where a length or an angle without a point counts whole millimetres or
degrees, and texts at both settings."""
import os
from table import *
from cases_plates import DRAWINGS, PLATES

M222 = 'G92X600Y600'
M224 = 'G92X1000Y600'


def P(x, y, t=1):
    return (x, y, t, 'P')


def at_0(name, text, answer, reason, length=16384):
    """A text at setting 0."""
    case('settings-' + name, text, answer, reason, length, 0)


def mm(name, body, answer, reason, head=M222):
    """A program at setting 0, its G92 in whole millimetres."""
    at_0(name, p(body, head), answer, reason)


def both(name, text, millimetres, hundredths, reason):
    """A text with its answers at setting 0 and at setting 1."""
    case('settings-%s-at-0' % name, text, millimetres, reason, setting=0)
    case('settings-%s-at-1' % name, text, hundredths, reason, setting=1)


def spelled(number):
    """A number as a part of a name."""
    return str(number).replace('-', 'minus-').replace('+', 'plus-')


# ---------------------------------------------------------------- the plates of document 01 in whole millimetres

SHEET = 'G98 X20 Y100 I250 J150 P1 K1/U1/X10 Y10 T2/V1/'
PLATES_IN_MM = {
    'm01': ('G90 X100 Y100 T2/G28 I10 J45 K2', all_of(P(10000, 10000, 2), P(10707, 10707, 2), P(11414, 11414, 2))),
    'm02': ('X50 Y50 T2/G36 I9 P11 J9 K7', E(96, {1: P(5000, 5000, 2), 2: P(5900, 5000, 2), 96: P(5000, 11300, 2)})),
    'm03': ('X50 Y50 T2/G37 I9 P11 J9 K7', E(96, {1: P(5000, 5000, 2), 2: P(5000, 5900, 2), 96: P(14900, 5000, 2)})),
    'm04': ('G72 X300 Y200/G28 I25 J30 K6 T2', E(6, {1: P(32165, 21250, 2), 6: P(42990, 27500, 2)})),
    'm05': ('G72 X60 Y60/G26 I25 J45 K4 T2', all_of(P(7768, 7768, 2), P(4232, 7768, 2), P(4232, 4232, 2), P(7768, 4232, 2))),
    'm06': (SHEET + 'G76 W1 Q4', all_of(P(28000, 26000, 2), P(28000, 11000, 2), P(3000, 11000, 2), P(3000, 26000, 2))),
    'm07': (SHEET + 'G75 W1 Q4', all_of(P(28000, 26000, 2), P(3000, 26000, 2), P(3000, 11000, 2), P(28000, 11000, 2))),
}
for plate, (body, answer) in PLATES_IN_MM.items():
    mm('plate-' + plate, body, answer, 'document 01, M%d, written in whole millimetres' % int(plate[1:]), 'G92 X600 Y600')

# the sample plates have a point in every length and angle but 0
for plate, drawing in DRAWINGS.items():
    with open(os.path.join(PLATES, plate + '.nc'), 'rb') as file:
        at_0('plate-' + plate, file.read(), all_of(*drawing.entries()), 'every length but 0 has a point, so the setting makes no difference')

# ---------------------------------------------------------------- the number that the caller states

STATED = p('X100Y100T1/G28I10J45K1')
IN_MM = all_of(P(10000, 10000), P(10707, 10707))
IN_HUNDREDTHS = all_of(P(100, 100), P(110, 100))
case('settings-stated-0', STATED, IN_MM, '100 mm; 10 mm on at 45 degrees', setting=0)
case('settings-stated-1', STATED, IN_HUNDREDTHS, '1 mm; 0.10 mm on at 0.45 degrees', setting=1)
for number in (-1, 2, 100, 256, -256, 65536, -2147483648, 2147483647):
    case('settings-stated-' + spelled(number), STATED, IN_HUNDREDTHS, 'any number but 0 counts as 1', setting=number)

# ---------------------------------------------------------------- how a number is written

both('spellings-of-100', p('X100Y0T1/X100./X000100/X+100/X100.0/X100.00'),
     all_of(*[P(10000, 0)] * 6), all_of(P(100, 0), P(10000, 0), P(100, 0), P(100, 0), P(10000, 0), P(10000, 0)),
     'with a point 100 mm at both, without one at setting 0 alone')
both('spellings-of-1', p('X1Y0T1/X1./X001/X0001.00/X-1/X-1.'),
     all_of(P(100, 0), P(100, 0), P(100, 0), P(100, 0), P(-100, 0), P(-100, 0)),
     all_of(P(1, 0), P(100, 0), P(1, 0), P(100, 0), P(-1, 0), P(-100, 0)), 'with a point 1 mm at both, without one at setting 0 alone')
both('zero', p('X0Y0T1/X-0/X+0Y-000000/X-0.Y0.00/G28I5.J-0K1/G98X-0Y-0I-0J-0D-0'),
     all_of(P(0, 0), P(0, 0), P(0, 0), P(0, 0), P(500, 0)), all_of(P(0, 0), P(0, 0), P(0, 0), P(0, 0), P(500, 0)), 'zero is zero at both, and not negative')
both('zero-radius', p('X0Y0T1/G26I-0J0K1'), R(6, 3), R(6, 3), '6: zero is not above zero at either')
both('points-everywhere', p('X100.Y100.T1/G28I10.J45.5K2/G91X-1.25Y+0.5/G29I20.J22.5P45.K2/G36I9.5P1J0.5K1/G70X9.99/G90G72X100.Y100./G26I25.J45.K4/G93X1.Y1./X0.Y0.'),
     *[all_of(P(10000, 10000), P(10701, 10713), P(11402, 11427), P(11277, 11477), P(13125, 12242), P(12042, 13325),
              P(12992, 13325), P(12992, 13375), P(12042, 13375), P(11768, 11768), P(8232, 11768), P(8232, 8232), P(11768, 8232), P(100, 100))] * 2,
     'with a point a number means the same at both settings')
both('points-in-one-axis', p('X100Y100.T1/X1.5Y1/G28I10J90.K1/G28I10.J90K1'),
     all_of(P(10000, 10000), P(150, 100), P(150, 1100), P(150, 2100)), all_of(P(100, 10000), P(150, 1), P(150, 11), P(1150, 27)),
     'each number by itself; the sine of 0.9 degrees is 0.01571')
both('angle-without-a-point', p('X100.Y100.T1/G28I10.J45K1'), all_of(P(10000, 10000), P(10707, 10707)), all_of(P(10000, 10000), P(11000, 10008)),
     '45 degrees at setting 0, 0.45 degrees at setting 1')
both('g91-steps', p('X10Y10T1/G91X5/Y-5/X-0/X0.5/X5./G90X1'),
     all_of(P(1000, 1000), P(1500, 1000), P(1500, 500), P(1500, 500), P(1550, 500), P(2050, 500), P(100, 500)),
     all_of(P(10, 10), P(15, 10), P(15, 5), P(15, 5), P(65, 5), P(565, 5), P(1, 5)), 'steps are lengths')
both('most-with-a-point', p('G72X9999.99Y-9999.99'), E(0), E(0), 'with a point a number is at most 999,999 hundredths')
both('seven-digits', p('X1000000T1'), R(4, 2), R(4, 2), '4: the form of a word is the same at both settings')
both('five-digits-and-a-point', p('X10000.T1'), R(4, 2), R(4, 2), '4: the form of a word is the same at both settings')
both('six-digits', p('G72X999999Y-999999'), R(6, 2), E(0), '999,999 hundredths at setting 1')
both('five-digits', p('G72X10000Y0'), R(6, 2), E(0), '1,000,000 hundredths at setting 0, 100 mm at setting 1')

# ---------------------------------------------------------------- whole numbers stay

mm('whole-numbers-stay', 'N9999X10Y10T99/N0A5G28I1J90K2/B5/G36I2P2J3K1/G26I5J0K-2/G29I5J0P90K2',
   all_of(*(P(x, y, 99) for x, y in ((1000, 1000), (1000, 1100), (1000, 1200), (1000, 1300), (1000, 1400), (1200, 1400), (1400, 1400), (1400, 1700),
                                     (1200, 1700), (1000, 1700), (1500, 1700), (500, 1700), (1500, 1700), (1000, 2200)))),
   'N, T, A, B, K, and P of a grid are not multiplied; P of G29 is an angle')
mm('p-of-g29-and-p-of-g36', 'G72X100Y100/G29I10J0P90K3T2/G36I1P1J1K0', all_of(P(11000, 10000, 2), P(10000, 11000, 2), P(9000, 10000, 2), P(9100, 10000, 2)),
   'P is an angle in G29 and a count in G36')
mm('p-and-k-of-g98', 'G98X10Y10I1J2P2K1/U89/X0Y0T1/V89/G75W89Q4',
   all_of(P(1200, 1200), P(1100, 1200), P(1000, 1200), P(1000, 1000), P(1100, 1000), P(1200, 1000)), 'P and K of G98, Q and W are not multiplied')
WHOLE_ENDS = {
    'n': ('N%dX1Y1T1', 9999, all_of(P(100, 100))),
    't': ('X1Y1T%d', 99, all_of(P(100, 100, 99))),
    'a': ('X1Y1T1/A%dG36I1P0J1K0', 5, all_of(P(100, 100))),
    'b': ('X1Y1T1/A5G28I1J0K1/B%d', 5, all_of(P(100, 100), P(200, 100), P(300, 100))),
    'k-of-g28': ('X0Y0T1/G28I0J0K%d', 999, E(1000, {-1: P(0, 0)})),
    'k-of-g29': ('X0Y0T1/G29I1J0P0K%d', 999, E(1000, {-1: P(100, 0)})),
    'k-of-g26': ('X0Y0T1/G26I1J0K-%d', 999, E(1000, {1: P(0, 0), 2: P(100, 0)})),
    'p-of-g36': ('X0Y0T1/G36I0P%dJ0K0', 999, E(1000, {-1: P(0, 0)})),
    'k-of-g37': ('X0Y0T1/G37I0P0J0K%d', 999, E(1000, {-1: P(0, 0)})),
    'p-of-g98': ('X1Y1T1/G98X0Y0P%d', 99, all_of(P(100, 100))),
    'k-of-g98': ('X1Y1T1/G98X0Y0K%d', 99, all_of(P(100, 100))),
    'u': ('U%d/X1Y1T1/V89/W89', 89, all_of(P(100, 100))),
    'w': ('U89/X1Y1T1/V89/W%d', 89, all_of(P(100, 100))),
    'q': ('G98X0Y0/U60/X1Y1T1/V60/G75W60Q%d', 4, all_of(P(100, 100))),
    'q-of-g73': ('U60/X1Y1T1/V60/G73X9Y9W60Q%d', 4, all_of(P(800, 800))),
}
for word, (body, most, answer) in WHOLE_ENDS.items():
    line = 2 + body[:body.index('%')].count('/')
    mm('whole-%s-%d' % (word, most), body % most, answer, 'the range of a whole number is the same at both settings')
    mm('whole-%s-%d' % (word, most + 1), body % (most + 1), R(6, line), '6: the range of a whole number is the same at both settings')

# ---------------------------------------------------------------- the limit of 6 at setting 0

# By code and letter: a body, and what it gives with 9999 and with -9999, None where a range refuses the sign. {} is the number,
# {-} one of 9999 and -9999 that brings the sum back to 0. 9,999 degrees are 27 turns and 279 degrees, cosine 0.156434465 and
# sine -0.987688341.
LIMITS = {
    'position-x': ('G93X{-}/X{}Y0T1', all_of(P(0, 0)), all_of(P(0, 0))),
    'position-y': ('G93Y{-}/X0Y{}T1', all_of(P(0, 0)), all_of(P(0, 0))),
    'g70-x': ('G93X{-}/G70X{}Y0', E(0), E(0)),
    'g70-y': ('G93Y{-}/G70X0Y{}', E(0), E(0)),
    'g72-x': ('X1Y1T1/G72X{}Y0', all_of(P(100, 100)), all_of(P(100, 100))),
    'g72-y': ('X1Y1T1/G72Y{}', all_of(P(100, 100)), all_of(P(100, 100))),
    'g73-x': ('G93X{-}/U60/X0Y0T1/V60/G73X{}Y0Q2W60', all_of(P(0, 0)), all_of(P(0, 0))),
    'g73-y': ('G93Y{-}/U60/X0Y0T1/V60/G73X0Y{}Q3W60', all_of(P(0, 0)), all_of(P(0, 0))),
    'g93-x': ('X1Y1T1/G93X{}', all_of(P(100, 100)), all_of(P(100, 100))),
    'g93-y': ('X1Y1T1/G93X0Y{}', all_of(P(100, 100)), all_of(P(100, 100))),
    'g98-x': ('X1Y1T1/G98X{}Y0', all_of(P(100, 100)), None),
    'g98-y': ('X1Y1T1/G98X0Y{}', all_of(P(100, 100)), None),
    'g98-i': ('X1Y1T1/G98X0Y0I{}', all_of(P(100, 100)), None),
    'g98-j': ('X1Y1T1/G98X0Y0J{}', all_of(P(100, 100)), None),
    'g98-d': ('X1Y1T1/G98X0Y0D{}', all_of(P(100, 100)), None),
    'g26-i': ('G93X-9999/G72X0Y0/G26I{}J0K1T1', all_of(P(0, 0)), None),
    'g26-j': ('G72X100Y100/G26I10J{}K1T1', all_of(P(10156, 9012)), all_of(P(10156, 10988))),
    'g28-i': ('G93X{-}/G72X0Y0/G28I{}J0K1T1', all_of(P(0, 0)), all_of(P(0, 0))),
    'g28-j': ('G72X100Y100/G28I10J{}K1T1', all_of(P(10156, 9012)), all_of(P(10156, 10988))),
    'g29-i': ('G93X-9999/G72X0Y0/G29I{}J0P0K1T1', all_of(P(0, 0)), None),
    'g29-j': ('G72X100Y100/G29I10J{}P0K1T1', all_of(P(10156, 9012)), all_of(P(10156, 10988))),
    'g29-p': ('G72X100Y100/G29I10J0P{}K2T1', all_of(P(11000, 10000), P(10156, 9012)), all_of(P(11000, 10000), P(10156, 10988))),
    'g36-i': ('G93X{-}/G72X0Y0/G36I{}P1J0K0T1', all_of(P(0, 0)), all_of(P(0, 0))),
    'g36-j': ('G93Y{-}/G72X0Y0/G36I0P0J{}K1T1', all_of(P(0, 0)), all_of(P(0, 0))),
    'g37-i': ('G93X{-}/G72X0Y0/G37I{}P1J0K0T1', all_of(P(0, 0)), all_of(P(0, 0))),
    'g37-j': ('G93Y{-}/G72X0Y0/G37I0P0J{}K1T1', all_of(P(0, 0)), all_of(P(0, 0))),
}


def limit(name, body, number, answer, reason):
    """A body of the table with a number."""
    opposite = '9999' if number[0] == '-' else '-9999'
    mm('limit-%s-%s' % (name, spelled(number)), body.replace('{-}', opposite).replace('{}', number), answer, reason)


for name, (body, above, below) in LIMITS.items():
    refused = R(6, 2 + body.count('/'))
    limit(name, body, '9999', above, '999,900 hundredths are within the limit')
    limit(name, body, '10000', refused, '6: 1,000,000 hundredths pass the limit')
    limit(name, body, '-9999', below or refused, '-999,900 hundredths are within the limit' if below else '6: negative, where it may not be')
    limit(name, body, '-10000', refused, '6: -1,000,000 hundredths pass the limit')
for name in ('position-x', 'g28-i', 'g29-p', 'g98-d'):
    body, above, below = LIMITS[name]
    refused = R(6, 2 + body.count('/'))
    limit(name, body, '009999', above, 'leading zeros do not count')
    limit(name, body, '+9999', above, 'a plus is a sign')
    limit(name, body, '010000', refused, '6: leading zeros do not count')
    limit(name, body, '+10000', refused, '6: a plus is a sign')
    limit(name, body, '099999', refused, '6: 99,999 mm or degrees')
    limit(name, body, '999999', refused, '6: 999,999 mm or degrees')
for x, y, number in (('9999', '600', 8), ('10000', '600', 6), ('600', '9999', 8), ('600', '10000', 6), ('-9999', '600', 8), ('-10000', '600', 6),
                     ('600', '-9999', 8), ('600', '-10000', 6), ('60000', '60000', 6), ('0600', '000600', 0)):
    at_0('limit-g92-x-%s-y-%s' % (spelled(x), spelled(y)), 'G92X%sY%s/G50' % (x, y), R(number, 1) if number else E(0),
         {8: '8: within the limit of 6, and no machine', 6: '6: past the limit, before 8', 0: 'leading zeros do not count'}[number])

# I, J, P, Q and D of G66, by what each gives with 9999 and with -9999 (9,999 degrees as above). One hit, where D makes L equal to w.
for letter, body, above, below in (
    ('i', 'G72X-4999.5Y0/G66I{}J0P20D-4989.5T1', (all_of(P(0, 1000)), 'within the limit of 6: L 2,000, one hit at 1,000 + 498,950'), (R(18, 3), '18: within the limit of 6, and under 1.5 times w')),
    ('j', 'G72X100Y100/G66I30J{}P20D-5T1', (all_of(P(11222, 8675)), 'within the limit of 6: 1,500 along and 1,000 across at 279 degrees'),
     (all_of(P(9247, 11638)), 'within the limit of 6: 1,500 along and 1,000 across at -279 degrees')),
    ('p', 'G72X100Y100/G66I9999J0P{}T1', (R(18, 3), '18: within the limit of 6, and I is under 1.5 times w'), (R(18, 3), '18: within the limit of 6, and I is under 1.5 times w')),
    ('q', 'G72X0Y-4999.5/G66I30J0P20Q{}D-5T1', (all_of(P(1500, 0)), 'within the limit of 6: 499,950 across'), (R(18, 3), '18: within the limit of 6, and P and Q differ in sign')),
    ('d', 'G72X9989Y0/G66I30J0P20D{}T1', (R(16, 3), '16: within the limit of 6; the first hit is at 0, and the hits leave the range'), (R(18, 3), '18: within the limit of 6, and L is under w')),
):
    limit('g66-' + letter, body, '9999', *above)
    limit('g66-' + letter, body, '-9999', *below)
    limit('g66-' + letter, body, '10000', R(6, 3), '6: 1,000,000 hundredths pass the limit')
    limit('g66-' + letter, body, '-10000', R(6, 3), '6: -1,000,000 hundredths pass the limit')
    limit('g66-' + letter, body, '999999', R(6, 3), '6: 999,999 mm or degrees')

# used or not
mm('limit-unused-j-of-a-line', 'X1Y1T1/G28I0J10000K1', R(6, 3), '6: the angle of a line without a length')
mm('limit-unused-j-of-a-line-9999', 'X1Y1T1/G28I0J9999K1', all_of(P(100, 100), P(100, 100)), 'a line without a length, its angle within the limit')
mm('limit-unused-p-of-an-arc', 'X1Y1T1/G29I1J0P10000K1', R(6, 3), '6: the step of an arc of one hit')
mm('limit-unused-p-of-an-arc-9999', 'X1Y1T1/G29I1J0P9999K1', all_of(P(100, 100), P(200, 100)), 'an arc of one hit, its step within the limit')
mm('limit-unused-i-of-a-grid', 'X1Y1T1/G36I10000P0J1K1', R(6, 3), '6: the pitch along X of one column')
mm('limit-unused-j-of-a-grid', 'X1Y1T1/G37I1P1J-10000K0', R(6, 3), '6: the pitch along Y of one row')
mm('limit-unused-i-and-j-of-a-grid', 'X1Y1T1/G36I9999P0J-9999K0', all_of(P(100, 100)), 'a grid of one place, its pitches within the limit')
mm('limit-unused-d-of-a-layout', 'G98X0Y0P0K0D10000', R(6, 2), '6: the layout is one place, and nothing is copied')
mm('limit-unused-stored-pattern', 'A1G28I10000J0K1', R(6, 2), '6: before the pattern is stored, and before 14')
mm('limit-unused-x-of-g73', 'U60/V60/G73X10000Y0Q1W60', R(6, 4), '6: Q1 turns nothing')
mm('limit-unused-second-of-two', 'G72X1Y10000', R(6, 2), '6: one number of two')

# ---------------------------------------------------------------- checking order

_text = (p('X10000T1', M222) + '/').replace('/', '\n').encode()
at_0('order-01-before-06', _text.ljust(60001), R(1, 0), '1: 60,001 bytes')
at_0('order-01-before-06-one-byte-less', _text.ljust(60000), R(6, 2), '6: 60,000 bytes')
at_0('order-02-before-06', p('X10000T1/X1,', M222), R(2, 3), '2 looks at the whole text first')
_lines = spent(100000) + ['X10000Y1T1', 'G50']
at_0('order-03-before-06', '/'.join(_lines), R(3, len(_lines) - 1), '3: block 100,001')
mm('order-04-before-06', 'X10000Y', R(4, 2), '4: Y has no digits')
mm('order-05-before-06', 'X10000Z1', R(5, 2), '5: a letter of no block')
mm('order-05-before-06-t-beside-g72', 'G72X10000T1', R(5, 2), '5: T is not listed for G72')
mm('order-05-before-06-unknown-code', 'G94X10000', R(5, 2), '5: an unknown code')
mm('order-05-before-06-without-k', 'G28I10000J0', R(5, 2), '5: K is missing')
at_0('order-06-before-07-first-block', 'X10000Y0T1/G50', R(6, 1), '6: the first block is not G92 either')
mm('order-06-before-07-g92-again', 'G92X10000Y600', R(6, 2), '6: G92 comes again, too')
mm('order-06-before-07-in-a-body', 'U1/G93X10000/V1', R(6, 3), '6: no body may run G93, either')
at_0('order-06-before-07-after-g50', p('', M222) + '/X10000', R(6, 3), '6: a block after G50, too')
at_0('order-06-before-08', 'G92X60000Y60000/G50', R(6, 1), '6: no machine, either')
mm('order-06-before-18', 'G66I10000J0P1Q-1T1', R(6, 2), '6: w is not above 1 mm, and P and Q differ in sign, too')
mm('order-05-before-06-k-beside-g66', 'G66I10000J0P20K50T1', R(5, 2), '5: K is not listed for G66')
mm('order-05-before-06-y-absent-beside-g73', 'U60/V60/G73X10000Q2W60', R(5, 4), '5: none was given for Y')
mm('order-06-before-10', 'G73X10000Y0Q1W60', R(6, 2), '6: nothing is stored, either')
mm('order-06-before-14', 'X10000', R(6, 2), '6: no tool is chosen, either')
mm('order-06-before-15-position', 'G91X10000T1', R(6, 2), '6: the position would be too far, too')
mm('order-06-before-15-reach', 'G28I10000J0K999T1', R(6, 2), '6: the reach would be too far, too')
mm('order-06-before-15-origin', 'G98X9999Y0/G93X10000', R(6, 3), '6: the origin would be too far, too')
mm('order-06-before-16', 'X10000Y0T1', R(6, 2), '6: the hit would be outside the range, too')
at_0('order-06-before-17', p('X10000Y0T1', M222), R(6, 2), '6: the list has no place, either', 3)
mm('order-06-of-the-limit-and-of-a-count', 'G28I10000J0K0T1', R(6, 2), '6: the length and the count')
mm('order-of-blocks', 'X1Y1/X10000T1', R(14, 2), 'the first block that is refused counts')

# ---------------------------------------------------------------- bodies, first runs, copies

mm('body-never-run', 'U60/X10000T1/V60/X1Y1T1', all_of(P(100, 100)), 'a body that is never run is not judged')
mm('body-only-stored-under-g98', 'G98X0Y0/U1/X10000T1/V1/X1Y1T1', all_of(P(100, 100)), 'once G98 has come, U1 only stores')
mm('body-run-by-w', 'U60/M08/X10000T1/V60/M08/W60', R(6, 4), '6 in the line of the body block')
mm('body-in-a-first-run', 'U1/M08/X10000T1/V1', R(6, 4), '6 in the line of the body block')
mm('body-in-a-copy', 'G98X0Y0I9P1/U1/M08/X10000T1/V1/G75W1Q1', R(6, 5), '6 in the line of the body block')
mm('body-two-deep', 'U60/G72X10000/V60/U61/W60/V61/W61', R(6, 3), '6 in the line of the inner body block')
mm('first-run-and-calls', 'U1/X10Y10T5/G91X5/V1/U60/G90Y50/W1/V60/W60',
   all_of(P(1000, 1000, 5), P(1500, 1000, 5), P(1500, 5000, 5), P(1000, 1000, 5), P(1500, 1000, 5)), 'the setting holds in bodies')
mm('pattern-in-a-body', 'X10Y10T1/U1/A1G28I10J90K1/V1/U60/B1/V60/W60/B1', all_of(P(1000, 1000), P(1000, 2000), P(1000, 3000), P(1000, 4000)),
   'a stored pattern is multiplied once')
mm('copies-with-offset-and-d', 'G93X5/G98X100Y50I40J30P2K1D2/X10Y10T1/U1/X0Y0/V1/G75W1Q1',
   all_of(P(11500, 6000), P(10500, 5000), P(14700, 5000), P(18900, 5000), P(18900, 8200), P(14700, 8200), P(10500, 8200)),
   'reference, offset, pitches and D are lengths; P and K are counts')
mm('copies-with-d-alone', 'G98X0Y0D10P1K1/U60/X1Y1T1/V60/G76W60Q1', all_of(P(100, 100), P(100, 1100), P(1100, 1100), P(1100, 100)), 'both pitches are D')
mm('copies-with-some-points', 'G98X50.5Y50I40.25D2P1/U60/X1.Y1T1/V60/G75W60Q2', all_of(P(9375, 5100), P(5150, 5100)), 'a pitch of 40.25 and 2 mm')
mm('copies-column-by-column', 'G98X50Y50I100J80P1K2/U60/X10Y20T2/V60/G76W60Q3',
   all_of(P(6000, 23000, 2), P(6000, 15000, 2), P(6000, 7000, 2), P(16000, 7000, 2), P(16000, 15000, 2), P(16000, 23000, 2)), 'the hits of page-g76')
mm('copies-begin-alike', 'X10Y10T2/G98X100Y100I50P1/U60/X5Y5/G91X1T3/V60/G75W60Q1/X1/G90Y0',
   all_of(P(1000, 1000, 2), P(10500, 10500, 2), P(10600, 10500, 3), P(15500, 10500, 2), P(15600, 10500, 3), P(15700, 10500, 3), P(15700, 10000, 3)),
   'the hits of page-copies-begin-alike')

# ---------------------------------------------------------------- accepted at one setting, refused at the other

both('machine-in-mm', p('X10.Y10.T1', M222), all_of(P(1000, 1000)), R(8, 1), '600 mm at setting 0; at setting 1 X600 is 6 mm, so 8')
both('larger-machine-in-mm', p('X1010Y10.T1', M224), all_of(P(101000, 1000)), R(8, 1), '1,000 mm at setting 0; at setting 1 X1000 is 10 mm, so 8')
both('machine-with-a-point-in-x', 'G92X600.Y600/G50', E(0), R(8, 1), '600 mm each at setting 0; at setting 1 Y600 is 6 mm, so 8')
both('machine-with-a-point-in-y', 'G92X600Y600./G50', E(0), R(8, 1), '600 mm each at setting 0; at setting 1 X600 is 6 mm, so 8')
both('machine-in-hundredths', p('X10.Y10.T1', 'G92X60000Y60000'), R(6, 1), all_of(P(1000, 1000)), '600 mm at setting 1; 6 at setting 0')
both('range-of-a-position', p('X1000Y1000T1'), R(16, 2), all_of(P(1000, 1000)), '1,000 mm at setting 0, so 16; 10 mm at setting 1')
both('range-of-a-g70-end', p('G70X611Y0'), R(16, 2), E(0), '611 mm at setting 0, so 16; 6.11 mm at setting 1')
both('reach-of-a-line', p('X0Y0T1/G28I100J0K100'), R(15, 3), E(101, {1: P(0, 0), 2: P(100, 0), -1: P(10000, 0)}),
     '100 x 10,000 = 1,000,000 at setting 0, so 15; 100 x 100 at setting 1')
both('reach-of-a-grid', p('X0Y0T1/G36I102P99J0K0'), R(15, 3), E(100, {1: P(0, 0), -1: P(10098, 0)}),
     '99 x 10,200 = 1,009,800 at setting 0, so 15; 99 x 102 = 10,098 at setting 1')
both('position-too-far', p('G91X9999T1'), R(15, 2), R(16, 2), '60,000 + 999,900 at setting 0, so 15; 69,999 at setting 1, so 16')
both('origin-too-far', p('G98X9999Y0/G93X1'), R(15, 3), E(0), '999,900 + 100 at setting 0, so 15')
both('copy-place-too-far', p('G98X0Y0I102P99/U60/M08/V60/G75W60Q2'), R(15, 6), E(0), '99 x 10,200 at setting 0, so 15 in the calling line')
both('accepted-at-both', p('X50Y50T2/G36I9P11J9K7'), E(96, {1: P(5000, 5000, 2), 2: P(5900, 5000, 2), 96: P(5000, 11300, 2)}),
     E(96, {1: P(50, 50, 2), 2: P(59, 50, 2), 96: P(50, 113, 2)}), 'the eight by twelve rack, and a hundredth of it')

# ---------------------------------------------------------------- shear proof

SIX = (1000, 2600, 4200, 5800, 7400, 9000)     # along, of I 100 and P 20
both('shear', p('G72X200.Y300./G66I100J0P20Q10T1'), all_of(*[P(20000 + a, 30500) for a in SIX]), R(18, 3), '100 mm with a tool of 20 at setting 0; at setting 1 w is 0.20 mm, so 18')
both('shear-accepted-at-both', p('G72X100.Y100./G66I200J0P101T1'), all_of(P(15050, 15050), P(24950, 15050)), all_of(P(10051, 10051), P(10100, 10051), P(10150, 10051)),
     'w 101 mm: travel 9,900 is one step; w 1.01 mm: travel 99 is two steps of 49.5')
both('shear-with-points', p('G72X200.Y300./G66I200.J0.P50.Q5.D-0.15T1'),
     *[all_of(P(22515, 30250), P(26258, 30250), P(30000, 30250), P(33743, 30250), P(37485, 30250))] * 2, 'with a point a number means the same at both settings')
both('shear-with-a-point-in-p', p('G72X100.Y100./G66I30J0P20.T1'), all_of(P(11000, 11000), P(12000, 11000)), R(18, 3), 'I is 30 mm at setting 0, 0.30 mm at setting 1')
both('shear-with-a-point-in-i', p('G72X100.Y100./G66I30.J0P-20T1'), all_of(P(11000, 9000), P(12000, 9000)), R(18, 3), 'w is 20 mm at setting 0, 0.20 mm at setting 1')
both('shear-in-hundredths', p('G72X200.Y300./G66I10000J9000P2000Q1000D0T1'), R(6, 3), all_of(*[P(19500, 30000 + a) for a in SIX]), '6 at setting 0; 100 mm, 90 degrees, 20 and 10 mm at setting 1')
mm('shear-each-letter', 'G72X200Y300/G66I100J90P-20Q-10D1T1', all_of(*[P(20500, 30000 + a) for a in (900, 2540, 4180, 5820, 7460, 9100)]),
   'I, J, P, Q and D are lengths and angles: L 102 mm, five steps of 1,640 from 900 on, 500 to the right')
mm('shear-angle', 'G72X300Y300/G66I30J45P20Q10T1', all_of(P(30354, 31061), P(31061, 31768)), 'the hits of shear-j45-left')
mm('shear-w-1', 'G66I10J0P1T1', R(18, 2), '18: w is not above 1 mm')
mm('shear-w-2', 'G72X100Y100/G66I3J0P2T1', all_of(P(10100, 10100), P(10200, 10100)), 'I is exactly 1.5 times w; one step of 100')
mm('shear-i-29', 'G66I29J0P20T1', R(18, 2), '18: 29 mm are under 1.5 x 20')
mm('shear-minus-zero', 'G66I30J0P20Q-0T1', R(18, 2), '18: -0 is zero')
mm('shear-largest-tool', 'G72X-4999.5Y-3333/G66I9999J0P6666D-1666.5T1', all_of(P(0, 0)), '9,999 is exactly 1.5 x 6,666; L equals w: one hit 499,950 along and 333,300 across')
mm('shear-larger-tool', 'G66I9999J0P6667T1', R(18, 2), '18: 2 x 9,999 is under 3 x 6,667')
mm('shear-from-memory', 'G72X100Y100/A1G66I30J0P20Q5T1/G72X200Y100/B1', all_of(P(11000, 10250), P(12000, 10250), P(21000, 10250), P(22000, 10250)), 'a stored pattern is multiplied once')
mm('shear-in-copies', 'G98X100Y100I100P1/U1/G72X5Y5/G66I30J180P20Q5T1/V1/G75W1Q1', all_of(P(9500, 10250), P(8500, 10250), P(19500, 10250), P(18500, 10250)), 'the setting holds in bodies')

# ---------------------------------------------------------------- stops

both('stops', p('M0/M1/X10.Y10.T1/M01'), *[all_of(STOP, OPTIONAL, P(1000, 1000), OPTIONAL)] * 2, 'the number of a code is no length: M1 is M01 at both settings')
mm('stops-in-copies', 'G98X100Y100I100P1/U1/G72X10Y10/M0/G28I10J90K1T1/M1/V1/G75W1Q1', all_of(STOP, P(11000, 12000), OPTIONAL, STOP, P(21000, 12000), OPTIONAL),
   'hits in whole millimetres, stops as they are')

# ---------------------------------------------------------------- range ends in whole millimetres

for axis, other, inside, outside in (('X', 'Y0', 610, 611), ('Y', 'X0', 610, 611), ('X', 'Y0', -10, -11), ('Y', 'X0', -10, -11)):
    hit = P(100 * inside, 0) if axis == 'X' else P(0, 100 * inside)
    mm('range-%s-%s' % (axis.lower(), spelled(inside)), '%s%d%sT1' % (axis, inside, other), all_of(hit), 'inside the range, which ends at 610.20 and -10.20 mm')
    mm('range-%s-%s' % (axis.lower(), spelled(outside)), '%s%d%sT1' % (axis, outside, other), R(16, 2), '16: outside the range')
mm('range-of-the-224', 'X1010Y0T1', all_of(P(101000, 0)), 'the ARIES-224 in whole millimetres', M224)
mm('range-of-the-224-and-more', 'X1011Y0T1', R(16, 2), '16: the range ends at 1,010.20 mm', M224)

# ---------------------------------------------------------------- texts and lists as at setting 1

at_0('text-empty', b'', R(1, 0), '1: a text of 0 bytes; line 0')
at_0('list-exactly-full', p(PLATES_IN_MM['m02'][0], M222), PLATES_IN_MM['m02'][1], '96 hits fill 96 places', 384)
at_0('list-one-stop-over', p(PLATES_IN_MM['m02'][0] + '/M00', M222), R(17, 4), '17: 96 hits fill the list, and the stop has no place', 384)
at_0('list-one-place-fewer', p(PLATES_IN_MM['m02'][0], M222), R(17, 3), '17: 96 hits, and places for 95', 380)
