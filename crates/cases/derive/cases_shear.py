"""Shear proof, G66: document 02, section 2. In the reasons w is the size of P, L is I + 2 x D, and travel is L less w."""
from table import *


def P(x, y, t=1):
    return (x, y, t, 'P')


def N(x, y, t=1):
    return (x, y, t, 'N')


def shear(name, body, answer, reason, head=A222, length=16384, setting=1):
    """A program of this group."""
    case('shear-' + name, p(body, head), answer, reason, length, setting)


# Two hits for many cases: P20. and I30., so w 2,000 and L 3,000; a travel of 1,000 is one step. Along 1,000 and 2,000, across 1,000.
TWO = 'G66I30.J0P20.'

# ---------------------------------------------------------------- both sides, four ways

# P20. and I100.: a travel of 8,000, four steps of 2,000 are longer than 1,950, so five of 1,600
ALONG = (1000, 2600, 4200, 5800, 7400, 9000)
FIVE = '8,000 in steps of at most 1,950: five of 1,600; '
for j, way, left, right in (
    ('0', 'to the right', [P(20000 + a, 30500) for a in ALONG], [P(20000 + a, 29500) for a in ALONG]),
    ('90.', 'upwards', [P(19500, 30000 + a) for a in ALONG], [P(20500, 30000 + a) for a in ALONG]),
    ('180.', 'to the left', [P(20000 - a, 29500) for a in ALONG], [P(20000 - a, 30500) for a in ALONG]),
    ('-90.', 'downwards', [P(20500, 30000 - a) for a in ALONG], [P(19500, 30000 - a) for a in ALONG]),
):
    named = j.replace('-', 'minus-').replace('.', '')
    shear('left-at-j-' + named, 'G72X200.Y300./G66I100.J%sP20.Q10.T1' % j, all_of(*left), FIVE + 'P and Q plus lie left of a line ' + way)
    shear('right-at-j-' + named, 'G72X200.Y300./G66I100.J%sP-20.Q-10.T1' % j, all_of(*right), FIVE + 'P and Q minus lie right of it, and the hits still go ' + way)
shear('q-absent', 'G72X200.Y300./G66I100.J0P20.T1', all_of(*[P(20000 + a, 31000) for a in ALONG]), 'Q absent equals P: half of 2,000 to the left')
shear('q-absent-and-p-minus', 'G72X200.Y300./G66I100.J0P-20.T1', all_of(*[P(20000 + a, 29000) for a in ALONG]), 'Q absent equals P with its sign: half of 2,000 to the right')
shear('q-larger-than-p', 'G72X200.Y300./G66I30.J0P20.Q60.T1', all_of(P(21000, 33000), P(22000, 33000)), 'Q counts across the line alone')
shear('q-of-a-hundredth', 'G72X200.Y300./G66I30.J0P20.Q0.01T1/G66I30.J0P-20.Q-0.01', all_of(P(21000, 30001), P(22000, 30001), P(21000, 29999), P(22000, 29999)),
      'half of a hundredth to either side, halves away from zero; no limit is set to Q but its sign')
shear('angles-beyond-a-turn', 'G72X200.Y300./G66I30.J450.P20.T1/G66I30.J-270.P20./G66I30.J360.P20./G66I30.J9990.P20.',
      all_of(P(19000, 31000), P(19000, 32000), P(19000, 31000), P(19000, 32000), P(21000, 31000), P(22000, 31000), P(21000, 29000), P(21000, 28000)),
      '450 and -270 degrees are 90, 360 is 0, and 9,990 is 27 turns and 270')
shear('words-in-any-order', 'G72X200.Y300./N7T9D-0.15Q5.P50.G66J0I200.', all_of(P(22515, 30250, 9), P(26258, 30250, 9), P(30000, 30250, 9), P(33743, 30250, 9), P(37485, 30250, 9)),
      'words stand in any order; L 19,970, four steps of 3,742.5 from 2,515 on')
shear('plus-signs', 'G72X200.Y300./G66I+30.J+0P+20.Q+20.D+0T1', all_of(P(21000, 31000), P(22000, 31000)), 'plus on lengths and angles')
shear('minus-zero', 'G72X200.Y300./G66I30.J-0P20.D-0T1', all_of(P(21000, 31000), P(22000, 31000)), '-0 is zero in J and D')

# ---------------------------------------------------------------- angles with both parts

shear('j45-left', 'G72X300.Y300./G66I30.J45.P20.Q10.T1', all_of(P(30354, 31061), P(31061, 31768)),
      'along 1,000 and 2,000, across 500: x 500 and 1,500, y 1,500 and 2,500 times 0.707106781: 353.55, 1060.66, 1060.66, 1767.77')
shear('j45-right', 'G72X300.Y300./G66I30.J45.P-20.Q-10.T1', all_of(P(31061, 30354), P(31768, 31061)), 'the same, mirrored at the line')
shear('j30-left', 'G72X300.Y300./G66I90.J30.P30.Q12.T1', all_of(P(30999, 31270), P(32731, 32270), P(34463, 33270), P(36195, 34270)),
      'travel 6,000, two steps are longer than 2,950, so three of 2,000; x 0.866025404 x along - 300, y along / 2 + 519.62')
shear('j30-right', 'G72X300.Y300./G66I90.J30.P-30.Q-12.T1', all_of(P(31599, 30230), P(33331, 31230), P(35063, 32230), P(36795, 33230)),
      'x 0.866025404 x along + 300, y along / 2 - 519.62')
shear('j150-left', 'G72X300.Y300./G66I90.J150.P30.Q12.T1', all_of(P(28401, 30230), P(26669, 31230), P(24937, 32230), P(23205, 33230)),
      'x -0.866025404 x along - 300, y along / 2 - 519.62')
shear('j210-left', 'G72X300.Y300./G66I90.J210.P30.Q12.T1', all_of(P(29001, 28730), P(27269, 27730), P(25537, 26730), P(23805, 25730)), 'the hits of shear-j30-left, turned half round the start')
shear('j-minus-60-left', 'G72X300.Y300./G66I90.J-60.P30.Q12.T1', all_of(P(31270, 29001), P(32270, 27269), P(33270, 25537), P(34270, 23805)),
      'x along / 2 + 519.62, y -0.866025404 x along + 300')
shear('parts-rounded-together', 'G72X300.Y300./G66I3.J45.P2.T1', all_of(P(30000, 30141), P(30071, 30212)),
      'along 100 and 200, across 100: y 200 x 0.707106781 = 141.42; two parts of 70.71, rounded apart, would be 142')
shear('fractions-kept-until-the-axes', 'G72X300.Y300./G66I120.J45.P30.Q10.D0.15T1', all_of(P(30697, 31404), P(32293, 33000), P(33889, 34596), P(35485, 36192), P(37082, 37789)),
      'four steps of 2,257.5 from 1,485 on, across 500; x of the fourth is (8,257.5 - 500) x 0.707106781 = 5485.38, with 8,258 it would be 5485.73')
shear('by-the-tables-not-the-true-sine', 'G72X0Y-7000./G66I9947.26J45.P20.Q9947.26D-4963.63T1', all_of(P(0, 3377)),
      'one hit, 497,363 along and across: 994,726 x 0.707106781 = 703377.49984, where the true sine gives 703377.50002')

# ---------------------------------------------------------------- the number of steps

shear('l-equal-to-w', 'G72X100.Y100./G66I30.J0P20.D-5.T1', all_of(P(11500, 11000)), 'L is 3,000 - 1,000 = w: one hit, at 1,000 + 500')
shear('l-a-hundredth-above-w', 'G72X100.Y100./G66I30.01J0P20.D-5.T1', all_of(P(11500, 11000), P(11501, 11000)), 'a travel of a hundredth is one step; there is no shortest step')
shear('l-two-hundredths-above-w', 'G72X100.Y100./G66I30.J0P20.D-4.99T1', all_of(P(11499, 11000), P(11501, 11000)), 'L 2,002: one step of 2')
shear('l-equal-to-an-odd-w', 'G72X100.Y100./G66I1.53J0P1.01D-0.26T1', all_of(P(10077, 10051)), 'L is 153 - 52 = 101: one hit at 50.5 + 26 = 76.5, across 50.5')
shear('step-of-exactly-w-less-half-a-millimetre', 'G72X100.Y100./G66I149.J0P50.T1', all_of(P(12500, 12500), P(17450, 12500), P(22400, 12500)), 'travel 9,900: two steps of exactly 4,950')
shear('step-a-hundredth-more-travel', 'G72X100.Y100./G66I149.01J0P50.T1', all_of(P(12500, 12500), P(15800, 12500), P(19101, 12500), P(22401, 12500)),
      'travel 9,901: two steps of 4,950.5 are longer than 4,950, so three of 3,300.33')
shear('step-a-hundredth-less-travel', 'G72X100.Y100./G66I148.99J0P50.T1', all_of(P(12500, 12500), P(17450, 12500), P(22399, 12500)), 'travel 9,899: two steps of 4,949.5')
shear('one-step-of-exactly-w-less-half-a-millimetre', 'G72X100.Y100./G66I99.5J0P50.T1', all_of(P(12500, 12500), P(17450, 12500)), 'travel 4,950: one step')
shear('one-step-and-a-hundredth', 'G72X100.Y100./G66I99.51J0P50.T1', all_of(P(12500, 12500), P(14976, 12500), P(17451, 12500)), 'travel 4,951: two steps of 2,475.5')
shear('steps-not-as-on-page-i-15', 'G72X100.Y100./G66I219.J0P20.T1',
      all_of(*[P(10000 + a, 11000) for a in (1000, 2809, 4618, 6427, 8236, 10045, 11855, 13664, 15473, 17282, 19091, 20900)]),
      'travel 19,900: 000 p. I-15 has 19,900 / 2,000 up, ten steps of 1,990; none may be longer than 1,950, so eleven of 1,809.09')
shear('sum-of-rounded-steps', 'G72X200.Y300./G66I150.J0P20.T1', all_of(*[P(x, 31000) for x in (21000, 22857, 24714, 26571, 28429, 30286, 32143, 34000)]),
      'the long hole of 000 p. I-16: seven steps of 1,857.14; seven of 1,857 would end at 33,999')
shear('steps-of-the-smallest-tool', 'G72X100.Y100./G66I2.J0P1.01T1', all_of(P(10051, 10051), P(10100, 10051), P(10150, 10051)), 'w 101: travel 99 in steps of at most 51, two of 49.5')
shear('two-steps-of-the-smallest-tool', 'G72X100.Y100./G66I2.03J0P1.01T1', all_of(P(10051, 10051), P(10102, 10051), P(10153, 10051)), 'travel 102: two steps of exactly 51, from 50.5 on')
shear('three-steps-of-the-smallest-tool', 'G72X100.Y100./G66I2.04J0P1.01T1', all_of(P(10051, 10051), P(10085, 10051), P(10119, 10051), P(10154, 10051)),
      'travel 103: three steps of 34.33, so 50.5, 84.83, 119.17, 153.5')

# ---------------------------------------------------------------- halves away from zero

# P1.01 and I1.52: w 101, a travel of 51 is one step; along 50.5 and 101.5, across 50.5
for j, left, right in (
    ('0', (P(10051, 10051), P(10102, 10051)), (P(10051, 9949), P(10102, 9949))),
    ('90.', (P(9949, 10051), P(9949, 10102)), (P(10051, 10051), P(10051, 10102))),
    ('180.', (P(9949, 9949), P(9898, 9949)), (P(9949, 10051), P(9898, 10051))),
    ('-90.', (P(10051, 9949), P(10051, 9898)), (P(9949, 9949), P(9949, 9898))),
):
    named = j.replace('-', 'minus-').replace('.', '')
    shear('halves-left-at-j-' + named, 'G72X100.Y100./G66I1.52J%sP1.01T1' % j, all_of(*left), 'along 50.5 and 101.5, across 50.5; the offset is rounded, halves away from zero, never the sum')
    shear('halves-right-at-j-' + named, 'G72X100.Y100./G66I1.52J%sP-1.01T1' % j, all_of(*right), 'along 50.5 and 101.5, across -50.5; the offset is rounded, halves away from zero')
shear('halves-of-a-sum-below-zero', 'G72X0Y0/G66I1.52J0P-1.01D0.51T1', all_of(P(-1, -51), P(51, -51), P(102, -51), P(153, -51)),
      'L 254, travel 153: three steps of 51 from 50.5 - 51 = -0.5 on, so -0.5, 50.5, 101.5 and 152.5')

# ---------------------------------------------------------------- D

shear('micro-joints', 'G72X200.Y300./G66I200.J0P50.Q5.D-0.15T1', all_of(P(22515, 30250), P(26258, 30250), P(30000, 30250), P(33743, 30250), P(37485, 30250)),
      'L 19,970: the cut begins and ends 0.15 mm inside; four steps of 3,742.5 from 2,500 + 15 on')
shear('d-plus', 'G72X200.Y300./G66I100.J0P20.D1.T1', all_of(*[P(20000 + a, 31000) for a in (900, 2540, 4180, 5820, 7460, 9100)]), 'L 10,200, travel 8,200: five steps of 1,640 from 1,000 - 100 on')
shear('d-zero-and-absent', 'G72X200.Y300./G66I30.J0P20.D0T1/G66I30.J0P20.', all_of(P(21000, 31000), P(22000, 31000), P(21000, 31000), P(22000, 31000)), 'D absent is 0')
shear('d-of-half-w', 'G72X100.Y100./G66I30.J0P20.D10.T1', all_of(P(10000, 11000), P(11500, 11000), P(13000, 11000)), 'L 5,000: the first hit is level with the start, two steps of 1,500')
shear('d-above-half-w', 'G72X100.Y100./G66I30.J0P20.D15.T1', all_of(P(9500, 11000), P(10833, 11000), P(12167, 11000), P(13500, 11000)),
      'L 6,000: the first hit lies 500 before the start; three steps of 1,333.33')
shear('d-above-half-w-at-j90', 'G72X100.Y100./G66I30.J90.P-20.D15.T1', all_of(P(11000, 9500), P(11000, 10833), P(11000, 12167), P(11000, 13500)), 'the first hit lies below the start')
shear('d-adds-steps', 'G72X200.Y300./G66I99.5J0P50.D0.01T1', all_of(P(22499, 32500), P(24975, 32500), P(27451, 32500)), 'L 9,952, travel 4,952: one step is too long, so two of 2,476')
shear('d-takes-steps', 'G72X200.Y300./G66I99.52J0P50.D-0.01T1', all_of(P(22501, 32500), P(27451, 32500)), 'L 9,950, travel 4,950: one step')
shear('hit-on-the-start', 'G72X100.Y100./G66I30.J45.P20.Q0.01D10.T1', all_of(P(10000, 10000), P(11060, 11061), P(12121, 12122)),
      'along 0, 1,500 and 3,000, across 0.5: 0.35 on each axis, so the first hit falls on the start')

# ---------------------------------------------------------------- start and end

shear('start-is-the-current-point', 'X10.Y10.T1/' + TWO, all_of(P(1000, 1000), P(2000, 2000), P(3000, 2000)), 'without G72 a pattern starts at the current point; only the position block punches it')
shear('start-is-not-punched', 'G72X10.Y10./' + TWO + 'T1', all_of(P(2000, 2000), P(3000, 2000)), 'no hit at (10, 10)')
shear('ends-at-its-start', 'X10.Y10.T1/' + TWO + '/G91X1.', all_of(P(1000, 1000), P(2000, 2000), P(3000, 2000), P(1100, 1000)), 'the current point ends at the start, not at the last hit')
shear('ends-at-the-waiting-origin', 'X10.Y10.T1/G72X100.Y100./' + TWO + '/G91X1.', all_of(P(1000, 1000), P(11000, 11000), P(12000, 11000), P(10100, 10000)), 'the start was the waiting origin, so the current point is there')
shear('ends-at-its-start-after-one-hit', 'X10.Y10.T1/G72X100.Y100./G66I30.J0P20.D-5./G91Y1.', all_of(P(1000, 1000), P(11500, 11000), P(10000, 10100)), 'one hit, and the current point is the start')
shear('omitted-axis-afterwards', 'X10.Y10.T1/G72X100.Y200./' + TWO + '/X5./Y5.', all_of(P(1000, 1000), P(11000, 21000), P(12000, 21000), P(500, 20000), P(500, 500)), 'an omitted axis stays at the start\'s')
shear('pattern-after-it-starts-where-it-did', 'X10.Y10.T1/G72X100.Y100./%s/%s/G28I10.J0K1' % (TWO, TWO), all_of(P(1000, 1000), P(11000, 11000), P(12000, 11000), P(11000, 11000), P(12000, 11000), P(11000, 10000)),
      'the next one and the line start where it did, and none of them at X10.Y10.')
shear('start-outside-the-range', 'G72X-20.Y-20./G66I30.J0P20.D-5.T1/G72X620.Y300./G66I60.J180.P20.D-20.', all_of(P(-500, -1000), P(59000, 29000)),
      '16 judges hits, not an origin: one hit 1,500 along and 1,000 across, one 3,000 along and 1,000 across')
shear('start-by-g93-and-g98', 'G93X5.Y7./G98X100.Y100./G72X10.Y10./' + TWO + 'T1', all_of(P(12500, 12700), P(13500, 12700)), 'G72 is measured from the origin, (105, 107)')
shear('g91-beside-it', 'X100.Y100.T1/G91' + TWO + '/X5.', all_of(P(10000, 10000), P(11000, 11000), P(12000, 11000), P(10500, 10000)), 'G91 stays in force; I, J, P, Q and D are read as ever')
shear('g90-beside-it', 'X100.Y100.T1/G91X0/%sG90/X5.' % TWO, all_of(P(10000, 10000), P(10000, 10000), P(11000, 11000), P(12000, 11000), P(500, 10000)), 'G90 stays in force, behind G66 too')
shear('under-g91', 'G91/G72X-100.Y-100./G66I30.J180.P20.T1/X1.', all_of(P(49000, 49000), P(48000, 49000), P(50100, 50000)), 'G72 counts from the current point, (600, 600)')
shear('mode-n', 'X100.Y100.T1/M12/%s/M13/%s' % (TWO, TWO), all_of(P(10000, 10000), N(11000, 11000), N(12000, 11000), P(11000, 11000), P(12000, 11000)), 'hits in the mode that holds')
shear('tool-beside-it', 'X100.Y100.T1/%sT7/%s/X5.' % (TWO, TWO), all_of(P(10000, 10000), P(11000, 11000, 7), P(12000, 11000, 7), P(11000, 11000, 7), P(12000, 11000, 7), P(500, 10000, 7)),
      'a T chooses the tool, which stays chosen')
shear('without-a-tool', TWO, R(14, 2), '14: the first hit has no tool')

# ---------------------------------------------------------------- pattern memory

shear('memory', 'X10.Y10.T2/G72X100.Y100./A1%sT3/G72X200.Y200./B1/X50.T4/B1' % TWO,
      all_of(P(1000, 1000, 2), P(11000, 11000, 3), P(12000, 11000, 3), P(21000, 21000, 3), P(22000, 21000, 3), P(5000, 20000, 4), P(6000, 21000, 4), P(7000, 21000, 4)),
      'B runs it with the tool now chosen, from the waiting origin or the current point')
shear('memory-has-all-numbers', 'G72X100.Y100./A5G66I60.J90.P-20.Q-5.D-0.15T1/G72X300.Y100./B5',
      all_of(*[P(x + 250, 10000 + a) for x in (10000, 30000) for a in (1015, 2338, 3662, 4985)]), 'L 5,970, travel 3,970: three steps of 1,323.33 from 1,015 on; Q and D are kept')
shear('memory-has-an-absent-q', 'G72X100.Y100./A1G66I30.J0P-20.T1/G72X300.Y300./B1', all_of(P(11000, 9000), P(12000, 9000), P(31000, 29000), P(32000, 29000)), 'Q absent equals P from memory too')
shear('memory-keeps-no-g91', 'X100.Y100.T1/A1G91%s/G90X20./B1/X30.' % TWO, all_of(P(10000, 10000), P(11000, 11000), P(12000, 11000), P(2000, 10000), P(3000, 11000), P(4000, 11000), P(3000, 10000)),
      'A keeps no G91; B ends at its start')
shear('memory-stored-again', 'X100.Y100.T1/A1G28I1.J0K1/A1%s/B1/A1G28I1.J0K1/B1' % TWO,
      all_of(P(10000, 10000), P(10100, 10000), P(11100, 11000), P(12100, 11000), P(11100, 11000), P(12100, 11000), P(10200, 10000), P(10300, 10000)), 'the last A n counts')
shear('memory-in-two-bodies', 'U60/A3%sT1/V60/U61/B3/V61/G72X100.Y100./W60/G72X200.Y200./W61' % TWO, all_of(P(11000, 11000), P(12000, 11000), P(21000, 21000), P(22000, 21000)), 'memories stay between bodies')
shear('memory-of-each-copy', 'X10.Y10.T1/A1G28I1.J0K1/G98X100.Y100.I100.P1/U60/B1/A1%s/V60/G75W60Q1/B1' % TWO,
      all_of(P(1000, 1000), P(1100, 1000), P(10100, 10000), P(11100, 11000), P(12100, 11000), P(20100, 10000), P(21100, 11000), P(22100, 11000), P(21100, 11000), P(22100, 11000)),
      'each copy finds the line in memory 1, and the last one leaves its G66 there')

# ---------------------------------------------------------------- bodies and copies

shear('in-a-macro', 'U60/G72X100.Y100./%sT1/V60/W60/G93X50./W60' % TWO, all_of(P(11000, 11000), P(12000, 11000), P(16000, 11000), P(17000, 11000)), 'a body may run it')
shear('in-a-first-run', 'U1/G72X100.Y100./%sT1/V1/G91X1./G90/W1' % TWO, all_of(P(11000, 11000), P(12000, 11000), P(10100, 10000), P(11000, 11000), P(12000, 11000)), 'a first run leaves the current point at the start')
shear('origin-waits-over-w', 'U60/%s/V60/X10.Y10.T1/G72X100.Y100./W60/W60' % TWO, all_of(P(1000, 1000), P(11000, 11000), P(12000, 11000), P(11000, 11000), P(12000, 11000)), 'W goes on with the waiting origin')
PLACES = {75: ((10000, 10000), (20000, 10000), (20000, 15000), (10000, 15000)), 76: ((20000, 15000), (20000, 10000), (10000, 10000), (10000, 15000))}
shear('in-copies-by-g75', 'G98X100.Y100.I100.J50.P1K1/U1/%sT1/V1/G75W1Q1' % TWO, all_of(*[P(x + a, y + 1000) for x, y in PLACES[75] for a in (1000, 2000)]), 'each copy starts with its current point at its place')
shear('in-copies-by-g76', 'G98X100.Y100.I100.J50.P1K1/U1/%sT1/V1/G76W1Q4' % TWO, all_of(*[P(x + a, y + 1000) for x, y in PLACES[76] for a in (1000, 2000)]), 'column by column from the upper right')
shear('in-copies-with-g72-and-b', 'G98X100.Y100.I200.P1/U1/G72X10.Y10./A1G66I30.J30.P20.Q10.D-5.T1/G72X10.Y60./B1/V1/G75W1Q2',
      all_of(P(32049, 12183), P(32049, 17183), P(12049, 12183), P(12049, 17183)),
      'one hit 1,500 along and 500 across: 1299.04 - 250 and 750 + 433.01, the same in every copy')
shear('after-copies', 'G98X100.Y100.I100.P1/U1/G72X5.Y5./%sT1/V1/G75W1Q1/G91X1.' % TWO, all_of(P(11500, 11500), P(12500, 11500), P(21500, 11500), P(22500, 11500), P(20600, 10500)),
      'the current point is the start in the last copy')
shear('no-origin-waits-in-a-copy', 'G98X100.Y100.I100.P1/U1/%sT1/V1/G72X300.Y300./G75W1Q1' % TWO, all_of(P(11000, 11000), P(12000, 11000), P(21000, 11000), P(22000, 11000)), 'the caller\'s waiting origin is not used')

# ---------------------------------------------------------------- 18

AT = 'G72X100.Y100./'
for name, block, why in (
    ('w-1-mm', 'G66I10.J0P1.T1', 'w is not above 1 mm'),
    ('w-1-mm-and-p-minus', 'G66I10.J0P-1.T1', 'w is not above 1 mm'),
    ('w-of-a-hundredth', 'G66I10.J0P0.01T1', 'w is not above 1 mm'),
    ('w-50-hundredths', 'G66I10.J0P0.5T1', 'w is not above 1 mm; no step is left'),
    ('p-zero', 'G66I10.J0P0T1', 'P is zero'),
    ('p-zero-and-q', 'G66I10.J0P0Q5.T1', 'P is zero'),
    ('p-minus-zero', 'G66I10.J0P-0Q-5.T1', '-0 is zero'),
    ('q-zero', 'G66I100.J0P20.Q0T1', 'Q is zero'),
    ('q-minus-zero', 'G66I100.J0P20.Q-0T1', '-0 is zero'),
    ('p-minus-and-q-zero', 'G66I100.J0P-20.Q0T1', 'Q is zero'),
    ('p-minus-and-q-minus-zero', 'G66I100.J0P-20.Q-0.00T1', '-0 is zero'),
    ('p-plus-and-q-minus', 'G66I100.J0P20.Q-20.T1', 'P and Q differ in sign'),
    ('p-minus-and-q-plus', 'G66I100.J0P-20.Q0.01T1', 'P and Q differ in sign'),
    ('i-a-hundredth-short', 'G66I29.99J0P20.T1', '2,999 is under 1.5 x 2,000'),
    ('i-a-hundredth-short-and-p-minus', 'G66I29.99J0P-20.T1', '2,999 is under 1.5 x 2,000: w is the size of P'),
    ('i-half-a-hundredth-short', 'G66I1.51J0P1.01T1', '151 is under 1.5 x 101 = 151.5'),
    ('i-half-a-hundredth-short-of-w-103', 'G66I1.54J0P1.03T1', '154 is under 1.5 x 103 = 154.5'),
    ('i-short-and-l-long', 'G66I29.99J0P20.D50.T1', 'I is judged, not L'),
    ('i-zero', 'G66I0J0P20.T1', 'I is under 1.5 times w; no range of 6'),
    ('i-minus-zero', 'G66I-0J0P20.T1', 'I is under 1.5 times w'),
    ('i-zero-and-d', 'G66I0J0P20.D100.T1', 'I is under 1.5 times w'),
    ('i-minus', 'G66I-100.J0P20.T1', 'I below zero is under 1.5 times w; no range of 6'),
    ('i-minus-and-p-minus', 'G66I-100.J0P-20.T1', 'I below zero is under 1.5 times w'),
    ('i-minus-and-d', 'G66I-100.J0P20.D100.T1', 'I below zero, L above w'),
    ('i-least', 'G66I-9999.99J0P20.T1', 'I is under 1.5 times w'),
    ('l-a-hundredth-short', 'G66I30.01J0P20.D-5.01T1', 'L is 3,001 - 1,002 = 1,999'),
    ('l-two-hundredths-short', 'G66I30.J0P20.D-5.01T1', 'L is 3,000 - 1,002 = 1,998'),
    ('l-zero', 'G66I30.J0P20.D-15.T1', 'L is 0'),
    ('l-minus', 'G66I30.J0P20.D-100.T1', 'L is below zero'),
    ('l-least', 'G66I30.J0P20.D-9999.99T1', 'L is below zero'),
    ('largest-tool', 'G66I9999.99J0P6666.67T1', '2 x 999,999 is under 3 x 666,667'),
    ('all-faults', 'G66I-1.J0P-0.5Q0.5D-1.', 'every fault of 18 in one block'),
):
    shear('18-' + name, AT + block, R(18, 3), '18: ' + why)
shear('w-101', AT + 'G66I10.J0P1.01D-4.25T1', all_of(P(10476, 10051), P(10525, 10051)), 'w 101 is above 1 mm: L 150, travel 49, one step from 50.5 + 425 = 475.5 to 524.5')
shear('w-101-and-p-minus', AT + 'G66I10.J0P-1.01D-4.25T1', all_of(P(10476, 9949), P(10525, 9949)), 'w 101 is above 1 mm')
shear('i-exactly-one-and-a-half-w', AT + 'G66I30.J0P20.T1/G66I30.J0P-20.', all_of(P(11000, 11000), P(12000, 11000), P(11000, 9000), P(12000, 9000)), '3,000 is not under 1.5 x 2,000')
shear('i-exactly-one-and-a-half-even-w', AT + 'G66I1.53J0P1.02T1', all_of(P(10051, 10051), P(10102, 10051)), '153 is 1.5 x 102; travel 51, at most 52: one step')
shear('i-half-a-hundredth-above-one-and-a-half-odd-w', AT + 'G66I1.55J0P1.03T1', all_of(P(10052, 10052), P(10104, 10052)), '155 is above 154.5; travel 52, at most 53: from 51.5 to 103.5, across 51.5')
shear('largest-tool', 'G72X-4999.99Y-3333.33/G66I9999.99J0P6666.66D-1666.66T1', all_of(P(0, 0), P(1, 0)),
      '999,999 is exactly 1.5 x 666,666; L 666,667, one step of a hundredth from 333,333 + 166,666 on, across 333,333')
shear('18-without-a-tool', 'G66I10.J0P1.', R(18, 2), '18: judged before any hit')
shear('18-in-the-line-of-the-block', 'X10.Y10.T1//M08/%s/G66I29.99J0P20./X20.' % TWO, R(18, 6), '18: in the line of the block')
shear('18-stored', 'A1G66I29.99J0P20.T1/B1', R(18, 2), '18: at the block that stores it, so no B finds an unfit one')
shear('18-in-a-copy-by-g76', 'G98X100.Y100.I100.J50.P1K1/U1/X0Y0T1/G66I29.99J0P20./V1/M08/G76W1Q4', R(18, 5), '18: in the line of the body block')
shear('18-in-a-copy-of-a-second-body', 'G98X0Y0/U60/M08/G66I29.99J0P20./V60/U61/W60/V61/G75W61Q1', R(18, 5), '18: in the line of the inner body block')
shear('18-in-a-body-never-run', 'U60/G66I29.99J0P20./V60/G98X0Y0/U1/G66I0J0P0/V1/X1.Y1.T1', all_of(P(100, 100)), 'a body that is never run is not judged')
shear('18-after-hits', 'X10.Y10.T1/%s/G66I100.J0P20.Q-20.' % TWO, R(18, 4), '18: the hits before are gone from the list')

# ---------------------------------------------------------------- 5, 6 and 7

for name, block, why in (
    ('a-behind-g66', 'G66A1I30.J0P20.T1', 'A stands before the pattern\'s G word'),
    ('a-between-g66-and-g90', 'G66A1G90I30.J0P20.T1', 'G90 is not the pattern\'s G word'),
    ('g66-with-g28', 'G66G28I30.J0P20.K1T1', 'one of the two has to be G90 or G91'),
    ('g66-twice', 'G66G66I30.J0P20.T1', 'one of the two has to be G90 or G91'),
    ('g66-with-a-sign', 'G+66I30.J0P20.T1', 'a G word with a sign is unknown'),
    ('p-twice', 'G66I30.J0P20.P20.T1', 'no letter stands twice but G'),
):
    shear('5-' + name, block, R(5, 2), '5: ' + why)
shear('by-its-number', AT + 'G066I30.J0P20.T1', all_of(P(11000, 11000), P(12000, 11000)), 'G codes go by their number')
for name, block, why in (
    ('t-0', 'G66I30.J0P20.T0', 'T is 1 to 99'),
    ('t-100', 'G66I30.J0P20.T100', 'T is 1 to 99'),
    ('a-0', 'A0G66I30.J0P20.T1', 'A is 1 to 5'),
    ('a-6', 'A6G66I30.J0P20.T1', 'A is 1 to 5'),
    ('n-10000', 'N10000G66I30.J0P20.T1', 'N is 0 to 9999'),
):
    shear('6-' + name, block, R(6, 2), '6: ' + why)
shear('q-is-no-corner', AT + 'G66I30.J0P20.Q5.T1/G66I30.J0P20.Q500', all_of(P(11000, 10250), P(12000, 10250), P(11000, 10250), P(12000, 10250)), 'Q is a length here, with a point and above 4')

# ---------------------------------------------------------------- 15, 16, 17

shear('no-reach', 'G72X0Y0/G66I9999.99J0P20.T1', R(16, 3), '16: no product is judged by 15; the first hits are inside the range, and a later one is not')
shear('no-reach-past-the-limit', 'G72X0Y0/G66I9999.99J0P1.01D9999.99T1', R(16, 3),
      '16: L 2,999,997, the most that words can say, 58,822 steps; the first hit, at 50.5 - 999,999, is outside the range, and not past the limit of 15')
shear('most-steps-by-the-words', 'G72X9999.99Y100./G66I9999.99J0P1.01D9999.99T1', R(16, 3), '16: 2,999,896 / 51 = 58,821.49, so 58,822 steps; the first hit is at 50, and the hits leave the range')
shear('most-steps-by-the-words-and-a-short-list', 'G72X9999.99Y100./G66I9999.99J0P1.01D9999.99T1', R(17, 3), '17: two places, and the third hit is inside the range still', length=8)
shear('15-above-in-x', 'G72X9990.Y0/G66I30.J0P20.T1', R(15, 3), '15: 999,000 + 1,000')
shear('15-below-in-x', 'G72X-9990.Y0/G66I30.J180.P20.T1', R(15, 3), '15: -999,000 - 1,000')
shear('15-above-in-y', 'G72X0Y9990./G66I30.J0P20.T1', R(15, 3), '15: 999,000 + 1,000, across the line')
shear('15-below-in-y', 'G72X0Y-9990./G66I30.J0P-20.T1', R(15, 3), '15: -999,000 - 1,000, across the line')
shear('15-just-inside-in-y', 'G72X0Y-9989.99/G66I30.J0P-20.T1', R(16, 3), '16: -999,999 does not pass the limit of 15')
shear('16-in-the-middle', 'X600.Y0T1/' + TWO, R(16, 3), '16: the first hit, at 61,000, is inside, the second is not')
shear('range-end', 'G72X595.2Y-20.2/G66I30.J0P20.D-5.T1/G72X4.8Y620.2/G66I30.J180.P20.D-5.', all_of(P(61020, -1020), P(-1020, 61020)), 'hits on the ends of the range are inside')
for name, block in (('x-above', 'G72X595.21Y0/G66I30.J0P20.D-5.T1'), ('x-below', 'G72X4.79Y100./G66I30.J180.P20.D-5.T1'), ('y-above', 'G72X0Y600.21/G66I30.J0P20.D-5.T1'), ('y-below', 'G72X0Y-0.21/G66I30.J0P-20.D-5.T1')):
    shear('16-' + name, block, R(16, 3), '16: a hundredth outside the range')
shear('list-exactly-full', 'G72X200.Y300./G66I100.J0P20.Q10.T1', all_of(*[P(20000 + a, 30500) for a in ALONG]), 'six hits, six places', length=24)
shear('list-one-number-fewer', 'G72X200.Y300./G66I100.J0P20.Q10.T1', R(17, 3), '17: six hits, five places', length=23)
shear('list-one-hit-over', 'G72X200.Y300./G66I100.J0P20.Q10.T1/X10.Y10.', R(17, 4), '17: the seventh hit', length=24)
shear('list-of-none', AT + 'G66I30.J0P20.D-5.T1', R(17, 3), '17: one hit, no place', length=3)
shear('17-of-an-earlier-hit-before-16', 'X600.Y0T1/' + TWO, R(17, 3), '17: hit by hit, the first has no place, the second would be outside', length=4)
shear('16-of-an-earlier-hit-before-15', 'G72X9989.99Y0/' + TWO + 'T1', R(16, 3), '16: hit by hit, the first, at 999,999, is outside the range, the second past the limit of 15')
shear('2340-hits-across-the-sheet', 'G72X-10.2Y-10.2/G66I1193.4J31.3P1.01T1', E(2340, {1: P(-1003, -951), 1171: P(49961, 30036), 2340: P(100882, 60996)}),
      'w 101, travel 119,239: 2,338.02 steps of 51, so 2,339; cosine 0.854458830, sine 0.519519112; first 16.91 and 69.39 off, last 101901.73 and 62016.33', A224)
shear('2340-hits-and-one-place-fewer', 'G72X-10.2Y-10.2/G66I1193.4J31.3P1.01T1', R(17, 3), '17: 2,339 places', A224, length=9359)
shear('4096-hits-in-two-lines', 'G72X-10.2Y-10.2/G66I1193.4J31.3P1.01T1/G72X0Y0/G66I896.06J31.P1.01', E(4096, {2341: P(17, 69), 4096: P(76738, 46168)}),
      'a second line of 89,606: travel 89,505, exactly 1,755 steps of 51; cosine 0.857167301, sine 0.515038075', A224)
shear('4097-hits-in-two-lines', 'G72X-10.2Y-10.2/G66I1193.4J31.3P1.01T1/G72X0Y0/G66I896.07J31.P1.01', R(17, 5), '17: a hundredth more is a step more, and hit 4,097', A224)
