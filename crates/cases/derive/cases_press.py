"""Moves, patterns, sines, macros, layouts."""
from table import *


def P(x, y, t=1):
    return (x, y, t, 'P')


def N(x, y, t=1):
    return (x, y, t, 'N')


# ---------------------------------------------------------------- moves

case('moves-start-of-a-program', p('X0T1'), all_of(P(0, 60000)),
     'at the start G90 holds, the mode is P, origin (0, 0), and the current point is the G92 point: the omitted Y is 600')
case('moves-g91-from-the-g92-point', p('G91X-100.Y-100.T1'), all_of(P(50000, 50000)), 'under G91 X and Y count from the current point')
case('moves-omitted-axis-stays-on-the-sheet', p('X100.Y100.T1/G93X50.Y50./X100./Y100./G98X20.Y20./X0'),
     all_of(P(10000, 10000), P(15000, 10000), P(15000, 15000), P(7000, 15000)), 'an omitted axis stays; a new origin does not move the current point')
case('moves-g91-with-everything',
     p('X100.Y100.T1/G91X10./Y10./G70X10.Y10./G72X5.Y5./G28I1.J0K2/G72X5./G26I1.J0K2/G29I2.J90.P0K1/G36I1.P1J1.K1/U60/X1.Y1./V60/W60/G93X50.Y50./X1./G90X1.Y1.'),
     all_of(P(10000, 10000), P(11000, 10000), P(11000, 11000), P(12600, 12500), P(12700, 12500), P(13300, 12500), P(13100, 12500),
            P(13200, 12700), P(13300, 12700), P(13300, 12800), P(13200, 12800), P(13300, 12900), P(13400, 12900), P(5100, 5100)),
     'G91 changes how X and Y are read, G72 too; I, J, P and K are offsets anyway; G93 under G91 sets the offset')
case('moves-tool-and-mode-stay', p('X10.Y10.T5/X20./M12/X30./T6X40./M13/M13/X50.'),
     all_of(P(1000, 1000, 5), P(2000, 1000, 5), N(3000, 1000, 5), N(4000, 1000, 6), P(5000, 1000, 6)), 'N between M12 and M13, else P; a tool stays chosen')
case('moves-g93-one-axis-at-a-time', p('G93X10./G93Y20./X0Y0T1/G93X0/X5.Y5.'), all_of(P(1000, 2000), P(500, 2500)), 'an axis that G93 does not name keeps its offset')
case('moves-g93-under-g91-sets', p('G93X10.Y10./X0Y0T1/G91/G93X10.Y10./G90X0Y0'), all_of(P(1000, 1000), P(1000, 1000)), 'G93 is read alike under G90 and G91')
case('moves-g93-stays-under-g98', p('G93X10.Y10./G98X100.Y100./X1.Y1.T1/G93X20./X1.'), all_of(P(11100, 11100), P(12100, 11100)), 'the origin is the G98 reference plus the G93 offset')
case('moves-lone-g90-and-g91', p('X100.Y100.T1/G91/X10./G90/X10.'), all_of(P(10000, 10000), P(11000, 10000), P(1000, 10000)), 'a lone G90 or G91 punches nothing')
case('moves-lone-g90-drops-a-waiting-origin', p('X100.Y100.T1/G72X300.Y300./G90/G28I10.J0K1'), all_of(P(10000, 10000), P(11000, 10000)), 'a lone G90 counts as a position block, which drops a waiting origin')
case('moves-position-drops-a-waiting-origin', p('G72X300.Y300./X100.Y100.T1/G28I10.J0K1'), all_of(P(10000, 10000), P(11000, 10000)), 'a position block drops a waiting origin')
case('moves-g70-makes-no-hit', p('X100.Y100.T1/G70X200./G70Y200.T2/X210.'), all_of(P(10000, 10000), P(21000, 20000, 2)), 'with G70 a position block moves only')

# ---------------------------------------------------------------- G72 with each pattern

case('origin-used-by-each-pattern',
     p('X10.Y10.T1/G72X100.Y100./G28I10.J90.K1/G72X100.Y100./G29I10.J0P90.K2/G72X100.Y100./G26I10.J90.K2/G72X100.Y100./G36I10.P1J10.K1/G72X100.Y100./G37I10.P1J10.K1'),
     all_of(P(1000, 1000), P(10000, 11000), P(11000, 10000), P(10000, 11000), P(10000, 11000), P(10000, 9000),
            P(11000, 10000), P(11000, 11000), P(10000, 11000), P(10000, 11000), P(11000, 11000), P(11000, 10000)), 'a pattern starts at the waiting origin')
case('origin-used-up-by-a-pattern', p('G72X100.Y100./G28I10.J0K1T1/G28I10.J90.K1'), all_of(P(11000, 10000), P(11000, 11000)), 'the next pattern uses it up; the one after starts at the current point')
case('origin-used-by-b', p('G72X100.Y100./A1G28I10.J0K1T1/G72X200.Y200./B1'), all_of(P(11000, 10000), P(21000, 20000)), 'B runs a pattern, which starts at the waiting origin')
case('origin-omitted-axis-is-the-current-points', p('X100.Y100.T1/G93X50.Y50./G72X100./G28I10.J0K1/G72Y200./G28I10.J0K1'),
     all_of(P(10000, 10000), P(16000, 10000), P(17000, 25000)), 'named axes from the origin, an omitted one from the current point')
case('origin-outside-the-range', p('G72X700.Y300./G28I-100.J0K1T1/G72X-500.Y300./G26I600.J0K1'), all_of(P(60000, 30000), P(10000, 30000)), '16 judges hits and ends of G70 moves, not an origin')

# ---------------------------------------------------------------- patterns

case('patterns-ends', p('X100.Y100.T1/G28I10.J0K2/G91Y1./G90X100.Y100./G29I10.J0P90.K2/G91Y1./G90X100.Y100./G26I10.J0K2/G91Y1./G90X100.Y100./G36I10.P1J10.K2/G91Y1./G90X100.Y100./G37I10.P2J10.K1/G91Y1.'),
     E(4 + 4 + 4 + 7 + 7, {4: P(12000, 10100), 8: P(10000, 11100), 12: P(10000, 10100), 19: P(11000, 12100), 26: P(12000, 11100)}),
     'G28 and G29 end at the last hit, G26 at its start, a grid at its last place')
case('patterns-g36-order-even-and-odd', p('X10.Y10.T1/G36I1.P2J2.K2'),
     all_of(P(1000, 1000), P(1100, 1000), P(1200, 1000), P(1200, 1200), P(1100, 1200), P(1000, 1200), P(1000, 1400), P(1100, 1400), P(1200, 1400)),
     'row by row, the first away from the start, the next back')
case('patterns-g37-order-even-and-odd', p('X10.Y10.T1/G37I1.P2J2.K2'),
     all_of(P(1000, 1000), P(1000, 1200), P(1000, 1400), P(1100, 1400), P(1100, 1200), P(1100, 1000), P(1200, 1000), P(1200, 1200), P(1200, 1400)),
     'column by column, the first away from the start, the next back')
case('patterns-grid-with-negative-pitches', p('X100.Y100.T1/G36I-1.P1J-2.K1'), all_of(P(10000, 10000), P(9900, 10000), P(9900, 9800), P(10000, 9800)), 'I and J are lengths with sign')
case('patterns-grid-of-one-row-or-column', p('X10.Y10.T1/G36I1.P2J5.K0/G37I1.P0J5.K2'),
     all_of(P(1000, 1000), P(1100, 1000), P(1200, 1000), P(1200, 1500), P(1200, 2000)), 'P or K 0 is one column or row')
case('patterns-g28-negative-pitch', p('X100.Y100.T1/G28I-10.J0K2/G28I-10.J90.K1'), all_of(P(10000, 10000), P(9000, 10000), P(8000, 10000), P(8000, 9000)), 'distance k x I with the sign of I')
case('patterns-g29-step-backwards-and-past-a-turn', p('G72X100.Y100./G29I10.J90.P-90.K6T1/G72X100.Y100./G29I10.J270.P180.K3'),
     all_of(P(10000, 11000), P(11000, 10000), P(10000, 9000), P(9000, 10000), P(10000, 11000), P(11000, 10000), P(10000, 9000), P(10000, 11000), P(10000, 9000)),
     'angles J, J + P and so on, reduced to a turn')
case('patterns-g26-both-ways-round', p('G72X100.Y100./G26I10.J0K4T1/G72X100.Y100./G26I10.J0K-4T2'),
     all_of(P(11000, 10000), P(10000, 11000), P(9000, 10000), P(10000, 9000), P(11000, 10000, 2), P(10000, 9000, 2), P(9000, 10000, 2), P(10000, 11000, 2)),
     'K negative: the turn is taken off')
case('patterns-g26-seven-holes', p('G72X300.Y300./G26I100.J0K7T1'), E(7, {1: P(40000, 30000), 2: P(36235, 37818), 7: P(36235, 22182)}),
     '36,000 / 7 = 5142.86 is 51.43 degrees: 10,000 x cos = 6234.70, sin = 7818.47; the last is at 308.57, its mirror image')
case('patterns-without-a-tool-word-keep-the-tool', p('X10.Y10.T7/G28I1.J0K1/A1G28I1.J0K1T8/B1/X50.'),
     all_of(P(1000, 1000, 7), P(1100, 1000, 7), P(1200, 1000, 8), P(1300, 1000, 8), P(5000, 1000, 8)), 'a T in a pattern block chooses the tool')
case('patterns-in-mode-n', p('M12/X10.Y10.T1/G28I1.J0K1/G36I1.P1J0K0/M13/G28I1.J0K1'), all_of(N(1000, 1000), N(1100, 1000), N(1200, 1000), P(1300, 1000)), 'patterns are hits in the mode that holds')

# ---------------------------------------------------------------- pattern memory

case('memory-one-of-each-code', p('X100.Y100.T1/A1G26I1.J0K1/A2G28I1.J0K1/A3G29I1.J0P0K1/A4G36I1.P1J0K0/A5G37I0P0J1.K1/B1/B2/B3/B4/B5'),
     all_of(P(10000, 10000), P(10100, 10000), P(10100, 10000), P(10200, 10000), P(10300, 10000), P(10300, 10100),
            P(10400, 10100), P(10400, 10100), P(10500, 10100), P(10600, 10100), P(10600, 10200)), 'A n stores code and numbers, B n runs them from where it stands')
case('memory-stored-again', p('X10.Y10.T1/A1G28I1.J0K1/A1G28I5.J0K1/B1'), all_of(P(1000, 1000), P(1100, 1000), P(1600, 1000), P(2100, 1000)), 'the last A n counts')
case('memory-stored-before-its-hits-of-k0-grid', p('X10.Y10.T1/A1G36I5.P0J5.K0/B1/X20.'), all_of(P(1000, 1000), P(2000, 1000)), 'a grid without a hit is stored too')
case('memory-in-a-body-stays', p('U60/A1G28I1.J0K1/V60/X10.Y10.T1/W60/B1'), all_of(P(1000, 1000), P(1100, 1000), P(1200, 1000)), 'W goes on with the state as it is, memories included')

# ---------------------------------------------------------------- sines

case('sine-quarter-turns', p('X300.Y300.T1/' + '/'.join('G72X300.Y300./G28I100.J%sK1' % j for j in ('0', '90.', '180.', '270.', '360.', '450.', '540.', '-90.', '-180.', '-270.', '-360.'))),
     all_of(P(30000, 30000), P(40000, 30000), P(30000, 40000), P(20000, 30000), P(30000, 20000), P(40000, 30000), P(30000, 40000), P(20000, 30000),
            P(30000, 20000), P(20000, 30000), P(30000, 40000), P(40000, 30000)), 'exact at whole quarters, beyond a turn and below 0')
case('sine-largest-angles', p('G72X300.Y300./G28I100.J9999.99K1T1/G72X300.Y300./G28I100.J-9999.99K1/G72X300.Y300./G28I100.J999999K1'),
     all_of(P(31735, 20152), P(31735, 39848), P(31735, 20152)), '9999.99 - 27 x 360 = 279.99: cos = sin 9.99 = 0.17347630, sin = -cos 9.99 = -0.98483806')
case('sine-thirty-and-sixty', p('G72X300.Y300./G28I100.J30.K1T1/G72X300.Y300./G28I100.J60.K1/G72X300.Y300./G28I100.J150.K1/G72X300.Y300./G28I100.J-30.K1/G72X300.Y300./G28I100.J240.K1'),
     all_of(P(38660, 35000), P(35000, 38660), P(21340, 35000), P(38660, 25000), P(25000, 21340)), 'sin 30 = 0.5, cos 30 = 0.866025404')
case('sine-hundredths', p('G72X0Y0/G28I500.J0.01K1T1/G72X0Y0/G28I500.J0.5K1/G72X0Y0/G28I500.J44.99K1/G72X0Y0/G28I500.J45.01K1/G72X0Y0/G28I500.J89.99K1'),
     all_of(P(50000, 9), P(49998, 436), P(35362, 35349), P(35349, 35362), P(9, 50000)),
     '50,000 x sin 0.01 = 8.73; 0.5: cos 0.99996192, sin 0.00872654; 45 -/+ 0.01: 35355.34 x (1 +/- 0.000174533)')
case('sine-halves-away-from-zero', p('G72X100.Y100./G28I3J30.K1T1/G72X100.Y100./G28I-3J30.K1/G72X100.Y100./G28I3J210.K1/G72X100.Y100./G28I1J-30.K1/G72X100.Y100./G28I5J60.K1/G72X100.Y100./G28I5J120.K1'),
     all_of(P(10003, 10002), P(9997, 9998), P(9997, 9998), P(10001, 9999), P(10003, 10004), P(9997, 10004)),
     '3 x 0.5 = 1.5 is 2, -1.5 is -2 and 2.5 is 3: the offset is rounded, halves away from zero, never the sum')
case('sine-by-the-tables-not-the-true-sine', p('G72X-8000.Y0/G28I8053.44J0.17K1T1/G72X-1500.Y-7000./G28I7329.50J78.14K1/G72X-4000.Y-4000./G28I6231.20J46.21K1'),
     all_of(P(5340, 2389), P(637, 17304), P(31210, 49818)),
     '805,344 x 0.002967055 = 2389.49994, where the true sine gives 2389.5002; 732,950 x 0.978652705 = 717303.50013, the true one 717303.4996 (the sum of the two products is 978652704.92); 623,120 x 0.721881018 = 449818.49994, the true one 449818.5005')
case('sine-sweep-of-the-first-quarter', p('G72X0Y0/G29I600.J0P0.09K999T1'),
     E(999, {1: P(60000, 0), 501: P(42426, 42426), -1: P(188, 60000)}), 'every hundredth occurs; 45 degrees is 60,000 x 0.707106781 = 42426.4, the last is 89.82')
case('sine-sweep-of-a-turn', p('G72X300.Y300./G29I309.99J0P0.36K999T1'),
     E(999, {1: P(60999, 30000), 251: P(30000, 60999), 501: P(-999, 30000), 751: P(30000, -999), 126: P(51920, 51920), 626: P(8080, 8080)}),
     'a thousandth of a turn each; at 45 degrees 30,999 x 0.707106781 = 21919.6')



def table_text():
    """Two lines for each entry of the three tables: one that lands elsewhere with the entry one higher, one with it one lower.

    The entries come from the true sine and pi in fifty digits here, so this is a second way to them. S(d) is the sine
    at d degrees, s(h) the sine at h hundredths, and c(h) is asked at 89 degrees and h hundredths."""
    from decimal import Decimal as D, getcontext
    getcontext().prec = 50
    pi = D('3.14159265358979323846264338327950288419716939937511')

    def true(x, odd):
        term = x if odd else D(1)
        total, n = D(0), 1 if odd else 0
        while abs(term) > D(10) ** -45:
            total += term
            term = -term * x * x / ((n + 1) * (n + 2))
            n += 2
        return total

    def entry(x, odd):
        return int((true(x, odd) * 10**9).to_integral_value())

    big = [entry(d * pi / 180, True) for d in range(91)]
    small = [entry(h * pi / 18000, True) for h in range(100)]
    small_c = [entry(h * pi / 18000, False) for h in range(100)]

    def rounded(n):
        return (n + 500000000) // 1000000000

    def sine_of(a, plus=(0, 0, 0)):
        d, h = divmod(a, 100)
        return rounded((big[d] + plus[0]) * (small_c[h] + plus[2]) + big[90 - d] * (small[h] + plus[1]))

    wanted = [(100 * d, (1, 0, 0)) for d in range(1, 91)] + [(h, (0, 1, 0)) for h in range(1, 100)] + [(8900 + h, (0, 0, 1)) for h in range(1, 100)]
    lines, hits = [], []
    for a, plus in wanted:
        here = sine_of(a)
        for sign in (1, -1):
            other = sine_of(a, tuple(sign * q for q in plus))
            assert other != here, (a, plus)
            i = 999999
            while i > 900000 and rounded(i * other) == rounded(i * here):
                i -= 1
            if i == 900000:
                continue
            x, y = rounded(i * sine_of(9000 - a)), rounded(i * here)
            left, down = x // 100 - 300, y // 100 - 300
            lines.append('G72X%d.Y%d.' % (-left, -down))
            lines.append('G28I%dJ%dK1' % (i, a))
            hits.append((x - 100 * left, y - 100 * down, 1, 'P'))
    return '/'.join(lines), hits


_lines, _hits = table_text()
case('sine-every-table-entry-to-the-last-digit', p('X0Y0T1/' + _lines), all_of(P(0, 0), *_hits),
     'two lines for nearly each entry: with the entry one higher the first, with it one lower the second would land a hundredth away (0.5 and 1 show only one of the two)')

# ---------------------------------------------------------------- macros

case('macros-state-goes-in-and-comes-back', p('X100.Y100.T1/G91/M12/G72X10.Y10./U60/G28I1.J0K1T9/A1G28I2.J0K1/M13/V60/W60/X1./B1'),
     all_of(P(10000, 10000), N(11100, 11000, 9), N(11300, 11000, 9), P(11400, 11000, 9), P(11600, 11000, 9)),
     'W goes on with the state as it is: G91, mode, waiting origin, tool and memory; and the caller goes on with the body\'s')
case('macros-first-run-then-stored', p('U1/X10.Y10.T1/V1/W1/U60/X20./V60/W60/W60'),
     all_of(P(1000, 1000), P(1000, 1000), P(2000, 1000), P(2000, 1000)), '1 to 59 run once, then store; 60 to 89 only store')
case('macros-stored-only-under-g98', p('G98X0Y0/U1/X10.Y10.T1/V1/W1'), all_of(P(1000, 1000)), 'while G98 is in force 1 to 59 only store')
case('macros-stored-again', p('U60/X10.Y10.T1/V60/U60/X20.Y20.T2/V60/W60'), all_of(P(2000, 2000, 2)), 'storing again replaces the body')
case('macros-old-body-called-by-the-new-one', p('U5/X10.Y10.T1/V5/U5/X20./W5/V5/W5'), R(11, 7),
     'the second U5 runs X20. and then the old body; once stored its W5 calls itself')
case('macros-number-with-leading-zeros', p('U007/X10.Y10.T1/V07/W7'), all_of(P(1000, 1000), P(1000, 1000)), 'U007, V07 and W7 are one number')
case('macros-body-never-run-is-not-judged', p('U60/X/G99/T0/W90/G50/V60/X10.Y10.T1'), all_of(P(1000, 1000)), 'blocks are judged as they are carried out')
case('macros-calls-side-by-side', p('U60/X10.Y10.T1/V60/U61/W60/W60/V61/U62/W61/W60/W61/V62/U63/W62/W62/V63/W63/W63'), E(20), 'calls that have ended are no longer open: 2 x 2 x 5 hits')

case('macros-spaces-before-u-and-v', b' G92X600.Y600.\n  U 6 0\nX10.Y10.T1\n   V6 0 \n W 60\nG50', all_of(P(1000, 1000)), 'a U or V line has that letter as its first byte but spaces')

# ---------------------------------------------------------------- layouts


def places(text, t=1):
    return [P(int(q[0]) * 10000, int(q[1]) * 10000, t) for q in text.split()]


WAYS = {
    (75, 1): '11 21 31 32 22 12', (75, 2): '31 21 11 12 22 32', (75, 3): '12 22 32 31 21 11', (75, 4): '32 22 12 11 21 31',
    (76, 1): '11 12 22 21 31 32', (76, 2): '31 32 22 21 11 12', (76, 3): '12 11 21 22 32 31', (76, 4): '32 31 21 22 12 11',
}
for code in (75, 76):
    case('layouts-g%d-all-corners-three-by-two' % code, p('G98X100.Y100.I100.J100.P2K1/U1/X0Y0T1/V1/' + '/'.join('G%dW1Q%d' % (code, q) for q in (1, 2, 3, 4))),
         all_of(*places('  '.join(WAYS[code, q] for q in (1, 2, 3, 4)))),
         'Q 1 lower left, 2 lower right, 3 upper left, 4 upper right; ' + ('along X, turning back in the next row' if code == 75 else 'along Y, turning back in the next column'))
case('layouts-g75-all-corners-two-by-three', p('G98X100.Y100.I100.J100.P1K2/U1/X0Y0T1/V1/G75W1Q1/G75W1Q2/G75W1Q3/G75W1Q4'),
     all_of(*places('11 21 22 12 13 23  21 11 12 22 23 13  13 23 22 12 11 21  23 13 12 22 21 11')), 'an odd number of rows ends on the other side')
case('layouts-g76-all-corners-two-by-three', p('G98X100.Y100.I100.J100.P1K2/U1/X0Y0T1/V1/G76W1Q1/G76W1Q2/G76W1Q3/G76W1Q4'),
     all_of(*places('11 12 13 23 22 21  21 22 23 13 12 11  13 12 11 21 22 23  23 22 21 11 12 13')), 'an even number of columns ends on the same side')
case('layouts-three-by-three', p('G98X100.Y100.I100.J100.P2K2/U1/X0Y0T1/V1/G75W1Q1/G76W1Q1'),
     all_of(*places('11 21 31 32 22 12 13 23 33  11 12 13 23 22 21 31 32 33')), 'rows and columns in odd number')
case('layouts-spacing-d', p('G98X10.Y20.I100.J50.P1K1D5./U1/X1.Y1.T1/V1/G75W1Q1'), all_of(P(1100, 2100), P(11600, 2100), P(11600, 7600), P(1100, 7600)), 'pitches are I + D and J + D')
case('layouts-spacing-d-alone', p('G98X10.Y20.P1K1D5./U1/X1.Y1.T1/V1/G76W1Q1'), all_of(P(1100, 2100), P(1100, 2600), P(1600, 2600), P(1600, 2100)), 'I and J absent are 0, the pitches are D')
case('layouts-p0-k0', p('G98X10.Y20.I100.J50.D5./U1/X1.Y1.T1/V1/G75W1Q4/G76W1Q4'), all_of(P(1100, 2100), P(1100, 2100)), 'P and K absent: one place, at the origin for every Q')
case('layouts-single-row', p('G98X10.Y10.I100.J70.P2K0/U1/X0Y0T1/V1/G75W1Q2/G76W1Q2/G76W1Q3'),
     all_of(*[P(x, 1000) for x in (21000, 11000, 1000, 21000, 11000, 1000, 1000, 11000, 21000)]), 'in a single row G75 and G76 are alike')
case('layouts-single-column', p('G98X10.Y10.I100.J70.P0K2/U1/X0Y0T1/V1/G75W1Q3/G76W1Q3/G75W1Q2'),
     all_of(*[P(1000, y) for y in (15000, 8000, 1000, 15000, 8000, 1000, 1000, 8000, 15000)]), 'in a single column G75 and G76 are alike')
case('layouts-both-pitches-zero', p('G98X10.Y10.P1K1/U1/X1.Y0T1/V1/G75W1Q1/G76W1Q4'), E(8, {1: P(1100, 1000), -1: P(1100, 1000)}), 'every copy falls on one place')
case('layouts-one-pitch-zero', p('G98X100.Y100.I100.J0P1K1/U1/X0Y0T1/V1/G75W1Q1/G76W1Q1'), all_of(*places('11 21 21 11  11 11 21 21')), 'with one pitch zero the orders still differ')
case('layouts-offset-counts', p('G93X5.Y7./G98X100.Y100.I100.P1/U1/X0Y0T1/V1/G75W1Q1/G93X10./G75W1Q1'),
     all_of(P(10500, 10700), P(20500, 10700), P(11000, 10700), P(21000, 10700)), 'the lower left place is at the origin, so the G93 offset counts')
case('layouts-reference-moved', p('G98X100.Y100.I50.J50.P1K1/U1/X1.Y2.T1/G91X5./V1/G75W1Q4/G98X137.Y89.I50.J50.P1K1/G90/G75W1Q4'),
     E(16, {1: P(15100, 15200), 8: P(15600, 10200), 9: P(18800, 14100), 16: P(19300, 9100)}), 'the reference moved by (37, -11) moves every hit by it')
case('layouts-part-with-w-and-patterns', p('G98X100.Y100.I100.P1/U60/G28I10.J0K2/V60/U61/X1.Y1.T1/W60/G72X0Y0/G26I10.J0K2/V61/G75W61Q1'),
     all_of(P(10100, 10100), P(11100, 10100), P(12100, 10100), P(11000, 10000), P(9000, 10000),
            P(20100, 10100), P(21100, 10100), P(22100, 10100), P(21000, 10000), P(19000, 10000)), 'the copy\'s origin holds in the bodies that it calls')
case('layouts-current-point-is-the-place', p('X10.Y10.T1/G98X100.Y100.I100.P1/U1/G28I10.J0K1/X5./V1/G75W1Q1'),
     all_of(P(1000, 1000), P(11000, 10000), P(10500, 10000), P(21000, 10000), P(20500, 10000)), 'each copy starts with its current point at its place')
case('layouts-each-copy-from-the-found-state', p('X10.Y10.T1/A1G28I1.J0K1/G98X100.Y100.I100.P1/U1/X0Y0/B1/M12/A1G28I2.J0K1T5/G91Y1./V1/G75W1Q1/X1./B1'),
     all_of(P(1000, 1000), P(1100, 1000), P(10000, 10000), P(10100, 10000), N(10300, 10000, 5), N(10300, 10100, 5),
            P(20000, 10000), P(20100, 10000), N(20300, 10000, 5), N(20300, 10100, 5), N(20400, 10100, 5), N(20600, 10100, 5)),
     'tool, mode, G90 and memories are the caller\'s in every copy; afterwards they are the last copy\'s')
case('layouts-found-g91-holds-in-every-copy', p('G98X100.Y100.I100.P1/U1/X1.Y1.T1/G90X0/V1/G91/G75W1Q1/X5.'),
     all_of(P(10100, 10100), P(10000, 10100), P(20100, 10100), P(20000, 10100), P(10500, 10100)),
     'the second copy begins under G91 again; after the run G90 holds and the origin is the ordinary one')
case('layouts-no-origin-waits-in-a-copy', p('G98X100.Y100.I100.P1/U1/G28I1.J0K1T1/V1/G72X300.Y300./G75W1Q1/G28I1.J0K1'),
     all_of(P(10100, 10000), P(20100, 10000), P(20200, 10000)), 'no pattern origin waits in a copy, nor after the run')
case('layouts-part-stored-before-g98', p('U1/X1.Y1.T1/V1/G98X100.Y100.I100.P1/G75W1Q1'), all_of(P(100, 100), P(10100, 10100), P(20100, 10100)), 'before G98 the part runs once at (0, 0)')
case('layouts-part-stays-over-a-second-g98', p('G98X100.Y100./U1/X1.Y1.T1/V1/G75W1Q1/G98X200.Y200./G75W1Q1'), all_of(P(10100, 10100), P(20100, 20100)), 'stored bodies stay')
case('layouts-places-outside-the-range', p('G98X700.Y100.I100.P1/U1/X-200.Y0T1/V1/G75W1Q1'), all_of(P(50000, 10000), P(60000, 10000)), 'a place is judged by 15 alone')
case('layouts-farthest-place', p('G98X0Y0I100.P99D1.01/U60/V60/G75W60Q1/G76W60Q2/X1.Y1.T1'), all_of(P(100, 100)), '99 x 10,101 = 999,999 does not pass the limit of 15')
case('layouts-fifty-runs-of-ten-thousand-copies-of-nothing', p('G98X0Y0I1J1P99K99/U60/V60/' + '/'.join(['G75W60Q4'] * 50) + '/G91X0Y1T1'), all_of(P(99, 1)),
     'copies of nothing count no block; Q 4 begins upper right and ends after a hundred rows at the lower right place')
case('layouts-ten-thousand-copies-of-blank-lines', p('G98X0Y0I1J1P99K99/U60' + '/' * 3001 + 'V60/G76W60Q1/G91X0Y1T1'), all_of(P(99, 1)),
     'blank lines count no block; a hundred columns end at the lower right place')
