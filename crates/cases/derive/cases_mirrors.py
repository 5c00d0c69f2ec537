"""Left and right handed racks, G73: document 02, section 5."""
from table import *


def P(x, y, t=1):
    return (x, y, t, 'P')


def N(x, y, t=1):
    return (x, y, t, 'N')


def mirrors(name, body, answer, reason, length=16384, head=A222, setting=1):
    """A program of this group."""
    case('mirrors-' + name, p(body, head), answer, reason, length, setting)


# Macro 60 with two hits, at (10, 20) and (30, 25), and where G73 with X100. and Y200. brings them by each Q.
PAIR = 'U60/G90X10.Y20.T1/X30.Y25./V60/'
BY_Q = {1: [P(1000, 2000), P(3000, 2500)], 2: [P(9000, 2000), P(7000, 2500)], 3: [P(1000, 18000), P(3000, 17500)], 4: [P(9000, 18000), P(7000, 17500)]}
ALL_Q = 'G73X100.Y200.Q1W60/G73Q2W60/G73Q3W60/G73Q4W60'

# ---------------------------------------------------------------- Q

mirrors('all-four', PAIR + ALL_Q, all_of(*BY_Q[1] + BY_Q[2] + BY_Q[3] + BY_Q[4]), 'one macro by each Q; later ones repeat the X and Y of the first')
mirrors('words-in-any-order', PAIR + 'N9999W60 Q2 Y200.G073X0100./ Q 04 G 7 3 W 6 0', all_of(*BY_Q[2] + BY_Q[4]), 'N in front, the others in any order, spaces anywhere; leading zeros have no effect')
mirrors('at-the-origin', 'G93X100.Y100./U60/X10.Y20.T1/V60/G73X0Y0Q2W60/G73Q3W60/G73Q4W60', all_of(P(9000, 12000), P(11000, 8000), P(9000, 8000)), 'X0 and Y0 turn 10 into -10 and 20 into -20')
mirrors('negative-letters', 'G93X50.Y50./U60/X1.Y2.T1/V60/G73X-5.Y-10.Q4W60', all_of(P(4400, 3800)), 'X and Y have any sign: -5 less 1 and -10 less 2')
mirrors('axis-between-two-hundredths', 'U60/X0.02Y0T1/X0.03/V60/G73X0.05Y0Q2W60', all_of(P(3, 0), P(2, 0)), 'the axis is at 2.5 hundredths; nothing is halved, so nothing is rounded')
mirrors('both-hands-on-one-sheet', PAIR + 'G93X50.Y100./G73X100.Y0Q1W60/G93X300./G73Q2W60', all_of(P(6000, 12000), P(8000, 12500), P(39000, 12000), P(37000, 12500)),
        'a right hand and a left hand one, each from its own offset')

# ---------------------------------------------------------------- the frame

mirrors('from-reference-and-offset', 'G93X5.Y6./G98X100.Y200./U60/X10.Y20.T1/V60/G73X50.Y60.Q4W60', all_of(P(14500, 24600)), 'the origin is (105, 206), from which the hit lies at (40, 40)')
mirrors('offset-changed-in-between', 'U60/X10.Y20.T1/V60/G73X50.Y60.Q4W60/G93X100./G73Q4W60/G98X0Y200./G73Q4W60', all_of(P(4000, 4000), P(14000, 4000), P(14000, 24000)),
        'the origin is the one at the G73; the letters given stay over G93 and G98')
mirrors('after-copies', 'G98X10.Y10.I100.P1/U60/X1.Y2.T1/V60/G75W60Q1/G73X50.Y50.Q2W60', all_of(P(1100, 1200), P(11100, 1200), P(5900, 1200)), 'after a run the origin is the ordinary one')
mirrors('of-an-empty-macro', 'U60/V60/G73X1.Y1.Q4W60/G91X1.T1', all_of(P(100, 0)), 'nothing to mirror; the current point is the origin')

# ---------------------------------------------------------------- positions in the macro

mirrors('g91-in-the-macro', 'U60/X10.Y20.T1/G91X5./Y5./V60/G73X100.Y200.Q4W60', all_of(P(9000, 18000), P(8500, 18000), P(8500, 17500)),
        'G91 counts from the point as written: (10, 20), (15, 20), (15, 25), and then all are mirrored')
mirrors('g91-found', 'G91/U60/X10.Y20.T1/X5./V60/G73X100.Y200.Q2W60/X1./X1.', all_of(P(9000, 2000), P(8500, 2000), P(100, 0), P(200, 0)),
        'a lone G91 before it holds in the macro, from the origin, and not for X and Y of G73; afterwards it still holds')
mirrors('omitted-axes', 'G93X100.Y50./U60/X10.T1/Y20./V60/G73X100.Y200.Q4W60', all_of(P(19000, 25000), P(19000, 23000)),
        'an omitted axis is the current point\'s as written: at first the origin\'s, then 10')
mirrors('g70', 'U60/G70X10.Y20.T3/G91X5./V60/G73X100.Y200.Q2W60', all_of(P(8500, 2000, 3)), 'G70 ends at (10, 20) as written, and the hit is 5 further')
mirrors('g72', 'U60/X1.Y1.T1/G72X10.Y20./G91X2./G90G72X10.Y20./G28I5.J0K2/V60/G73X100.Y200.Q2W60', all_of(P(9900, 100), P(9700, 100), P(8500, 2000), P(8000, 2000)),
        'a waiting origin is as written, and so is what is measured from the current point beside it')
mirrors('nibbled', 'U60/M12/X10.Y20.T1/M13/X20./V60/G73X100.Y0Q2W60', all_of(N(9000, 2000), P(8000, 2000)), 'a mirror leaves the mode')

# ---------------------------------------------------------------- patterns in the macro


def turned(points, q, a=10000, b=20000):
    """Each X into a - X by Q2 and Q4, each Y into b - Y by Q3 and Q4."""
    return [P(a - x if q in (2, 4) else x, b - y if q in (3, 4) else y) for x, y in points]


def pattern(name, block, points, reason):
    """A pattern from (20, 30), whose points as written are given, by Q2, Q3 and Q4."""
    mirrors(name, 'U60/G72X20.Y30./%sT1/V60/G73X100.Y200.Q2W60/G73Q3W60/G73Q4W60' % block, all_of(*turned(points, 2) + turned(points, 3) + turned(points, 4)), reason)


pattern('g26', 'G26I10.J0K4', [(3000, 3000), (2000, 4000), (1000, 3000), (2000, 2000)], 'Q2 and Q3 go round clockwise, Q4 against the clock')
pattern('g28', 'G28I10.J30.K2', [(2866, 3500), (3732, 4000)], '10 and 20 mm at 30 degrees: 866, 500 and 1732, 1000')
pattern('g29', 'G29I10.J30.P30.K2', [(2866, 3500), (2500, 3866)], '30 and 60 degrees: 866, 500 and 500, 866')
pattern('g36', 'G36I5.P2J4.K1', [(2500, 3000), (3000, 3000), (3000, 3400), (2500, 3400), (2000, 3400)], 'row by row; the start, (20, 30), is not punched and neither is its mirror')
pattern('g37', 'G37I5.P2J4.K1', [(2000, 3400), (2500, 3400), (2500, 3000), (3000, 3000), (3000, 3400)], 'column by column')
pattern('g66', 'G66I30.J0P20.Q10.', [(3000, 3500), (4000, 3500)], 'centres 10 and 20 along, 5 to the left; a mirror turns the left of the line into its right')
mirrors('ends-of-patterns', 'U60/X10.Y20.T1/G28I5.J0K2/G91Y3./G36I2.P1J1.K1/X1./G26I1.J0K1/Y5./V60/G73X100.Y200.Q4W60',
        all_of(*turned([(1000, 2000), (1500, 2000), (2000, 2000), (2000, 2300), (2200, 2300), (2200, 2400), (2000, 2400), (2100, 2400), (2200, 2400), (2100, 2900)], 4)),
        'a pattern ends at its last point as written, a circle at its start, and G91 counts from there')
mirrors('memory-run-in-the-macro', 'X1.Y1.T1/A1G28I5.J0K2/U60/G72X20.Y30./B1/V60/G73X100.Y200.Q4W60', all_of(P(100, 100), P(600, 100), P(1100, 100), P(7500, 17000), P(7000, 17000)),
        'B is mirrored as its pattern is')

# ---------------------------------------------------------------- rounding: points are expanded first and mirrored after

mirrors('line-of-halves', 'U60/G28I0.05J30.K1T1/V60/G73X0Y0.1Q3W60', all_of(P(4, 7)), '5 hundredths at 30 degrees are 2.5 up, so 3, and 10 less 3; the half carried on would give 7.5, so 8')
mirrors('line-of-halves-below-zero', 'U60/G28I0.05J120.K1T1/V60/G73X-0.1Y0Q2W60', all_of(P(-7, 4)), '-2.5 is -3, and -10 less -3; the half carried on would give -7.5, so -8')
mirrors('arc-of-halves', 'U60/G29I0.05J60.P60.K2T1/V60/G73X0.1Y0Q2W60', all_of(P(7, 4), P(13, 4)), '2.5 is 3 and -2.5 is -3; the halves carried on would give 8 and 13')
mirrors('circle-of-halves', 'U60/G26I0.05J0K6T1/V60/G73X0.1Y0.1Q4W60', all_of(P(5, 10), P(7, 6), P(13, 6), P(15, 10), P(13, 14), P(7, 14)), 'offsets 5, 3, -3, -5, -3, 3 from the centre')
mirrors('long-edge-of-halves', 'U60/G66I2.J0P1.01T1/V60/G73X4.Y4.Q4W60', all_of(P(349, 349), P(300, 349), P(250, 349)),
        'along 50.5, 100 and 149.5, across 50.5: rounded to 51, 100, 150 and 51, then taken from 400')

# ---------------------------------------------------------------- a mirror within a mirror

mirrors('inside-out-in-x', 'U60/X20.Y0T1/V60/U61/G73X7.Q2W60/V61/G73X10.Y0Q2W61', all_of(P(2300, 0)), 'the inner one first: 7 less 20 is -13, 10 less that is 23; outside in it would be 7 - (10 - 20), 17')
mirrors('inside-out-by-q4', 'G93X100.Y100./U60/X1.Y2.T1/V60/U61/G73X10.Y20.Q4W60/V61/G73X50.Y70.Q4W61', all_of(P(14100, 15200)), '50 - (10 - 1) and 70 - (20 - 2) from the origin')
mirrors('each-axis-by-its-own-mirrors', 'U60/X1.Y2.T1/V60/U61/G73X10.Y20.Q4W60/V61/G73X50.Y60.Q2W61', all_of(P(4100, 1800)), 'inner Q4: (9, 18); outer Q2 turns X alone')
mirrors('four-deep', 'U60/X5.Y0T1/V60/U61/G73X10.Q2W60/V61/U62/G73X25.Q2W61/V62/U63/G73X45.Q2W62/V63/G73X70.Y0Q2W63', all_of(P(4500, 0)),
        '10 - 5, 25 - 5, 45 - 20, 70 - 25, so 45')
mirrors('twice-by-one-q', PAIR + 'U61/G73Q1W60/V61/U62/G73Q2W60/V62/U63/G73Q3W60/V63/U64/G73Q4W60/V64/G73X100.Y200.Q1W61/G73Q2W62/G73Q3W63/G73Q4W64', all_of(*BY_Q[1] * 4),
        'with one X and Y, twice by one Q gives the macro\'s own hits again')
mirrors('q2-then-q3-is-q4', PAIR + 'U62/G73Q2W60/V62/U63/G73Q3W60/V63/G73X100.Y200.Q3W62/G73Q2W63/G73Q4W60', all_of(*BY_Q[4] * 3), 'Q2 within Q3, Q3 within Q2, and Q4')
mirrors('q4-and-one-of-its-halves', PAIR + 'U62/G73Q2W60/V62/U64/G73Q4W60/V64/G73X100.Y200.Q4W62/G73Q2W64/G73Q3W64', all_of(*BY_Q[3] * 2 + BY_Q[2]), 'Q4 with Q2 leaves Q3, and with Q3 Q2')
mirrors('q1-with-another', PAIR + 'U61/G73Q1W60/V61/U62/G73Q2W60/V62/G73X100.Y200.Q2W61/G73Q1W62', all_of(*BY_Q[2] * 2), 'Q1 turns nothing, outside and inside')
mirrors('outer-one-keeps-its-letters', 'U60/X1.Y0T1/V60/U61/X1.Y0T1/G73X30.Q2W60/X2./V61/G73X50.Y0Q2W61', all_of(P(4900, 0), P(2100, 0), P(4800, 0)),
        '50 - 1, 50 - (30 - 1), and again by 50 alone: what an inner one gives does not move the outer axis')
mirrors('w-in-a-mirror', 'U60/X1.Y0T1/V60/U61/W60/X2./V61/U62/W61/V62/G73X10.Y0Q2W62/W60', all_of(P(900, 0), P(800, 0), P(100, 0)), 'what W runs in a mirrored macro is mirrored, and not afterwards')
mirrors('mirror-in-w', 'U60/X1.Y0T1/V60/U61/X2.Y0T1/G73X10.Y0Q2W60/X3./V61/W61', all_of(P(200, 0), P(900, 0), P(300, 0)), 'in a macro that W runs, G73 mirrors its own macro alone')

# ---------------------------------------------------------------- letters left out

mirrors('letters-one-by-one', 'U60/X10.Y20.T1/V60/G73X100.Y200.Q4W60/G73X50.Q4W60/G73Y60.Q4W60/G73Q4W60', all_of(P(9000, 18000), P(4000, 18000), P(4000, 4000), P(4000, 4000)),
        'each letter repeats the last one given for it, X50. with Y200. and then with Y60.')
mirrors('letters-of-zero-are-given', 'G93X50.Y50./U60/X10.Y20.T1/V60/G73X0Y-0Q1W60/G73Q4W60', all_of(P(6000, 7000), P(4000, 3000)), 'X0 and Y-0 are given')
mirrors('letters-stay-over-other-blocks', 'U60/X10.Y20.T1/V60/G73X50.Y60.Q1W60/X1.Y1./G72X5.Y5./G70X2.Y2./M00/G91/G90/G93X100.Y100./G73Q4W60', all_of(P(1000, 2000), P(100, 100), STOP, P(14000, 14000)),
        'X and Y of other blocks are not a G73\'s')
mirrors('letters-of-the-outer-one', 'U60/X1.Y0T1/V60/U61/G73Q2W60/G73X7.Q1W60/V61/G73X5.Y5.Q1W61/G73Q2W60', all_of(P(400, 0), P(100, 0), P(600, 0)),
        'the outer one has given X5. when its macro begins; X7., which the inner one gives, stays after both')
mirrors('letters-of-a-macro-run-by-w', PAIR + 'U61/G73X100.Q1W60/V61/U62/G73X1.Y200.Q1W60/V62/W62/W61/G73Q4W60', all_of(*BY_Q[1] * 2 + BY_Q[4]), 'the last ones in the order of carrying out: Y200. of 62, X100. of 61')
mirrors('letters-of-a-first-run', PAIR + 'U1/G73X100.Y200.Q2W60/V1/G73Q3W60/W1', all_of(*BY_Q[2] + BY_Q[3] + BY_Q[2]), 'a first run gives its letters; W1 is mirrored by its own')
mirrors('letters-of-a-body-only-stored', 'U60/V60/U61/G73X1.Y1.Q1W60/V61/G73Q1W60', R(5, 7), '5: a body that is not run gives no letters')
mirrors('letters-in-the-order-of-carrying-out', 'U60/X1.Y0T1/V60/U61/G73Q2W60/V61/G73X5.Y0Q1W60/W61/G73X9.Q1W60/W61', all_of(P(100, 0), P(400, 0), P(100, 0), P(800, 0)),
        'one block of a body, with X5. and then with X9.')
COPIES = 'U60/X0Y0T1/V60/G73X5.Y0Q1W60/G98X0Y0I100.P1/U61/G73Q2W60/G73X9.Q2W60/V61/'
mirrors('letters-in-copies-by-g75', COPIES + 'G75W61Q1/G73Q2W60', all_of(P(0, 0), P(500, 0), P(900, 0), P(10500, 0), P(10900, 0), P(900, 0)),
        'each copy begins with X5., which the calling block found; after the run X9. of the last copy stays')
mirrors('letters-in-copies-by-g76', COPIES + 'G76W61Q2/G73Q2W60', all_of(P(0, 0), P(10500, 0), P(10900, 0), P(500, 0), P(900, 0), P(900, 0)), 'the same from the right')
mirrors('letters-given-by-a-copy-alone', 'U60/X1.Y0T1/V60/G98X0Y0I100.P1/U61/G73X9.Y1.Q1W60/V61/G75W61Q1/G73Q2W60', all_of(P(100, 0), P(10100, 0), P(800, 0)), 'none before the run; the last copy\'s stay')

# ---------------------------------------------------------------- before and after

mirrors('current-point-before', 'X300.Y300.T1/U60/G91X1./V60/G73X0Y0Q1W60', all_of(P(30000, 30000), P(100, 0)), 'the macro begins at the origin')
mirrors('current-point-after', 'G93X100.Y50./U60/X10.Y20.T1/V60/G73X60.Y0Q2W60/G91X1./G90/G73Q2W60/Y3.', all_of(P(15000, 7000), P(10100, 5000), P(15000, 7000), P(10000, 5300)),
        'afterwards the current point is the origin: 1 further by G91, and its X for the omitted one')
mirrors('current-point-after-an-inner-one', 'G93X100.Y50./U60/X10.Y20.T1/V60/U61/X5.Y5./G73X60.Q2W60/G91X1./V61/X0Y0T1/G73X80.Y0Q2W61', all_of(P(10000, 5000), P(17500, 5500), P(13000, 7000), P(17900, 5000)),
        'in the outer macro too: 1 further than the origin as written, mirrored 80 less 1')
mirrors('origin-waits-before', 'X10.Y10.T1/G72X300.Y300./U60/G28I10.J0K1/V60/G73X0Y0Q1W60', all_of(P(1000, 1000), P(1000, 0)), 'no origin waits in the macro: its line starts at the origin')
mirrors('origin-left-by-the-macro', 'U60/X10.Y20.T1/G72X300.Y300./V60/G73X50.Y0Q2W60/G28I10.J0K1', all_of(P(4000, 2000), P(1000, 0)), 'the macro\'s origin waits no more')
mirrors('origin-waits-over-w-in-a-mirror', 'U60/G28I10.J0K1T1/V60/U61/G72X20.Y20./W60/V61/G73X100.Y0Q2W61', all_of(P(7000, 2000)), 'W leaves it, in a mirrored macro too')
mirrors('origin-dropped-by-an-inner-one', 'U60/V60/U61/G72X20.Y20./G73Q1W60/G28I10.J0K1T1/V61/G73X100.Y0Q2W61', all_of(P(9000, 0)), 'the line starts at the origin, and its hit at 10 is mirrored')
mirrors('origin-outside-the-range', 'G98X700.Y0/U60/X-100.Y0T1/V60/G73X0Y0Q1W60/G73X-250.Q2W60', all_of(P(60000, 0), P(55000, 0)), 'the origin is the current point, which 16 does not look at')
mirrors('leaves-tool-mode-and-g91', 'U60/G91X1.T5/M12/V60/X1.Y1.T2/G73X9.Y9.Q1W60/X1./X1.', all_of(P(100, 100, 2), P(100, 0, 5), N(100, 0, 5), N(200, 0, 5)),
        'tool, mode and reading are as the macro leaves them: 1 from the origin, and 1 from there')
mirrors('leaves-g90', 'G91/U60/G90X3.Y4.T1/V60/G73X10.Y0Q2W60/X5./X6.', all_of(P(700, 400), P(500, 0), P(600, 0)), 'G90 stays, and X6. is measured from the origin')
mirrors('leaves-memories', 'U60/A1G28I10.J90.K1T1/V60/G73X30.Y40.Q4W60/X5.Y5./B1', all_of(P(3000, 3000), P(500, 500), P(500, 1500)), 'a pattern stored in a mirrored macro is stored unmirrored')
mirrors('two-tools', 'U60/X10.Y20.T4/X30.T7/V60/X1.Y1.T4/G73X100.Y0Q2W60/M00/G73Q1W60',
        all_of(P(100, 100, 4), P(9000, 2000, 4), P(7000, 2000, 7), STOP, P(1000, 2000, 4), P(3000, 2000, 7), tools={4: (3, 1, 5), 7: (2, 3, 6)}), 'mirrored hits count for their tools')

# ---------------------------------------------------------------- stops

mirrors('stops-stay', 'U60/M00/X10.Y20.T1/M01/X30./V60/G73X100.Y200.Q4W60/M00', all_of(STOP, P(9000, 18000), OPTIONAL, P(7000, 18000), STOP), 'a stop has no place to mirror: its X and Y are zero')
mirrors('stops-alone', 'U60/M00/M01/V60/G73X9999.99Y-9999.99Q4W60', all_of(STOP, OPTIONAL), '15 and 16 do not look at a stop')

# ---------------------------------------------------------------- first runs and parts

mirrors('in-a-first-run', PAIR + 'U1/' + ALL_Q + '/V1', all_of(*BY_Q[1] + BY_Q[2] + BY_Q[3] + BY_Q[4]), 'macro 1 runs where it is stored')

# Two by two places from (105, 110), 100 and 50 apart: a lower left, b lower right, c upper right, d upper left. The part has a
# right hand hit and a left hand one, a stop and a hit between both.
PART = 'U60/G90X10.Y5.T1/V60/U61/G73X40.Y30.Q1W60/M00/G91X2.Y3./G73Q2W60/V61/'
TWO_BY_TWO = 'G93X5.Y10./G98X100.Y100.I100.J50.P1K1/'
PLACE = {'a': (10500, 11000), 'b': (20500, 11000), 'c': (20500, 16000), 'd': (10500, 16000)}


def over(ways):
    """The entries of the part at each place in turn."""
    return [e for x, y in map(PLACE.get, ways) for e in (P(x + 1000, y + 500), STOP, P(x + 200, y + 300), P(x + 3000, y + 500))]


for code, q, ways in ((75, 4, 'cdab'), (76, 2, 'bcda')):
    mirrors('part-by-g%d-q%d' % (code, q), TWO_BY_TWO + PART + 'G%dW61Q%d' % (code, q), all_of(*over(ways)), 'in each copy the frame is that of its place; stops stay as they are')
mirrors('part-of-mirrors-in-mirrors', 'G98X100.Y100.I100.P1/U60/X20.Y1.T1/V60/U61/G73X7.Q2W60/V61/U62/G73X10.Y0Q2W61/V62/G76W62Q1', all_of(P(12300, 10100), P(22300, 10100)),
        'G76, two G73 and their macro: 10 - (7 - 20) from each place')
mirrors('part-moved', 'U60/G28I10.J30.K1T1/V60/G98X100.Y100.I50.P1/U61/G73X30.Y40.Q4W60/V61/G75W61Q1/G98X137.Y89.I50.P1/G75W61Q1', all_of(P(12134, 13500), P(17134, 13500), P(15834, 12400), P(20834, 12400)),
        'the reference moved by (37, -11) moves every hit by it')
mirrors('part-without-letters', 'G98X0Y0I10.P1/U60/V60/U61/G73Q1W60/V61/G75W61Q1', R(5, 6), '5: the calling block found none')

# ---------------------------------------------------------------- 15: a point too far

mirrors('15-too-far-before-and-not-after', 'G93X100./U60/X9950.Y0T1/V60/G73X9990.Y0Q2W60', all_of(P(14000, 0)), '1,005,000 as written, 140 mm after the mirror')
mirrors('15-too-far-after-and-not-before', 'U60/X-5000.Y0T1/V60/G73X5000.Y0Q2W60', R(15, 3), '15: -500,000 as written, 1,000,000 after the mirror; the body block\'s line')
mirrors('15-a-hundredth-less-is-16', 'U60/X-4999.99Y0T1/V60/G73X5000.Y0Q2W60', R(16, 3), '16: 999,999 after the mirror')
mirrors('15-below', 'U60/X0Y5000.T1/V60/G73X0Y-5000.Q3W60', R(15, 3), '15: -1,000,000 after the mirror')
mirrors('15-after-the-inner-one-and-not-after-both', 'U60/X-1.Y0T1/V60/U61/G73X9999.Q2W60/V61/G73X9999.99Y0Q2W61', all_of(P(-1, 0)), '1,000,000 after the inner mirror, -1 after both')
mirrors('15-after-both-and-not-after-the-inner-one', 'U60/X1.Y0T1/V60/U61/G73X-5000.Q2W60/V61/G73X5000.Y0Q2W61', R(15, 3), '15: -500,100 after the inner mirror, 1,000,100 after both')
mirrors('15-farthest', 'G93X9999.99/U60/X9999.99Y0T1/V60/U61/G73X-9999.99Q2W60/V61/U62/G73X9999.99Q2W61/V62/U63/G73X-9999.99Q2W62/V63/G73X9999.99Y0Q2W63', R(15, 4),
        '15: 999,999 from the origin, after the mirrors -1,999,998, 2,999,997, -3,999,996 and 4,999,995')
mirrors('15-far-between-the-mirrors', 'G93X-9999.99/U60/X9999.99Y0T1/V60/U61/G73X-9999.99Q2W60/V61/U62/G73X9999.99Q2W61/V62/U63/G73X9999.99Q2W62/V63/G73X-9899.99Y0Q2W63', all_of(P(10000, 0)),
        '999,999 from the origin, after the mirrors -1,999,998, 2,999,997, -1,999,998 and 1,009,999')
mirrors('15-far-as-written', 'G93X9999.99/U60/X9999.99Y0T1/G91X50./G70X-50./V60/G73X100.Y0Q2W60', all_of(P(10000, 0), P(5000, 0)), '1,999,998 and 2,004,998 as written, 100 and 50 mm after the mirror')
mirrors('15-of-a-g70-end-before-and-not-after', 'G93X100./U60/G70X9950.Y0T1/G91X5./V60/G73X9990.Y0Q2W60', all_of(P(13500, 0)), 'a G70 end at 1,005,000 as written; the hit counts from there')
mirrors('15-of-a-g70-end-after-and-not-before', 'U60/G70X-5000.Y0/V60/G73X5000.Y0Q2W60', R(15, 3), '15 before 16: 1,000,000 after the mirror')
mirrors('15-pattern-from-a-point-too-far', 'G93X100./U60/X9950.Y0T1/G28I10.J0K2/G36I1.P1J1.K0/V60/G73X9990.Y0Q2W60', all_of(P(14000, 0), P(13000, 0), P(12000, 0), P(11900, 0)),
        'a pattern starts at the current point as written, however far')
mirrors('15-of-a-waiting-origin-before-and-not-after', 'G93X100./U60/G72X9950.Y0/V60/G73X9990.Y0Q2W60', R(15, 4), '15: a waiting origin is judged as written, 1,005,000')
mirrors('15-of-a-waiting-origin-after-and-not-before', 'U60/G72X-5000.Y0/G28I9999.J0K1T1/V60/G73X5000.Y0Q2W60', all_of(P(100, 0)), '-500,000 as written, and the line\'s hit is 499,900')
mirrors('15-of-a-waiting-origin-that-keeps-an-axis', 'G93X100./U60/X9950.Y0T1/G72X0/G72Y5./V60/G73X9990.Y0Q2W60', R(15, 6), '15: Y5. keeps the X of the current point as written, 1,005,000')
mirrors('15-of-a-waiting-origin-on-the-way-back', 'G93X100./U60/X9950.Y0T1/G91G72X-60./G28I-10.J0K1/V60/G73X9990.Y0Q2W60', all_of(P(14000, 0), P(21000, 0)),
        'G91 counts from 1,005,000 as written, so the origin waits at 999,000')
mirrors('15-of-a-reach', 'U60/X0Y0T1/G28I-10.02J0K999/V60/G73X600.Y0Q2W60', R(15, 4), '15: 999 x 1,002 = 1,000,998; judged before the hits, of which the second would be outside the range after the mirror')
mirrors('15-of-a-reach-just-inside', 'U60/X0Y0T1/G28I-10.01J0K999/V60/G73X600.Y0Q2W60', R(16, 4), '16: 999 x 1,001 = 999,999; the second hit comes to 620.02')

# ---------------------------------------------------------------- 16: outside the range

mirrors('16-outside-before-and-not-after', 'U60/X-20.Y700.T1/V60/G73X100.Y800.Q4W60', all_of(P(12000, 10000)), 'outside the range as written, inside after the mirror')
mirrors('16-outside-after-and-not-before', 'U60/X50.Y0T1/V60/G73X0Y0Q2W60', R(16, 3), '16: 50 mm as written, -50 mm after the mirror')
mirrors('16-range-ends', 'U60/X10.2Y0T1/X-610.2/V60/U61/X0Y10.2/Y-610.2/V61/G73X0Y0Q2W60/G73Q3W61', all_of(P(-1020, 0), P(61020, 0), P(0, -1020), P(0, 61020)), 'the ends of the range are within it')
for name, word, q in (('x-below', 'X10.21Y0', 2), ('x-above', 'X-610.21Y0', 2), ('y-below', 'X0Y10.21', 3), ('y-above', 'X0Y-610.21', 3)):
    mirrors('16-' + name, 'U60/%sT1/V60/G73X0Y0Q%dW60' % (word, q), R(16, 3), '16: a hundredth beyond the range after the mirror')
mirrors('16-after-the-inner-one-and-not-after-both', 'U60/X50.Y0T1/V60/U61/G73X0Q2W60/V61/G73X30.Y0Q2W61', all_of(P(8000, 0)), '-50 after the inner mirror, 80 after both')
mirrors('16-after-both-and-not-after-the-inner-one', 'U60/X-50.Y0T1/V60/U61/G73X0Q2W60/V61/G73X30.Y0Q2W61', R(16, 3), '16: 50 after the inner mirror, -20 after both')
mirrors('16-of-a-g70-end-before-and-not-after', 'U60/G70X-20.Y0T1/G91X5./V60/G73X100.Y0Q2W60', all_of(P(11500, 0)), 'a G70 end outside the range as written')
mirrors('16-of-a-g70-end-after-and-not-before', 'U60/G70X50.Y0/V60/G73X0Y0Q2W60', R(16, 3), '16: the G70 end is at -50 mm after the mirror')
mirrors('16-in-a-pattern', 'U60/X590.Y0T1/G28I5.J0K9/V60/G73X600.Y0Q2W60', R(16, 4), '16: hit by hit; the fifth of the line, at 615 as written, comes to -15')
mirrors('16-in-the-second-copy', 'G98X300.Y0I200.P1/U60/X-20.Y0T1/V60/U61/G73X100.Y0Q2W60/V61/G75W61Q1', R(16, 4), '16: 420 in the first copy, 620 in the second; the body block\'s line')

# ---------------------------------------------------------------- other refusals in a mirrored macro

mirrors('7-in-the-macro', 'U60/G93X1./V60/G73X1.Y1.Q1W60', R(7, 3), '7: a body runs G93')
mirrors('14-in-the-macro', 'U60/X-5000.Y0/V60/G73X5000.Y0Q2W60', R(14, 3), '14: no tool is chosen; 15 would come after it')
mirrors('17-in-the-macro', PAIR + 'G73X100.Y200.Q2W60', R(17, 4), '17: one place for two hits', 7)
mirrors('17-of-a-stop-in-the-macro', 'U60/M00/V60/G73X1.Y1.Q2W60', R(17, 3), '17: a stop without a place', 3)
mirrors('18-in-the-macro', 'U60/G66I1.J0P1.T1/V60/G73X1.Y1.Q2W60', R(18, 3), '18: w is not above 1 mm')

# ---------------------------------------------------------------- 4, 5 and 6 at G73

mirrors('4-x-without-digits', 'U60/V60/G73XY1.Q5W60', R(4, 4), '4: X has no digits')
GIVEN = 'U60/V60/G73X1.Y1.Q1W60/'     # both letters are given, and the next block stands in line 5
for name, block, why in (
    ('without-q', 'G73X1.Y1.W60', 'Q is missing'),
    ('without-w', 'G73X1.Y1.Q1', 'W is missing'),
    ('alone', 'G73', 'Q and W are missing'),
    ('with-t', 'G73X1.Y1.Q1W60T1', 'T is not one of its letters'),
    ('with-m', 'G73X1.Y1.Q1W60M0', 'M codes stand alone'),
    ('with-a', 'A1G73X1.Y1.Q1W60', 'A stands before a pattern code'),
    ('with-i', 'G73X1.Y1.I1.Q1W60', 'I is not one of its letters'),
    ('with-g90', 'G90G73X1.Y1.Q1W60', 'G90 does not stand beside G73'),
    ('with-g91', 'G73G91X1.Y1.Q1W60', 'G91 does not stand beside G73'),
    ('with-g75', 'G73G75Q1W60', 'one of two G words is G90 or G91'),
    ('x-twice', 'G73X1.X1.Q1W60', 'no letter stands twice but G'),
    ('n-last', 'G73X1.Y1.Q1W60N1', 'N is the first word'),
    ('with-a-sign', 'G+73X1.Y1.Q1W60', 'a G word with a sign is unknown'),
    ('with-a-point', 'G73.X1.Y1.Q1W60', 'a G word with a point is unknown'),
):
    mirrors('5-' + name, GIVEN + block, R(5, 5), '5: ' + why)
for name, block, why in (('x', 'G73Y1.Q3W60', 'X, though Q3 does not use it'), ('y', 'G73X1.Q2W60', 'Y, though Q2 does not use it'), ('both', 'G73Q1W60', 'X and Y, though Q1 uses neither')):
    mirrors('5-none-given-for-%s' % name, 'U60/V60/' + block, R(5, 4), '5: none was given for ' + why)
mirrors('5-letters-of-other-blocks', 'U60/V60/X1.Y1.T1/G93X5.Y5./G72X6.Y6./G98X0Y0/G73Q1W60', R(5, 8), '5: X and Y of other blocks give nothing')
mirrors('5-in-the-macro', 'U60/V60/U61/M08/G73X1.Q1W60/V61/W61', R(5, 6), '5 in the line of the body block')
mirrors('5-none-given-before-6', 'U60/V60/G73X1.Q5W90', R(5, 4), '5: none was given for Y; Q and W are out of range, too')
mirrors('5-none-given-before-10', 'G73Y1.Q1W60', R(5, 2), '5: none was given for X; nothing is stored, either')
case('mirrors-5-none-given-in-the-first-block', 'G73X1.Q1W60/' + p(''), R(5, 1), '5 comes before 7: the first block is not G92')
case('mirrors-5-none-given-after-g50', p('U60/V60') + '/G73Q1W60', R(5, 5), '5 comes before 7: a block after G50')
case('mirrors-7-in-the-first-block', 'G73X1.Y1.Q1W60/' + p(''), R(7, 1), '7: the first block is not G92; nothing is stored, either')
case('mirrors-7-after-g50-letters-given', p(GIVEN[:-1]) + '/G73Q1W60', R(7, 6), '7: a block after G50; its letters are given, so no 5')
for name, block, why in (
    ('q-0', 'G73X1.Y1.Q0W60', 'no Q 0'), ('q-5', 'G73X1.Y1.Q5W60', 'no Q 5'), ('q-with-a-sign', 'G73X1.Y1.Q+1W60', 'Q takes no sign'),
    ('q-with-a-point', 'G73X1.Y1.Q1.W60', 'Q takes no point'), ('w-0', 'G73X1.Y1.Q1W0', 'no macro 0'), ('w-90', 'G73X1.Y1.Q1W90', 'no macro 90'), ('w-with-a-sign', 'G73X1.Y1.Q1W+60', 'W takes no sign'),
    ('w-with-a-point', 'G73X1.Y1.Q1W60.', 'W takes no point'),
):
    mirrors('6-' + name, 'U60/V60/' + block, R(6, 4), '6: ' + why)
mirrors('6-letters-left-out', GIVEN + 'G73Q5W60', R(6, 5), '6: no Q 5; both letters are given')
mirrors('6-before-10', 'G73X1.Y1.Q5W60', R(6, 2), '6: no Q 5; nothing is stored, either')
case('mirrors-6-in-the-first-block', 'G73X1.Y1.Q0W60/' + p(''), R(6, 1), '6 comes before 7: the first block is not G92')
case('mirrors-6-after-g50', p('U60/V60') + '/G73X1.Y1.Q0W60', R(6, 5), '6 comes before 7: a block after G50')

# ---------------------------------------------------------------- 10 and 11

mirrors('10-nothing-stored', 'G73X1.Y1.W1Q4', R(10, 2), '10: W names nothing stored')
mirrors('10-in-a-body', 'U60/M08/G73X1.Y1.Q1W61/V60/W60', R(10, 4), '10 in the line of the body block')
mirrors('10-within-its-own-first-run', 'U1/G73X1.Y1.Q1W1/V1', R(10, 3), '10: a body is stored when its first run is done')
mirrors('10-in-a-copy', 'G98X0Y0/U60/G73X1.Y1.Q1W61/V60/G75W60Q1', R(10, 4), '10 in the line of the body block')
W4 = 'U61/G90X10.Y20.T1/V61/U62/W61/V62/U63/W62/V63/U64/W63/V64/'
mirrors('11-first-of-four', W4 + 'G73X100.Y200.Q2W64', all_of(P(9000, 2000)), 'G73 and three W')
mirrors('11-first-of-five', W4 + 'U65/W64/V65/G73X1.Y1.Q1W65', R(11, 6), '11: G73 counts; W61 in line 6 is the fifth')
mirrors('11-last-of-four', 'U61/X10.Y20.T1/V61/U62/G73X100.Y200.Q4W61/V62/U63/W62/V63/U64/W63/V64/W64', all_of(P(9000, 18000)), 'three W and G73')
mirrors('11-last-of-five', 'U61/X10.Y20.T1/V61/U62/G73X1.Y1.Q4W61/V62/U63/W62/V63/U64/W63/V64/U65/W64/V65/W65', R(11, 6), '11: G73 in line 6 comes while four are open')
mirrors('11-of-a-macro-that-calls-itself', 'U60/X1.Y1.T1/G73X10.Y0Q2W60/V60/W60', R(11, 4), '11: after hits by W and three G73')
mirrors('11-first-run', W4 + 'U1/G73X50.Y0Q2W63/V1', all_of(P(4000, 2000)), 'a first run, G73 and two W')
mirrors('11-first-run-of-five', W4 + 'U1/G73X50.Y0Q2W64/V1', R(11, 6), '11: a first run, G73, W63 and W62 are open')
mirrors('11-in-a-part', 'G98X100.Y100.I50.P1/' + W4 + 'U65/G73X20.Y0Q2W63/V65/G75W65Q1', all_of(P(11000, 12000), P(16000, 12000)), 'G75, G73 and two W')
mirrors('11-in-a-part-of-five', 'G98X100.Y100.I50.P1/' + W4 + 'U65/G73X20.Y0Q2W64/V65/G75W65Q1', R(11, 7), '11: G75, G73, W63 and W62 are open')
mirrors('11-after-10', 'U61/G73X1.Y1.Q1W88/V61/U62/W61/V62/U63/W62/V63/U64/W63/V64/W64', R(10, 3), '10: nothing is stored under 88; four calls are open, too')
mirrors('11-after-5', 'U61/G73X1.Q1W61/V61/U62/W61/V62/U63/W62/V63/U64/W63/V64/W64', R(5, 3), '5: none was given for Y; four calls are open, too')
mirrors('11-calls-side-by-side', PAIR + 'U61/G73Q2W60/G73Q3W60/W60/V61/G73X100.Y200.Q1W61/G73Q1W61', all_of(*(BY_Q[2] + BY_Q[3] + BY_Q[1]) * 2), 'a call that is done is open no more')

# ---------------------------------------------------------------- both settings

MM = 'U60/X10Y20T1/V60/G73X100Y200Q4W60/G73Q2W60'
mirrors('setting-0', MM, all_of(P(9000, 18000), P(9000, 2000)), 'X and Y are lengths and count millimetres, and so they are repeated; Q and W do not change', head='G92X600Y600', setting=0)
mirrors('setting-1', MM, all_of(P(90, 180), P(90, 20)), 'the same text counts hundredths')
