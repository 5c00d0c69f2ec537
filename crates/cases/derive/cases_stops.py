"""Stops, M00 and M01: document 02, section 3."""
from table import *


def P(x, y, t=1):
    return (x, y, t, 'P')


def N(x, y, t=1):
    return (x, y, t, 'N')


def stops(name, body, answer, reason, length=16384):
    """A program of this group."""
    case('stops-' + name, p(body), answer, reason, length)


# ---------------------------------------------------------------- where a stop stands

stops('alone', 'M00', all_of(STOP), 'X, Y and tool are zero; no hit, no tool')
stops('optional-stop-alone', 'M01', all_of(OPTIONAL), 'X, Y and tool are zero; no hit, no tool')
stops('first', 'M00/X10.Y10.T1', all_of(STOP, P(1000, 1000)), 'before a tool is chosen')
stops('last', 'X10.Y10.T1/M00', all_of(P(1000, 1000), STOP), 'behind the last hit')
stops('between-hits', 'X10.Y10.T1/M00/X20./M01/X30.', all_of(P(1000, 1000), STOP, P(2000, 1000), OPTIONAL, P(3000, 1000)), 'entries stand in the order of the blocks')
stops('in-a-row', 'M00/M00/M01/M01/M00', all_of(STOP, STOP, OPTIONAL, OPTIONAL, STOP), 'equal stops are an entry each')
stops('then-a-refusal', 'M00/X10.Y10.T1/M01/X-20.', R(16, 5), '16: the entries before are gone from the list')

# ---------------------------------------------------------------- how the codes are written

stops('m00-in-every-writing', 'M0/M00/M000/M0000/M00000/M000000/M 0/M 0 0/ M00 /N1M0/N 9999 M 0 00', all_of(*[STOP] * 11),
      'a code goes by its number: one to six digits, spaces anywhere, N in front')
stops('m01-in-every-writing', 'M1/M01/M001/M0001/M00001/M000001/M 1/M 0 1/ M01 /N0M1/N9999M 00 1', all_of(*[OPTIONAL] * 11),
      'a code goes by its number: one to six digits, spaces anywhere, N in front')
stops('m00-with-seven-digits', 'M0000000', R(4, 2), '4: a word has one to six digits')

# ---------------------------------------------------------------- what stays as it was

stops('keep-the-current-point', 'X100.Y100.T1/G91X10./M00/X10./M01/Y5.', all_of(P(10000, 10000), P(11000, 10000), STOP, P(12000, 10000), OPTIONAL, P(12000, 10500)),
      'under G91 X and Y count from the last hit and not from the zeros of a stop')
stops('keep-an-omitted-axis', 'X100.Y200.T1/M00/X50./M01/Y60.', all_of(P(10000, 20000), STOP, P(5000, 20000), OPTIONAL, P(5000, 6000)), 'an omitted axis is the last hit\'s')
stops('keep-the-g92-point', 'M00/X0T1/M01/G91Y-600.', all_of(STOP, P(0, 60000), OPTIONAL, P(0, 0)), 'the current point at the start is the G92 point')
stops('keep-the-end-of-a-g70-move', 'G70X100.Y100.T4/M00/G91X1.', all_of(STOP, P(10100, 10000, 4)), 'the current point is where G70 ended')
stops('keep-the-start-of-a-pattern', 'X10.Y10.T1/M00/G28I10.J0K1/M01/G36I10.P1J0K0', all_of(P(1000, 1000), STOP, P(2000, 1000), OPTIONAL, P(3000, 1000)),
      'without a waiting origin a pattern starts at the current point')
stops('between-g72-and-each-pattern',
      'X10.Y10.T1/G72X100.Y100./M00/G28I10.J90.K1/G72X100.Y100./M01/G29I10.J0P90.K2/G72X100.Y100./M00/G26I10.J90.K2/G72X100.Y100./M01/G36I10.P1J10.K1/'
      'G72X100.Y100./M00/G37I10.P1J10.K1/G72X100.Y100./M01/A1G66I30.J0P20./G72X200.Y100./M00/B1',
      all_of(P(1000, 1000), STOP, P(10000, 11000), OPTIONAL, P(11000, 10000), P(10000, 11000), STOP, P(10000, 11000), P(10000, 9000),
             OPTIONAL, P(11000, 10000), P(11000, 11000), P(10000, 11000), STOP, P(10000, 11000), P(11000, 11000), P(11000, 10000),
             OPTIONAL, P(11000, 11000), P(12000, 11000), STOP, P(21000, 11000), P(22000, 11000)), 'a stop leaves the waiting origin')
stops('keep-the-tool', 'X10.Y10.T7/M00/X20./M01/G28I1.J0K1', all_of(P(1000, 1000, 7), STOP, P(2000, 1000, 7), OPTIONAL, P(2100, 1000, 7)), 'tool 7 stays chosen')
stops('choose-no-tool', 'M00/X10.Y10.', R(14, 3), '14: the zero of a stop is no tool')
stops('in-mode-n', 'M12/X10.Y10.T1/M00/X20./M01/X30./M13/X40.', all_of(N(1000, 1000), STOP, N(2000, 1000), OPTIONAL, N(3000, 1000), P(4000, 1000)),
      'S and O are the stops\' own modes; mode N stays from M12 to M13')
stops('keep-pattern-memories', 'X10.Y10.T1/A1G28I1.J0K1/M00/B1/M01/B1', all_of(P(1000, 1000), P(1100, 1000), STOP, P(1200, 1000), OPTIONAL, P(1300, 1000)), 'memory 1 keeps its line')
stops('keep-offset-and-reference', 'G93X10.Y10./M00/X0Y0T1/G98X100.Y100./M01/X0Y0', all_of(STOP, P(1000, 1000), OPTIONAL, P(11000, 11000)), 'the origin stays, and a stop is not measured from it')
stops('around-a-line-and-a-long-edge', 'X100.Y100.T1/G28I10.J0K2/M00/G66I30.J0P20./M01/G28I10.J90.K1',
      all_of(P(10000, 10000), P(11000, 10000), P(12000, 10000), STOP, P(13000, 11000), P(14000, 11000), OPTIONAL, P(12000, 11000)), 'patterns start and end as without stops')
stops('where-a-hit-would-be-outside-the-range', 'G98X700.Y100./U60/V60/G75W60Q1/M00', all_of(STOP), '14, 15 and 16 do not look at a stop: no tool is chosen, and the current point is (70000, 10000)')

# ---------------------------------------------------------------- bodies

stops('in-a-macro', 'U60/X10.Y10.T1/M00/X20./V60/W60/M01/W60', all_of(P(1000, 1000), STOP, P(2000, 1000), OPTIONAL, P(1000, 1000), STOP, P(2000, 1000)), 'each call makes the stop of the body')
stops('in-a-first-run', 'U1/M00/X10.Y10.T1/V1/W1', all_of(STOP, P(1000, 1000), STOP, P(1000, 1000)), 'a first run is a run')
stops('in-the-first-run-of-59-and-not-of-60', 'U59/M00/V59/U60/M01/V60', all_of(STOP), '59 runs at once, 60 is only stored')
stops('in-bodies-only-stored', 'U60/M00/V60/G98X0Y0/U1/M01/V1/X10.Y10.T1', all_of(P(1000, 1000)), 'a body that is never run makes no entry')
stops('four-calls-deep', 'U61/M00/V61/U62/W61/V62/U63/W62/V63/U64/W63/M01/V64/W64', all_of(STOP, OPTIONAL), 'a stop is no call')
stops('origin-waits-over-w', 'U60/M00/V60/X10.Y10.T1/G72X100.Y100./W60/G28I10.J0K1', all_of(P(1000, 1000), STOP, P(11000, 10000)), 'a stop in a body leaves the waiting origin')

# ---------------------------------------------------------------- copies

# Two by two places: a lower left, b lower right, c upper right, d upper left, and the order in which each Q takes them.
TWO_BY_TWO = 'G98X100.Y100.I100.J50.P1K1/'
PLACE = {'a': (10000, 10000), 'b': (20000, 10000), 'c': (20000, 15000), 'd': (10000, 15000)}
ORDER = {75: {1: 'abcd', 2: 'badc', 3: 'dcba', 4: 'cdab'}, 76: {1: 'adcb', 2: 'bcda', 3: 'dabc', 4: 'cbad'}}


def over(ways, part):
    """The entries of a part at each place in turn: hits measured from the place, stops as they are."""
    def moved(place, entry):
        return entry if entry in (STOP, OPTIONAL) else (place[0] + entry[0], place[1] + entry[1]) + entry[2:]
    return [moved(PLACE[letter], entry) for letter in ways for entry in part]


for code, order in ORDER.items():
    four = '/'.join('G%dW1Q%d' % (code, q) for q in order)
    stops('part-of-stops-by-g%d' % code, TWO_BY_TWO + 'U1/M00/M01/V1/' + four, all_of(*[STOP, OPTIONAL] * 16),
          'each Q in turn; the part makes no hit, so G75 and G76 give equal lists')
    stops('part-of-a-stop-and-a-hit-by-g%d' % code, TWO_BY_TWO + 'U1/M00/X0Y0T1/V1/' + four, all_of(*over(''.join(order.values()), [STOP, P(0, 0)])),
          'each Q in turn; hits move to the places of the layout, stops stay as they are, and the lists of G75 and G76 differ')
    stops('part-of-hit-stop-hit-by-g%d' % code, TWO_BY_TWO + 'U1/X1.Y2.T1/M01/X3./V1/G%dW1Q2/G%dW1Q3' % (code, code),
          all_of(*over(order[2] + order[3], [P(100, 200), OPTIONAL, P(300, 200)])), 'the stop stands between the hits of its own copy')
    stops('part-of-patterns-and-stops-by-g%d' % code, TWO_BY_TWO + 'U1/G72X10.Y10./M00/G28I1.J0K2T1/M01/G26I1.J0K2/V1/G%dW1Q4' % code,
          all_of(*over(order[4], [STOP, P(1100, 1000), P(1200, 1000), OPTIONAL, P(1300, 1000), P(1100, 1000)])), 'the origin of G72 waits over the stop in each copy')
ROW = [e for x in (21000, 11000, 1000) for e in (STOP, P(x, 1000))]
stops('in-a-single-row', 'G98X10.Y10.I100.J70.P2K0/U1/M00/X0Y0T1/V1/G75W1Q2/G76W1Q2', all_of(*ROW * 2), 'in a single row G75 and G76 are alike')
COLUMN = [e for y in (15000, 8000, 1000) for e in (P(1000, y), OPTIONAL)]
stops('in-a-single-column', 'G98X10.Y10.I100.J70.P0K2/U1/X0Y0T1/M01/V1/G75W1Q3/G76W1Q3', all_of(*COLUMN * 2), 'in a single column G75 and G76 are alike')
stops('with-both-pitches-zero', 'G98X10.Y10.P1K1/U1/X1.Y0T1/M00/X2./V1/G75W1Q1/G76W1Q4', all_of(*[P(1100, 1000), STOP, P(1200, 1000)] * 8), 'every copy falls on one place, so both codes are alike')
stops('with-one-pitch-zero', 'G98X100.Y100.I100.J0P1K1/U1/M00/X0Y0T1/V1/G75W1Q1/G76W1Q1',
      all_of(*[e for x in (10000, 20000, 20000, 10000, 10000, 10000, 20000, 20000) for e in (STOP, P(x, 10000))]), 'with one pitch zero the orders of the hits still differ')
stops('in-a-layout-of-one-place', 'G98X10.Y20./U1/X1.Y1.T1/M00/V1/G75W1Q4/G76W1Q4', all_of(*[P(1100, 2100), STOP] * 2), 'one copy each')
stops('reference-moved', 'G98X100.Y100.I50.J50.P1K1/U1/X1.Y2.T1/M00/G91X5./V1/G75W1Q4/G98X137.Y89.I50.J50.P1K1/G90/G75W1Q4',
      all_of(*[e for x, y in ((15000, 15000), (10000, 15000), (10000, 10000), (15000, 10000), (18700, 13900), (13700, 13900), (13700, 8900), (18700, 8900))
               for e in (P(x + 100, y + 200), STOP, P(x + 600, y + 200))]), 'the reference moved by (37, -11) moves every hit by it and leaves the stops')
stops('each-copy-from-the-found-state', 'X10.Y10.T1/G98X100.Y100.I100.P1/U1/M00/X0Y0/M12/X1.T5/M01/V1/G75W1Q1/M00/X5.',
      all_of(P(1000, 1000), STOP, P(10000, 10000), N(10100, 10000, 5), OPTIONAL, STOP, P(20000, 10000), N(20100, 10000, 5), OPTIONAL, STOP, N(10500, 10000, 5)),
      'tool and mode are the caller\'s in every copy, and the last copy\'s afterwards')
stops('in-a-macro-of-a-part', 'G98X100.Y100.I100.P1/U60/M00/X1./V60/U61/X0Y0T1/W60/M01/V61/G76W61Q2',
      all_of(P(20000, 10000), STOP, P(20100, 10000), OPTIONAL, P(10000, 10000), STOP, P(10100, 10000), OPTIONAL), 'a stop two calls deep in each copy')
stops('no-origin-waits-after-copies-of-a-stop', 'X10.Y10.T1/G98X100.Y100.I100.P1/U1/M00/V1/G72X300.Y300./G75W1Q1/G28I10.J0K1', all_of(P(1000, 1000), STOP, STOP, P(21000, 10000)),
      'the run drops the caller\'s origin, not the stop; the line starts at the last copy\'s place')
stops('in-copies-outside-the-range', 'G98X700.Y100.I100.P1/U1/M00/V1/G75W1Q1', all_of(STOP, STOP), 'a place is judged by 15 alone, and 16 does not look at a stop')
stops('then-a-copy-place-too-far', 'G98X0Y0I101.02P99/U1/M00/V1/G75W1Q1', R(15, 6), '15: the hundredth place, after 99 stops; the calling block\'s line')
stops('hundred-copies-exactly-full', 'G98X0Y0I1.J1.P9K9/U1/M01/V1/G76W1Q1', all_of(*[OPTIONAL] * 100), 'ten by ten copies fill 100 places', 400)
stops('hundred-copies-and-one-place-fewer', 'G98X0Y0I1.J1.P9K9/U1/M01/V1/G76W1Q1', R(17, 4), '17: the stop of the last copy; the body block\'s line', 399)
