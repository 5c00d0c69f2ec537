"""The tally of hits by tool: document 02, section 4.

Tools are given as {tool: (hits, first, last)}; first and last are indexes of the list, from 1, stops counted."""
from table import *


def P(x, y, t):
    return (x, y, t, 'P')


def N(x, y, t):
    return (x, y, t, 'N')


def tally(name, body, entries, tools, reason, length=16384):
    """A program of this group, with all its entries and all its tools."""
    case('tally-' + name, p(body), all_of(*entries, tools=tools), reason, length)


def refused(name, text, answer, reason, length=16384):
    """A program of this group that is refused after it made hits."""
    case('tally-refused-' + name, text, answer, reason, length)


# ---------------------------------------------------------------- hits, first and last

tally('indexes-count-stops', 'M00/X1.Y1.T2/M01/X2.', [STOP, P(100, 100, 2), OPTIONAL, P(200, 100, 2)], {2: (2, 2, 4)},
      'an index is that in the list, where stops stand too: 2 and 4, not 1 and 2')
tally('two-tools-and-stops-in-turn', 'X10.Y10.T2/M00/X20.T7/M01/X30.T2/M00/X40.T7/M00',
      [P(1000, 1000, 2), STOP, P(2000, 1000, 7), OPTIONAL, P(3000, 1000, 2), STOP, P(4000, 1000, 7), STOP], {2: (2, 1, 5), 7: (2, 3, 7)},
      'each tool has two hits of the four; the four stops are no tool\'s')
tally('stops-before-the-first-hit', 'M01/M00/X10.Y10.T3', [OPTIONAL, STOP, P(1000, 1000, 3)], {3: (1, 3, 3)}, 'the one hit is the third entry, so first and last are 3')
tally('stops-behind-the-last-hit', 'X10.Y10.T3/M00/M01', [P(1000, 1000, 3), STOP, OPTIONAL], {3: (1, 1, 1)}, 'a stop leaves the last index of the tool that is chosen')
tally('only-stops', 'M00/M01/M00', [STOP, OPTIONAL, STOP], {}, 'no hit, so no tool has a line')
tally('one-tool-only', 'X10.Y10.T50/X20./X30./X40.', [P(x, 1000, 50) for x in (1000, 2000, 3000, 4000)], {50: (4, 1, 4)}, 'a tool that makes all entries')
tally('used-again-far-away', 'X10.Y10.T1/G28I1.J0K20T2/X5.T1', [P(1000, 1000, 1)] + [P(1000 + 100 * k, 1000, 2) for k in range(1, 21)] + [P(500, 1000, 1)],
      {1: (2, 1, 22), 2: (20, 2, 21)}, 'tool 1 stands first and last, and makes 2 of the 22 hits')
tally('used-in-three-runs', 'X10.Y10.T4/X11./X12.T5/X13.T4/X14.T5/X15.T4',
      [P(1000, 1000, 4), P(1100, 1000, 4), P(1200, 1000, 5), P(1300, 1000, 4), P(1400, 1000, 5), P(1500, 1000, 4)], {4: (4, 1, 6), 5: (2, 3, 5)},
      'first stays with the first run of hits and last goes on to the last one')
tally('one-place-hit-again', 'X10.Y10.T3/X10.Y10./X10.T4', [P(1000, 1000, 3), P(1000, 1000, 3), P(1000, 1000, 4)], {3: (2, 1, 2), 4: (1, 3, 3)}, 'hits are counted, not places')
tally('both-modes', 'X10.Y10.T3/M12/X20./X30.T4/M13/X40.', [P(1000, 1000, 3), N(2000, 1000, 3), N(3000, 1000, 4), P(4000, 1000, 4)], {3: (2, 1, 2), 4: (2, 3, 4)},
      'nibbling hits count as punching ones do')

# ---------------------------------------------------------------- which tools have a line, and their order

tally('tools-1-and-99', 'X10.Y10.T99/X20.T1/X30./X40.T99', [P(1000, 1000, 99), P(2000, 1000, 1), P(3000, 1000, 1), P(4000, 1000, 99)], {1: (2, 2, 3), 99: (2, 1, 4)},
      'the first and the last tool; tool 1 has the first line, though 99 comes first in the list')
tally('tools-by-number-not-by-digits', 'X10.Y10.T20/X20.T3/X30.T10/X40.T2', [P(1000, 1000, 20), P(2000, 1000, 3), P(3000, 1000, 10), P(4000, 1000, 2)],
      {2: (1, 4, 4), 3: (1, 2, 2), 10: (1, 3, 3), 20: (1, 1, 1)}, 'tool order: 2, 3, 10, 20')
tally('leading-zeros', 'X10.Y10.T1/X20.T01/X30.T000001', [P(1000, 1000, 1), P(2000, 1000, 1), P(3000, 1000, 1)], {1: (3, 1, 3)}, 'a tool goes by its number')
tally('every-tool-there-and-back', '/'.join('X%d.Y%d.T%d' % (t, y, t) for y, way in ((1, range(1, 100)), (2, range(99, 0, -1))) for t in way),
      [P(100 * t, 100, t) for t in range(1, 100)] + [P(100 * t, 200, t) for t in range(99, 0, -1)], {t: (2, t, 199 - t) for t in range(1, 100)},
      'tools 1 to 99 and back to 1: tool t is entry t, and again entry 199 less t')
tally('chosen-by-g70-and-no-entry', 'G70X10.Y10.T5', [], {}, 'G70 chooses a tool and makes no hit')
tally('chosen-by-g70-and-dropped', 'G70X10.Y10.T5/X20.T6', [P(2000, 1000, 6)], {6: (1, 1, 1)}, 'tool 5 is chosen and never used')
tally('chosen-by-g70-and-used-later', 'G70X10.Y10.T5/M00/X20.', [STOP, P(2000, 1000, 5)], {5: (1, 2, 2)}, 'a tool is used where it hits, not where it is chosen')
tally('chosen-by-a-grid-of-one-place', 'X10.Y10.T2/G36I1.P0J1.K0T9/X20.T2', [P(1000, 1000, 2), P(2000, 1000, 2)], {2: (2, 1, 2)}, 'the start is never punched, so tool 9 has no hit')

# ---------------------------------------------------------------- patterns, by two tools in turn

tally('g26', 'G70X200.Y200./G26I10.J0K4T2/G26I20.J90.K-2T3/G26I10.J0K1T2',
      [P(21000, 20000, 2), P(20000, 21000, 2), P(19000, 20000, 2), P(20000, 19000, 2), P(20000, 22000, 3), P(20000, 18000, 3), P(21000, 20000, 2)],
      {2: (5, 1, 7), 3: (2, 5, 6)}, 'circles of four, two and one around one place')
tally('g28', 'G70X10.Y10./G28I10.J0K3T2/G28I10.J90.K2T3/G28I10.J180.K2T2',
      [P(2000, 1000, 2), P(3000, 1000, 2), P(4000, 1000, 2), P(4000, 2000, 3), P(4000, 3000, 3), P(3000, 3000, 2), P(2000, 3000, 2)],
      {2: (5, 1, 7), 3: (2, 4, 5)}, 'lines of three, two and two')
tally('g29', 'G70X200.Y200./G29I10.J0P90.K3T2/G29I20.J0P180.K2T3/G29I10.J270.P0K1T2',
      [P(21000, 20000, 2), P(20000, 21000, 2), P(19000, 20000, 2), P(21000, 20000, 3), P(17000, 20000, 3), P(17000, 19000, 2)],
      {2: (4, 1, 6), 3: (2, 4, 5)}, 'arcs of three, two and one, each around the last hit before it')
tally('g36', 'G70X10.Y10./G36I1.P2J1.K1T2/G36I1.P1J1.K0T3/G36I1.P0J1.K1T2',
      [P(1100, 1000, 2), P(1200, 1000, 2), P(1200, 1100, 2), P(1100, 1100, 2), P(1000, 1100, 2), P(1100, 1100, 3), P(1100, 1200, 2)],
      {2: (6, 1, 7), 3: (1, 6, 6)}, 'grids of six, two and two places, the start of each left out')
tally('g37', 'G70X10.Y10./G37I1.P1J1.K1T2/G37I1.P2J1.K0T3/G37I1.P0J1.K2T2',
      [P(1000, 1100, 2), P(1100, 1100, 2), P(1100, 1000, 2), P(1200, 1000, 3), P(1300, 1000, 3), P(1300, 1100, 2), P(1300, 1200, 2)],
      {2: (5, 1, 7), 3: (2, 4, 5)}, 'grids of four, three and three places, the start of each left out')
tally('g66', 'G70X100.Y100./G66I50.J0P30.Q10.T2/G66I50.J90.P30.Q10.T3/G66I50.J0P-30.Q-10.T2',
      [P(11500, 10500, 2), P(13500, 10500, 2), P(9500, 11500, 3), P(9500, 13500, 3), P(11500, 9500, 2), P(13500, 9500, 2)],
      {2: (4, 1, 6), 3: (2, 3, 4)}, 'each edge has one step of 20 mm, so two hits: 15 and 35 mm along, 5 mm to its side')
tally('patterns-and-stops-in-turn', 'G70X100.Y100./G28I1.J0K2T1/M00/G37I1.P1J1.K1T2/M01/G26I1.J0K2T1/M00/G29I1.J0P90.K2T2/M01/G66I30.J0P20.Q10.T1',
      [P(10100, 10000, 1), P(10200, 10000, 1), STOP, P(10200, 10100, 2), P(10300, 10100, 2), P(10300, 10000, 2), OPTIONAL, P(10400, 10000, 1), P(10200, 10000, 1), STOP,
       P(10400, 10000, 2), P(10300, 10100, 2), OPTIONAL, P(11300, 10600, 1), P(12300, 10600, 1)], {1: (6, 1, 15), 2: (5, 4, 12)},
      'five codes by two tools: 2 + 2 + 2 and 3 + 2 hits, and four stops between them')
tally('memory-run-with-another-tool', 'X10.Y10.T2/A1G28I10.J0K2/G70X10.Y20.T3/B1/M00/G70X10.Y30.T2/B1',
      [P(1000, 1000, 2), P(2000, 1000, 2), P(3000, 1000, 2), P(2000, 2000, 3), P(3000, 2000, 3), STOP, P(2000, 3000, 2), P(3000, 3000, 2)], {2: (5, 1, 8), 3: (2, 4, 5)},
      'a memory has no tool: B hits with the one that is chosen')
tally('memory-stored-beside-a-tool', 'G70X10.Y10./A5G28I1.J0K3T8/X50.T9/B5',
      [P(1100, 1000, 8), P(1200, 1000, 8), P(1300, 1000, 8), P(5000, 1000, 9), P(5100, 1000, 9), P(5200, 1000, 9), P(5300, 1000, 9)], {8: (3, 1, 3), 9: (4, 4, 7)},
      'the T beside A5 is not stored: B hits with tool 9')

# ---------------------------------------------------------------- macros

tally('macro-changes-the-tool', 'U60/X20.Y20.T5/M00/X30./V60/X10.Y10.T4/W60/X40.', [P(1000, 1000, 4), P(2000, 2000, 5), STOP, P(3000, 2000, 5), P(4000, 2000, 5)],
      {4: (1, 1, 1), 5: (3, 2, 5)}, 'the tool that the body chose stays chosen after it')
tally('macro-called-by-two-tools', 'U60/G91X1./G90/V60/X10.Y10.T4/W60/G70X20.T5/W60/G70X30.T4/W60', [P(1000, 1000, 4), P(1100, 1000, 4), P(2100, 1000, 5), P(3100, 1000, 4)],
      {4: (3, 1, 4), 5: (1, 3, 3)}, 'a body without T hits with the tool of its caller')
tally('first-run-and-call', 'U1/X10.Y10.T2/M01/X20.T3/V1/W1/X30.',
      [P(1000, 1000, 2), OPTIONAL, P(2000, 1000, 3), P(1000, 1000, 2), OPTIONAL, P(2000, 1000, 3), P(3000, 1000, 3)], {2: (2, 1, 4), 3: (3, 3, 7)},
      'the hits of the first run count, and those of the call')
tally('body-only-stored', 'U60/X10.Y10.T7/V60/X20.Y20.T2', [P(2000, 2000, 2)], {2: (1, 1, 1)}, 'a body that is never run makes no hit')
tally('calls-four-deep', 'U61/X4.T4/V61/U62/X3.T3/W61/X5.T3/V62/U63/X2.T2/W62/X6.T2/V63/U64/X1.Y1.T1/W63/X7.T1/V64/W64',
      [P(100 * k, 100, t) for k, t in enumerate((1, 2, 3, 4, 3, 2, 1), 1)], {1: (2, 1, 7), 2: (2, 2, 6), 3: (2, 3, 5), 4: (1, 4, 4)},
      'each body hits before and after its call, with a tool of its own')

# ---------------------------------------------------------------- copies

# Two by two places: a lower left, b lower right, c upper right, d upper left.
TWO_BY_TWO = 'G98X100.Y100.I100.J50.P1K1/'
A, B, C, D = (10000, 10000), (20000, 10000), (20000, 15000), (10000, 15000)

tally('copies-by-g75', TWO_BY_TWO + 'U1/X0Y0T2/M00/X1.T3/V1/G75W1Q1', [e for x, y in (A, B, C, D) for e in (P(x, y, 2), STOP, P(x + 100, y, 3))],
      {2: (4, 1, 10), 3: (4, 3, 12)}, 'four copies of hit, stop, hit; each tool hits once in each')
tally('copies-by-g76', TWO_BY_TWO + 'U1/X0Y0T2/M00/X1.T3/V1/G76W1Q1', [e for x, y in (A, D, C, B) for e in (P(x, y, 2), STOP, P(x + 100, y, 3))],
      {2: (4, 1, 10), 3: (4, 3, 12)}, 'another order of places and the same tally')
tally('copies-begin-with-the-tool-found', 'X10.Y10.T5/G98X100.Y100.I100.P1/U1/X0Y0/X1.T6/V1/G75W1Q1/X5.',
      [P(1000, 1000, 5), P(10000, 10000, 5), P(10100, 10000, 6), P(20000, 10000, 5), P(20100, 10000, 6), P(10500, 10000, 6)], {5: (3, 1, 4), 6: (3, 3, 6)},
      'tool 6 does not go on into the second copy, and stays chosen after the run')
tally('copies-by-three-runs', TWO_BY_TWO + 'U1/X1.Y1./V1/G70X0Y0T2/G75W1Q1/M00/G70X0Y0T3/G76W1Q4/G70X0Y0T2/G75W1Q2',
      [P(x + 100, y + 100, 2) for x, y in (A, B, C, D)] + [STOP] + [P(x + 100, y + 100, 3) for x, y in (C, B, A, D)] + [P(x + 100, y + 100, 2) for x, y in (B, A, D, C)],
      {2: (8, 1, 13), 3: (4, 6, 9)}, 'a part without T hits with the tool of its run: four, a stop, four by another, four')
tally('copies-of-a-part-with-a-macro', 'G98X100.Y100.I100.P1/U60/X1.T8/V60/U61/X0Y0T7/W60/X2./V61/G76W61Q2',
      [P(x + dx, y, t) for x, y in (B, A) for dx, t in ((0, 7), (100, 8), (200, 8))], {7: (2, 1, 4), 8: (4, 2, 6)}, 'the macro of the part changes the tool in each copy')
tally('copies-of-a-pattern-by-g76', TWO_BY_TWO + 'U1/G36I1.P1J1.K1T2/M01/G28I1.J0K1T1/V1/G76W1Q3',
      [e for x, y in (D, A, B, C) for e in (P(x + 100, y, 2), P(x + 100, y + 100, 2), P(x, y + 100, 2), OPTIONAL, P(x + 100, y + 100, 1))],
      {1: (4, 5, 20), 2: (12, 1, 18)}, 'three hits, a stop and a hit in each copy: tool 2 ends at the third entry of the last one, 18')
tally('copies-of-stops-between-hits', 'X10.Y10.T2/G98X100.Y100.I10.P4/U1/M01/V1/G75W1Q1/X1.Y1.', [P(1000, 1000, 2)] + [OPTIONAL] * 5 + [P(10100, 10100, 2)], {2: (2, 1, 7)},
      'two hits, with five stops between them')

# ---------------------------------------------------------------- lists and settings

tally('list-exactly-full', 'X10.Y10.T2/M00/X20.T3', [P(1000, 1000, 2), STOP, P(2000, 1000, 3)], {2: (1, 1, 1), 3: (1, 3, 3)}, 'the last place takes the hit of tool 3', 12)
tally('list-with-three-numbers-over', 'X10.Y10.T2/M00/X20.T3', [P(1000, 1000, 2), STOP, P(2000, 1000, 3)], {2: (1, 1, 1), 3: (1, 3, 3)}, 'three numbers are no place', 15)
tally('list-of-none-and-no-entry', 'G70X10.Y10.T2', [], {}, 'nothing needs a place', 0)
case('tally-setting-0', p('X10Y10T2/M0/G28I10J0K2T3/X50T2', 'G92X600Y600'), all_of(P(1000, 1000, 2), STOP, P(2000, 1000, 3), P(3000, 1000, 3), P(5000, 1000, 2), tools={2: (2, 1, 5), 3: (2, 3, 4)}),
     'lengths count millimetres; tools are whole numbers at both settings', setting=0)
case('tally-setting-1', p('X10.Y10.T2/M0/G28I10.J0K2T3/X50.T2'), all_of(P(1000, 1000, 2), STOP, P(2000, 1000, 3), P(3000, 1000, 3), P(5000, 1000, 2), tools={2: (2, 1, 5), 3: (2, 3, 4)}),
     'the same plate written with points')

# ---------------------------------------------------------------- refusals: after hits all figures are zero

refused('07-without-g50', A222 + '/X10.Y10.T2/M00/X20.T1', R(7, 4), '7: the text ends after three entries; the last line\'s number, and no figure is left')
refused('07-after-g50', p('X10.Y10.T2/G50/X20.'), R(7, 4), '7: a block after G50; the hit before it counts no more')
refused('10-nothing-stored', p('X10.Y10.T2/X20.T3/W60'), R(10, 4), '10: after two hits')
refused('11-in-the-fourth-body', p('X10.Y10.T1/U60/X20.T2/W60/V60/W60'), R(11, 5), '11: after the hit outside and four in bodies')
refused('15-of-a-copy-place', p('X10.Y10.T2/G98X0Y0I101.02P99/U1/M00/V1/G75W1Q1'), R(15, 7), '15: after a hit and the stops of 99 copies; the calling block\'s line')
refused('16-outside-the-range', p('X10.Y10.T2/X20.T99/X-20.'), R(16, 4), '16: after a hit by each of two tools')
refused('16-in-a-pattern', p('X600.Y10.T99/G28I10.J0K2T1'), R(16, 3), '16: the second hit of the line, at 620')
refused('17-of-a-hit', p('X10.Y10.T2/M00/X20.T3'), R(17, 4), '17: a hit and a stop take both places', 8)
refused('17-of-a-stop', p('X10.Y10.T2/X20.T3/M00'), R(17, 4), '17: two hits take both places', 11)
refused('17-of-the-last-hit-of-a-grid', p('X10.Y10.T2/G36I1.P9J1.K9T3'), R(17, 3), '17: 99 places for 1 + 99 hits', 399)
refused('17-in-a-copy', p(TWO_BY_TWO + 'U1/X0Y0T2/X1.T1/V1/G75W1Q1'), R(17, 5), '17: seven places for eight hits; the body block\'s line', 31)
refused('18-of-an-edge', p('X10.Y10.T2/G66I10.J0P10.T3'), R(18, 3), '18: I is under 1.5 times w; after a hit')
