"""Plates of document 01, the four readings that tempt, the decisions, the examples of the manuals."""
from table import *


def P(x, y, t=2):
    return (x, y, t, 'P')


def N(x, y, t=2):
    return (x, y, t, 'N')


# ---------------------------------------------------------------- plates

case('plates-m01', 'G92 X600. Y600./G90 X100. Y100. T2/G28 I10. J45. K2/G50', all_of(P(10000, 10000), P(10707, 10707), P(11414, 11414)), 'document 01, M1: the listing')
case('plates-m02', 'G92 X600. Y600./X50. Y50. T2/G36 I9. P11 J9. K7/G50', E(96, {1: P(5000, 5000), 2: P(5900, 5000), 96: P(5000, 11300)}), 'document 01, M2: eight by twelve')
case('plates-m03', 'G92 X600. Y600./X50. Y50. T2/G37 I9. P11 J9. K7/G50', E(96, {1: P(5000, 5000), 2: P(5000, 5900), 96: P(14900, 5000)}), 'document 01, M3: column by column')
case('plates-m04', 'G92 X600. Y600./G72 X300. Y200./G28 I25. J30. K6 T2/G50', E(6, {1: P(32165, 21250), 6: P(42990, 27500)}), 'document 01, M4')
case('plates-m05', 'G92 X600. Y600./G72 X60. Y60./G26 I25. J45. K4 T2/G50', all_of(P(7768, 7768), P(4232, 7768), P(4232, 4232), P(7768, 4232)), 'document 01, M5')
case('plates-m06', 'G92 X600. Y600./G98 X20. Y100. I250. J150. P1 K1/U1/X10. Y10. T2/V1/G76 W1 Q4/G50',
     all_of(P(28000, 26000), P(28000, 11000), P(3000, 11000), P(3000, 26000)), 'document 01, M6')
case('plates-m07', 'G92 X600. Y600./G98 X20. Y100. I250. J150. P1 K1/U1/X10. Y10. T2/V1/G75 W1 Q4/G50',
     all_of(P(28000, 26000), P(3000, 26000), P(3000, 11000), P(28000, 11000)), 'document 01, M7')
case('plates-m08', 'G92 X600. Y600./X610.2 T2/G50', all_of(P(61020, 60000)), 'document 01, M8: the omitted Y is the G92 point\'s')
case('plates-m09', 'G92 X600. Y600./X610.21 T2/G50', R(16, 2), 'document 01, M9')
case('plates-m10', 'G92 X600. Y600./U60/W60/V60/W60/G50', R(11, 3), 'document 01, M10: the fifth call is in the body\'s line')
case('plates-m11-with-3083-others', 'G92 X600. Y600./U60/G90X100.Y100.T20/V60/U61' + '/' * 3084 + 'V61/W60/G50', all_of(P(10000, 10000, 20)),
     'document 01, M11: 17 characters, so 3,083 more fit')
case('plates-m11-with-3084-others', 'G92 X600. Y600./U60/G90X100.Y100.T20/V60/U61' + '/' * 3085 + 'V61/W60/G50', R(12, 5), 'document 01, M11: 17 and 3,084 characters')

# ---------------------------------------------------------------- readings that tempt

case('tempting-grid-counts-as-all-holes', p('X10.Y10.T2/G36I1.P2J1.K1'), E(6, {3: P(1200, 1000), 6: P(1000, 1100)}), 'P 2 and K 1 are three columns and two rows, not two and one')
case('tempting-sum-of-rounded-steps', p('X100.Y100.T2/G28I10.J45.K5'), E(6, {2: P(10707, 10707), 6: P(13536, 13536)}), 'five times 10 mm at 45 degrees is 3535.53, so 3536; five steps of 707 would be 3535')
case('tempting-tool-of-the-last-copy', p('X1.Y1.T2/G98X100.Y100.I100.P1/U1/X0Y0/X1.T3/V1/G75W1Q1'), all_of(P(100, 100), P(10000, 10000), P(10100, 10000, 3), P(20000, 10000), P(20100, 10000, 3)),
     'the second copy begins with the caller\'s tool 2')
case('tempting-g72-as-a-move', p('X10.Y10.T2/G72X100.Y100./G91X1./G90G72X100.Y100./Y20.'), all_of(P(1000, 1000), P(1100, 1000), P(1100, 2000)), 'the current point stays where it was')

# ---------------------------------------------------------------- decisions, named after the point

case('decision-line-without-bytes', b'\n\nG92X600.Y600.\n\nX10.Y10.T2\n\nG50\n\n', all_of(P(1000, 1000)), 'a line without bytes is blank')
case('decision-last-line-of-a-text-without-g50', b'G92X600.Y600.\n\n  \n', R(7, 3), '7 in the last line: three line feeds and nothing behind them')
case('decision-last-line-with-spaces-left-over', b'G92X600.Y600.\n\n  ', R(7, 3), '7 in the last line: two line feeds, and spaces are bytes')
case('decision-text-of-one-space', b' ', R(7, 1), 'a text of blank lines only: 7 in the last line')
case('decision-text-of-blank-lines-only', b'\n   \n\n', R(7, 3), 'a text of blank lines only: 7 in the last line')
case('decision-spaces-within-words', p('X1 0 0.5 Y- 5.T2 1'), all_of(P(10050, -500, 21)), 'spaces are dropped within words too')
case('decision-leading-zeros', p('G00090X0100.Y000100T000002/M0012/X5.'), all_of(P(10000, 100), N(500, 100)), 'leading zeros have no effect in values and codes')
case('decision-minus-zero-is-not-negative', p('G98X-0Y-0.I-0.00J-0D-0/X-0Y-0.0T2'), all_of(P(0, 0)), '-0 is zero: allowed in G98')
case('decision-minus-zero-is-not-above-zero', p('G26I-0J0K1T2'), R(6, 2), '-0 is zero: I of G26 has to be above 0')
case('decision-minus-zero-is-a-sign', p('G36I1.P-0J1.K0T2'), R(6, 2), 'whole-number words have no sign, whatever the value')
case('decision-k-of-g26-minus-zero', p('G26I1.J0K-0T2'), R(6, 2), 'its size is 0')
case('decision-plus-sign-allowed', p('X+100.Y+50.T2/G28I+10.J+90.K1/G26I+5.J+0.K+2'), all_of(P(10000, 5000), P(10000, 6000), P(10500, 6000), P(9500, 6000)), 'plus on lengths, angles and K of G26')
case('decision-plus-sign-on-a-whole-number', p('X1.Y1.T+2'), R(6, 2), '6 on other whole numbers')
case('decision-letter-of-no-block', p('X1.Y1.T2R1'), R(5, 2), '5, when all words have the form')
case('decision-letter-of-no-block-without-digits', p('X1.Y1.T2R'), R(4, 2), '4 judges form alone')
case('decision-n-alone', p('N1'), R(5, 2), 'a number is not a block')
case('decision-n-before-any-other-block', 'N1G92X600.Y600./N2G90/N3X10.Y10.T2/N4M12/N5A1G28I1.J0K1/N6B1/U60/N7Y5./V60/N8W60/N9M13/N10G98X0Y0/N11G93X1./N12G75W60Q1/N13G72X1./N14G91/N15G50',
     all_of(P(1000, 1000), N(1100, 1000), N(1200, 1000), N(1200, 500), P(100, 500)), 'N before any block but U and V lines; in the copy Y5. is measured from (1, 0)')
case('decision-n-before-u', p('N1U60/X1.Y1.T2/V60'), R(5, 2), 'not a U line; carried out, 5')
case('decision-n-before-v-closes-no-body', p('U60/X1.Y1.T2/N1V60'), R(9, 2), 'not a V line, so the U line has none')
case('decision-n-before-v-in-a-body', p('U60/N1V60/V60/W60'), R(5, 3), 'not a V line; carried out in the body, 5')
case('decision-a-anywhere-before-the-g-word', p('X10.Y10.T2/I1.A1J0G28K1/N1A2G90G28I2.J0K1/G90A3G28I3.J0K1/B1/B2/B3'), E(7, {7: P(2200, 1000)}), 'A before the pattern\'s G word, whatever stands between')
case('decision-a-after-the-g-word', p('G28A1I1.J0K1T2'), R(5, 2), 'A stands before the pattern\'s G word')
case('decision-a-between-pattern-and-g90', p('G28A1G90I1.J0K1T2'), R(5, 2), 'G90 is not the pattern\'s G word')
case('decision-t-beside-b', p('X1.Y1.T2/A1G28I1.J0K1/B1T2'), R(5, 4), 'T is not among the letters of B')
case('decision-t-alone', p('T2'), R(5, 2), 'T without X or Y needs a pattern code')
case('decision-x-beside-a-pattern', p('G28X1.I1.J0K1T2'), R(5, 2), 'X is not among the letters of G28')
case('decision-g91-beside-g93', p('G91G93X1.'), R(5, 2), 'only G90 stands beside G93')
case('decision-v-line-of-two-words-closes-nothing', p('U60/X1.Y1.T2/V60X1./V60'), R(9, 2), 'a U line\'s own V has nothing else; judged at the U line')
case('decision-v-line-without-digits-closes-nothing', p('U60/V/V60'), R(9, 2), 'the next U or V line, however it goes on')
case('decision-v-line-with-a-sign-closes-nothing', p('U60/V+60'), R(9, 2), 'its own V is one valid V word')
case('decision-v-line-with-a-point-closes-nothing', p('U60/V60.'), R(9, 2), 'its own V is one valid V word')
case('decision-u-line-without-digits-in-a-body', p('U60/U/V60'), R(9, 2), 'the next U or V line is a U line, however malformed')
case('decision-v-line-alone-as-first-block', 'V60/' + p(''), R(7, 1), 'a V line alone: 4 to 7, then 9')
case('decision-block-after-g50-4', p('') + '/X', R(4, 3), 'a block after G50: 4, 5, 6, then 7')
case('decision-block-after-g50-5', p('') + '/Z1', R(5, 3), 'a block after G50: 4, 5, 6, then 7')
case('decision-block-after-g50-6', p('') + '/B6', R(6, 3), 'a block after G50: 4, 5, 6, then 7')
case('decision-u-line-after-g50', p('') + '/U60/X1.Y1.T1/V60', R(7, 3), 'a U line follows G50')
case('decision-g91-beside-g72-stays', p('X100.Y100.T2/G91G72X10./X5.'), all_of(P(10000, 10000), P(10500, 10000)), 'G91 beside a code stays in force')
case('decision-g91-beside-a-pattern-stays', p('X100.Y100.T2/G91G28I10.J0K1/X5.'), all_of(P(10000, 10000), P(11000, 10000), P(11500, 10000)), 'G91 beside a code stays in force')
case('decision-g90-beside-g93-stays', p('X100.Y100.T2/G91X1./G90G93X10./X20.'), all_of(P(10000, 10000), P(10100, 10000), P(3000, 10000)), 'G90 beside G93 stays in force')
case('decision-g70-drops-a-waiting-origin', p('G72X300.Y300./G70X100.Y100.T3/G28I10.J0K1'), all_of(P(11000, 10000, 3)), 'G70 with X or Y is a position block, and chooses its tool')
case('decision-g70-needs-no-tool', p('G70X100.Y100.'), E(0), 'G70 makes no hit')
case('decision-g91-beside-a-pattern-leaves-the-origin', p('G72X300.Y300./G91G28I10.J0K1T2'), all_of(P(31000, 30000)), 'the pattern is what uses it')
case('decision-second-g72', p('X100.Y100.T2/G72X300.Y300./G91G72X10./G28I10.J0K1/G90G72X300.Y300./G72Y50./G28I10.J0K1'), all_of(P(10000, 10000), P(12000, 10000), P(13000, 5000)),
     'a second G72 replaces the first whole; omitted axes and G91 go by the current point')
case('decision-waiting-origin-is-a-point-of-the-sheet', p('X50.Y50.T2/G72X100.Y100./M0/M12/M13/G93X50.Y50./U60/V60/W60/G98X10.Y10./G28I10.J0K1'), all_of(P(5000, 5000), STOP, P(11000, 10000)),
     'M, U, W, G93 and G98 leave it where it is')
case('decision-waiting-origin-judged-by-15-alone', p('G72X9999.99Y500./X1.Y1.T2/G72X2000.Y500./G28I-1500.J0K1'), all_of(P(100, 100), P(50000, 50000)), 'a waiting origin may lie outside the range')
case('decision-g26-after-g72', p('X10.Y10.T2/G72X300.Y300./G26I10.J0K1/G91X5.'), all_of(P(1000, 1000), P(31000, 30000), P(30500, 30000)), 'the current point becomes the G72 point')
case('decision-grid-with-p0-k0', p('G72X100.Y100./G36I10.P0J10.K0T4/G28I1.J0K1/G91X5.'), all_of(P(10100, 10000, 4), P(10600, 10000, 4)), 'no hit; origin used, current point at its start, tool chosen')
case('decision-grid-with-p0-k0-without-a-tool', p('G37I10.P0J10.K0'), E(0), 'no hit, so no 14')
case('decision-pitch-0', p('X10.Y10.T2/G28I0J0K2/G36I0P1J0K0/G29I1J0P0K2'), all_of(P(1000, 1000), P(1000, 1000), P(1000, 1000), P(1000, 1000), P(1001, 1000), P(1001, 1000)), 'hits may fall together and on the start')
case('decision-g26-with-k-below-0', p('G72X300.Y300./G26I250.J0K-64T2'), E(64, {1: P(55000, 30000), 2: P(54879, 27547), 17: P(30000, 5000), 64: P(54880, 32448)}),
     '36,000 / 64 = 562.5 is 563 and then taken off: -5.63 degrees, 25,000 x sin = 2452.6; the last turn, 35437.5, is 354.38, so 5.62: 2448.3')
case('decision-g26-with-k-above-0', p('G72X300.Y300./G26I250.J0K64T2'), E(64, {2: P(54879, 32453), 64: P(54880, 27552)}), 'halves up: 5.63 and 354.38 degrees')
case('decision-a-keeps-no-tool', p('X10.Y10.T2/A1G28I1.J0K1T3/X10.T4/B1'), all_of(P(1000, 1000), P(1100, 1000, 3), P(1000, 1000, 4), P(1100, 1000, 4)), 'A keeps code and numbers, no tool')
case('decision-a-keeps-no-g91', p('X10.Y10.T2/A1G91G28I1.J0K1/G90X20./B1/X30.'), all_of(P(1000, 1000), P(1100, 1000), P(2000, 1000), P(2100, 1000), P(3000, 1000)), 'A keeps no G91')
case('decision-w-within-its-own-first-run', p('U1/W1/V1'), R(10, 3), 'a body is stored when its first run is done')
case('decision-w-within-its-own-second-first-run', p('U1/X10.Y10.T2/V1/U1/W1/X20./V1'), all_of(P(1000, 1000), P(1000, 1000), P(2000, 1000)), 'finds the body stored before')
case('decision-empty-body', p('U60/V60/W60/U1/V1/W1/X1.Y1.T2'), all_of(P(100, 100)), 'stored, and calls of it do nothing')
case('decision-first-run-leaves-its-state', p('U1/G91X-10.T5/M12/V1/X-10.'), all_of(P(59000, 60000, 5), N(58000, 60000, 5)), 'a first run is a run')
case('decision-u-line-met-again', p('U1/X10.Y10.T2/V1/U1/X20.Y20./V1/W1'), all_of(P(1000, 1000), P(2000, 2000), P(2000, 2000)), 'stores and runs anew')
case('decision-copy-of-an-empty-body', p('G98X9999.Y0I1.P1/U60//V60/G75W60Q1'), R(15, 6), 'its place is judged all the same: 999,900 + 100')
case('decision-last-copys-waiting-origin', p('G98X100.Y100.I50.P1/U60/G72X10.Y10./V60/G72X300.Y300./G75W60Q1/G28I5.J0K1T2'), all_of(P(16500, 11000)), 'waits on; the caller\'s is gone')
case('decision-part-that-does-not-move', p('X10.Y10.T2/G98X100.Y100.I50.P1/U60/V60/G75W60Q1/G91X1.'), all_of(P(1000, 1000), P(15100, 10000)), 'the current point is the last copy\'s place')
case('decision-second-g98', p('G98X10.Y10.I50.J50.P1K1D5./G98X20.Y20./U60/X0Y0T2/V60/G75W60Q1'), all_of(P(2000, 2000)), 'replaces all of it; letters left out are 0')
_lines = spent(100000)
case('decision-v-line-alone-after-100000-blocks', '/'.join(_lines + ['V60']), R(9, len(_lines) + 1), '3 does not count V lines')
_lines = spent(99999)
case('decision-block-after-g50-as-block-100000', '/'.join(_lines + ['G50', 'M08']), R(3, len(_lines) + 2), '3 comes before 7')
_lines = spent(100000)
case('decision-100000-blocks-without-g50', '/'.join(_lines + ['', ' ']), R(7, len(_lines) + 2), 'no block is one too many; the last line')
_lines = spent(99999, ('U60', 'M08', 'V60', 'G98X0Y0I101.02P99'))
case('decision-copy-place-too-far-with-all-blocks-spent', '/'.join(_lines + ['G75W60Q2']), R(15, len(_lines) + 1), 'the place comes before the copy\'s first block, which would be one too many')
case('decision-arc-has-no-reach', p('G72X0Y0/G29I9999.99J0P0K999T2'), R(16, 3), '15 names k x I of a line and the products of a grid; the arc\'s first hit is outside the range')
case('decision-circle-has-no-reach', p('G72X0Y0/G26I9999.99J0K999T2'), R(16, 3), '15 names k x I of a line and the products of a grid; the circle\'s first hit is outside the range')
case('decision-reach-without-a-tool', p('G28I9999.J0K2'), R(15, 2), 'reach is judged before the first hit')
case('decision-grid-reach-without-a-tool', p('G36I9999.P2J0K0'), R(15, 2), 'reach is judged before the first hit')
case('decision-hits-too-far-in-a-pattern', p('G72X9999.Y0/G28I1.J0K1T2'), R(15, 3), '15, hit by hit, before 16: 999,900 + 100')
case('decision-no-entries', p(''), E(0), 'ENTRIES 0 and no further line')

# ---------------------------------------------------------------- examples of the manuals


def times(n, block):
    return '/'.join([block] * n)


case('manual-000-i-5-absolute', p('G90 X100. Y100. T2/X300. Y100./X300. Y200./X400. Y300.'), all_of(P(10000, 10000), P(30000, 10000), P(30000, 20000), P(40000, 30000)), '000 p. I-5; G92 and G50 added')
case('manual-000-i-5-incremental', p('G90 X100. Y100. T2/G91 X200. Y0/X0 Y100./X100. Y100.'), all_of(P(10000, 10000), P(30000, 10000), P(30000, 20000), P(40000, 30000)), '000 p. I-5: the same points')
case('manual-000-i-5-punch-off', p('G90 X100. Y100. T2/G70 X300.'), all_of(P(10000, 10000)), '000 p. I-5: the axes move without punching')
case('manual-000-i-5-punch-off-incremental', p('G90 X100. Y100. T2/G91 G70 X200./G90 Y300.'), all_of(P(10000, 10000), P(30000, 30000)), '000 p. I-5, 002 p. 17: punched, not punched, punched')
case('manual-000-i-8-program-stop', p('G90 X100. Y100. T2/G91 Y42./Y42./Y42./M00/N60 M01/G90 X300.'),
     all_of(P(10000, 10000), P(10000, 14200), P(10000, 18400), P(10000, 22600), STOP, OPTIONAL, P(30000, 22600)), '000 p. I-8, the other blocks filled in: a sequence number may stand with it')
case('manual-000-i-9-tool-stays', p('G90 X450. Y300. T2/G91 X50.00/X50.00/G90 X500. Y450. T3'), all_of(P(45000, 30000), P(50000, 30000), P(55000, 30000), P(50000, 45000, 3)), '000 p. I-9')
case('manual-000-i-9-sequence-numbers', 'G92 X1000. Y600./N0001G90 X450. Y300. T2/N0002 G91 X50./N0003 X50./N0004 G90 X500. Y450. T3/N9999 G50',
     all_of(P(45000, 30000), P(50000, 30000), P(55000, 30000), P(50000, 45000, 3)), '000 p. I-9, on the ARIES-224')
case('manual-000-i-9-nibbling', p('M12/G90 X100. Y100. T2/G91 X5./G91 X5./M13/X5.'), all_of(N(10000, 10000), N(10500, 10000), N(11000, 10000), P(11500, 10000)), '000 p. I-9, lengths filled in')
case('manual-000-i-16-long-hole', p('G90 X210. Y310. T3/G91 X 18.57/' + times(6, 'X 18.57')), E(8, {1: P(21000, 31000, 3), 8: P(33999, 31000, 3)}), '000 p. I-16: 21,000 + 7 x 1,857')
case('manual-000-i-18-rectangle', p('G90 X535. Y335. T1/G91 X-27./' + times(9, 'X-27.') + '/' + times(6, 'Y-28.33') + '/' + times(10, 'X27.') + '/' + times(5, 'Y28.33') + '/M00'),
     E(33, {1: P(53500, 33500, 1), 11: P(26500, 33500, 1), 17: P(26500, 16502, 1), 27: P(53500, 16502, 1), 32: P(53500, 30667, 1), 33: STOP}), '000 p. I-18, 001 p. V-11: 1 + 10 + 6 + 10 + 5 hits and the stop for the scrap')
case('manual-000-i-21-rounded-corners', p('G90 X517. Y367. T2/G91 X-234./Y-134./X234./G90 X507. Y365. T3/G91 ' + times(11, 'X-19.45') + '/X-8. Y-8./' + times(6, 'Y-19.') + '/X8. Y-8./' + times(11, 'X19.45') + '/X8. Y8./' + times(6, 'Y19.') + '/M00'),
     E(43, {4: P(51700, 23300), 5: P(50700, 36500, 3), 16: P(29305, 36500, 3), 17: P(28505, 35700, 3), 23: P(28505, 24300, 3), 24: P(29305, 23500, 3), 35: P(50700, 23500, 3), 36: P(51500, 24300, 3), 42: P(51500, 35700, 3), 43: STOP}),
     '000 p. I-21 with X-19.45 for the printed X-19.45.; 42 hits and the stop for the scrap')
case('manual-000-i-21-as-printed', p('G90 X507. Y365. T3/G91 X-19.45.'), R(4, 3), '000 p. I-21 as printed: two points')
case('manual-000-i-23-corner', p('G90 X72.72 Y-1. T6/G91 X-24.67 Y24.67/X-24.67 Y24.67/X-24.67 Y24.67'), all_of(P(7272, -100, 6), P(4805, 2367, 6), P(2338, 4834, 6), P(-129, 7301, 6)), '000 p. I-23, 001 p. V-7')
case('manual-000-2-1-origin-with-a-tool', p('G90 G72 X300. Y200. T2'), R(5, 2), '000 p. 2-1: never enter T with G72')
case('manual-000-2-1-origin-with-m00', p('G91 G72 X150. Y250. M00'), R(5, 2), '000 p. 2-1: never enter M with G72')
case('manual-000-2-2-line', p('G90 G72 X300. Y200./G28 I25. J30. K6 T2'), E(6, {1: P(32165, 21250), 6: P(42990, 27500)}), '000 p. 2-2')
case('manual-000-2-2-line-with-its-origin', p('G90 X300. Y200. T2/G28 I25. J30. K6'), E(7, {1: P(30000, 20000), 2: P(32165, 21250), 7: P(42990, 27500)}), '000 p. 2-2: G72 omitted, T2 in the upper block')
case('manual-001-ii-9-line-backwards', p('G90 G72 X300.00 Y200.00/G28 I-25.00 J30.00 K6 T3'), E(6, {1: P(27835, 18750, 3), 6: P(17010, 12500, 3)}), '001 p. II-9: I negative goes in the direction of 210 degrees')
case('manual-000-2-4-arc', p('G90 G72 X380. Y120./G29 I180. J30. K6 P15. T2'), E(6, {1: P(53588, 21000), 5: P(38000, 30000), 6: P(33341, 29387)}), '000 p. 2-4: 30 to 105 degrees')
case('manual-002-25-arc-with-its-origin', p('G 90 X 480. Y 120. T 6/G 29 I 180. J 30. P 15. K 6', A224), E(7, {1: P(48000, 12000, 6), 2: P(63588, 21000, 6), 7: P(43341, 29387, 6)}), '002 p. 25 on the ARIES-224, T206 as T6')
case('manual-002-21-circle', p('G 72 G 90 X 300. Y 250./G 26 I 80. J 45. K 6 T 7'), E(6, {1: P(35657, 30657, 7), 4: P(24343, 19343, 7)}), '002 p. 21, 001 p. II-7: 8,000 x 0.707106781 = 5656.85')
case('manual-002-20-circle-then-increment', p('G 72 X 400. Y 300./G 26 I 100. J 90. K 8 T 7/G 91 X 300. Y 100. T 20', A224), E(9, {1: P(40000, 40000, 7), 2: P(32929, 37071, 7), 9: P(70000, 40000, 20)}),
     '002 p. 20: the increment starts at the circle\'s centre')
case('manual-000-2-8-grid-x', p('G90 G72 X350. Y410./G36 I50. P3 J-20. K5 T2'), E(23, {1: P(40000, 41000), 3: P(50000, 41000), 4: P(50000, 39000), 23: P(35000, 31000)}), '000 p. 2-8: four columns, six rows, the origin left out')
case('manual-000-2-8-grid-y', p('G90 G72 X350. Y410./G37 I50. P3 J-20. K5 T2'), E(23, {1: P(35000, 39000), 5: P(35000, 31000), 6: P(40000, 31000), 23: P(50000, 41000)}), '000 p. 2-8')
case('manual-000-2-21-memory', p('G90 G72 X300. Y250./A1 G26 I125. J60. K6 T2/G70 X400./G72 X750./B1', A224), E(12, {1: P(36250, 35825), 7: P(81250, 35825), 12: P(87500, 25000)}),
     '000 p. 2-21 with G25 dropped; the circle ends at its centre, so Y is 250 still')
case('manual-000-2-21-as-printed', p('G90 G72 X300. Y250./A1 G26 I125. J60. K6 T2/G70 X400./G25 X350./G72 X750./B1', A224), R(5, 5), '000 p. 2-21 as printed: G25 is unknown')
case('manual-002-60-memory', p('G 72 G 90 X 350. Y 250./A 1 G 26 I 150. J 0 K 6 T 7/G 72 X 850./B 1', A224), E(12, {1: P(50000, 25000, 7), 7: P(100000, 25000, 7)}), '002 p. 60, T307 as T7')
case('manual-000-2-24-offset', p('G90 X300. Y205. T2/G90 G93 X50. Y75./X250. Y130. T2/G90 G93 X50. Y75./G93 X200. Y125./X100. Y80. T2/G90 G93 X0 Y0/X300. Y205.'), all_of(P(30000, 20500), P(30000, 20500), P(30000, 20500), P(30000, 20500)),
     '000 p. 2-24: point A three ways, and again after the offset is 0')
case('manual-000-2-24-offset-by-g91', p('G90 G93 X50. Y75./G91 G93 X150. Y50.'), R(5, 3), '000 p. 2-24 allows G91 G93; document 01 lists G90 alone beside G93')
case('manual-002-39-offset-example-1', p('G 90 G 93 X 67.5 Y 67.5/X 450. Y 200. T 6/X 150. Y 250./G 28 I 50. J -90. K 3'), all_of(P(51750, 26750, 6), P(21750, 31750, 6), P(21750, 26750, 6), P(21750, 21750, 6), P(21750, 16750, 6)), '002 p. 39, T206 as T6')
case('manual-002-39-offset-example-2', p('G 90 G 93 X 0 Y 80./X 600. Y 300. T 6/G 28 I 150. J 180. K 3/X 150. Y 50./X 600.'),
     all_of(P(60000, 38000, 6), P(45000, 38000, 6), P(30000, 38000, 6), P(15000, 38000, 6), P(15000, 13000, 6), P(60000, 13000, 6)), '002 p. 39')
case('manual-002-40-offset-and-macro', p('G 90 G 93 X 400. Y 260./U 1/G 90 X 300. Y 180. T 6/G 91 Y -100./X -200./Y 100./V 1/G 90 G 93 X 0 Y 260./W 1/G 90 G 93 X 0 Y 0/W 1/G 90 G 93 X 400. Y 0/W 1', A224),
     E(16, {1: P(70000, 44000, 6), 4: P(50000, 44000, 6), 5: P(30000, 44000, 6), 9: P(30000, 18000, 6), 13: P(70000, 18000, 6), 16: P(50000, 18000, 6)}), '002 p. 40, example 3')
case('manual-002-41-offset-to-the-middle', p('G 90 G 93 X 397.5 Y 297.5/X 200. Y 100. T 6/X -200./X -100. Y 100./X -200. Y -100./X 200.'),
     all_of(P(59750, 39750, 6), P(19750, 39750, 6), P(29750, 39750, 6), P(19750, 19750, 6), P(59750, 19750, 6)), '002 p. 41, example 4')
case('manual-000-2-26-macro-70', p('U70/G90 X200. Y100. T3/G37 I8. P3 J10. K10/G90 X550. Y250./G28 I25. J-90. K6/V70/W70'), E(1 + 43 + 1 + 6, {2: P(20000, 11000, 3), 44: P(22400, 10000, 3), 45: P(55000, 25000, 3), 51: P(55000, 10000, 3)}),
     '000 p. 2-26: four columns of eleven, then a line downwards')
case('manual-000-2-27-multiple-recall', p('U05/X10. Y10. T1/X20. Y20. T2/V05/U20/X30. Y30. T3/W05/X40. Y40. T4/V20/U70/X50. Y50. T5/W20/X60. Y60. T6/V70/W70'),
     E(12, {3: P(3000, 3000, 3), 4: P(1000, 1000, 1), 7: P(5000, 5000, 5), 8: P(3000, 3000, 3), 12: P(6000, 6000, 6)}), '000 p. 2-27, positions filled in: 1 2, 3 1 2 4, 5 3 1 2 4 6')
case('manual-000-2-29-block-delete', 'G92 X600. Y600.|G90 X320. Y210. T2|/ X100. Y100. T3|G50|'.replace('|', '\n').encode(), R(2, 3), '000 p. 2-29: the slash is no byte of document 01')
case('manual-002-62-characters', p('U 02/G 90 X 100. Y 100. T 21/G 28 I 50. J 90. K 6/M 00/V 02/U 60/G 90 X 100. Y 100. T 6/G 28 I 50. J 0 K 6/M 00/V 60/G 93 X 100./W 02/G 93 X 200./W 60'),
     E(24, {1: P(10000, 10000, 21), 7: P(10000, 40000, 21), 8: STOP, 9: P(20000, 10000, 21), 16: STOP, 17: P(30000, 10000, 6), 23: P(60000, 10000, 6), 24: STOP}),
     '002 p. 62 without its G67, the offsets 100 and 200 in place of 300 and 600; each run of a macro ends in its stop')
PART = 'U1/G90 X190. Y110. T3/Y10./X10./Y110./G72 X60. Y60./A1 G26 I25. J45. K4 T2/G72 X140. Y60./B1/V1/U2/X140. Y60. T9/X60./V2/'
case('manual-000-3-3-multiple-parts', p('G98 X20. Y100. I250. J150. P1K1/' + PART + 'G76 W1Q4/G76 W2 Q3'),
     E(4 * 12 + 4 * 2, {1: P(46000, 36000, 3), 5: P(34768, 32768), 12: P(42768, 29232), 13: P(46000, 21000, 3), 25: P(21000, 21000, 3), 37: P(21000, 36000, 3), 49: P(16000, 31000, 9), 50: P(8000, 31000, 9),
                        51: P(16000, 16000, 9), 53: P(41000, 16000, 9), 55: P(41000, 31000, 9), 56: P(33000, 31000, 9)}),
     '000 p. 3-3 without the G66 parts: Q4 upper right and down, then Q3 upper left and down')
case('manual-000-3-5-layout-four-by-three', p('G98 X20. Y60. I100. J80. P3 K2/U1/X50.Y40.T1/V1/G75W1Q4'), E(12, {1: P(37000, 26000, 1), 4: P(7000, 26000, 1), 5: P(7000, 18000, 1), 12: P(7000, 10000, 1)}), '000 p. 3-5 example 1 with a part of one hit')
case('manual-000-3-5-layout-from-zero', p('G98 X0 Y0 I200. J150. P1 K1/U1/X50.Y40.T1/V1/G76W1Q1'), all_of(P(5000, 4000, 1), P(5000, 19000, 1), P(25000, 19000, 1), P(25000, 4000, 1)), '000 p. 3-5 example 2')
case('manual-000-3-6-single-row', p('G98 X30. Y80. I110. J0 P4 K0/U1/X20.Y15.T4/V1/G75W1Q2'), all_of(P(49000, 9500, 4), P(38000, 9500, 4), P(27000, 9500, 4), P(16000, 9500, 4), P(5000, 9500, 4)), '000 p. 3-6 example 3')
case('manual-000-3-7-single-column', p('G98 X30. Y80. I0 J150. P0 K3/U1/X20.Y15.T4/V1/G76W1Q3'), all_of(P(5000, 54500, 4), P(5000, 39500, 4), P(5000, 24500, 4), P(5000, 9500, 4)), '000 p. 3-7 example 4')
case('manual-000-3-9-one-part-program', p('G98 X20. Y100. I250. J150. P1 K2/U50/X190. Y110. T3/Y10./X10./Y110./G72 X60. Y60./A1 G26 I25. J45. K4 T2/G72 X140. Y60./B1/X140. Y60. T9/X60./V50/G75 W50 Q1'),
     E(6 * 14, {1: P(21000, 21000, 3), 14: P(8000, 16000, 9), 15: P(46000, 21000, 3), 29: P(46000, 36000, 3), 84: P(33000, 46000, 9)}), '000 p. 3-9 program example (2) without its G66 blocks; three rows of two')
case('manual-000-3-13-as-printed', p('G98 X20. Y100. I250. J150. P1.K2'), R(6, 2), '000 p. 3-13 as printed: a count with a point')
case('manual-000-3-13-macro-90', p('G98 X20. Y100. I250. J150. P1K2/U90/U1/X190. Y110. T3/V1/V90/G75W90Q4'), R(6, 3), '000 p. 3-13: no macro 90 here')
case('manual-000-5-3-plate', p('G90 X380. Y70. T2/G91 X100./Y100./X-100./G90 X320. Y250. T3/G36 I50. P4 J50. K3'), E(24, {4: P(38000, 17000), 5: P(32000, 25000, 3), 9: P(52000, 25000, 3), 24: P(32000, 40000, 3)}), '000 p. 5-3, blocks A to F')
case('manual-000-5-9-line', p('G90 X100. Y100. T3/G28 I100. J0 K9/G70 X600. Y180.', A224), E(10, {10: P(100000, 10000, 3)}), '000 p. 5-9, blocks C and D and the G70')
case('manual-001-i-11-tool', p('G90 X500.00 Y300.00 T2/G91 X50.00/X50.00/G90 X700.00 Y450.00 T1', A224), all_of(P(50000, 30000), P(55000, 30000), P(60000, 30000), P(70000, 45000, 1)), '001 p. I-11, T102 and T201 as T2 and T1')
case('manual-001-ii-3-without-a-tool', p('G90 X100.00 Y100.00/G70 X300.00'), R(14, 2), '001 p. II-3 as printed has no tool')
case('manual-001-ii-35-line-and-grid', p('G90 X200. Y100. T45/G28 I20. J0 K3/G90 X500. Y500. T1/G36 I100. P2 J40. K3', A224), R(16, 5), '001 p. II-35: 500 + 3 x 40 = 620 mm is outside')
case('manual-001-ii-35-line-and-grid-lower', p('G90 X200. Y100. T45/G28 I20. J0 K3/G90 X500. Y400. T1/G36 I100. P2 J40. K3', A224), E(4 + 12, {4: P(26000, 10000, 45), 5: P(50000, 40000, 1), 16: P(50000, 52000, 1)}), '001 p. II-35 with Y400.')
case('manual-002-50-line-and-grid', p('G 90 X 100. Y 150. T 23/G 28 I 20. J 45. K 5/G 90 X 200. Y 350. T 28/G 36 I 50. P 3 J 75. K 2/M 13'), E(18, {4: P(14243, 19243, 23), 6: P(17071, 22071, 23), 18: P(35000, 50000, 28)}), '002 p. 50 with P3 for the printed P 3.')
case('manual-002-50-as-printed', p('G 90 X 200. Y 350. T 28/G 36 I 50. P 3. J 75. K 2'), R(6, 3), '002 p. 50 as printed: a count with a point')
case('manual-002-51-nibbling-grid', p('M 12/G 90 X 230. Y 300. T 18/G 36 I 150. P 3 J 40. K 2/M 13', A224), E(12, {1: N(23000, 30000, 18), 4: N(68000, 30000, 18), 12: N(68000, 38000, 18)}), '002 p. 51, 001 p. II-38: a grid between M12 and M13')
case('manual-002-52-forming', p('M 08/G 90 X 500. Y 300. T 34/G 28 I 30. J 0 K 10/M 09/M 13/M 08/G 90 X 20. Y 150. T 3/G 36 I 800. P 1 J 400. K 1/M 09/M 13', A224),
     E(15, {11: P(80000, 30000, 34), 12: P(2000, 15000, 3), 13: P(82000, 15000, 3), 14: P(82000, 55000, 3), 15: P(2000, 55000, 3)}), '002 p. 52 without its forming codes')
case('manual-002-53-marking', p('M 08/G 90 X 130. Y 280. T 13/X 350./M 09/M 13/G 90 X 350. Y 180. T 33/Y 350.'), all_of(P(13000, 28000, 13), P(35000, 28000, 13), P(35000, 18000, 33), P(35000, 35000, 33)), '002 p. 53 and 001 p. II-40')
case('manual-002-14-absolute-and-incremental', p('G 90 X 600. Y 300. T 1/X 400./X 300. Y 200./Y 100./X 100./G 90 X 600. Y 300./G 91 X -200./X -100. Y -100./Y -100./X -200.'),
     E(10, {5: P(10000, 10000, 1), 6: P(60000, 30000, 1), 10: P(10000, 10000, 1)}), '002 p. 14: the same five points twice, omitted axes left out')
case('manual-002-15-tool', p('G 90 X 500. Y 400. T 2/X 300. Y 200./X 150. Y 300./X 10. Y 600. T 1/X 20. Y 400.'), E(5, {3: P(15000, 30000), 4: P(1000, 60000, 1), 5: P(2000, 40000, 1)}), '002 p. 15, T202 and T201 as T2 and T1')
SYMMETRY = 'N 001 G 90 G 93 X 110. Y 120./U 1/N 002 X 40. Y 20. T %s/Y 70./G 28 I 55. J 0 K 2/V 1/N 003 G 73 X 600. Y 400. Q 4 W 1/N 004 G 73 Q 3 W 1/N 005 G 73 Q 2 W 1/N 006 G 91 X 300. Y 200.'
case('manual-002-66-symmetry', p(SYMMETRY % '13', A224),
     all_of(*(P(x, y, 13) for x, y in ((15000, 14000), (15000, 19000), (20500, 19000), (26000, 19000), (67000, 50000), (67000, 45000), (61500, 45000), (56000, 45000), (15000, 50000), (15000, 45000),
                                       (20500, 45000), (26000, 45000), (67000, 14000), (67000, 19000), (61500, 19000), (56000, 19000), (41000, 32000)))),
     '002 p. 66, T313 as T13: the pattern where it is stored, then by Q4, Q3 and Q2; hole A is measured from the pattern\'s reference point, (110, 120)')
case('manual-002-66-as-printed', p(SYMMETRY % '313', A224), R(6, 4), '002 p. 66 as printed: 313 is no tool here')
case('manual-002-68-symmetry-of-parts',
     p('G 98 X 20. Y 30. I 250. J 200. P 1 K 1/U 60/X 10. Y 20. T 3/G 28 I 15. J 90. K 2/V 60/U 1/G 73 X 200. Y 150. Q 1 W 60/G 73 Q 2 W 60/G 73 Q 3 W 60/G 73 Q 4 W 60/V 1/G 75 W 1 Q 1'),
     all_of(*(P(x + dx, y + dy, 3) for x, y in ((2000, 3000), (27000, 3000), (27000, 23000), (2000, 23000))
              for dx, dys in ((1000, (2000, 3500, 5000)), (19000, (2000, 3500, 5000)), (1000, (13000, 11500, 10000)), (19000, (13000, 11500, 10000))) for dy in dys)),
     '002 p. 68 with numbers: the pattern in a macro of 60 to 89, the four of a part in one of 1 to 59')
case('manual-002-74-offset-then-layout', p('X 50. Y 50. T 5/G 93 X 100. Y 100./X 150. Y 150. T 6/G 98 X 200. Y 200./U 1/X 50. Y 80. T 7/V 1/W 1'), all_of(P(5000, 5000, 5), P(25000, 25000, 6), P(35000, 38000, 7)), '002 p. 74: offset and reference add up')
case('manual-002-74-offset-in-a-macro', p('G 98 X 50. Y 100./U 1/G 93 X 80. Y 150./X 100. Y 100. T 5/V 1/W 1'), R(7, 4), '002 p. 74: G93 inside a macro; document 01 refuses it when the body runs')
case('manual-002-75-second-layout', p('G 98 X 50. Y 100./U 1/X 50. Y 50. T 11/V 1/G 75 W 1 Q 1/G 98 X 0 Y 0/X 300. Y 50. T 21'), all_of(P(10000, 15000, 11), P(30000, 5000, 21)), '002 p. 75 without G93 in its macros: the second G98 counts from the G92 origin too')
case('manual-002-76-multiple-parts', p('G 98 X 30. Y 100. I 200. J 150. P 3 K 2/U 1/G 90 X 170. Y 110. T 6/Y 10./X 10./Y 110./V 1/U 2/G 90 X 90. Y 60. T 18/G 26 I 25. J 90. K 4 T 16/V 2/G 76 W1 Q 4/G 76 W2 Q 3', A224),
     E(108, {1: P(80000, 51000, 6), 5: P(80000, 36000, 6), 13: P(60000, 21000, 6), 49: P(12000, 46000, 18), 50: P(12000, 48500, 16), 54: P(12000, 31000, 18), 104: P(72000, 46000, 18)}),
     '002 p. 76, example 1 without the G66 parts')
case('manual-002-77-as-printed', p('G 72 G 180. Y 120.'), R(5, 2), '002 p. 77 as printed: G180 with a point is no code')
case('manual-002-78-one-row', p('G 98 X 30. Y 20. I 185. J 0 P 4 K 0/U 1/X 30. Y 440. T 21/Y 250./Y 60./V 1/U 2/X 80. Y 185. T 25/G 36 I 50. P 1 J -50. K 1/V 2/U 3/X 80. Y 160. T 39/X 130./V 3/U 4/X 110. Y 300. T 44/Y 370./V 4/G 75 W 1 Q 2/G 75 W 2 Q 1/G 75 W 3 Q 2/G 75 W 4 Q 1', A224),
     E(15 + 20 + 10 + 10, {1: P(80000, 46000, 21), 3: P(80000, 8000, 21), 13: P(6000, 46000, 21), 16: P(11000, 20500, 25), 19: P(11000, 15500, 25), 36: P(85000, 18000, 39), 46: P(14000, 32000, 44), 55: P(88000, 39000, 44)}),
     '002 p. 78, example 2 without the G66 parts, X 30. for the printed X 30, at Y 20 to stay in range')
case('manual-002-78-as-printed', p('G 98 X 30. Y 100. I 185. J 0 P 4 K 0/U 1/X 30 Y 440. T 21/V 1/G 75 W 1 Q 1', A224), E(5, {1: P(3030, 54000, 21), 5: P(77030, 54000, 21)}), '002 p. 78 prints X 30 without a point: 0.30 mm')
case('manual-002-79-three-layouts', p('G 98 X 20. Y 50. I 55. J 40. P 3 K 3/U 4/X 52.5 Y 10.15 T 49/Y 24.85/V 4/U 5/X 34.85 Y 37.5 T 13/X 15.15/V 5/G 75 W 4 Q 4/G 75 W 5 Q 3/G 98 X 20. Y 50. I 0 J 40. P 0 K 3/U 50/X -2.5 Y 24.85 T 49/Y 10.15/V 50/G 75 W 50 Q 3/G 98 X 20. Y 50. I 55. J 0 P 3 K 0/U 51/X 15.15 Y -2.5 T 13/X 34.85/V 51/G 75 W 51 Q 1'),
     E(80, {1: P(23750, 18015, 49), 9: P(7250, 14015, 49), 33: P(5485, 20750, 13), 65: P(1750, 19485, 49), 73: P(3515, 4750, 13), 80: P(21985, 4750, 13)}), '002 p. 79, example 3 with its missing V 4, the empty U 1 to U 3 dropped')
case('manual-002-80-as-printed', p('G 98 X 20. Y 50. I 55. J 40. P 3 K 3/U 4/X 52.5 Y 10.15 T 49/Y 24.85/U 5/X 34.85 Y 37.5 T 13/X 15.15/V 5'), R(9, 3), '002 p. 79 as printed: V 4 is missing')
case('manual-001-v-2-corner-notches', p('G90 X5.00 Y5.00 T30/Y295.00/X495.00/Y5.00'), all_of(P(500, 500, 30), P(500, 29500, 30), P(49500, 29500, 30), P(49500, 500, 30)), '001 p. V-2, 002 p. 86; T filled in')
case('manual-001-v-5-corner-rounding', p('G90 X-1.00 Y-4.35 T50/Y304.35/X506.35/Y-4.35'), all_of(P(-100, -435, 50), P(-100, 30435, 50), P(50635, 30435, 50), P(50635, -435, 50)), '001 p. V-5; T filled in')
case('manual-001-v-8-grid-opening', p('G 90 X 225. Y 325. T 19/G 36 I 25. P 2 J 41.67 K 6'), E(21, {1: P(22500, 32500, 19), 3: P(27500, 32500, 19), 21: P(27500, 57502, 19)}), '001 p. V-8, 002 p. 94: 325 + 6 x 41.67 = 575.02')
case('manual-001-v-8-as-printed', p('G90 X825.00 Y325.00 T19/G36 I25.00 P2 J41.67 K6'), R(16, 2), '001 p. V-8 as printed: 825 mm on the ARIES-222')

# ---------------------------------------------------------------- G66 in the manuals
#
# P30. and I120. with D-0.15: L 11,970, four steps of 2,242.5 from 1,515 on. P50. and I200.: L 19,970, four steps of 3,742.5 from
# 2,515 on. Q5. is 250 across. A line to the left or downwards takes halves off.


def over(places, hits):
    """The hits of a part at each place."""
    return [(x + a, y + b, t, m) for x, y in places for a, b, t, m in hits]


UPRIGHT = 'G72 X200. Y120./G66 I120. J-90. P30. Q5. D-0.15 T10/G72 X0 Y0/G66 I120. J90. P30. Q5. D-0.15/'
UPRIGHT_HITS = [P(20250, y, 10) for y in (10485, 8242, 6000, 3757, 1515)] + [P(-250, y, 10) for y in (1515, 3758, 6000, 8243, 10485)]
LEVEL = 'G72 X0 Y120./G66 I200. J0 P50. Q5. D-0.15 T1/G72 X200. Y0/G66 I200. J180. P50. Q5. D-0.15/'
LEVEL_HITS = [P(x, 12250, 1) for x in (2515, 6258, 10000, 13743, 17485)] + [P(x, -250, 1) for x in (17485, 13742, 10000, 6257, 2515)]
CUT = 'U3/' + UPRIGHT + 'V3/U4/' + LEVEL + 'V4/'
case('manual-000-2-10-window', p('G90 G72 X200. Y150./G66 I80. J30. P20. K50. T2'), R(5, 3), '000 p. 2-10, example 2: K, the width of a window, is no letter of G66 here')
case('manual-000-2-10-one-edge', p('G90 G72 X200. Y150./G66 I80. J30. P20. T2'), all_of(P(20366, 16366), P(21665, 17116), P(22964, 17866), P(24263, 18616), P(25562, 19366)),
     '000 p. 2-10, example 2 without K: four steps of 1,500; x 0.866025404 x along - 500, y along / 2 + 866.03')
case('manual-000-2-26-macro-02', p('U02/G90 X100. Y300. T8/G72 X150. Y500./A1 G66 I100. J0 P20./G72 X450. Y400./B1/V02'),
     all_of(P(10000, 30000, 8), *[P(x, 51000, 8) for x in (16000, 17600, 19200, 20800, 22400, 24000)], *[P(x, 41000, 8) for x in (46000, 47600, 49200, 50800, 52400, 54000)]),
     '000 p. 2-26: stored as it runs, and once more by B1; five steps of 1,600')
case('manual-000-3-3-micro-joints', p('G98 X20. Y100. I250. J150. P1K1/' + CUT + 'G76 W3 Q2/G75 W4 Q3'),
     all_of(*over([(27000, 10000), (27000, 25000), (2000, 25000), (2000, 10000)], UPRIGHT_HITS), *over([(2000, 25000), (27000, 25000), (27000, 10000), (2000, 10000)], LEVEL_HITS)),
     '000 p. 3-3, the outside edges: Q2 lower right and up, then Q3 upper left and along')
case('manual-000-3-3-whole-program', p('G98 X20. Y100. I250. J150. P1K1/' + PART + CUT + 'G76 W1Q4/G76 W2 Q3/G76 W3 Q2/G75 W4 Q3'),
     E(56 + 80, {1: P(46000, 36000, 3), 56: P(33000, 31000, 9), 57: P(47250, 20485, 10), 62: P(26750, 11515, 10), 96: P(1750, 20485, 10), 97: P(4515, 37250, 1), 136: P(4515, 9750, 1)}),
     '000 p. 3-3 with all its parts')
case('manual-000-3-9-with-its-edges', p('G98 X20. Y100. I250. J150. P1 K2/U50/X190. Y110. T3/Y10./X10./Y110./G72 X60. Y60./A1 G26 I25. J45. K4 T2/G72 X140. Y60./B1/X140. Y60. T9/X60./' + UPRIGHT + LEVEL + 'V50/G75 W50 Q1'),
     E(6 * 34, {1: P(21000, 21000, 3), 14: P(8000, 16000, 9), 15: P(22250, 20485, 10), 24: P(1750, 20485, 10), 25: P(4515, 22250, 1), 34: P(4515, 9750, 1), 35: P(46000, 21000, 3), 204: P(29515, 39750, 1)}),
     '000 p. 3-9, program example (2) with its G66 blocks; three rows of two')
case('manual-000-5-ex-1-block-h', p('G72 X50. Y50./G66 I80. J90. P-20. T4'), all_of(*[P(6000, y, 4) for y in (6000, 7500, 9000, 10500, 12000)]), '000 EX. 1, block H: right of a line upwards; four steps of 1,500')
case('manual-000-5-ex-1-block-i', p('G72 X100. Y120./G66 I150. J0 P20. Q20. K50. T4'), R(5, 3), '000 EX. 1, block I: K is no letter of G66 here')
case('manual-000-5-ex-2-block-a', p('G72 X-1. Y201./G66 I51. J0 P-20. K51. T4', A224), R(5, 3), '000 EX. 2, block A: K is no letter of G66 here')
case('manual-000-5-ex-2-block-a-one-edge', p('G72 X-1. Y201./G66 I51. J0 P-20. T4', A224), all_of(P(900, 19100, 4), P(2450, 19100, 4), P(4000, 19100, 4)),
     '000 EX. 2, block A without K: begins outside the sheet; travel 3,100, two steps of 1,550')
EX3 = 'G98 X50. Y50. I110. J70. P1 K0/U3/G72 X0 Y0/G66 I60. J90. P30. Q3. D-0.1 T4/G72 X100. Y60./G66 I60. J-90. P30. Q3. D-0.1/V3/U4/G72 X100. Y60./G66 I100. J180. P30. Q3. D-0.1 T5/G72 X0 Y0/G66 I100. J0 P-30. Q-3. %sD-0.1/V4/G75 W3 Q1/G75 W4 Q1'
case('manual-000-5-ex-3-edges', p(EX3 % ''),
     all_of(*over([(5000, 5000), (16000, 5000)], [P(-150, 1510, 4), P(-150, 3000, 4), P(-150, 4490, 4), P(10150, 4490, 4), P(10150, 3000, 4), P(10150, 1510, 4)]),
            *over([(5000, 5000), (16000, 5000)], [P(8490, 5850, 5), P(6163, 5850, 5), P(3837, 5850, 5), P(1510, 5850, 5), P(1510, -150, 5), P(3837, -150, 5), P(6163, -150, 5), P(8490, -150, 5)])),
     '000 EX. 3 without K 0, two parts in a row filled in: two steps of 1,490 from 1,510 on, and three of 2,326.67')
case('manual-000-5-ex-3-as-keyed', p(EX3 % 'K0 '), R(5, 13), '000 EX. 3 as keyed in: K 0 is a K')
case('manual-001-ii-37-shear-angle', p('G72 X120. Y100./G66 I200. J0 P110. Q10. T1'), all_of(P(17500, 10500, 1), P(26500, 10500, 1)), '001 p. II-37, 002 p. 50, T201 as T1: travel 9,000 is one step')
case('manual-001-iii-3-edges', p('G98 X30.00 Y100.00 I400.00 J250.00 P1 K1/U3/G72 X380.00 Y220.00/G66 I220.00 J-90.00 P85.00 Q5.00 D-0.15 T55/G72 X0 Y0/G66 I220.00 J90.00 P85.00 Q5.00 D-0.15/V3/U4/G72 X0 Y220.00/G66 I380.00 J0 P110.00 Q10.00 D-0.15 T1/G72 X380.00 Y0/G66 I380.00 J180.00 P110.00 Q10.00 D-0.15/V4/G76 W3 Q2/G75 W4 Q3', A224),
     all_of(*over([(43000, 10000), (43000, 35000), (3000, 35000), (3000, 10000)], [P(38250, 17735, 55), P(38250, 11000, 55), P(38250, 4265, 55), P(-250, 4265, 55), P(-250, 11000, 55), P(-250, 17735, 55)]),
            *over([(3000, 35000), (43000, 35000), (43000, 10000), (3000, 10000)], [P(x, 22500, 1) for x in (5515, 14505, 23495, 32485)] + [P(x, -500, 1) for x in (32485, 23495, 14505, 5515)])),
     '001 p. III-3, the outside edges, two by two parts to stay in range, T255 and T201 as T55 and T1: two steps of 6,735 from 4,265 on, three of 8,990 from 5,515 on')
case('manual-001-v-2-long-corner-notch', p('G90 G72 X-2.00 Y40.00/A1 G66 I102.00 J0 P-50.00 T50/G72 X-2.00 Y80.00/B1'), all_of(*[P(x, y, 50) for y in (1500, 5500) for x in (2300, 4900, 7500)]),
     '001 and 002, corner notches, T filled in: travel 5,200, two steps of 2,600; right of the line, so below it')
case('manual-002-27-shear-proof', p('G 72 G 90 X 350. Y 210./G 66 I 120. J 45. P 30. Q 20. D 0.15 T 3'), all_of(P(35343, 22757, 3), P(36939, 24353, 3), P(38536, 25950, 3), P(40132, 27546, 3), P(41728, 29142, 3)),
     '002 p. 27, T203 as T3: four steps of 2,257.5 from 1,485 on, across 1,000; x of the second 2,742.5 x 0.707106781 = 1939.24')
case('manual-002-27-other-side', p('G 72 G 90 X 350. Y 210./G 66 I 120. J 45. P -30. Q -20. D 0.15 T 3'), all_of(P(36757, 21343, 3), P(38353, 22939, 3), P(39950, 24536, 3), P(41546, 26132, 3), P(43142, 27728, 3)),
     '002 p. 27, the dotted side: the same, mirrored at the line')
case('manual-002-28-window', p('G 72 X 200. Y 300./G 66 I 300. J 0. P 30. K 200. T 3'), R(5, 3), '002 p. 28: K, the width of a window, is no letter of G66 here')
case('manual-002-77-edges', p('G 98 X 30. Y 100. I 200. J 150. P 3 K 2/U 3/G 90 G 72 X 0 Y 0/G 66 I 120. J 90. P 50. Q 5. D -0.15 T 2/G 72 X 180. Y 120./G 66 I 120. J -90. P 50. Q 5. D -0.15/V 3/U 4/G 90 G 72 X 0 Y 0/G 66 I 180. J 0 P -50. Q -5. D -0.15 T 28/G 72 X 180. Y 120./G 66 I 180. J 180. P -50. Q -5. D -0.15/V 4/G 75 W3 Q 4/G 75 W4 Q 3', A224),
     E(12 * 6 + 12 * 8, {1: P(62750, 42515), 2: P(62750, 46000), 3: P(62750, 49485), 4: P(81250, 49485), 6: P(81250, 42515), 7: P(42750, 42515), 72: P(21250, 12515),
                         73: P(5515, 39750, 28), 74: P(9838, 39750, 28), 75: P(14162, 39750, 28), 76: P(18485, 39750, 28), 77: P(18485, 52250, 28), 78: P(14162, 52250, 28), 79: P(9838, 52250, 28), 168: P(65515, 22250, 28)}),
     '002 p. 77, example 1, the outside edges, X 180. for the printed G 180., T202 and T228 as T2 and T28: two steps of 3,485 from 2,515 on, three of 4,323.33')
TALL = (2515, 7058, 11600, 16143, 20686, 25229, 29771, 34314, 38857, 43400, 47942, 52485)
case('manual-002-78-edges', p('G 98 X 30. Y 20. I 185. J 0 P 4 K 0/U 5/G 72 X 180. Y 550./G 66 I 550. J 270. P 50. Q 5. D -0.15 T 2/V 5/U 6/G 72 X 0 Y 550./A 1 G 66 I 180. J 0 P 50. Q 5. D -0.15 T 29/G 72 X 0 Y -5./B 1/V 6/G 75 W 5 Q 2/G 75 W 6 Q 1/G 72 X 0 Y 0/G 66 I 550. J 90. P 50. Q 5. D -0.15 T 1', A224),
     all_of(*over([(x, 2000) for x in (77000, 58500, 40000, 21500, 3000)], [P(18250, 55000 - a) for a in TALL]),
            *over([(x, 2000) for x in (3000, 21500, 40000, 58500, 77000)], [P(x, y, 29) for y in (55250, -250) for x in (2515, 6838, 11162, 15485)]),
            *over([(3000, 2000)], [P(-250, a, 1) for a in TALL])),
     '002 p. 78, example 2, the outside edges, at Y 20 to stay in range, T202, T229 and T201 as T2, T29 and T1: travel 49,970, eleven steps of 4,542.73 from 2,515 on; the last edge starts at the ordinary origin')
case('manual-002-81-edges', p('G 98 X 30. Y 100. I 300. J 150. P 2 K 2/U 4/G 72 X 280. Y 140./G 66 I 140. J -90. P 50. Q 5. D -0.15 T 2/G 72 X 0 Y 0/G 66 I 140. J 90. P 50. Q 5. D -0.15/V 4/U 5/G 72 X 0 Y 140./G 66 I 280. J 0 P 80. Q 10. D -0.15 T 8/V 5/G 75 W4 Q 3/G 75 W5 Q 3/G 98 X 30. Y 100. I 300. J 0 P 2 K 0/U 50/G 72 X 0 Y 0/G 66 I 280. J 0 P -80. Q -10. D -0.15 T 8/V 50/G 75 W 50 Q 1', A224),
     E(54 + 36 + 12, {1: P(31250, 51485), 2: P(31250, 47000), 3: P(31250, 42515), 4: P(2750, 42515), 6: P(2750, 51485), 7: P(61250, 51485), 54: P(62750, 21485),
                      55: P(7015, 54500, 8), 56: P(13672, 54500, 8), 57: P(20328, 54500, 8), 58: P(26985, 54500, 8), 90: P(86985, 24500, 8), 91: P(7015, 9500, 8), 102: P(86985, 9500, 8)}),
     '002, example 4, the outside edges, three rows for the printed four to stay in range, T202 and T208 as T2 and T8: two steps of 4,485 from 2,515 on, three of 6,656.67 from 4,015 on')
NOTCH = ((1344, -71), (2590, 1176), (3837, 2423), (5084, 3669), (6330, 4916), (7577, 6163), (8824, 7410), (10071, 8656))
case('manual-002-88-notches-of-45-degrees', p('G 72 X 400. Y 0/G 66 I 141.42 J 45. P -20. Q -20. D 1. T 20/M 00/G 72 X 500. Y 400./G 66 I 141.42 J 135. P -20. Q -20. D 1./M 00/G 72 X 100. Y 500./G 66 I 141.42 J -135. P -20. Q -20. D 1./M 00/G 72 X 0 Y 100./G 66 I 141.42 J -45. P -20. Q -20. D 1./M 00'),
     all_of(*[P(40000 + a, b, 20) for a, b in NOTCH], STOP, *[P(50000 - b, 40000 + a, 20) for a, b in NOTCH], STOP, *[P(10000 - a, 50000 - b, 20) for a, b in NOTCH], STOP,
            *[P(b, 10000 - a, 20) for a, b in NOTCH], STOP),
     '002, notches of 45 degrees, T filled in: seven steps of 1,763.14 from 900 on, 1,000 to the right; (along + 1,000) and (along - 1,000) times 0.707106781, turned from corner to corner')
case('manual-002-90-notch-with-a-larger-tool', p('G 90 X 500. Y 0. T 50/G 72 X 400. Y 0./G 66 I 141.42 J 45. P -50. Q -50. D 1. T 50'), all_of(P(50000, 0, 50), P(43465, -71, 50), P(46768, 3232, 50), P(50071, 6535, 50)),
     '002, notches of 45 degrees by a small tool, T filled in: two steps of 4,671 from 2,400 on, 2,500 to the right')
case('manual-002-90-as-printed', p('G 90 X 500. Y 300. T 50/G 72 X 500. Y 200./G 66 I 141.42 J 135. P -50. Q -50 D 1.'), all_of(P(50000, 30000, 50), P(48321, 21715, 50), P(45018, 25018, 50), P(41715, 28321, 50)),
     '002, the second of these notches as printed: Q -50 without a point is 0.50 mm, so 25 to the right')
OPENING = (1800, 3745, 5691, 7636, 9582, 11527, 13473, 15418, 17364, 19309, 21255, 23200)
case('manual-002-94-opening-with-rounded-corners', p('G 72 X 625. Y 375./G 66 I 250. J 180. P 20. Q 20. D -8. T 20/G 72 X 375. Y 375./G 66 I 150. J -90. P 20. Q 20. D -8./G 72 X 375. Y 225./G 66 I 250. J 0. P 20. Q 20. D -8./G 72 X 625. Y 225./G 66 I 150. J 90. P 20. Q 20. D -8./M 00', A224),
     all_of(*[P(62500 - a, 36500, 20) for a in OPENING], *[P(38500, y, 20) for y in (35700, 33800, 31900, 30000, 28100, 26200, 24300)],
            *[P(37500 + a, 23500, 20) for a in OPENING], *[P(61500, y, 20) for y in (24300, 26200, 28100, 30000, 31900, 33800, 35700)], STOP),
     '002, opening with rounded corners, T filled in: travel 21,400, eleven steps of 1,945.45 from 1,800 on, and six of 1,900')
