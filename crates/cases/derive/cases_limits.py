"""Refusals in every place, their order, the limits."""
from table import *


def P(x, y, t=1):
    return (x, y, t, 'P')


# ---------------------------------------------------------------- every refusal at the top and in a body

FAULT = {
    4: ('X', 'a word without digits'),
    5: ('Z1', 'a letter of no block'),
    6: ('X1.T0', 'a tool number out of range'),
    7: ('G50', 'a body runs G50'),
    10: ('B1', 'a pattern that is not stored'),
    14: ('X1.', 'a hit without a tool'),
    15: ('G28I9999.J0K2T1', 'the reach 2 x 999,900'),
    16: ('X-20.T1', 'a hit outside the range'),
    17: ('X1.Y1.T1', 'no place in a list of 3 numbers'),
    18: ('G66I29.99J0P20.T1', '2,999 is under 1.5 times 2,000'),
}
# the same with names, and 17 of a stop beside that of a hit
NAMED = [('%02d' % n, n, block, why) for n, (block, why) in FAULT.items()]
NAMED += [('17-of-a-stop', 17, 'M00', 'no place in a list of 3 numbers'), ('17-of-an-optional-stop', 17, 'M01', 'no place in a list of 3 numbers')]
for name, n, block, why in NAMED:
    length = 3 if n == 17 else 16384
    if n == 7:
        case('refusal-07-g92-again', p('M08/' + A222), R(7, 3), '7: G92 comes again', length)
    else:
        case('refusal-%s-at-the-top' % name, p('M08/' + block), R(n, 3), '%d: %s' % (n, why), length)
    case('refusal-%s-in-a-body-by-w' % name, p('U60/M08/%s/V60/M08/W60' % block), R(n, 4), '%d: %s; the line is the body block\'s' % (n, why), length)
    case('refusal-%s-in-a-first-run' % name, p('U1/M08/%s/V1' % block), R(n, 4), '%d: %s; the line is the body block\'s' % (n, why), length)
    case('refusal-%s-in-a-copy' % name, p('G98X0Y0I9.P1/U1/M08/%s/V1/G75W1Q1' % block), R(n, 5), '%d: %s; the line is the body block\'s' % (n, why), length)
for code, block in (('g75', 'G75W60Q1'), ('g76', 'G76W60Q1'), ('g92', A222), ('g93', 'G93X0'), ('g98', 'G98X0Y0')):
    case('refusal-07-%s-in-a-body' % code, p('G98X0Y0/U60/V60/U61/%s/V61/W61' % block), R(7, 6), '7: a body runs %s' % code.upper())
case('refusal-07-first-block-not-g92', 'X10.Y10.T1/' + p(''), R(7, 1), '7: the first block is not G92')
case('refusal-07-g50-first', 'G50', R(7, 1), '7: the first block is not G92')
case('refusal-07-block-after-g50', p('') + '/M08', R(7, 3), '7: anything but blanks follows G50')
case('refusal-07-stop-before-g92', 'M00/' + p(''), R(7, 1), '7: the first block is not G92')
case('refusal-07-stop-after-g50', p('X10.Y10.T1') + '/M01', R(7, 4), '7: anything but blanks follows G50')
case('refusal-07-g50-twice', p('') + '//G50', R(7, 4), '7: anything but blanks follows G50, in its own line')
case('refusal-07-no-g50', 'G92X600.Y600./X10.Y10.T1', R(7, 2), '7: the text ends without G50; last line')
case('refusal-08-no-machine', 'G92X600.Y600.01/G50', R(8, 1), '8: a hundredth off either machine')
case('refusal-08-axes-exchanged', 'G92X600.Y1000./G50', R(8, 1), '8: G92 names neither machine')
case('refusal-09-no-v-line', p('M08/U60/X1.Y1.T1'), R(9, 3), '9: the next U or V line is missing; judged at the U line')
case('refusal-09-other-number', p('U60/X1.Y1.T1/V61'), R(9, 2), '9: the next U or V line is not its own V')
case('refusal-09-u-inside-u', p('U60/U61/V61/V60'), R(9, 2), '9: the next U or V line is a U line')
case('refusal-09-v-alone', p('M08/V60'), R(9, 3), '9: a V line stands alone')
case('refusal-09-second-v', p('U60/V60/V60'), R(9, 4), '9: the body has ended, so the second V line stands alone')
case('refusal-09-before-the-body-runs', p('U1/X-20.T1/V2'), R(9, 2), '9 is judged at the U line, before its body')
case('refusal-10-w', p('W60'), R(10, 2), '10: W names nothing stored')
case('refusal-10-g75', p('G98X0Y0/G75W60Q1'), R(10, 3), '10: G75 names nothing stored')
case('refusal-10-g76', p('G98X0Y0/G76W1Q1'), R(10, 3), '10: G76 names nothing stored')
case('refusal-10-w-in-a-body', p('U60/M08/W61/V60/W60'), R(10, 4), '10: W in a body names nothing stored')
case('refusal-10-memory-of-the-copy-before', p('G98X0Y0I9.P1/U1/X1.Y1.T1/A2G28I1.J0K1/V1/U2/B2/W1/V2/G75W2Q1'), R(10, 8),
     '10: each copy begins with the memories that the caller found')
case('refusal-11-by-w', p('U60/M08/W60/V60/W60'), R(11, 4), '11: four calls are open, all by W')
case('refusal-11-in-a-first-run', p('U60/M08/W60/V60/U1/W60/V1'), R(11, 4), '11: a first run and three W are open')
case('refusal-11-in-a-copy', p('G98X0Y0/U60/M08/W60/V60/G75W60Q1'), R(11, 5), '11: G75 and three W are open')
case('refusal-12-at-the-top', p('U60' + '/' * 3102 + 'V60'), R(12, 2), '12: a body of 3,101 line feeds; judged at the U line')
case('refusal-12-before-the-body-runs', p('U1/X-20.T1' + '/' * 3102 + 'V1'), R(12, 2), '12 is judged at the U line, before its body')
case('refusal-13-g75', p('U60/V60/G75W60Q1'), R(13, 4), '13: no G98 is in force')
case('refusal-13-g76', p('U60/V60/G76W60Q1'), R(13, 4), '13: no G98 is in force')
case('refusal-15-position', p('G91X9999.T1'), R(15, 2), '15: 60,000 + 999,900 passes 999,999')
case('refusal-15-position-below', p('G93X-9999./X-9999.Y0T1'), R(15, 3), '15: below -999,999')
case('refusal-15-g70-end', p('G91G70X9999.'), R(15, 2), '15 comes before 16 at the end of a G70 move')
case('refusal-15-waiting-origin', p('G91G72Y9999.'), R(15, 2), '15: a waiting origin')
case('refusal-15-origin-by-g93', p('G98X9999.99Y0/G93X1'), R(15, 3), '15: an origin, judged at its G93')
case('refusal-15-origin-by-g98', p('G93Y9999.99/G98X0Y1'), R(15, 3), '15: an origin, judged at its G98')
case('refusal-15-line-reach', p('X0Y0T1/G28I-10.02J0K999'), R(15, 3), '15: 999 x 1,002 = 1,000,998; judged before the first hit, which is outside the range (16)')
case('refusal-15-grid-reach-along-x', p('X0Y0T1/G36I100.01P100J0K0'), R(15, 3), '15: I x P = 1,000,100')
case('refusal-15-grid-reach-along-y', p('X0Y0T1/G37I0P0J-100.01K100'), R(15, 3), '15: J x K = 1,000,100 in size')
case('reach-just-inside', p('G72X-9.99Y0/G28I10.01J0K999T1'), R(16, 3), '999 x 1,001 = 999,999 is not beyond the limit of 15; hit 62 is outside the range: 16')
case('reach-of-a-grid-just-inside', p('G72X0Y0/G36I9999.99P1J0K0T1'), R(16, 3), '999,999 is not beyond the limit of 15; the hit is outside the range: 16')
case('reach-of-a-grid-just-inside-along-y', p('G72X0Y0/G37I0P0J-9999.99K1T1'), R(16, 3), '999,999 is not beyond the limit of 15; the hit is outside the range: 16')
case('refusal-15-first-copy-place', p('G98X0Y0I101.02P99/U60/M08/V60/M08/G75W60Q2'), R(15, 7), '15: Q 2 begins at 99 x 10,102 = 1,000,098; the calling block\'s line')
case('refusal-15-later-copy-place', p('G98X0Y0I101.02P99/U60/M08/V60/M08/G75W60Q1'), R(15, 7), '15: the hundredth place; the calling block\'s line')
case('refusal-15-later-copy-place-of-an-empty-part', p('G98X0Y0J101.02K99/U60/V60/G76W60Q1'), R(15, 5), '15: a copy of nothing begins at its place too')
case('refusal-15-first-copy-place-of-an-empty-part', p('G98X0Y0J101.02K99/U60/V60/G75W60Q3'), R(15, 5), '15: the first place, with the calling block\'s line')
case('refusal-15-of-a-later-place-waits-its-turn', p('G98X0Y0I9999.P2/U60/X-20.T1/V60/G75W60Q1'), R(16, 4),
     'a copy place is judged as its copy begins, so the first copy\'s hit is refused before the third place')
case('refusal-16-in-the-second-copy', p('G98X100.Y100.I500.P1/U1/X20.Y0T1/V1/G75W1Q1'), R(16, 4), '16: the first copy is inside, the second is not')
case('refusal-16-line-in-the-middle', p('X600.Y0T1/G28I5.J0K9'), R(16, 3), '16: hit by hit; the third of the line is outside')
case('refusal-17-in-the-second-copy', p('G98X100.Y100.I50.P1/U1/X20.Y0T1/V1/G75W1Q1'), R(17, 4), '17: one place in the list', 7)
case('refusal-17-of-a-stop-in-the-second-copy', p('G98X100.Y100.I50.P1/U1/X20.Y0T1/M00/V1/G75W1Q1'), R(17, 5), '17: three places; the body block\'s line', 15)

# ---------------------------------------------------------------- lists

TWO = p('X10.Y10.T1/X20.')
for length in range(0, 4):
    case('lists-%d-one-hit' % length, p('X10.Y10.T1'), R(17, 2), '17: fewer than four numbers are no place', length)
case('lists-0-no-entry', p('M08'), E(0), 'a list without places is enough for no entry', 0)
case('lists-3-no-entry', p('M08'), E(0), 'a list without places is enough for no entry', 3)
for length in range(0, 4):
    case('lists-%d-one-stop' % length, p('M00'), R(17, 2), '17: fewer than four numbers are no place', length)
case('lists-4-one-stop', p('M00'), all_of(STOP), 'a stop takes a place as a hit does', 4)
case('lists-4-one-hit', p('X10.Y10.T1'), all_of(P(1000, 1000)), 'four numbers are one place', 4)
for length in (4, 5, 6, 7):
    case('lists-%d-two-hits' % length, TWO, R(17, 3), '17: the numbers left at the end, fewer than four, are no place', length)
case('lists-8-two-hits', TWO, all_of(P(1000, 1000), P(2000, 1000)), 'a list exactly full', 8)
case('lists-11-two-hits', TWO, all_of(P(1000, 1000), P(2000, 1000)), 'a list exactly full, three numbers left over', 11)
case('lists-11-three-hits', p('X10.Y10.T1/G28I1.J0K2'), R(17, 3), '17: one hit over', 11)
case('lists-4-a-hit-and-a-stop', p('X10.Y10.T1/M00'), R(17, 3), '17: one stop over, in its line', 4)
case('lists-4-a-stop-and-a-hit', p('M00/X10.Y10.T1'), R(17, 3), '17: the stop has taken the place', 4)
case('lists-8-a-hit-and-a-stop', p('X10.Y10.T1/M00'), all_of(P(1000, 1000), STOP), 'a list exactly full by a stop', 8)
case('lists-8-a-stop-and-a-hit', p('M01/X10.Y10.T1'), all_of(OPTIONAL, P(1000, 1000)), 'a list exactly full by a hit behind a stop', 8)
case('lists-11-a-hit-and-two-stops', p('X10.Y10.T1/M00/M01'), R(17, 4), '17: one optional stop over', 11)
case('lists-16-two-copies-of-a-hit-and-a-stop', p('G98X100.Y100.I50.P1/U1/X20.Y0T1/M00/V1/G75W1Q1'), all_of(P(12000, 10000), STOP, P(17000, 10000), STOP), 'a list exactly full by the stop of the last copy', 16)
case('lists-9-two-hits', TWO, all_of(P(1000, 1000), P(2000, 1000)), 'two places, and one number left over', 9)
case('lists-9-three-hits', p('X10.Y10.T1/G28I1.J0K2'), R(17, 3), '17: two places', 9)
case('lists-90-a-grid-of-22', p('X1.Y1.T1/G36I1.P10J1.K1'), E(22, {1: P(100, 100), 12: P(1100, 200), -1: P(100, 200)}), '22 places: eleven by two', 90)
case('lists-16384-exactly-full', p('X10.Y10.T1/G36I1P63J1K63'), E(4096, {1: P(1000, 1000), -1: P(1000, 1063)}), '64 x 64 hits fill 4,096 places')
case('lists-16384-one-hit-over', p('X10.Y10.T1/G36I1P63J1K63/X20.'), R(17, 4), '17: hit 4,097')
case('lists-16384-exactly-full-by-a-stop', p('G72X10.Y10./G36I1P63J1K63T1/M00'), E(4096, {1: P(1001, 1000), 4095: P(1000, 1063), 4096: STOP}), '4,095 hits and a stop fill 4,096 places')
case('lists-16384-one-stop-over', p('X10.Y10.T1/G36I1P63J1K63/M00'), R(17, 4), '17: entry 4,097')
case('lists-16383-exactly-full', p('G72X10.Y10./G36I1P63J1K63T1'), E(4095, {1: P(1001, 1000), -1: P(1000, 1063)}), '4,095 places', 16383)
case('lists-16383-one-hit-over', p('X10.Y10.T1/G36I1P63J1K63'), R(17, 3), '17: 4,095 places, 4,096 hits', 16383)

# ---------------------------------------------------------------- characters

case('characters-3100', p('U60' + '/' * 3101 + 'V60/W60/X10.Y10.T1'), all_of(P(1000, 1000)), 'a body of 3,100 line feeds is stored')
case('characters-3100-in-two-bodies', p('U60/X10.Y10.T1/V60/U61' + '/' * 3090 + 'V61/W60'), all_of(P(1000, 1000)), '11 and 3,089 characters')
case('characters-3101-in-two-bodies', p('U60/X10.Y10.T1/V60/U61' + '/' * 3091 + 'V61/W60'), R(12, 5), '12: 11 and 3,090 characters')
case('characters-spaces-are-none', p('U60/' + ' ' * 3000 + 'X10.Y10.T1' + '/' * 3090 + 'V60/W60'), all_of(P(1000, 1000)), '11 and 3,089 characters; spaces are none')
case('characters-stored-again-in-place', p('U60' + '/' * 3001 + 'V60/U60' + '/' * 3101 + 'V60/U60/X10.Y10.T1/V60/W60'), all_of(P(1000, 1000)), 'the new body stands in place of its old one: 3,000, 3,100, 11')
case('characters-of-a-first-run', p('U1' + '/' * 3101 + 'V1/U1/X10.Y10.T1/V1/U2/X20./V2/W2'), all_of(P(1000, 1000), P(2000, 1000), P(2000, 1000)), 'numbers below 60 are counted alike')
case('characters-of-different-numbers-add-up', p('U1' + '/' * 3001 + 'V1/U60' + '/' * 102 + 'V60'), R(12, 3004), '12: 3,000 and 101')

# ---------------------------------------------------------------- calls

W4 = 'U61/X10.Y10.T1/V61/U62/W61/V62/U63/W62/V63/U64/W63/V64/'
case('calls-four-deep-by-w', p(W4 + 'W64'), all_of(P(1000, 1000)), 'four calls open')
case('calls-five-deep-by-w', p(W4 + 'U65/W64/V65/W65'), R(11, 6), '11: W61 in line 6 is the fifth')
case('calls-four-deep-by-g75', p('G98X0Y0/' + W4 + 'G75W64Q1'), all_of(P(1000, 1000)), 'G75 and three W')
case('calls-five-deep-by-g75', p('G98X0Y0/' + W4 + 'U65/W64/V65/G75W65Q1'), R(11, 7), '11: G75 counts')
case('calls-five-deep-by-g76', p('G98X0Y0/' + W4 + 'U65/W64/V65/G76W65Q1'), R(11, 7), '11: G76 counts')
case('calls-four-deep-by-a-first-run', p(W4 + 'U1/W63/V1'), all_of(P(1000, 1000)), 'a first run and three W')
case('calls-five-deep-by-a-first-run', p(W4 + 'U1/W64/V1'), R(11, 6), '11: a first run counts')
case('calls-b-is-none', p('X10.Y10.T1/A1G28I1.J0K1/U61/B1/V61/U62/W61/V62/U63/W62/V63/U64/W63/V64/W64'), all_of(P(1000, 1000), P(1100, 1000), P(1200, 1000)), 'B is no call')

# ---------------------------------------------------------------- blocks

L = '/'.join


def after(n, *more, **extra):
    lines = spent(n, extra.get('extra', ()))
    return L(lines + list(more)), len(lines)


t, n = after(99997, 'X5.Y5.T1', '', 'M00', '  ', 'G50', '', ' ')
case('blocks-100000-and-blank-lines', t, all_of(P(500, 500), STOP), 'G50 is block 100,000; blank lines are no blocks')
t, n = after(99999, 'X5.Y5.T1', 'G50')
case('blocks-one-too-many-at-the-top', t, R(3, n + 2), '3: X5. is block 100,000, G50 one too many')
t, n = after(99990, 'W61', 'G50')
case('blocks-one-too-many-in-a-body', t, R(3, 12), '3: W61 is block 99,991, its tenth M08 block 100,001; the body block\'s line')
t, n = after(99999, 'U1', 'M08', 'V1', 'G50')
case('blocks-one-too-many-in-a-first-run', t, R(3, n + 2), '3: the U line is block 100,000, its body\'s block one too many')
t, n = after(99999, 'U89', 'M08', 'V89')
case('blocks-body-only-stored-counts-nothing', t, R(7, n + 3), 'the U line is block 100,000, the body is only stored and V counts nothing: the text lacks G50 (7)')
t, n = after(99998, 'G98X0Y0P1', 'G75W60Q1', extra=('U60', 'M08', 'V60'))
case('blocks-one-too-many-in-a-copy', t, R(3, 51), '3: G75 is block 100,000, the first copy\'s M08 one too many; the body block\'s line')
t, n = after(99996, 'G98X0Y0P1', 'G75W60Q1', 'G50', extra=('U60', 'M08', 'V60'))
case('blocks-copies-count-each-time', t, R(3, n + 3), '3: G98, G75 and two copies of one block are blocks 99,997 to 100,000')

# ---------------------------------------------------------------- order: both faults in one block

LONG = '/' * 3102
DEEP = 'U61/%s/V61/U62/W61/V62/U63/W62/V63/U64/W63/V64/W64'   # in the body of 61, line 3, four calls are open

case('order-01-before-02', b'!' + b' ' * 60000, R(1, 0), 'a bad byte in 60,001 bytes')
case('order-01-before-07', b' ' * 60001, R(1, 0), 'no G50 in 60,001 bytes')
ORDER2 = {4: 'X', 5: 'Z1', 6: 'B6', 7: A222, 9: 'V1', 10: 'B1', 13: None, 14: 'X1.', 15: 'G91X9999.T1', 16: 'X-20.T1', 17: None, 18: 'G66I1.J0P1.T1'}
for k, block in ORDER2.items():
    if block:
        case('order-02-before-%02d' % k, p(block) + '/%', R(2, 4), 'a bad byte anywhere comes first; the block of line 2 alone would give %d' % k)

AT3 = {
    4: 'X', 5: 'Z1', 6: 'B6', 7: A222, 8: 'G92X1.Y1.', 9: 'U1', 10: 'W88', 12: 'U88' + LONG + 'V88', 13: 'G75W61Q1', 14: 'X1.', 15: 'G91X9999.T1', 16: 'X-20.T1', 18: 'G66I1.J0P1.T1',
}
for k, block in AT3.items():
    t, n = after(100000, block)
    case('order-03-before-%02d' % k, t, R(3, n + 1), 'block 100,001, which alone would give %d' % k if k != 8 else 'block 100,001: G92 comes again (7) and names no machine')
t, n = after(99999, 'X1.Y1.T1', 'X2.')
case('order-03-before-17', t, R(3, n + 2), 'block 100,001, a hit without a place', 4)
t, n = after(99999, 'M00', 'M00')
case('order-03-before-17-of-a-stop', t, R(3, n + 2), 'a stop is block 100,000; the next is block 100,001 and has no place', 4)
t, n = after(99996, 'W81', extra=('U81', 'W82', 'V81', 'U82', 'W83', 'V82', 'U83', 'W84', 'V83', 'U84', 'W81', 'V84'))
case('order-03-before-11', t, R(3, 60), 'four calls are blocks 99,997 to 100,000, the fifth is one too many')
t, n = after(99999, 'G50', 'X')
case('order-03-before-04-after-g50', t, R(3, n + 2), 'G50 is block 100,000; a block after it is one too many first')

case('order-04-before-05', p('G99X'), R(4, 2), 'X has no digits, G99 is unknown')
case('order-04-before-06', p('T100X1.Y'), R(4, 2), 'Y has no digits, T is out of range; each number looks at the whole block')
case('order-04-before-07', 'X/' + p(''), R(4, 1), 'the first block is not G92')
case('order-04-before-08', 'G92X23.622Y23.622/G50', R(4, 1), 'three decimals; 000\'s inch values name no machine here')
case('order-04-before-09', p('U/X1.Y1.T1'), R(4, 2), 'U has no digits and no V follows')
case('order-04-before-09-in-a-v-line', p('V'), R(4, 2), 'V has no digits and stands alone')
case('order-04-before-10', p('G75W60Q'), R(4, 2), 'Q has no digits, nothing is stored')
case('order-04-before-11', p(DEEP % 'NW61'), R(4, 3), 'N has no digits; four calls are open')
case('order-04-before-12', p('U60X' + LONG + 'V60'), R(4, 2), 'X has no digits (and does not belong there), the body is too long')
case('order-04-before-13', p('U60/V60/G75W60Q'), R(4, 4), 'Q has no digits, no G98')
case('order-04-before-14', p('X1.Y'), R(4, 2), 'Y has no digits, no tool')
case('order-04-before-15', p('G28I9999.J0K2T'), R(4, 2), 'T has no digits, the reach is too far')
case('order-04-before-16', p('X1.Y1.T1/X-20.T'), R(4, 3), 'T has no digits, the hit is outside the range')
case('order-04-before-17', p('X1.Y1.T1/X2.T'), R(4, 3), 'T has no digits, the list is full', 4)
case('order-04-before-17-of-a-stop', p('M00/NM00'), R(4, 3), 'N has no digits; the list is full', 4)
case('order-04-before-18', p('G66I1.J0P1.QT1'), R(4, 2), 'Q has no digits, w is not above 1 mm')

case('order-05-before-06', p('T0'), R(5, 2), 'T alone is no block, and 0 is no tool')
case('order-05-before-07', 'M2/' + p(''), R(5, 1), 'an unknown code in the first block')
case('order-05-before-08', 'G92X1.Y1.T1/G50', R(5, 1), 'T is no letter of G92, which names no machine')
case('order-05-before-09', p('U60X1'), R(5, 2), 'U stands alone; no V follows')
case('order-05-before-09-in-a-v-line', p('V60V61'), R(5, 2), 'V stands alone as a word; the line stands alone too')
case('order-05-before-10', p('B1T1'), R(5, 2), 'B stands alone; nothing is stored')
case('order-05-before-11', p(DEEP % 'W61T1'), R(5, 3), 'W stands alone; four calls are open')
case('order-05-before-12', p('U60T1' + LONG + 'V60'), R(5, 2), 'U stands alone; the body is too long')
case('order-05-before-13', p('U60/V60/G75W60Q1T1'), R(5, 4), 'T is no letter of G75; no G98')
case('order-05-before-14', p('X1.Y1.M0'), R(5, 2), 'M stands alone; no tool')
case('order-05-before-15', p('G28I9999.J0K2X1'), R(5, 2), 'X beside a pattern; the reach is too far')
case('order-05-before-16', p('X1.Y1.T1/X-20.M0'), R(5, 3), 'M stands alone; outside the range')
case('order-05-before-17', p('X1.Y1.T1/X2.M0'), R(5, 3), 'M stands alone; the list is full', 4)
case('order-05-before-17-of-a-stop', p('M00/M00T1'), R(5, 3), 'M stands alone; the list is full', 4)
case('order-05-before-18', p('G66I1.J0P1.K1T1'), R(5, 2), 'K is no letter of G66; w is not above 1 mm')

case('order-06-before-07', 'B6/' + p(''), R(6, 1), 'no memory 6; the first block is not G92')
case('order-06-before-08', 'N10000G92X1.Y1./G50', R(6, 1), 'N is out of range; no machine')
case('order-06-before-09', p('U90/X1.Y1.T1'), R(6, 2), 'no macro 90; no V follows')
case('order-06-before-09-in-a-v-line', p('V+60'), R(6, 2), 'V takes no sign; the line stands alone')
case('order-06-before-10', p('G75W60Q5'), R(6, 2), 'no corner 5; nothing is stored')
case('order-06-before-11', p(DEEP % 'N10000W61'), R(6, 3), 'N is out of range; four calls are open')
case('order-06-before-12', p('U+60' + LONG + 'V60'), R(6, 2), 'U takes no sign; the body is too long')
case('order-06-before-13', p('U60/V60/G75W60Q5'), R(6, 4), 'no corner 5; no G98')
case('order-06-before-14', p('X1.Y1.T0'), R(6, 2), 'no tool 0, so no tool is chosen')
case('order-06-before-15', p('G28I9999.J0K2T0'), R(6, 2), 'no tool 0; the reach is too far')
case('order-06-before-16', p('X1.Y1.T1/X-20.T0'), R(6, 3), 'no tool 0; outside the range')
case('order-06-before-17', p('X1.Y1.T1/X2.T0'), R(6, 3), 'no tool 0; the list is full', 4)
case('order-06-before-17-of-a-stop', p('M00/N10000M00'), R(6, 3), 'N is out of range; the list is full', 4)
case('order-06-before-18', p('G66I1.J0P1.T0'), R(6, 2), 'no tool 0; w is not above 1 mm')

case('order-07-before-08', p('G92X1.Y1.'), R(7, 2), 'G92 comes again; it names no machine')
case('order-07-before-09', 'U60/X1.Y1.T1/' + p(''), R(7, 1), 'the first block is not G92; no V follows')
case('order-07-before-09-in-a-v-line', p('') + '/V60', R(7, 3), 'after G50; the V line stands alone')
case('order-07-before-10', 'W60/' + p(''), R(7, 1), 'the first block is not G92; nothing is stored')
case('order-07-before-11', p(DEEP % 'G75W61Q1'), R(7, 3), 'a body runs G75; four calls are open (and no G98 is in force)')
case('order-07-before-12', 'U60' + LONG + 'V60/' + p(''), R(7, 1), 'the first block is not G92; the body is too long')
case('order-07-before-13', p('U60/V60/U61/G75W60Q1/V61/W61'), R(7, 5), 'a body runs G75; no G98')
case('order-07-before-14', 'X1./' + p(''), R(7, 1), 'the first block is not G92; no tool')
case('order-07-before-15', 'G28I9999.J0K2T1/' + p(''), R(7, 1), 'the first block is not G92; the reach is too far')
case('order-07-before-15-origin-in-a-body', p('G98X9999.99Y0/U60/G93X1/V60/W60'), R(7, 4), 'a body runs G93; the origin is too far')
case('order-07-before-16', p('X1.Y1.T1') + '/X-20.', R(7, 4), 'after G50; outside the range')
case('order-07-before-17', p('X1.Y1.T1') + '/X2.', R(7, 4), 'after G50; the list is full', 4)
case('order-07-before-17-of-a-stop', p('M00') + '/M00', R(7, 4), 'after G50; the list is full', 4)
case('order-07-before-17-of-a-stop-in-the-first-block', 'M00/' + p(''), R(7, 1), 'the first block is not G92; no place', 0)
case('order-07-before-18', p('X1.Y1.T1') + '/G66I1.J0P1.', R(7, 4), 'after G50; w is not above 1 mm')
case('order-07-before-18-in-the-first-block', 'G66I1.J0P1.T1/' + p(''), R(7, 1), 'the first block is not G92; w is not above 1 mm')

case('order-09-before-12', p('U60' + LONG + 'V61'), R(9, 2), 'not its own V; the body up to there is too long')
case('order-10-before-11', p(DEEP % 'W88'), R(10, 3), 'nothing is stored under 88; four calls are open')
case('order-10-before-13', p('G75W60Q1'), R(10, 2), 'nothing is stored; no G98')
case('order-10-before-15', p('G98X0Y0I101.02P99/G75W60Q2'), R(10, 3), 'nothing is stored; the first place is too far')
case('order-14-before-15', p('G91X9999.'), R(14, 2), 'no tool; the position is too far: both judged with the hit')
case('order-14-before-15-in-a-pattern', p('G72X9999.Y0/G28I1.J0K1'), R(14, 3), 'no tool; the hit is too far')
case('order-14-before-16', p('X-20.'), R(14, 2), 'no tool; outside the range')
case('order-14-before-17', p('X1.'), R(14, 2), 'no tool; no place', 3)
case('order-15-before-16', p('G91X9999.T1'), R(15, 2), 'too far is outside the range too')
case('order-15-before-17', p('X1.Y1.T1/G91X9999.99'), R(15, 3), 'too far; the list is full', 4)
case('order-15-before-17-reach', p('X1.Y1.T1/G28I9999.J0K2'), R(15, 3), 'the reach is judged before the hits; the list is full', 4)
case('order-15-of-a-copy-place-before-17-of-a-stop', p('G98X0Y0I101.02P99/U60/M00/V60/G75W60Q2'), R(15, 6), 'the first place is too far; the copy\'s stop would have no place', 0)
case('order-16-before-17', p('X1.Y1.T1/X-20.'), R(16, 3), 'outside the range; the list is full', 4)
case('order-18-before-14', p('G66I1.J0P1.'), R(18, 2), 'w is not above 1 mm; no tool')
case('order-18-before-15', p('G72X9999.99Y0/G66I1.J0P1.T1'), R(18, 3), 'w is not above 1 mm; every hit would be too far')
case('order-18-before-16', p('G72X-20.Y0/G66I1.J0P1.T1'), R(18, 3), 'w is not above 1 mm; the hits would be outside the range')
case('order-18-before-17', p('X1.Y1.T1/G66I1.J0P1.'), R(18, 3), 'w is not above 1 mm; the list is full', 4)
case('order-18-before-14-to-17', p('G72X9999.99Y0/G66I29.99J0P20.'), R(18, 3), 'I is under 1.5 times w; no tool, too far, no place', 0)
case('order-of-hits-17-of-the-second-before-16-of-the-third', p('X600.Y0T1/G28I5.J0K9'), R(17, 3), 'hit by hit: the second of the line has no place, the third would be outside', 8)
case('order-of-hits-16-of-the-first-before-15-of-the-second', p('X0Y0T1/G72X9990.Y0/G28I9.J0K2'), R(16, 4), 'hit by hit: the first is outside the range, the second too far')
case('order-of-entries-17-of-a-stop-before-16-of-the-next-hit', p('X1.Y1.T1/M00/X-20.'), R(17, 3), 'entry by entry: the stop has no place, the hit behind it would be outside', 4)
case('order-of-entries-16-of-a-hit-before-17-of-the-next-stop', p('X1.Y1.T1/X-20./M00'), R(16, 3), 'entry by entry: the hit is outside the range, the stop behind it would have no place', 4)
case('order-of-entries-17-of-a-stop-before-15-of-a-later-copy-place', p('G98X0Y0I9999.P2/U60/M00/V60/G75W60Q1'), R(17, 4), 'the first copy\'s stop has no place, the third place would be too far', 0)
