"""Texts, words, letters, codes, ranges."""
from table import *

ONE = 'X10.Y10.T1'
HIT = (1000, 1000, 1, 'P')

# ---------------------------------------------------------------- text

case('text-empty', b'', R(1, 0), '1: a text of 0 bytes; line 0')
case('text-60000-bytes', (p(ONE) + '/').replace('/', '\n').encode() + b' ' * (60000 - 29), all_of(HIT),
     '1 begins above 60,000 bytes; the spaces behind G50 are a blank line')
case('text-60001-bytes', (p(ONE) + '/').replace('/', '\n').encode() + b' ' * (60001 - 29), R(1, 0),
     '1: one byte too many; line 0')
case('text-60000-bytes-fault-in-the-last-line', b'G92X600.Y600.\n' + b'\n' * 59984 + b'B6', R(6, 59986),
     'lines are counted from 1 with the blank ones: 59,985 line feeds stand before the block')
case('text-small-letter', p('x10.Y10.T1'), R(2, 2), '2: a small letter is no byte of punch code')
case('text-tab', b'G92X600.Y600.\n\tX10.Y10.T1\nG50\n', R(2, 2), '2: of the blank bytes only space and line feed are allowed')
case('text-carriage-return', b'G92X600.Y600.\r\nX10.Y10.T1\r\nG50\r\n', R(2, 1), '2: byte 13 is not allowed, the first stands in line 1')
case('text-zero-byte', b'G92X600.Y600.\nX10.Y10.T1\nG50\n\x00', R(2, 4), '2: byte 0 behind the last line feed, so in line 4')
case('text-byte-255', b'\n\xff', R(2, 2), '2: byte 255')
case('text-semicolon', p('X10.Y10.T1;'), R(2, 2), '2: the end of block of the Japanese manual is no byte of this code')
case('text-comma-for-a-point', p('X100,Y100.T5'), R(2, 2), '2: as printed in 002 p. 74')
case('text-bad-byte-first-line-of-two', p('X10.Y10.T1/Y20.#/X30.*'), R(2, 3), '2 gives the line of the first such byte')
case('text-bad-byte-after-g50', b'G92X600.Y600.\nG50\n\n!', R(2, 4), '2 looks at the whole text before any block')
case('text-bad-byte-in-a-body-never-run', p('U60/a/V60'), R(2, 3), '2 looks at the whole text, bodies included')
case('text-every-allowed-byte-in-one-line', b'ABCDEFGHIJKLMNOPQRSTUVWXYZ0123456789 +-.', R(4, 1),
     'all are allowed bytes, so 4: A has no digits')
case('text-without-a-last-line-feed', b'G92X600.Y600.\nX10.Y10.T1\nG50', all_of(HIT), 'left-over bytes at the end are a last line')
case('text-spaces-anywhere', b'  G 9 2 X 6 0 0 . Y 6 0 0 .  \n X 1 0 . Y 1 0 . T 1\n  G 5 0 ', all_of(HIT), 'spaces are skipped everywhere')
case('text-blank-lines-anywhere', b'\n  \nG92X600.Y600.\n\nX10.Y10.T1\n   \n\nU60\n\nX20.\n \nV60\n\nW60\nG50\n\n   ',
     all_of(HIT, (2000, 1000, 1, 'P')), 'a line without bytes or of spaces only is blank, at the top, in a body and after G50')
case('text-blank-lines-are-counted', b'\n \nG92X600.Y600.\n\n\nX-20.T1\nG50\n', R(16, 6), 'the line is counted from 1, blank lines too')
case('text-blank-lines-in-a-body-are-counted', p('U60//X10.Y10.T1//X-20./V60//W60'), R(16, 6), 'inside a body the line is that of the text')

case('text-ends-in-a-u-line', b'G92X600.Y600.\nU60', R(9, 2), '9: no V line follows')
case('text-ends-in-a-v-line', b'G92X600.Y600.\nU60\nX10.Y10.T1\nV60', R(7, 4), '7: the body is stored, but the text ends without G50')

# ---------------------------------------------------------------- words (form: 4)

for name, block, why in (
    ('letter-without-digits', 'XY10.T1', 'X has no digit'),
    ('sign-without-digits', 'X+Y10.T1', 'a sign alone is no number'),
    ('point-without-digits', 'X.Y10.T1', '1 to 4 digits stand before a point'),
    ('point-before-the-digits', 'X.5Y10.T1', '1 to 4 digits stand before a point'),
    ('seven-digits', 'X0001000Y10.T1', 'without a point there are 1 to 6 digits, leading zeros counted'),
    ('five-digits-before-the-point', 'X00010.Y10.T1', '1 to 4 digits stand before a point'),
    ('three-decimals', 'X10.255Y10.T1', '0 to 2 digits follow a point'),
    ('two-points', 'X10.5.Y10.T1', 'one point only (000 p. I-21 prints X-19.45.)'),
    ('two-signs', 'X--10.Y10.T1', 'one sign only'),
    ('sign-after-the-digits', 'X10-Y10.T1', 'the sign stands before the digits'),
    ('digit-before-the-first-letter', '1X10.Y10.T1', 'a word begins with a letter'),
    ('sign-before-the-first-letter', '+X10.Y10.T1', 'a word begins with a letter'),
    ('point-before-the-first-letter', '.X10.Y10.T1', 'a word begins with a letter'),
    ('digits-alone', '100', 'a word begins with a letter'),
    ('last-word-without-digits', 'X10.Y10.T', 'every word of the block has to have the form'),
    ('u-without-digits', 'U', 'U is a word too'),
    ('g-with-seven-digits', 'G0000090X10.T1', 'G and M are words of the same form'),
):
    case('words-' + name, p(block), R(4, 2), '4: ' + why)
case('words-longest-forms', p('X010000Y0100.00T000001/X0100.5Y100.'), all_of((10000, 10000, 1, 'P'), (10050, 10000, 1, 'P')),
     '6 digits, or 4 digits, a point and 2, 1 or 0 digits')
case('words-without-a-point-hundredths', p('X10000Y5T1/G28I1000J4500K1'), all_of((10000, 5, 1, 'P'), (10707, 712, 1, 'P')),
     'lengths and angles without a point count hundredths')
case('words-one-decimal-is-tenths', p('X10.5Y10.05T1'), all_of((1050, 1005, 1, 'P')), '10.5 is 10.50')
case('words-any-order', 'Y600.G92X600./T2Y100.X100.G90/K2G28J0I10./Q1G75W60/G50', R(10, 4),
     'words of a block stand in any order, so the fourth block is a G75 of nothing stored')
case('words-n-first-the-rest-in-any-order', 'N1Y600.X600.G92/N2T2Y100.X100.G90/N3K2A1T4G28J0I10./G50',
     all_of((10000, 10000, 2, 'P'), (11000, 10000, 4, 'P'), (12000, 10000, 4, 'P')), 'only N and A have a place')
case('words-negative-lengths-and-angles', p('X-10.Y-5.T1/G28I-1.J-90.K1'), all_of((-1000, -500, 1, 'P'), (-1000, -400, 1, 'P')),
     '-1 mm at -90 degrees is 1 mm up')

case('words-three-thousand-in-one-block', p('X1' * 3000 + 'T1'), R(5, 2), 'every word has the form; X stands twice')
case('words-five-thousand-digits', p('X' + '1' * 5000), R(4, 2), '4: 1 to 6 digits')

# ---------------------------------------------------------------- letters (5): a letter missing, a letter too many

for block, code, why in (
    ('G92Y600.', 'g92-without-x', ''), ('G92X600.', 'g92-without-y', ''), ('G92X600.Y600.I1', 'g92-with-i', ''),
):
    case('letters-' + code, block + '/G50', R(5, 1), '5: G92 has X and Y, both required')
for block, code, why in (
    ('G98Y0', 'g98-without-x', 'X and Y are required'),
    ('G98X0', 'g98-without-y', 'X and Y are required'),
    ('G98X0Y0T1', 'g98-with-t', 'T is not one of its letters'),
    ('G70T1', 'g70-without-x-and-y', 'X or Y is required'),
    ('G70X1.I1', 'g70-with-i', 'I is not one of its letters'),
    ('G72', 'g72-without-x-and-y', 'X or Y is required'),
    ('G72X1.T1', 'g72-with-t', 'it has no T'),
    ('G93', 'g93-without-x-and-y', 'X or Y is required'),
    ('G93X1.T1', 'g93-with-t', 'it has no T'),
    ('G75Q1', 'g75-without-w', 'W and Q are required'),
    ('G75W1', 'g75-without-q', 'W and Q are required'),
    ('G75W1Q1X1.', 'g75-with-x', 'X is not one of its letters'),
    ('G76Q1', 'g76-without-w', 'W and Q are required'),
    ('G76W1', 'g76-without-q', 'W and Q are required'),
    ('G76W1Q1T1', 'g76-with-t', 'T is not one of its letters'),
    ('G26J0K1T1', 'g26-without-i', 'all letters of a pattern are required'),
    ('G26I1.K1T1', 'g26-without-j', 'all letters of a pattern are required'),
    ('G26I1.J0T1', 'g26-without-k', 'all letters of a pattern are required'),
    ('G26I1.J0P1K1T1', 'g26-with-p', 'P is not one of its letters'),
    ('G28J0K1T1', 'g28-without-i', 'all letters of a pattern are required'),
    ('G28I1.K1T1', 'g28-without-j', 'all letters of a pattern are required'),
    ('G28I1.J0T1', 'g28-without-k', 'all letters of a pattern are required'),
    ('G28I1.J0P1K1T1', 'g28-with-p', 'P is not one of its letters'),
    ('G29J0P1.K1T1', 'g29-without-i', 'all letters of a pattern are required'),
    ('G29I1.P1.K1T1', 'g29-without-j', 'all letters of a pattern are required'),
    ('G29I1.J0K1T1', 'g29-without-p', 'all letters of a pattern are required'),
    ('G29I1.J0P1.T1', 'g29-without-k', 'all letters of a pattern are required'),
    ('G29I1.J0P1.K1D1T1', 'g29-with-d', 'D is not one of its letters'),
    ('G36P1J1.K1T1', 'g36-without-i', 'all letters of a pattern are required'),
    ('G36I1.J1.K1T1', 'g36-without-p', 'all letters of a pattern are required'),
    ('G36I1.P1K1T1', 'g36-without-j', 'all letters of a pattern are required'),
    ('G36I1.P1J1.T1', 'g36-without-k', 'all letters of a pattern are required'),
    ('G36I1.P1J1.K1D1T1', 'g36-with-d', 'D is not one of its letters'),
    ('G37P1J1.K1T1', 'g37-without-i', 'all letters of a pattern are required'),
    ('G37I1.J1.K1T1', 'g37-without-p', 'all letters of a pattern are required'),
    ('G37I1.P1K1T1', 'g37-without-j', 'all letters of a pattern are required'),
    ('G37I1.P1J1.T1', 'g37-without-k', 'all letters of a pattern are required'),
    ('G37I1.P1J1.K1Q1T1', 'g37-with-q', 'Q is not one of its letters'),
    ('G66J0P20.T1', 'g66-without-i', 'I, J and P of G66 are required'),
    ('G66I30.P20.T1', 'g66-without-j', 'I, J and P of G66 are required'),
    ('G66I30.J0T1', 'g66-without-p', 'I, J and P of G66 are required'),
    ('G66I30.J0Q20.T1', 'g66-with-q-for-p', 'I, J and P of G66 are required'),
    ('G66I30.J0P20.K50.T1', 'g66-with-k', 'K, the window of 000 and 002, is not one of its letters'),
    ('G66I30.J0P20.K0T1', 'g66-with-k-0', 'K is not one of its letters, whatever its number'),
    ('G66X1.I30.J0P20.T1', 'g66-with-x', 'X is not one of its letters'),
    ('G66I30.J0P20.Y1.T1', 'g66-with-y', 'Y is not one of its letters'),
    ('G66I30.J0P20.W60T1', 'g66-with-w', 'W is not one of its letters'),
    ('G66I30.J0P20.B1', 'g66-with-b', 'B stands alone'),
    ('G66I30.J0P20.M0', 'g66-with-m', 'M codes stand alone'),
    ('G66', 'g66-alone', 'I, J and P of G66 are required'),
    ('G28I30.J0K1D1.T1', 'g28-with-d', 'D is not one of its letters'),
    ('G50X1.', 'g50-with-x', 'G50 stands alone'),
    ('M0X1.', 'm-with-x', 'M codes stand alone'),
    ('M0T1', 'm-with-t', 'M codes stand alone'),
    ('M1W60', 'm-with-w', 'M codes stand alone'),
    ('A1M0', 'a-before-m', 'A stands before a pattern code'),
    ('G50M0', 'g50-with-m', 'G50 and M codes stand alone'),
    ('M8M9', 'm-twice', 'no letter stands twice but G'),
    ('M0M1', 'm00-with-m01', 'no letter stands twice but G'),
    ('W60Q1', 'w-with-q', 'W without G stands alone'),
    ('B1B2', 'b-twice', 'no letter stands twice but G'),
    ('U60U61', 'u-twice', 'U stands alone'),
    ('V60X1.', 'v-with-x', 'V stands alone'),
    ('X1.Y1.I1T1', 'position-with-i', 'a position block has X, Y and T'),
    ('X1.X2.T1', 'x-twice', 'no letter stands twice but G'),
    ('G90T1', 'g90-with-t-alone', 'T without X or Y needs a pattern code'),
    ('A1', 'a-alone', 'A stands before a pattern code'),
    ('A1X1.Y1.T1', 'a-before-a-position', 'A stands before a pattern code'),
    ('A1G72X1.', 'a-before-g72', 'A stands before a pattern code'),
    ('X1.Y1.T1N5', 'n-last', 'N is the first word'),
    ('N1N2X1.Y1.T1', 'n-twice', 'no letter stands twice but G'),
    ('I1.J0K1T1', 'pattern-without-a-code', 'I, J and K belong to a code'),
    ('Q1', 'q-alone', 'Q belongs to G75 and G76'),
):
    case('letters-' + code, p(block), R(5, 2), '5: ' + why)
case('letters-optional-ones-left-out', p('G98X0Y0/Y10.X5.T1/G90Y20./G91X1./G70X1./G70Y1./G72X1./G72Y1./G93X1./G93Y1.'),
     E(3, {1: (500, 1000, 1, 'P'), 2: (500, 2000, 1, 'P'), 3: (600, 2000, 1, 'P')}), 'X or Y is enough, and I, J, P, K, D of G98 may all be absent')

# ---------------------------------------------------------------- codes (5)

for block, code in (
    ('G0', 'g0'), ('G4X10.', 'g04'), ('G25X350.', 'g25'), ('G27X350.', 'g27'), ('G67I-200.J-150.P20.Q20.T1', 'g67'), ('G74X1.Y1.W1Q4', 'g74'),
    ('G94X0Y0', 'g94'), ('G999999', 'g999999'), ('M2', 'm02'), ('M30', 'm30'), ('M500', 'm500'), ('M7', 'm07'), ('M10', 'm10'), ('M256', 'm256'), ('M65537', 'm65537'), ('C45.', 'c'), ('F1', 'f'),
):
    case('codes-unknown-' + code, p(block), R(5, 2), '5: every code that is not listed is unknown')
case('codes-unknown-in-the-first-line', 'G6A1.6B0/' + p(ONE), R(5, 1), '5 comes before 7: G06 of 001 and 002 is unknown')
for block, code in (('G+90X1.T1', 'g-with-a-sign'), ('G90.X1.T1', 'g-with-a-point'), ('M+0', 'm-with-a-sign'), ('M0.', 'm-with-a-point'), ('M-0', 'm-with-minus-zero'), ('M01.', 'm01-with-a-point')):
    case('codes-' + code, p(block), R(5, 2), '5: a G or M word with a sign or point is unknown')
case('codes-by-their-number', p('M0/M00/M000001/M8/M08/M9/M09/M12/X10.Y10.T1/M13/G090X20.'), all_of(STOP, STOP, OPTIONAL, (1000, 1000, 1, 'N'), (2000, 1000, 1, 'P')),
     'G and M codes go by their number, so M0 is M00')
case('codes-m00-and-m01-make-an-entry', p('M00/M01/M08/M09/M12/M13'), all_of(STOP, OPTIONAL), 'of the M codes M00 and M01 alone make entries')
case('codes-m08-to-m13-make-no-entry', p('M08/M09/M12/M13'), E(0), 'M08 and M09 make no entry, M12 and M13 set the mode')

# ---------------------------------------------------------------- two G words

case('two-g-reading-beside-each-partner',
     p('G90G70X100.Y100.T1/G70G91X10./G72G90X50.Y50./G90G28I1.J0K1/G28G91I1.J0K1/G91G26I1.J0K1/G29G90I1.J0P0K1/G90G36I1.P1J0K0/G37G91I1.P1J0K0/G93G90X0'),
     all_of((5100, 5000, 1, 'P'), (5200, 5000, 1, 'P'), (5300, 5000, 1, 'P'), (5300, 5000, 1, 'P'), (5400, 5000, 1, 'P'), (5500, 5000, 1, 'P')),
     'one of G90 and G91 beside G70, G72 or a pattern, G90 beside G93, in either order; G26 ends at its start, so G29 starts at 5200')
for block, code, why in (
    ('G90G91X1.T1', 'g90-with-g91', 'neither is a partner of the other'),
    ('G90G90X1.T1', 'g90-twice', 'two G words are one of G90 and G91 and a partner'),
    ('G70G72X1.', 'g70-with-g72', 'one of the two has to be G90 or G91'),
    ('G28G36I1.P1J1.K1T1', 'both-patterns', 'one of the two has to be G90 or G91'),
    ('G90G91G70X1.', 'and-a-third', 'G stands at most twice'),
    ('G90G75W1Q1', 'g90-with-g75', 'G75 is no partner'),
    ('G90G98X0Y0', 'g90-with-g98', 'G98 is no partner'),
    ('G90G50', 'g90-with-g50', 'G50 stands alone'),
    ('G90M0', 'g90-with-m', 'M codes stand alone'),
    ('G91M1', 'g91-with-m', 'M codes stand alone'),
    ('G90W60', 'g90-with-w', 'W without another G stands alone, and G90 is no code that takes it'),
    ('G90B1', 'g90-with-b', 'B stands alone'),
):
    case('two-g-' + code, p(block), R(5, 2), '5: ' + why)
case('two-g-g90-with-g92', 'G90G92X600.Y600./G50', R(5, 1), '5: G92 is no partner')

# ---------------------------------------------------------------- ranges (6): ends and one beyond

case('ranges-n-ends', 'N0G92X600.Y600./N9999G50', E(0), 'N 0 to 9999')
case('ranges-n-10000', p('N10000X1.Y1.T1'), R(6, 2), '6: N above 9999')
case('ranges-t-ends', p('X10.Y10.T1/T99Y20.'), all_of(HIT, (1000, 2000, 99, 'P')), 'T 1 to 99')
case('ranges-t-0', p('X10.Y10.T0'), R(6, 2), '6: T below 1')
case('ranges-t-100', p('X10.Y10.T100'), R(6, 2), '6: T above 99')
case('ranges-macro-ends', p('U1/X10.Y10.T1/V1/U89/X20./V89/W1/W89/U59/X30./V59/U60/X40./V60'),
     all_of(HIT, HIT, (2000, 1000, 1, 'P'), (3000, 1000, 1, 'P')), 'numbers 1 to 89; 59 runs at once, 60 does not')
for block, code in (('U0', 'u-0'), ('U90', 'u-90'), ('V0', 'v-0'), ('V90', 'v-90'), ('W0', 'w-0'), ('W90', 'w-90')):
    case('ranges-' + code, p(block), R(6, 2), '6: U, V and W are 1 to 89')
case('ranges-g75-w-90', p('G75W90Q4'), R(6, 2), '6: W is 1 to 89 beside G75 too')
case('ranges-memory-ends', p('X10.Y10.T1/A1G28I1.J0K1/A5G28I2.J0K1/B1/B5'),
     all_of(HIT, (1100, 1000, 1, 'P'), (1300, 1000, 1, 'P'), (1400, 1000, 1, 'P'), (1600, 1000, 1, 'P')), 'A and B are 1 to 5')
for block, code in (('A0G28I1.J0K1T1', 'a-0'), ('A6G28I1.J0K1T1', 'a-6'), ('B0', 'b-0'), ('B6', 'b-6')):
    case('ranges-' + code, p(block), R(6, 2), '6: A and B are 1 to 5')
for block, code in (('G75W60Q0', 'q-0'), ('G75W60Q5', 'q-5'), ('G76W60Q0', 'g76-q-0'), ('G76W60Q5', 'g76-q-5')):
    case('ranges-' + code, p('G98X0Y0/U60/V60/' + block), R(6, 5), '6: Q is 1 to 4')
case('ranges-g28-k-ends', p('X10.Y10.T1/G28I1J0K1/G28I1J0K999'), E(1001, {1: HIT, 2: (1001, 1000, 1, 'P'), -1: (2000, 1000, 1, 'P')}),
     'K of G28 is 1 to 999')
case('ranges-g29-k-ends', p('G72X100.Y100./G29I1.J0P90.K1T1/G72X100.Y100./G29I1.J0P90.K999'),
     E(1000, {1: (10100, 10000, 1, 'P'), 3: (10000, 10100, 1, 'P'), -1: (9900, 10000, 1, 'P')}),
     'K of G29 is 1 to 999; 998 quarter turns end at a half turn')
case('ranges-g26-k-ends', p('G72X100.Y100./G26I1.J0K1T1/G72X100.Y100./G26I1.J0K-1/G72X100.Y100./G26I100.J0K999/G72X100.Y100./G26I100.J0K-999'),
     E(2000, {1: (10100, 10000, 1, 'P'), 2: (10100, 10000, 1, 'P'), 3: (20000, 10000, 1, 'P'), 1002: (20000, 10000, 1, 'P'),
              336: (5000, 18660, 1, 'P'), 1335: (5000, 1340, 1, 'P')}),
     'K of G26 is 1 to 999 in size; a third of 999 holes is 120 degrees')
for block, code, why in (
    ('G28I1.J0K0T1', 'g28-k-0', 'K of G28 is 1 to 999'),
    ('G28I1.J0K1000T1', 'g28-k-1000', 'K of G28 is 1 to 999'),
    ('G29I1.J0P0K0T1', 'g29-k-0', 'K of G29 is 1 to 999'),
    ('G29I1.J0P0K1000T1', 'g29-k-1000', 'K of G29 is 1 to 999'),
    ('G29I0J0P0K1T1', 'g29-i-0', 'I of G29 is above 0'),
    ('G29I-1J0P0K1T1', 'g29-i-below-0', 'I of G29 is above 0'),
    ('G26I1.J0K0T1', 'g26-k-0', 'K of G26 is 1 to 999 in size'),
    ('G26I1.J0K1000T1', 'g26-k-1000', 'K of G26 is 1 to 999 in size'),
    ('G26I1.J0K-1000T1', 'g26-k-minus-1000', 'K of G26 is 1 to 999 in size'),
    ('G26I0J0K1T1', 'g26-i-0', 'I of G26 is above 0'),
    ('G26I-1J0K1T1', 'g26-i-below-0', 'I of G26 is above 0'),
    ('G36I1.P1000J1.K0T1', 'g36-p-1000', 'P and K of a grid are 0 to 999'),
    ('G36I1.P0J1.K1000T1', 'g36-k-1000', 'P and K of a grid are 0 to 999'),
    ('G37I1.P1000J1.K0T1', 'g37-p-1000', 'P and K of a grid are 0 to 999'),
    ('G37I1.P0J1.K1000T1', 'g37-k-1000', 'P and K of a grid are 0 to 999'),
    ('G98X0Y0P100', 'g98-p-100', 'P and K of G98 are at most 99'),
    ('G98X0Y0K100', 'g98-k-100', 'P and K of G98 are at most 99'),
    ('G98X-1Y0', 'g98-x-below-0', 'nothing in G98 is negative'),
    ('G98X0Y-1', 'g98-y-below-0', 'nothing in G98 is negative'),
    ('G98X0Y0I-1', 'g98-i-below-0', 'nothing in G98 is negative'),
    ('G98X0Y0J-1', 'g98-j-below-0', 'nothing in G98 is negative'),
    ('G98X0Y0I5.J5.D-1', 'g98-d-below-0', 'nothing in G98 is negative'),
):
    case('ranges-' + code, p(block), R(6, 2), '6: ' + why)
case('ranges-g29-and-g26-i-1', p('G72X1.Y1./G29I1J0P0K1T1/G72X1.Y1./G26I1J90.K1'), all_of((101, 100, 1, 'P'), (100, 101, 1, 'P')), 'a hundredth is above 0')
case('ranges-g36-ends', p('X10.Y10.T1/G36I1P999J0K0/G36I0P0J1K999/G36I0P0J0K0'),
     E(1999, {2: (1001, 1000, 1, 'P'), 1000: (1999, 1000, 1, 'P'), 1001: (1999, 1001, 1, 'P'), -1: (1999, 1999, 1, 'P')}), 'P and K of a grid are 0 to 999')
case('ranges-g37-ends', p('X10.Y10.T1/G37I1P999J0K0/G37I0P0J1K999/G37I0P0J0K0'),
     E(1999, {2: (1001, 1000, 1, 'P'), 1000: (1999, 1000, 1, 'P'), 1001: (1999, 1001, 1, 'P'), -1: (1999, 1999, 1, 'P')}), 'P and K of a grid are 0 to 999')
case('ranges-g98-p-and-k-99', p('G98X0Y0I1J1P99K99/U60/V60/G76W60Q4/G98X0Y0I1P99/U60/X1.Y0T1/V60/G75W60Q1'),
     E(100, {1: (100, 0, 1, 'P'), -1: (199, 0, 1, 'P')}), 'P and K of G98 are 0 to 99: ten thousand copies of nothing, then a hundred')
case('ranges-222-x-and-y-ends', p('X-10.2Y-10.2T1/X610.2Y610.2/G70X-10.2/G70Y-10.2'), all_of((-1020, -1020, 1, 'P'), (61020, 61020, 1, 'P')),
     'X and Y from -1,020 to 61,020 on the ARIES-222, both ends inside')
case('ranges-224-x-and-y-ends', p('X-10.2Y-10.2T1/X1010.2Y610.2/G70X-10.2/G70X1010.2Y-10.2', A224), all_of((-1020, -1020, 1, 'P'), (101020, 61020, 1, 'P')),
     'X to 101,020 on the ARIES-224, Y as before')
for machine, head in (('222', A222), ('224', A224)):
    far = '610.21' if machine == '222' else '1010.21'
    for code, block in (('x-below', 'X-10.21Y0T1'), ('x-above', 'X%sY0T1' % far), ('y-below', 'X0Y-10.21T1'), ('y-above', 'X0Y610.21T1')):
        case('ranges-%s-%s' % (machine, code), p(block, head), R(16, 2), '16: a hundredth outside the range')
for code, block in (('x-below', 'G70X-10.21'), ('x-above', 'G70X610.21'), ('y-below', 'G70Y-10.21'), ('y-above', 'G70Y610.21')):
    case('ranges-g70-' + code, p(block), R(16, 2), '16: the end of a G70 move a hundredth outside the range')
case('ranges-g92-point-of-either-machine', 'G92X60000Y60000/G91X0T1/G50', all_of((60000, 60000, 1, 'P')), 'G92 X600. Y600. by value; its X, Y are the current point')

# ---------------------------------------------------------------- kinds (6): signs and points on whole numbers

for block, code in (
    ('N+1X1.Y1.T1', 'n-with-a-sign'), ('N1.X1.Y1.T1', 'n-with-a-point'), ('X1.Y1.T1.', 't-with-a-point'), ('X1.Y1.T-1', 't-with-a-minus'),
    ('U60.', 'u-with-a-point'), ('U-60', 'u-with-a-sign'), ('W60.', 'w-with-a-point'), ('W+60', 'w-with-a-sign'), ('V60.', 'v-with-a-point'),
    ('A1.G28I1.J0K1T1', 'a-with-a-point'), ('B+1', 'b-with-a-sign'), ('G75W60Q1.', 'q-with-a-point'), ('G28I1.J0K2.T1', 'g28-k-with-a-point'),
    ('G28I1.J0K-2T1', 'g28-k-with-a-minus'), ('G29I1.J0P1.K+2T1', 'g29-k-with-a-plus'), ('G26I1.J0K2.T1', 'g26-k-with-a-point'),
    ('G36I1.P2.J1.K2T1', 'g36-p-with-a-point'), ('G36I1.P2J1.K-2T1', 'g36-k-with-a-minus'), ('G37I1.P+2J1.K2T1', 'g37-p-with-a-plus'),
    ('G98X0Y0P1.', 'g98-p-with-a-point'), ('G98X0Y0K+1', 'g98-k-with-a-plus'),
):
    case('kinds-' + code, p(block), R(6, 2), '6: whole-number words have neither sign nor point, but for the sign of K in G26')
case('kinds-p-of-g29-is-an-angle', p('G72X100.Y100./G29I10.J0P-90.K2T1'), all_of((11000, 10000, 1, 'P'), (10000, 9000, 1, 'P')), 'in G29 P is an angle, with sign and point')
