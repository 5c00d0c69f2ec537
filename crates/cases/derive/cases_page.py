"""The worked examples of docs/PUNCH-CODE.md, whose steps stand there."""
from table import *

HEAD = 'G92 X600. Y600.'


def P(x, y, t=2):
    return (x, y, t, 'P')


def N(x, y, t=2):
    return (x, y, t, 'N')


def example(name, body, answer, reason):
    """A program on the ARIES-222 between G92 and G50."""
    case('page-' + name, p(body, HEAD), answer, reason)


case('page-units', 'G92 X60000 Y600./X100 Y100. T1/X1.5 Y1.05/G28 I10. J4500 K1/G50', all_of(P(100, 10000, 1), P(150, 105, 1), P(857, 812, 1)),
     'without a point a number counts hundredths')
case('page-units-at-setting-0', 'G92 X600 Y600/X100 Y100. T1/X1.5 Y1/G28 I10 J45 K2/G29 I20 J0 P90 K2/G36 I9 P2 J9 K1/G50',
     all_of(P(10000, 10000, 1), P(150, 100, 1), P(857, 807, 1), P(1564, 1514, 1), P(3564, 1514, 1), P(1564, 3514, 1), P(2464, 3514, 1), P(3364, 3514, 1),
            P(3364, 4414, 1), P(2464, 4414, 1), P(1564, 4414, 1)), 'without a point a length counts millimetres and an angle degrees', setting=0)
case('page-limit-at-setting-0', 'G92 X600 Y600/G72 X9999 Y-9999/G72 X9999.99 Y0/G72 X0 Y10000/G50', R(6, 4), '6: 10,000 mm are 1,000,000 hundredths', setting=0)
example('t', 'X20. Y20. T3/X40./G70 X60. T5/Y40./G28 I10. J0 K2 T7/X10. Y10.',
        all_of(P(2000, 2000, 3), P(4000, 2000, 3), P(6000, 4000, 5), P(7000, 4000, 7), P(8000, 4000, 7), P(1000, 1000, 7)),
        'a tool stays chosen; G70 and patterns choose one too')
case('page-g92', 'G92 X1000. Y600./X1010.2 T1/X-10.2 Y-10.2/G50', all_of(P(101020, 60000, 1), P(-1020, -1020, 1)), 'the ARIES-224 and two corners of its range')
example('g93', 'G93 X100. Y100./X10. Y10. T1/G93 X200./X10. Y10./G91 X5.', all_of(P(11000, 11000, 1), P(21000, 11000, 1), P(21500, 11000, 1)),
        'an offset is set, axis by axis, and not added')
example('g98', 'G93 X5./G98 X100. Y50. I40. J30. P2 K1 D2./X10. Y10. T1/U1/X0 Y0/V1/G75 W1 Q1',
        all_of(P(11500, 6000, 1), P(10500, 5000, 1), P(14700, 5000, 1), P(18900, 5000, 1), P(18900, 8200, 1), P(14700, 8200, 1), P(10500, 8200, 1)),
        'the offset counts, D is added to both pitches, U1 only stores')
case('page-g50', HEAD + '/X10. Y10. T1/G50//X20.', R(7, 5), '7: only blank lines follow G50')
case('page-g50-missing', HEAD + '/X10. Y10. T1/', R(7, 3), '7: the text ends without G50; its last line is blank')
example('g90', 'G93 X100. Y50./G91 X-500. Y-500. T1/G90 X20./Y30.', all_of(P(10000, 10000, 1), P(12000, 10000, 1), P(12000, 8000, 1)),
        'G90 holds in its own block and on; X and Y count from the origin')
example('g91', 'X100. Y100. T1/G72 X200. Y200./G91/X10./Y-5./G28 I10. J0 K1',
        all_of(P(10000, 10000, 1), P(11000, 10000, 1), P(11000, 9500, 1), P(12000, 9500, 1)), 'a lone G91 makes no hit and drops the waiting origin')
example('g70', 'G70 X100. Y100. T4/G91 Y10./G28 I5. J180. K2', all_of(P(10000, 11000, 4), P(9500, 11000, 4), P(9000, 11000, 4)), 'G70 moves and chooses its tool')
example('g72', 'X100. Y100. T2/G72 X200. Y200./G91 X10./G90 G72 X200./G28 I10. J90. K2/X50.',
        all_of(P(10000, 10000), P(11000, 10000), P(20000, 11000), P(20000, 12000), P(5000, 12000)),
        'a position drops the first origin; the second takes its Y from the current point')
example('g26', 'X200. Y200. T2/G26 I30. J90. K-3/G91 X5.', all_of(P(20000, 20000), P(20000, 23000), P(22598, 18500), P(17402, 18500), P(20500, 20000)),
        'a third of a turn clockwise at a time; the circle ends at its start')
example('g26-rounded-turns', 'G72 X300. Y300./G26 I100. J0 K7 T2',
        all_of(P(40000, 30000), P(36235, 37818), P(27774, 39749), P(20990, 34338), P(20990, 25662), P(27774, 20251), P(36235, 22182)),
        'turns of 5,143, 10,286, 15,429, 20,571, 25,714 and 30,857 hundredths')
example('g28', 'X100. Y100. T2/G28 I9. J45. K3', all_of(P(10000, 10000), P(10636, 10636), P(11273, 11273), P(11909, 11909)),
        'twice 9 mm at 45 degrees is 1272.79, so 1273; two steps of 636 would be 1272')
example('g29', 'G72 X300. Y300./G29 I100. J22.5 P45. K3 T2/X0', all_of(P(39239, 33827), P(33827, 39239), P(26173, 39239), P(0, 39239)),
        '22.5, 67.5 and 112.5 degrees; the arc ends at its last hit')
example('g36', 'X50. Y50. T2/G36 I20. P2 J10. K1', all_of(P(5000, 5000), P(7000, 5000), P(9000, 5000), P(9000, 6000), P(7000, 6000), P(5000, 6000)),
        'three columns and two rows, row by row')
example('g37', 'X50. Y50. T2/G37 I20. P2 J10. K1', all_of(P(5000, 5000), P(5000, 6000), P(7000, 6000), P(7000, 5000), P(9000, 5000), P(9000, 6000)),
        'the same places, column by column')
example('g66', 'G72 X100. Y100./G66 I150. J0 P-50. Q-5. T2/G72 X100. Y180./G66 I150. J0 P50. Q5./G91 X10.',
        all_of(P(12500, 9750), P(15833, 9750), P(19167, 9750), P(22500, 9750), P(12500, 18250), P(15833, 18250), P(19167, 18250), P(22500, 18250), P(11000, 18000)),
        'lower and upper edge of a rack, the tool outside; an edge ends at its start')
example('g66-at-an-angle', 'G72 X200. Y200./G66 I80. J30. P30. Q10. T2', all_of(P(21049, 21183), P(23214, 22433), P(25379, 23683)),
        '1,500, 4,000 and 6,500 along, 500 to the left of a line at 30 degrees')
example('g66-micro-joints', 'G72 X100. Y220./G66 I120. J-90. P30. Q5. D-0.15 T2', all_of(P(10250, 20485), P(10250, 18242), P(10250, 16000), P(10250, 13757), P(10250, 11515)),
        '0.15 mm are left at both ends of a line downwards')
example('g66-one-hit', 'X100. Y100. T2/G66 I30. J0 P20. Q10. D-5.', all_of(P(10000, 10000), P(11500, 10500)), 'the length with D is that of the tool: one hit')
example('g66-from-memory', 'X50. Y50. T3/G72 X100. Y100./A1 G66 I30. J90. P20. Q5./G72 X200. Y100./B1',
        all_of(P(5000, 5000, 3), P(9750, 11000, 3), P(9750, 12000, 3), P(19750, 11000, 3), P(19750, 12000, 3)), 'left of a line upwards, twice')
example('g66-too-short', 'G72 X100. Y100./G66 I29.99 J0 P20. T2', R(18, 3), '18: 29.99 mm are under 1.5 times 20 mm')
example('a-and-b', 'X50. Y50. T2/A1 G28 I10. J90. K2 T3/G70 X100. Y50./B1/X150. Y50. T4/B1',
        all_of(P(5000, 5000), P(5000, 6000, 3), P(5000, 7000, 3), P(10000, 6000, 3), P(10000, 7000, 3), P(15000, 5000, 4), P(15000, 6000, 4), P(15000, 7000, 4)),
        'the memory holds the line without its tool')
example('m12-m13', 'X10. Y10. T9/M12/X20./G28 I5. J0 K2/M13/X40.', all_of(P(1000, 1000, 9), N(2000, 1000, 9), N(2500, 1000, 9), N(3000, 1000, 9), P(4000, 1000, 9)),
        'mode N from M12 to M13, in patterns too')
example('m00-m01', 'M01/X10. Y10. T1/G72 X50. Y50./M12/M0/G28 I10. J0 K2', all_of(OPTIONAL, P(1000, 1000, 1), STOP, N(6000, 5000, 1), N(7000, 5000, 1)),
        'a stop needs no tool; the waiting origin and mode N stay; M0 is M00')
example('m08-m09', 'X10. Y10. T1/G72 X50. Y50./M8/G28 I10. J0 K1/M09', all_of(P(1000, 1000, 1), P(6000, 5000, 1)),
        'they change nothing; M8 is M08')
example('u-v-w', 'U1/X10. Y10. T5/G91 X5./V1/U60/G90 Y50./W1/V60/W60',
        all_of(P(1000, 1000, 5), P(1500, 1000, 5), P(1500, 5000, 5), P(1000, 1000, 5), P(1500, 1000, 5)),
        'macro 1 runs where it is stored, macro 60 when it is called')
example('g75', 'G98 X50. Y50. I100. J80. P1 K2/U60/X10. Y20. T2/V60/G75 W60 Q2',
        all_of(P(16000, 7000), P(6000, 7000), P(6000, 15000), P(16000, 15000), P(16000, 23000), P(6000, 23000)), 'row by row from the lower right')
example('g76', 'G98 X50. Y50. I100. J80. P1 K2/U60/X10. Y20. T2/V60/G76 W60 Q3',
        all_of(P(6000, 23000), P(6000, 15000), P(6000, 7000), P(16000, 7000), P(16000, 15000), P(16000, 23000)), 'column by column from the upper left')
example('copies-begin-alike', 'X10. Y10. T2/G98 X100. Y100. I50. P1/U60/X5. Y5./G91 X1. T3/V60/G75 W60 Q1/X1./G90 Y0',
        all_of(P(1000, 1000), P(10500, 10500), P(10600, 10500, 3), P(15500, 10500), P(15600, 10500, 3), P(15700, 10500, 3), P(15700, 10000, 3)),
        'each copy begins with G90 and tool 2; the last one leaves G91 and tool 3')
example('g73', 'G93 X100. Y100./U60/G90 X10. Y20. T2/G91 X5./V60/G73 X80. Y50. Q1 W60/G73 Q2 W60/G73 Q3 W60/G73 Q4 W60/X1.',
        all_of(P(11000, 12000), P(11500, 12000), P(17000, 12000), P(16500, 12000), P(11000, 13000), P(11500, 13000), P(17000, 13000), P(16500, 13000), P(10100, 10000)),
        'a macro by each Q; afterwards the current point is the origin')
example('g73-in-a-mirror', 'U60/X20. Y5. T2/V60/U61/X1. Y1. T2/G73 X30. Q2 W60/V61/G73 X50. Y0 Q2 W61/G73 Q2 W60', all_of(P(4900, 100), P(4000, 500), P(1000, 500)),
        '50 - 1; 50 - (30 - 20), the inner mirror first; 30 - 20, X being the last one given')
example('g73-in-copies', 'G98 X50. Y50. I100. P1/U60/X5. Y5. T2/V60/U1/G73 X80. Y0 Q1 W60/G73 Q2 W60/V1/G75 W1 Q1', all_of(P(5500, 5500), P(12500, 5500), P(15500, 5500), P(22500, 5500)),
        'a right hand and a left hand hit in each copy')
