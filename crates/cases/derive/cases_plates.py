"""The sample plates: what their drawings ask for, worked out from the dimensions in plates/README.md and not from the
programs, entry after entry in the order of punching."""
import math
import os
from table import *

PLATES = os.path.join(os.path.dirname(os.path.abspath(__file__)), '../../../plates')


class Drawing:
    """Outer size, where the plate's lower left corner lies on the sheet, and groups of entries in their order: holes and the
    hits of rectangular tools that cut edges, X, Y, tool, mode, measured from that corner, and stops. A window is its lower
    left corner, measured so too, and its size.

    Sizes are in millimetres, hits in hundredths."""

    def __init__(self, size, corner, *groups, windows=()):
        self.size, self.corner, self.windows = size, corner, windows
        self.drawn = [entry for group in groups for entry in group]

    def entries(self):
        """On the sheet: hits are moved by the corner's place, stops stay as they are."""
        left, low = whole(self.corner[0]), whole(self.corner[1])
        return [entry if entry in (STOP, OPTIONAL) else (left + entry[0], low + entry[1]) + entry[2:] for entry in self.drawn]


def whole(millimetres):
    """Hundredths, to the nearest, halves away from zero."""
    size = math.floor(abs(millimetres) * 100 + 0.5)
    return size if millimetres >= 0 else -size


def polar(centre, distance, degrees):
    """A place from a centre; what is added to the centre is rounded."""
    angle = math.radians(degrees)
    return whole(centre[0]) + whole(distance * math.cos(angle)), whole(centre[1]) + whole(distance * math.sin(angle))


def holes(tool, *places):
    return [(whole(x), whole(y), tool, 'P') for x, y in places]


def corners(tool, first, width, height):
    """Four holes around a rectangle, against the clock from its lower left; with a width below 0 clockwise from its lower right."""
    x, y = first
    return holes(tool, (x, y), (x + width, y), (x + width, y + height), (x, y + height))


def rows(tool, first, pitch, columns, count, way=1):
    """Row by row from the lower left, or with way -1 from the lower right, every second one back."""
    def row(r):
        return [(first[0] + way * pitch * c, first[1] + pitch * r) for c in range(columns)]
    return holes(tool, *(place for r in range(count) for place in (row(r) if r % 2 == 0 else row(r)[::-1])))


def columns(tool, first, pitch, count, in_each):
    """Column by column from the lower left, every second one back."""
    turned = rows(tool, (first[1], first[0]), pitch, in_each, count)
    return [(x, y, tool, mode) for y, x, tool, mode in turned]


def ring(tool, centre, radius, degrees, step, count):
    """Holes on a circle, each a step further from the first one's angle; with a step below 0 clockwise."""
    return [polar(centre, radius, degrees + step * k) + (tool, 'P') for k in range(count)]


def slot(tool, first, pitch, degrees, count):
    """Nibbled hits in a line, the first one's place given."""
    return [polar(first, pitch * k, degrees) + (tool, 'N') for k in range(count)]


def edge(tool, first, last, count):
    """Hits of a rectangular tool in equal steps from one place to another."""
    def between(a, b, k):
        return a + (b - a) * k / (count - 1)
    return holes(tool, *((between(first[0], last[0], k), between(first[1], last[1], k)) for k in range(count)))


def window(place):
    """The edges of a window of 120 x 80, cut from inside: lower, upper, right, left; and the stop to lift its scrap."""
    x, y = place
    return (edge(10, (x + 25, y + 2.5), (x + 95, y + 2.5), 3) + edge(10, (x + 95, y + 77.5), (x + 25, y + 77.5), 3)
            + edge(11, (x + 117.5, y + 25), (x + 117.5, y + 55), 2) + edge(11, (x + 2.5, y + 55), (x + 2.5, y + 25), 2) + [STOP])


def tube(place):
    """A tube's hole, and four for its clips around it."""
    return holes(14, place) + ring(3, place, 17.5, 45, 90, 4)


def tube_with_label(place):
    """The same, and two for the screws of a label to the right."""
    x, y = place
    return tube(place) + holes(4, (x + 24, y), (x + 54, y))


def tubes_of_the_rack():
    """Six by three tubes 40 mm apart, row by row and back; above them three with labels, 80 mm apart, from the right."""
    lower = [(30 + 40 * c, 30 + 40 * r) for r in range(3) for c in (range(6) if r % 2 == 0 else range(5, -1, -1))]
    upper = [(30 + 80 * c, 150) for c in (2, 1, 0)]
    return [hole for place in lower for hole in tube(place)] + [hole for place in upper for hole in tube_with_label(place)]


DRAWINGS = {
    'eight-by-twelve-rack': Drawing(
        (127.76, 85.48), (100, 100),
        rows(2, (14.38, 11.24), 9, 12, 8),
        corners(5, (5, 5), 117.76, 75.48)),
    'cut-out-rack': Drawing(
        (127.76, 85.48), (100, 100),
        rows(2, (14.38, 11.24), 9, 12, 8),
        edge(11, (-2.5, 25.15), (-2.5, 60.33), 2),
        edge(11, (130.26, 60.33), (130.26, 25.15), 2),
        edge(10, (25.15, 87.98), (102.61, 87.98), 3),
        edge(10, (102.61, -2.5), (25.15, -2.5), 3)),
    'window-panel': Drawing(
        (300, 140), (100, 100),
        window((20, 30)),
        window((160, 30)),
        [OPTIONAL],
        corners(5, (10, 10), 280, 120),
        windows=((20, 30, 120, 80), (160, 30, 120, 80))),
    'tip-rack': Drawing(
        (127.76, 85.48), (200, 150),
        columns(3, (12.13, 8.99), 4.5, 24, 16),
        slot(7, (5, 33.24), 1, 90, 20),
        slot(7, (122.76, 33.24), 1, 90, 20)),
    'tube-rack': Drawing(
        (260, 180), (50, 60),
        corners(5, (10, 10), 240, 160),
        tubes_of_the_rack()),
    'rack-right': Drawing(
        (160, 100), (100, 100),
        corners(5, (10, 10), 140, 80),
        rows(2, (18, 20), 12, 8, 6),
        holes(3, (10, 50)),
        ring(4, (135, 70), 12, 30, 30, 3),
        slot(7, (135, 30), 2, 90, 21)),
    'rack-left': Drawing(
        (160, 100), (100, 100),
        corners(5, (150, 10), -140, 80),
        rows(2, (142, 20), 12, 8, 6, -1),
        holes(3, (150, 50)),
        ring(4, (25, 70), 12, 150, -30, 3),
        slot(7, (25, 30), 2, 90, 21)),
    'deck-plate': Drawing(
        (900, 540), (40, 30),
        corners(8, (65, 50), 140, 98),
        corners(8, (275, 50), 140, 98),
        corners(8, (485, 50), 140, 98),
        corners(8, (695, 50), 140, 98),
        ring(6, (300, 300), 60, 22.5, 45, 8),
        ring(6, (600, 300), 60, 22.5, 45, 8),
        ring(4, (300, 300), 30, 0, -60, 6),
        holes(4, *((60 + 15 * k, 430) for k in range(12))),
        ring(4, (142.5, 400), 45, 180, 22.5, 9),
        slot(9, (690, 470), 2.5, -30, 24),
        [STOP]),
}

for name, drawing in DRAWINGS.items():
    with open(os.path.join(PLATES, name + '.nc'), 'rb') as file:
        case('samples-' + name, file.read(), all_of(*drawing.entries()),
             'plates/README.md: the hits and stops of the drawing, in the order of punching')
