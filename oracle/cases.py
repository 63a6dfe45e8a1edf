"""Rounds and files to compare with, from a generator that is easy to write again in any language.

The generator: state = (state * 1103515245 + 12345) mod 2^31, value = state >> 16, so a value is from 0 to 32767.
`below(limit)` is value mod limit. Every function draws in the order in which its lines stand.

A case is the flat list of numbers: box count, four numbers for each box, plug count, two numbers for each plug. In a case file a
case is one line, the numbers in base ten and one space apart.

Run as a program: python3 -m oracle.cases KIND [COUNT [SEED]] with KIND one of small,
degenerate, ring, edge, circle, random, convex.
"""

import sys
from fractions import Fraction
from math import isqrt

from . import rounds

BOXES = 1024
RADIUS = 15000


class Generator:
    """The linear congruential generator."""

    def __init__(self, seed):
        self.state = seed % 2**31

    def value(self):
        """The next value, from 0 to 32767."""
        self.state = (self.state * 1103515245 + 12345) % 2**31
        return self.state >> 16

    def below(self, limit):
        """The next value mod the limit; the limit is at most 32768."""
        return self.value() % limit

    def between(self, low, high):
        """The next value from low to high, both included."""
        return low + self.below(high - low + 1)


# ---------------------------------------------------------------------------------------------------------------------------
# Small rounds


def small_box(generator, span):
    """A box with edges from 0 to the span: a point, a line along an axis, or any box, with equal chance."""
    shape = generator.below(4)
    one_east = generator.below(span + 1)
    one_north = generator.below(span + 1)
    two_east = generator.below(span + 1)
    two_north = generator.below(span + 1)
    if shape in (0, 1):
        two_east = one_east
    if shape in (0, 2):
        two_north = one_north
    return [min(one_east, two_east), min(one_north, two_north), max(one_east, two_east), max(one_north, two_north)]


def small_round(generator, span=8, most=6):
    """1 to `most` boxes in a span of 0 to `span`, and one plug from -1 to span + 1: (boxes, plugs)."""
    boxes = []
    for _ in range(generator.between(1, most)):
        boxes += small_box(generator, span)
    plug_east = generator.between(-1, span + 1)
    plug_north = generator.between(-1, span + 1)
    return boxes, [plug_east, plug_north]


def degenerate_round(generator, span=8, most=6):
    """1 to `most` boxes of one kind, and one plug from -1 to span + 1: all the same point; repeats of two boxes; points on one
    sloping line; lines along one axis line; points only; whole boxes with one common corner point."""
    kind = generator.below(6)
    count = generator.between(1, most)
    first = small_box(generator, span)
    second = small_box(generator, span)
    west, south = first[0], first[1]
    boxes = []
    for _ in range(count):
        draw = generator.below(span + 1)
        other = generator.below(span + 1)
        if kind == 0:
            boxes += [west, south, west, south]
        elif kind == 1:
            boxes += first if draw % 2 == 0 else second
        elif kind == 2:
            north = draw if west % 2 == 0 else span - draw
            boxes += [draw, north, draw, north]
        elif kind == 3:
            boxes += [min(draw, other), south, max(draw, other), south]
        elif kind == 4:
            boxes += [draw, other, draw, other]
        else:
            boxes += [min(west, draw), min(south, other), max(west, draw), max(south, other)]
    plug_east = generator.between(-1, span + 1)
    plug_north = generator.between(-1, span + 1)
    return boxes, [plug_east, plug_north]


def ring_round(generator, span=8, most=6):
    """3 to `most` narrow boxes near the edge of a span of 0 to `span`, one after another round it, and a plug about the middle, so
    that inside, undecided and outside are all frequent."""
    boxes = []
    for number in range(generator.between(3, most)):
        along = generator.below(span + 1)
        depth = generator.below(2)
        width = generator.below(2)
        height = generator.below(2)
        east, north = ((along, depth), (span - depth, along), (along, span - depth), (depth, along))[number % 4]
        boxes += [max(east - width, 0), max(north - height, 0), east, north]
    plug_east = generator.between(span // 4, span - span // 4)
    plug_north = generator.between(span // 4, span - span // 4)
    return boxes, [plug_east, plug_north]


EDGE_VALUES = (-16000, -15999, -1, 0, 1, 15999, 16000)


def edge_round(generator, most=6):
    """1 to `most` boxes and a plug with all numbers at the edges of the span or about its middle, where sums and products are
    largest."""
    boxes = []
    for _ in range(generator.between(1, most)):
        one_east = EDGE_VALUES[generator.below(7)]
        one_north = EDGE_VALUES[generator.below(7)]
        two_east = EDGE_VALUES[generator.below(7)]
        two_north = EDGE_VALUES[generator.below(7)]
        if generator.below(2) == 0:
            two_east, two_north = one_east, one_north
        boxes += [min(one_east, two_east), min(one_north, two_north), max(one_east, two_east), max(one_north, two_north)]
    plug_east = EDGE_VALUES[generator.below(7)]
    plug_north = EDGE_VALUES[generator.below(7)]
    return boxes, [plug_east, plug_north]


# ---------------------------------------------------------------------------------------------------------------------------
# Full rounds


def circle_points(count=BOXES, radius=RADIUS):
    """Whole points nearest to `count` equal steps round a circle, count a power of 2 from 4 on. Cosines are whole numbers over
    2^200, by halving a quarter turn with whole square roots and adding angles, so no float is used."""
    scale = 2**200
    step_cosine, step_sine = 0, scale
    steps = 4
    while steps < count:
        step_cosine, step_sine = isqrt(scale * (scale + step_cosine) // 2), isqrt(scale * (scale - step_cosine) // 2)
        steps *= 2
    points = []
    cosine, sine = scale, 0
    for _ in range(count):
        points.append((nearest(radius * cosine, scale), nearest(radius * sine, scale)))
        cosine, sine = (cosine * step_cosine - sine * step_sine) // scale, (sine * step_cosine + cosine * step_sine) // scale
    return points


def nearest(numerator, denominator):
    """The whole number nearest to the fraction, a half upward."""
    return (2 * numerator + denominator) // (2 * denominator)


def plugs_about(generator, boxes, count):
    """Plugs for a full round: the middle, a plug at a corner of a drawn box, and so on with plugs anywhere in the span."""
    plugs = [0, 0]
    for number in range(1, count):
        drawn = generator.below(len(boxes) // 4)
        east = generator.between(-16000, 16000)
        north = generator.between(-16000, 16000)
        if number % 3 == 1:
            plugs += boxes[4 * drawn : 4 * drawn + 2]
        elif number % 3 == 2:
            plugs += [boxes[4 * drawn] * 9 // 10, boxes[4 * drawn + 1] * 9 // 10]
        else:
            plugs += [east, north]
    return plugs


def circle_round(generator, reach=40, plugs=8):
    """1,024 boxes about the points of the circle of radius 15,000, each edge up to `reach` from its point."""
    boxes = []
    for east, north in circle_points():
        west_reach = generator.below(reach + 1)
        south_reach = generator.below(reach + 1)
        east_reach = generator.below(reach + 1)
        north_reach = generator.below(reach + 1)
        boxes += [east - west_reach, north - south_reach, east + east_reach, north + north_reach]
    return boxes, plugs_about(generator, boxes, plugs)


def random_round(generator, reach=600, plugs=8):
    """1,024 boxes anywhere in the span, each up to `reach` wide and high, cut at the span."""
    boxes = []
    for _ in range(BOXES):
        west = generator.between(-16000, 16000)
        south = generator.between(-16000, 16000)
        width = generator.below(reach + 1)
        height = generator.below(reach + 1)
        boxes += [west, south, min(west + width, 16000), min(south + height, 16000)]
    return boxes, plugs_about(generator, boxes, plugs)


def convex_round(generator, plugs=8):
    """1,024 point boxes that are all extreme, so that every polygon has 1,024 vertices and the four corner polygons fill 8 x N
    numbers to the last: the 1,024 shortest vectors without a common divisor, in the order of their angles, as sides. The boxes
    stand in the order of the generator (each is swapped with a drawn earlier one or itself)."""
    reach = 40
    quarter = [(east, north) for east in range(1, reach) for north in range(reach) if coprime(east, north)]
    quarter = sorted(quarter, key=lambda vector: (vector[0] ** 2 + vector[1] ** 2, vector))[: BOXES // 4]
    quarter = in_angle_order(quarter)
    sides = quarter
    for _ in range(3):
        quarter = [(-north, east) for east, north in quarter]
        sides = sides + quarter
    points, here = [], (0, -6000)
    for east, north in sides:
        points.append((2 * here[0], 2 * here[1]))
        here = (here[0] + east, here[1] + north)
    middle_east = (min(points)[0] + max(points)[0]) // 2
    middle_north = (min(north for _, north in points) + max(north for _, north in points)) // 2
    points = [(east - middle_east, north - middle_north) for east, north in points]
    for position in range(1, len(points)):
        drawn = generator.below(position + 1)
        points[position], points[drawn] = points[drawn], points[position]
    boxes = [number for point in points for number in point + point]
    return boxes, plugs_about(generator, boxes, plugs)


def coprime(first, second):
    """Whether two whole numbers, none negative, have no common divisor above 1."""
    while second:
        first, second = second, first % second
    return first == 1


def in_angle_order(vectors):
    """Vectors with positive east and no negative north, by growing slope."""
    return sorted(vectors, key=lambda vector: Fraction(vector[1], vector[0]))


# ---------------------------------------------------------------------------------------------------------------------------
# Files


def random_file(generator):
    """Bytes near a round file: records in mostly the right order, with notes, and then often one spoiled place."""
    parts = []
    for _ in range(generator.below(4)):
        parts.append(b"\x5b\x01" + bytes(generator.below(256) for _ in range(16)))
    for _ in range(generator.below(3)):
        parts.append(b"\x5b\x02" + bytes(generator.below(256) for _ in range(8)))
    for _ in range(generator.below(3)):
        length = (0, 1, 2, 91, 255)[generator.below(5)]
        note = bytes([0x5C, generator.below(256), length]) + bytes((0x5B, 0, 1, 2)[generator.below(4)] for _ in range(length))
        parts.insert(generator.below(len(parts) + 1), note)
    if generator.below(8) == 0 and parts:
        drawn = parts.pop(generator.below(len(parts)))
        parts.insert(generator.below(len(parts) + 1), drawn)
    if generator.below(8) > 0:
        parts.append(b"\x5b\x00")
    data = bytearray(b"".join(parts))
    spoil = generator.below(6)
    if spoil == 0:
        data = data[: generator.below(len(data) + 1)]
    if spoil == 1 and data:
        data[generator.below(len(data))] = (0x5B, 0x5C, 0x5D, 0, 1, 2, 3)[generator.below(7)]
    if spoil == 2:
        data += bytes([(0x5B, 0, 1)[generator.below(3)]])
    return bytes(data)


# ---------------------------------------------------------------------------------------------------------------------------
# Case files

KINDS = {
    "small": small_round,
    "degenerate": degenerate_round,
    "ring": ring_round,
    "edge": edge_round,
    "circle": circle_round,
    "random": random_round,
    "convex": convex_round,
}


def flat_case(boxes, plugs):
    """A case as the flat list of numbers."""
    return [len(boxes) // 4] + list(boxes) + [len(plugs) // 2] + list(plugs)


def write_case(stream, boxes, plugs):
    """Writes a case as one line."""
    stream.write(" ".join(str(number) for number in flat_case(boxes, plugs)) + "\n")


def read_case(line):
    """The boxes and plugs of a line of a case file."""
    numbers = [int(field) for field in line.split()]
    boxes = numbers[1 : 1 + 4 * numbers[0]]
    plugs = numbers[2 + len(boxes) :]
    if len(plugs) != 2 * numbers[1 + len(boxes)]:
        raise ValueError("a case with a wrong count")
    return boxes, plugs


def main(arguments):
    """Writes cases of a kind on standard output."""
    kind = arguments[0]
    count = int(arguments[1]) if len(arguments) > 1 else 1
    generator = Generator(int(arguments[2]) if len(arguments) > 2 else 1)
    for _ in range(count):
        boxes, plugs = KINDS[kind](generator)
        if rounds.check_boxes(boxes) is not None:
            raise ArithmeticError("a refused case")
        write_case(sys.stdout, boxes, plugs)


if __name__ == "__main__":
    main(sys.argv[1:])
