"""Boxes, plugs, polygons and verdicts of docs/SCOPE.md, by definition, in exact integers.

A box list is a flat list of whole numbers, four for each box: west, south, east, north.
A record is the tuple of those four. A plug is a pair, east then north. A point is a pair too.
Corners are numbered SW=0, SE=1, NE=2, NW=3.

A check returns None if nothing is turned back, else the pair (number, place).
An answer is ("refused", number, place), or a word for its kind followed by its values.
"""

from fractions import Fraction
from itertools import combinations
from math import gcd

SPAN = 16000
MOST_BOXES = 1024
LARGEST_64_BIT = 2**64 - 1
LARGEST_DIRECTION_PART = 32000
LARGEST_WEIGHT = 2048000000

CORNER_NAMES = ("SW", "SE", "NE", "NW")
SW, SE, NE, NW = range(4)

# Up to here the slow methods by definition are used; above it the second methods are.
SMALL_POINTS = 16
SMALL_BOXES = 8


# ---------------------------------------------------------------------------------------------------------------------------
# Boxes and plugs


def records_of(boxes):
    """The boxes of a flat list whose length is a multiple of 4, as records."""
    return [tuple(boxes[start : start + 4]) for start in range(0, len(boxes), 4)]


def corner(record, name):
    """The corner of a box with that number."""
    west, south, east, north = record
    return ((west, south), (east, south), (east, north), (west, north))[name]


def all_corners(records):
    """All four corners of all boxes, box by box, repeats kept."""
    return [corner(record, name) for record in records for name in range(4)]


def beyond(number):
    """Whether a coordinate is beyond the span."""
    return number < -SPAN or number > SPAN


def check_records(records):
    """Refusals 2 to 5 for boxes lent as records: 2, 3, then box by box, 4 before 5."""
    if len(records) == 0:
        return (2, 0)
    if len(records) > MOST_BOXES:
        return (3, len(records))
    for number, record in enumerate(records, start=1):
        if any(beyond(edge) for edge in record):
            return (4, number)
        west, south, east, north = record
        if west > east or south > north:
            return (5, number)
    return None


def check_boxes(boxes):
    """Refusals 1 to 5 for a flat list of boxes."""
    if len(boxes) % 4 != 0:
        return (1, len(boxes))
    return check_records(records_of(boxes))


def check_plug(plug):
    """Refusal 6 for a single plug; its place is 1."""
    if beyond(plug[0]) or beyond(plug[1]):
        return (6, 1)
    return None


def check_plugs(plugs):
    """Refusals 1 and 6 for a flat list of plugs."""
    if len(plugs) % 2 != 0:
        return (1, len(plugs))
    for number in range(1, len(plugs) // 2 + 1):
        if beyond(plugs[2 * number - 2]) or beyond(plugs[2 * number - 1]):
            return (6, number)
    return None


def check_length(length, needed):
    """Refusal 7 for a lent buffer."""
    if length < needed:
        return (7, min(needed, LARGEST_64_BIT))
    return None


# ---------------------------------------------------------------------------------------------------------------------------
# Vectors


def minus(point, origin):
    """The vector from the origin to the point."""
    return (point[0] - origin[0], point[1] - origin[1])


def cross(first, second):
    """Positive if the second vector is to the left of the first, negative if to the right."""
    return first[0] * second[1] - first[1] * second[0]


def dot(first, second):
    """The inner product of two vectors."""
    return first[0] * second[0] + first[1] * second[1]


def turn(origin, middle, last):
    """Positive if `last` lies strictly left of the line from `origin` to `middle`, negative if strictly right, 0 on it."""
    return cross(minus(middle, origin), minus(last, origin))


# ---------------------------------------------------------------------------------------------------------------------------
# Hulls by definition: equality, pairs, triples


def zero_weights(vectors):
    """Weights (w1, w2, w3), none negative and not all zero, of three vectors whose weighted sum is zero, for the triple as a
    whole: the cross products of the two others, all of one sign. None if they are not of one sign, or all zero."""
    first, second, third = vectors
    weights = (cross(second, third), cross(third, first), cross(first, second))
    if all(weight <= 0 for weight in weights):
        weights = tuple(-weight for weight in weights)
    if all(weight >= 0 for weight in weights) and any(weight > 0 for weight in weights):
        return weights
    return None


def pair_weights(first, second):
    """Weights of two opposite non-zero vectors whose weighted sum is zero; None if they are not opposite."""
    if cross(first, second) != 0 or dot(first, second) >= 0:
        return None
    return (max(abs(second[0]), abs(second[1])), max(abs(first[0]), abs(first[1])))


def hull_entries(point, others):
    """At most three positions of `others` with weights that show the point in their hull, or None if it is not in it.
    Tries every single point, then every pair, then every triple (Caratheodory's theorem)."""
    vectors = [minus(other, point) for other in others]
    for position, vector in enumerate(vectors):
        if vector == (0, 0):
            return [(position, 1)]
    for one, two in combinations(range(len(vectors)), 2):
        weights = pair_weights(vectors[one], vectors[two])
        if weights is not None:
            return list(zip((one, two), weights))
    for triple in combinations(range(len(vectors)), 3):
        weights = zero_weights([vectors[position] for position in triple])
        if weights is not None:
            return list(zip(triple, weights))
    return None


def in_hull(point, others):
    """Whether the point is in the hull of the others, edge included."""
    return hull_entries(point, others) is not None


def extreme_points(points):
    """The distinct points that are not in the hull of the other distinct points."""
    distinct = sorted(set(points))
    return [point for point in distinct if not in_hull(point, [other for other in distinct if other != point])]


def clockwise(extreme):
    """The extreme points in clockwise order from the westmost, then southmost one. The vertex after a vertex is the one with
    all the others strictly right of the line to it."""
    start = min(extreme)
    if len(extreme) <= 2:
        return sorted(extreme)
    listed = [start]
    while True:
        here = listed[-1]
        following = [
            there
            for there in extreme
            if there != here and all(turn(here, there, other) < 0 for other in extreme if other not in (here, there))
        ]
        if len(following) != 1:
            raise ArithmeticError("a vertex without exactly one next vertex")
        if following[0] == start:
            return listed
        listed.append(following[0])


def polygon_by_definition(points):
    """The polygon of the points, by the definition of an extreme point. For few points."""
    return clockwise(extreme_points(points))


# ---------------------------------------------------------------------------------------------------------------------------
# Hulls by gift wrapping, for many points


def polygon_by_wrapping(points):
    """The polygon of the points by gift wrapping (Jarvis): from each vertex on to the point that has none strictly left of
    the line to it, the farthest such point."""
    distinct = list(set(points))
    start = min(distinct)
    listed = [start]
    while True:
        here_east, here_north = listed[-1]
        best = None
        best_east = best_north = 0
        for point in distinct:
            east = point[0] - here_east
            north = point[1] - here_north
            if east == 0 and north == 0:
                continue
            if best is not None:
                side = best_east * north - best_north * east
                if side < 0:
                    continue
                if side == 0 and east * east + north * north <= best_east * best_east + best_north * best_north:
                    continue
            best, best_east, best_north = point, east, north
        if best is None or best == start:
            return listed
        listed.append(best)


def polygon(points):
    """The polygon of the points, clockwise, from the westmost, then southmost vertex."""
    distinct = set(points)
    if len(distinct) <= SMALL_POINTS:
        return polygon_by_definition(distinct)
    return polygon_by_wrapping(distinct)


def check_polygon(points, vertices):
    """None if the vertices are the polygon of the points from any start, else what is wrong, as a text."""
    distinct = set(points)
    if len(set(vertices)) != len(vertices):
        return "a vertex is listed twice"
    if not set(vertices) <= distinct:
        return "a vertex is not an input point"
    if len(vertices) == 0:
        return "no vertex"
    if len(vertices) == 1:
        return None if len(distinct) == 1 else "one vertex, but not all points are equal"
    if len(vertices) == 2:
        inside = all(
            turn(vertices[0], vertices[1], point) == 0 and dot(minus(vertices[0], point), minus(vertices[1], point)) <= 0
            for point in distinct
        )
        return None if inside else "two vertices, but a point is not between them"
    for position, here in enumerate(vertices):
        there = vertices[(position + 1) % len(vertices)]
        if any(turn(here, there, point) > 0 for point in distinct):
            return "a point lies left of a side"
        if any(turn(here, there, other) >= 0 for other in vertices if other not in (here, there)):
            return "a vertex does not lie strictly right of a side"
    return None


# ---------------------------------------------------------------------------------------------------------------------------
# The two polygon calls


def check_polygon_call(boxes, buffer):
    """Refusals of the two polygon calls: the boxes, then 7."""
    return check_boxes(boxes) or check_length(len(buffer), 2 * len(boxes))


def laid_down(polygons, boxes, buffer):
    """The buffer after the polygons: one behind another, zeros up to 8 for each box, the rest unchanged."""
    numbers = [number for vertices in polygons for vertex in vertices for number in vertex]
    needed = 2 * len(boxes)
    return numbers + [0] * (needed - len(numbers)) + list(buffer[needed:])


def outer_polygon(boxes, buffer):
    """The answer ("count", vertices) or a refusal, and the buffer afterwards."""
    refusal = check_polygon_call(boxes, buffer)
    if refusal is not None:
        return ("refused",) + refusal, list(buffer)
    vertices = polygon(all_corners(records_of(boxes)))
    return ("count", len(vertices)), laid_down([vertices], boxes, buffer)


def corner_polygons(boxes, buffer):
    """The answer ("counts", SW, SE, NE, NW) or a refusal, and the buffer afterwards."""
    refusal = check_polygon_call(boxes, buffer)
    if refusal is not None:
        return ("refused",) + refusal, list(buffer)
    polygons = [polygon([corner(record, name) for record in records_of(boxes)]) for name in range(4)]
    return ("counts",) + tuple(len(vertices) for vertices in polygons), laid_down(polygons, boxes, buffer)


# ---------------------------------------------------------------------------------------------------------------------------
# The first driver: a direction and a pick


def candidate_directions(records, plug, with_pairs=True):
    """Whole directions enough to decide for the first driver, and many more: along and across every vector from the plug to a
    corner and, with pairs, from a corner to a corner, with both signs, and the axes. Those without pairs are enough: within a
    closed quadrant the directions that work are a closed cone, and a side of it is an axis or across a vector to a corner."""
    corners = sorted(set(all_corners(records)))
    vectors = [minus(point, plug) for point in corners]
    if with_pairs:
        vectors += [minus(two, one) for one, two in combinations(corners, 2)]
    vectors.append((1, 0))
    directions = set()
    for east, north in vectors:
        divisor = gcd(east, north)
        if divisor > 0:
            east, north = east // divisor, north // divisor
            directions.update([(east, north), (-east, -north), (-north, east), (north, -east)])
    return sorted(directions)


def least(record, direction, plug):
    """The least value of direction . (point - plug) over the box: one of the corners has it."""
    return min(dot(direction, minus(corner(record, name), plug)) for name in range(4))


def first_driver_by_directions(records, plug, with_pairs=True):
    """A direction that has a point of every box on its side of at most 0, or None: every candidate direction is tried."""
    for direction in candidate_directions(records, plug, with_pairs):
        if all(least(record, direction, plug) <= 0 for record in records):
            return direction
    return None


# The corner with the least value for every direction of a closed quadrant, and the two axes that bound the quadrant, the second
# to the left of the first.
QUADRANTS = (
    (SW, (1, 0), (0, 1)),
    (SE, (0, 1), (-1, 0)),
    (NE, (-1, 0), (0, -1)),
    (NW, (0, -1), (1, 0)),
)


def clipped(right, left, vector):
    """The part of the cone of directions from `right` to `left` whose product with the vector is at most 0, or None if that is
    empty. The cone is at most a quarter turn wide."""
    right_value, left_value = dot(right, vector), dot(left, vector)
    if right_value <= 0 and left_value <= 0:
        return (right, left)
    if right_value > 0 and left_value > 0:
        return None
    for across in ((-vector[1], vector[0]), (vector[1], -vector[0])):
        if cross(right, across) >= 0 and cross(across, left) >= 0:
            return (across, left) if right_value > 0 else (right, across)
    raise ArithmeticError("no boundary of the half-plane within the cone")


def first_driver_by_clipping(records, plug):
    """A corner number and a direction for the first driver, or None: in each quadrant, the cone of directions is clipped by one
    half-plane for each box. For many boxes."""
    for name, right, left in QUADRANTS:
        cone = (right, left)
        for record in records:
            cone = clipped(cone[0], cone[1], minus(corner(record, name), plug))
            if cone is None:
                break
        if cone is not None:
            return (name, cone[0])
    return None


# ---------------------------------------------------------------------------------------------------------------------------
# The second driver: three weighted corners


def second_driver_by_triples(records, plug):
    """Positions in `all_corners` with weights that show the plug in their hull, or None: all singles, pairs and triples."""
    return hull_entries(plug, all_corners(records))


def second_driver_by_widening(records, plug):
    """The same by widening, corner by corner, the cone in which the corners are seen from the plug, until one of them lies
    opposite it. For many boxes."""
    vectors = [minus(point, plug) for point in all_corners(records)]
    right = left = None
    for position, vector in enumerate(vectors):
        if vector == (0, 0):
            return [(position, 1)]
        if right is None:
            right = left = position
            continue
        to_right, to_left = cross(vectors[right], vector), cross(vector, vectors[left])
        if to_right == 0 and dot(vectors[right], vector) < 0:
            return list(zip((right, position), pair_weights(vectors[right], vector)))
        if to_left == 0 and dot(vectors[left], vector) < 0:
            return list(zip((left, position), pair_weights(vectors[left], vector)))
        if to_right >= 0 and to_left >= 0:
            continue
        if to_right < 0 and to_left < 0:
            return list(zip((right, left, position), zero_weights([vectors[right], vectors[left], vector])))
        if to_right < 0:
            right = position
        else:
            left = position
    return None


# ---------------------------------------------------------------------------------------------------------------------------
# Verdicts


def word(records, plug):
    """The verdict on accepted boxes and an accepted plug: inside if no pick succeeds for the first driver, outside if none
    succeeds for the second, undecided if both have one."""
    if len(records) <= SMALL_BOXES:
        first = first_driver_by_directions(records, plug)
        second = second_driver_by_triples(records, plug)
    else:
        first = first_driver_by_clipping(records, plug)
        second = second_driver_by_widening(records, plug)
    if first is None and second is None:
        raise ArithmeticError("neither driver succeeds")
    if first is None:
        return "inside"
    if second is None:
        return "outside"
    return "undecided"


def verdict(boxes, plug):
    """The answer ("verdict", word) or a refusal, for a flat list of boxes."""
    refusal = check_boxes(boxes) or check_plug(plug)
    if refusal is not None:
        return ("refused",) + refusal
    return ("verdict", word(records_of(boxes), plug))


def verdict_records(records, plug):
    """The same for boxes lent as records."""
    refusal = check_records(records) or check_plug(plug)
    if refusal is not None:
        return ("refused",) + refusal
    return ("verdict", word(records, plug))


# ---------------------------------------------------------------------------------------------------------------------------
# Reasons
#
# Reasons are a tuple (corner, direction, entries): a corner number, a pair, and three triples (box number, corner, weight).


def find_reasons(boxes, plug):
    """Reasons for an undecided round, or None if the round is refused or decided."""
    if verdict(boxes, plug) != ("verdict", "undecided"):
        return None
    records = records_of(boxes)
    name, direction = first_driver_by_clipping(records, plug)
    entries = [(position // 4 + 1, position % 4, weight) for position, weight in second_driver_by_widening(records, plug)]
    while len(entries) < 3:
        entries.append((1, SW, 0))
    return (name, direction, tuple(entries))


def check_reasons(boxes, plug, reasons):
    """None if the reasons show both successful picks, else what is wrong, as a text."""
    if check_boxes(boxes) is not None or check_plug(plug) is not None:
        return "the round is refused"
    records = records_of(boxes)
    name, direction, entries = reasons
    if name not in range(4):
        return "unknown corner for the first driver"
    if any(abs(part) > LARGEST_DIRECTION_PART for part in direction):
        return "a part of the direction is beyond its bounds"
    if tuple(direction) == (0, 0):
        return "the direction is zero"
    for number, record in enumerate(records, start=1):
        if dot(direction, minus(corner(record, name), plug)) > 0:
            return "the first driver's corner of box %d is on the wrong side" % number
    if len(entries) != 3:
        return "not three entries"
    east = north = 0
    for number, entry_corner, weight in entries:
        if not 1 <= number <= len(records):
            return "an entry names no box of the list"
        if entry_corner not in range(4):
            return "unknown corner in an entry"
        if not 0 <= weight <= LARGEST_WEIGHT:
            return "a weight is beyond its bounds"
        vector = minus(corner(records[number - 1], entry_corner), plug)
        east += weight * vector[0]
        north += weight * vector[1]
    if all(weight == 0 for _, _, weight in entries):
        return "all weights are zero"
    if (east, north) != (0, 0):
        return "the weighted sum is not zero"
    return None


def first_pick(boxes, reasons):
    """The first driver's pick: the named corner of every box."""
    return [corner(record, reasons[0]) for record in records_of(boxes)]


def second_pick(boxes, reasons):
    """The second driver's pick: a box with positive weight picks the weighted mean of its entries, every other box SW."""
    picked = []
    for number, record in enumerate(records_of(boxes), start=1):
        named = [(corner(record, name), weight) for entry, name, weight in reasons[2] if entry == number and weight > 0]
        total = sum(weight for _, weight in named)
        if total == 0:
            picked.append(corner(record, SW))
        else:
            east = Fraction(sum(point[0] * weight for point, weight in named), total)
            north = Fraction(sum(point[1] * weight for point, weight in named), total)
            picked.append((east, north))
    return picked
