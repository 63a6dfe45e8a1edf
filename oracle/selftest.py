"""Runs the measured rounds of docs/SCOPE.md, its known wrong turnings and cross-checks between different methods.

Run as a program: python3 -m oracle.selftest. Prints the count of each part and exits with 1 if anything failed. The seed is fixed.
"""

import re
import sys
import time
from itertools import product
from math import cos, pi, sin
from pathlib import Path

from . import cases, files, printing, rounds, write_cases

SEED = 20011
MOST_FAILURES_SHOWN = 20

ROUND_B = [0, 0, 2, 2, 8, 0, 10, 2, 8, 8, 10, 10, 0, 8, 2, 10]
TWO_STOPS = [0, 0, 1, 0, 2, 3, 2, 3]
ONE_BOX = [0, 0, 4, 4]


class Report:
    """Counts checks for each part and keeps what failed."""

    def __init__(self):
        self.counts = {}
        self.failures = []

    def same(self, part, found, wanted, what=""):
        """Counts one check of equality."""
        self.counts[part] = self.counts.get(part, 0) + 1
        if found != wanted:
            self.failures.append("%s: found %r, wanted %r %s" % (part, found, wanted, what))

    def true(self, part, held, what=""):
        """Counts one check of a fact."""
        self.same(part, bool(held), True, what)


# ---------------------------------------------------------------------------------------------------------------------------
# The measured rounds


def measured_rounds(report):
    """Every measured round of docs/SCOPE.md, the limits and the printed example."""
    part = "measured rounds"
    stated = [
        (ROUND_B, (5, 5), "inside"),
        (ROUND_B, (3, 3), "inside"),
        (ROUND_B, (2, 5), "undecided"),
        (ROUND_B, (0, 0), "undecided"),
        (ROUND_B, (10, 5), "undecided"),
        (ROUND_B, (11, 5), "outside"),
        (TWO_STOPS, (1, 1), "undecided"),
        (TWO_STOPS, (1, 2), "outside"),
        (ONE_BOX, (2, 2), "undecided"),
    ]
    for boxes, plug, wanted in stated:
        report.same(part, rounds.verdict(boxes, plug), ("verdict", wanted), (boxes, plug))
        report.same(part, rounds.verdict_records(rounds.records_of(boxes), plug), ("verdict", wanted), (boxes, plug))
        reasons = rounds.find_reasons(boxes, plug)
        report.same(part, reasons is not None, wanted == "undecided")
        if reasons is not None:
            report.same(part, rounds.check_reasons(boxes, plug, reasons), None, (boxes, plug, reasons))
    answer, buffer = rounds.outer_polygon(ROUND_B, [7] * 33)
    report.same(part, answer, ("count", 4))
    report.same(part, buffer, [0, 0, 0, 10, 10, 10, 10, 0] + [0] * 24 + [7])
    weights = ((1, rounds.SW, 1), (1, rounds.SE, 1), (2, rounds.SW, 1))
    report.same(part, rounds.check_reasons(TWO_STOPS, (1, 1), (rounds.SW, (0, 1), weights)), "the first driver's corner of box 2 is on the wrong side")
    report.same(part, rounds.check_reasons(TWO_STOPS, (1, 1), (rounds.SE, (2, -1), weights)), "the first driver's corner of box 1 is on the wrong side")
    report.same(part, rounds.check_reasons(TWO_STOPS, (1, 1), (rounds.SW, (2, -1), weights)), None)
    example = bytes.fromhex(
        "5B01 00000000 00000000 00000004 00000004 5B02 00000002 00000002 5B02 00000005 00000002 5B00".replace(" ", "")
    )
    report.same(part, printing.print_text(example), b"boxes 1 plugs 2\n1 undecided\n2 outside\n")


def limits(report):
    """The edges of the span, the list and the buffers, and the order of the refusals."""
    part = "limits and refusals"
    for edge in range(4):
        for sign in (1, -1):
            boxes = [0, 0, 0, 0]
            boxes[edge] = 16001 * sign
            report.same(part, rounds.check_boxes([1, 1, 2, 2] + boxes), (4, 2))
    report.same(part, rounds.check_boxes([-16000, -16000, 16000, 16000]), None)
    report.same(part, rounds.check_boxes([0, 0, 0, 0] * 1024), None)
    report.same(part, rounds.check_boxes([0, 0, 0, 0] * 1025), (3, 1025))
    report.same(part, rounds.check_boxes([0, 0, 0, 0] * 1025 + [1]), (1, 4101))
    report.same(part, rounds.check_boxes([]), (2, 0))
    report.same(part, rounds.check_boxes([1, 1, 0]), (1, 3))
    report.same(part, rounds.check_boxes([1, 0, 0, 0]), (5, 1))
    report.same(part, rounds.check_boxes([0, 1, 0, 0]), (5, 1))
    report.same(part, rounds.check_boxes([0, 0, 0, 0, 1, 0, 0, 16001]), (4, 2))
    report.same(part, rounds.check_boxes([1, 0, 0, 0, 16001, 0, 0, 0]), (5, 1))
    report.same(part, rounds.check_boxes([16001, 0, 0, 0, 1, 0, 0, 0]), (4, 1))
    for plug, wanted in [((16000, -16000), None), ((16001, 0), (6, 1)), ((0, -16001), (6, 1)), ((0, 2**31 - 1), (6, 1))]:
        report.same(part, rounds.check_plug(plug), wanted)
        report.same(part, rounds.check_plugs([0, 0] + list(plug)), wanted and (6, 2))
    report.same(part, rounds.check_plugs([]), None)
    report.same(part, rounds.check_plugs([16001, 0, 0]), (1, 3))
    report.same(part, rounds.verdict([1, 0, 0, 0], (16001, 0)), ("refused", 5, 1))
    report.same(part, rounds.verdict([0, 0, 0, 0], (16001, 0)), ("refused", 6, 1))
    report.same(part, rounds.verdict_records([], (16001, 0)), ("refused", 2, 0))
    for call in (rounds.outer_polygon, rounds.corner_polygons):
        report.same(part, call(ROUND_B, [7] * 31), (("refused", 7, 32), [7] * 31))
        report.true(part, call(ROUND_B, [7] * 32)[0][0] != "refused")
        report.same(part, call([0] * 5, [7]), (("refused", 1, 5), [7]))
        report.same(part, call([], []), (("refused", 2, 0), []))
        report.same(part, call([0, 0, 0, 0] * 1025, []), (("refused", 3, 1025), []))
        report.same(part, call([0, 0, 0, 20000], []), (("refused", 4, 1), []))
        report.same(part, call([1, 0, 0, 0], [9]), (("refused", 5, 1), [9]))
    report.same(part, rounds.check_length(5, 2**70), (7, 2**64 - 1))
    answer, buffer = rounds.corner_polygons([0, 0, 1, 2] * 2, [7] * 18)
    report.same(part, answer, ("counts", 1, 1, 1, 1))
    report.same(part, buffer, [0, 0, 1, 0, 1, 2, 0, 2] + [0] * 8 + [7, 7])


# ---------------------------------------------------------------------------------------------------------------------------
# The known wrong turnings: each is written out, and a round shows that it differs from the verdict


def word_from_picks(picks, plug):
    """The verdict if the drivers had these picks only. The picks and the plug are whole points, scaled alike."""
    first = any(not strictly_inside(pick, plug) for pick in picks)
    second = any(rounds.in_hull(plug, pick) for pick in picks)
    return "undecided" if first and second else "outside" if first else "inside"


def strictly_inside(points, plug):
    """Whether no whole direction has every point on its side of at most 0. If one has, so has one across some vector from the
    plug to a point; if all the points are the plug, every direction has."""
    vectors = [rounds.minus(point, plug) for point in set(points)]
    if all(vector == (0, 0) for vector in vectors):
        return False
    across = [(-north * sign, east * sign) for east, north in vectors for sign in (1, -1) if (east, north) != (0, 0)]
    return not any(all(rounds.dot(direction, vector) <= 0 for vector in vectors) for direction in across)


def doors(record, denominator):
    """All points of a box whose coordinates are fractions over the denominator, scaled by it."""
    west, south, east, north = [edge * denominator for edge in record]
    return list(product(range(west, east + 1), range(south, north + 1)))


def word_by_middles(boxes, plug):
    """Wrong: the middle of every box is the only pick."""
    middles = [(west + east, south + north) for west, south, east, north in rounds.records_of(boxes)]
    return word_from_picks([middles], (2 * plug[0], 2 * plug[1]))


def word_by_whole_metres(boxes, plug):
    """Wrong: whole-metre doors only."""
    return word_from_picks(list(product(*[doors(record, 1) for record in rounds.records_of(boxes)])), plug)


def word_by_corner_doors(boxes, plug):
    """Wrong: corners only as doors."""
    choices = [[rounds.corner(record, name) for name in range(4)] for record in rounds.records_of(boxes)]
    return word_from_picks(list(product(*choices)), plug)


def word_by_closed_corner_polygons(boxes, plug):
    """Wrong: a plug in all four corner polygons, edge included, is inside. It gives one or two stops an inside, too."""
    records = rounds.records_of(boxes)
    if all(rounds.in_hull(plug, [rounds.corner(record, name) for record in records]) for name in range(4)):
        return "inside"
    return rounds.word(records, plug)


def word_by_outer_polygon(boxes, plug):
    """Wrong: a plug strictly inside the outer polygon is inside. It gives one or two stops an inside."""
    records = rounds.records_of(boxes)
    return "inside" if strictly_inside(rounds.all_corners(records), plug) else rounds.word(records, plug)


def wrong_turnings(report):
    """Each known wrong turning gives another word than the verdict for a round that shows it."""
    part = "wrong turnings caught"
    shown = [
        (word_by_middles, ROUND_B, (2, 5), "inside", "undecided"),
        (word_by_middles, ONE_BOX, (3, 2), "outside", "undecided"),
        (word_by_whole_metres, TWO_STOPS, (1, 1), "outside", "undecided"),
        (word_by_corner_doors, TWO_STOPS, (1, 1), "outside", "undecided"),
        (word_by_corner_doors, ONE_BOX, (2, 2), "outside", "undecided"),
        (word_by_closed_corner_polygons, ROUND_B, (2, 5), "inside", "undecided"),
        (word_by_closed_corner_polygons, [2, 2, 2, 2], (2, 2), "inside", "undecided"),
        (word_by_closed_corner_polygons, [0, 0, 0, 0, 4, 4, 4, 4], (2, 2), "inside", "undecided"),
        (word_by_outer_polygon, ONE_BOX, (2, 2), "inside", "undecided"),
        (word_by_outer_polygon, [0, 0, 2, 2, 2, 0, 4, 2], (2, 1), "inside", "undecided"),
    ]
    for wrong, boxes, plug, wrong_word, right_word in shown:
        report.same(part, wrong(boxes, plug), wrong_word, (wrong.__name__, boxes, plug))
        report.same(part, rounds.verdict(boxes, plug), ("verdict", right_word), (boxes, plug))


# ---------------------------------------------------------------------------------------------------------------------------
# Random rounds


def polygon_checks(report, points):
    """The polygon by definition, by wrapping and by its stated properties."""
    vertices = rounds.polygon_by_definition(points)
    report.same("polygons: definition = wrapping", rounds.polygon_by_wrapping(points), vertices, points)
    report.same("polygons: stated properties", rounds.check_polygon(points, vertices), None, points)
    report.same("polygons: extreme points alone span all", all(rounds.in_hull(point, vertices) for point in points), True, points)


def spoiled_polygon_checks(report, points, vertices):
    """The check of the stated properties refuses spoiled polygons."""
    part = "polygons: spoiled ones refused"
    if len(vertices) >= 3:
        report.true(part, rounds.check_polygon(points, vertices[::-1]) is not None, points)
        report.true(part, rounds.check_polygon(points, vertices[1:]) is not None, points)
        report.same(part, rounds.check_polygon(points, vertices[1:] + vertices[:1]), None, points)
    for point in set(points) - set(vertices):
        for position in range(len(vertices)):
            spoiled = vertices[: position + 1] + [point] + vertices[position + 1 :]
            report.true(part, rounds.check_polygon(points, spoiled) is not None, (points, spoiled))


def verdict_checks(report, boxes, plug):
    """The verdict by definition against the second methods, the corner formulas of docs/SCOPE.md 2.3 and the reasons."""
    records = rounds.records_of(boxes)
    first = rounds.first_driver_by_directions(records, plug)
    second = rounds.second_driver_by_triples(records, plug)
    report.same("verdicts: directions = clipping", rounds.first_driver_by_clipping(records, plug) is None, first is None, (boxes, plug))
    report.same("verdicts: triples = widening", rounds.second_driver_by_widening(records, plug) is None, second is None, (boxes, plug))
    strictly_in_four = all(strictly_inside([rounds.corner(record, name) for record in records], plug) for name in range(4))
    report.same("verdicts: inside = docs/SCOPE.md 2.3 formula", first is None, strictly_in_four, (boxes, plug))
    corner_sets = [[rounds.corner(record, name) for record in records] for name in range(4)]
    polygons = [rounds.polygon(points) for points in corner_sets]
    strictly_right = all(
        len(vertices) >= 3 and all(rounds.turn(vertices[at - 1], vertices[at], plug) < 0 for at in range(len(vertices)))
        for vertices in polygons
    )
    report.same("verdicts: inside = strictly right of all sides", first is None, strictly_right, (boxes, plug))
    if len(records) <= 2:
        report.true("verdicts: one or two stops never inside", first is not None, (boxes, plug))
    answer = rounds.verdict(boxes, plug)
    reasons = rounds.find_reasons(boxes, plug)
    report.same("verdicts: reasons iff undecided", reasons is not None, answer == ("verdict", "undecided"), (boxes, plug))
    if reasons is not None:
        report.same("reasons: accepted", rounds.check_reasons(boxes, plug, reasons), None, (boxes, plug, reasons))
        reasons_as_picks(report, boxes, plug, reasons)
        spoiled_reasons(report, boxes, plug, reasons)
    return answer[1]


def reasons_as_picks(report, boxes, plug, reasons):
    """Both picks of the reasons are points of their boxes and succeed."""
    first, second = rounds.first_pick(boxes, reasons), rounds.second_pick(boxes, reasons)
    for record, one, two in zip(rounds.records_of(boxes), first, second):
        for east, north in (one, two):
            report.true("reasons: pick within boxes", record[0] <= east <= record[2] and record[1] <= north <= record[3])
    scale = 1
    for east, north in second:
        for part in (east, north):
            denominator = getattr(part, "denominator", 1)
            scale = scale * denominator // rounds.gcd(scale, denominator)
    whole = [(int(east * scale), int(north * scale)) for east, north in second]
    report.true("reasons: first pick succeeds", not strictly_inside(first, plug), (boxes, plug, reasons))
    report.true("reasons: second pick succeeds", rounds.in_hull((plug[0] * scale, plug[1] * scale), whole), (boxes, plug, reasons))


def spoiled_reasons(report, boxes, plug, reasons):
    """The check of reasons refuses spoiled ones."""
    part = "reasons: spoiled ones refused"
    name, direction, entries = reasons
    count = len(boxes) // 4
    spoiled = [
        (4, direction, entries),
        (-1, direction, entries),
        (name, (0, 0), entries),
        (name, (32001, 0), entries),
        (name, (0, -32001), entries),
        (name, direction, entries[:2]),
        (name, direction, tuple((number, at, 0) for number, at, _ in entries)),
        (name, direction, tuple((number, at, -weight) for number, at, weight in entries)),
        (name, direction, ((0,) + entries[0][1:],) + entries[1:]),
        (name, direction, entries[:2] + ((count + 1,) + entries[2][1:],)),
        (name, direction, entries[:2] + ((entries[2][0], 4, entries[2][2]),)),
        (name, direction, entries[:2] + (entries[2][:2] + (2048000001,),)),
    ]
    for entry in range(3):
        number, at, weight = entries[entry]
        if rounds.corner(rounds.records_of(boxes)[number - 1], at) != plug:
            spoiled.append((name, direction, entries[:entry] + ((number, at, weight + 1),) + entries[entry + 1 :]))
    if all(rounds.dot(direction, rounds.minus(point, plug)) < 0 for point in rounds.first_pick(boxes, reasons)):
        spoiled.append((name, (-direction[0], -direction[1]), entries))
    for wrong in spoiled:
        report.true(part, rounds.check_reasons(boxes, plug, wrong) is not None, (boxes, plug, wrong))


def random_rounds(report, generator, count, words):
    """Small, degenerate, ring and edge rounds in turn, over several spans, with one plug drawn and one halfway between corners."""
    for number in range(count):
        make = (cases.small_round, cases.degenerate_round, cases.ring_round, cases.edge_round)[number % 4]
        spans = {} if make is cases.edge_round else {"span": (8, 8, 4, 2)[number // 4 % 4]}
        boxes, plug = make(generator, most=(6, 3)[number // 16 % 2], **spans)
        records = rounds.records_of(boxes)
        corners = rounds.all_corners(records)
        for place in (tuple(plug), halfway(generator, corners)):
            drawn_word = verdict_checks(report, boxes, place)
            words[drawn_word] = words.get(drawn_word, 0) + 1
        if number % 3 == 0:
            polygon_checks(report, corners)
        for name in range(4):
            points = [rounds.corner(record, name) for record in records]
            polygon_checks(report, points)
            spoiled_polygon_checks(report, points, rounds.polygon(points))
        calls_checks(report, boxes, generator)


def halfway(generator, corners):
    """The whole point about halfway between two drawn corners."""
    one, two = corners[generator.below(len(corners))], corners[generator.below(len(corners))]
    return ((one[0] + two[0]) // 2, (one[1] + two[1]) // 2)


def calls_checks(report, boxes, generator):
    """What the polygon calls leave in the buffer."""
    part = "polygons: counts and buffers"
    records = rounds.records_of(boxes)
    extra = generator.below(4)
    before = [generator.between(-9, -1) for _ in range(2 * len(boxes) + extra)]
    sets = [[rounds.corner(record, name) for record in records] for name in range(4)]
    for call, groups in ((rounds.outer_polygon, [rounds.all_corners(records)]), (rounds.corner_polygons, sets)):
        answer, after = call(boxes, before)
        report.same(part, len(after), len(before))
        start = 0
        for points, vertex_count in zip(groups, answer[1:]):
            numbers = after[start : start + 2 * vertex_count]
            report.same(part, rounds.check_polygon(points, list(zip(numbers[::2], numbers[1::2]))), None, boxes)
            start += 2 * vertex_count
        report.same(part, after[start:], [0] * (2 * len(boxes) - start) + before[2 * len(boxes) :], boxes)
        report.same(part, call(boxes, before[: 2 * len(boxes) - 1]), (("refused", 7, 2 * len(boxes)), before[: 2 * len(boxes) - 1]))


def larger_random_points(report, generator, count):
    """The two polygon methods on more points, where many are inside or on sides."""
    for _ in range(count):
        span = generator.between(1, 12)
        points = [(generator.below(span + 1), generator.below(span + 1)) for _ in range(generator.between(10, 24))]
        polygon_checks(report, points)


def medium_rounds(report, generator, count):
    """Rounds of 9 to 14 boxes, on the other side of the bound between the methods, with plugs all over."""
    for _ in range(count):
        boxes = []
        for _ in range(generator.between(9, 14)):
            boxes += cases.small_box(generator, 5 + generator.below(4))
        plug = (generator.between(-1, 9), generator.between(-1, 9))
        records = rounds.records_of(boxes)
        first = rounds.first_driver_by_directions(records, plug) is not None
        second = rounds.second_driver_by_triples(records, plug) is not None
        wanted = "undecided" if first and second else "outside" if first else "inside"
        report.same("verdicts: medium rounds, both methods", rounds.word(records, plug), wanted, (boxes, plug))


# ---------------------------------------------------------------------------------------------------------------------------
# Brute force over picks


def brute_force(report, generator, count, most_picks, words):
    """Tiny rounds with every pick over the denominators 1 to 4, as long as the picks are not too many, and every direction with
    small parts. No pick succeeds where the oracle says none does. Where it says one does, the first driver's is found among whole
    metres, and the reasons are checked as picks. Returns how many second drivers' picks were found, and out of how many."""
    found = wanted_count = 0
    for number in range(count):
        make = (cases.small_round, cases.ring_round)[number % 2]
        boxes, plug = make(generator, span=1 + number // 2 % 4, most=3)
        records = rounds.records_of(boxes)
        plug = tuple(plug) if number % 4 < 2 else halfway(generator, rounds.all_corners(records))
        drawn_word = verdict_checks(report, boxes, plug)
        words[drawn_word] = words.get(drawn_word, 0) + 1
        first, second = drawn_word != "inside", drawn_word != "outside"
        any_direction = any(
            all(rounds.least(record, direction, plug) <= 0 for record in records)
            for direction in product(range(-6, 7), repeat=2)
            if direction != (0, 0)
        )
        report.same("brute force: all small directions", any_direction, first, (boxes, plug))
        first_found = second_found = False
        for denominator in (1, 2, 3, 4):
            choices = [doors(record, denominator) for record in records]
            total = 1
            for choice in choices:
                total *= len(choice)
            if total > most_picks:
                break
            scaled = (plug[0] * denominator, plug[1] * denominator)
            for pick in product(*choices):
                succeeds_first, succeeds_second = not strictly_inside(pick, scaled), rounds.in_hull(scaled, pick)
                report.true("brute force: picks", (first or not succeeds_first) and (second or not succeeds_second), (boxes, plug, pick))
                first_found, second_found = first_found or succeeds_first, second_found or succeeds_second
            if denominator == 1:
                report.same("brute force: first driver at whole metres", first_found, first, (boxes, plug))
        if second:
            wanted_count += 1
            found += second_found
    return found, wanted_count


# ---------------------------------------------------------------------------------------------------------------------------
# Files

BOX = rb"\x5b\x01.{16}"
PLUG = rb"\x5b\x02.{8}"
NOTE = rb"\x5c.(?:" + b"|".join(b"\\x%02x.{%d}" % (length, length) for length in range(256)) + rb")"
RECORDS = b"(?:%s|%s)*(?:%s|%s)*" % (BOX, NOTE, PLUG, NOTE)
RECORDS_PATTERN = re.compile(RECORDS, re.DOTALL)
FILE_PATTERN = re.compile(RECORDS + rb"\x5b\x00", re.DOTALL)
ONE_RECORD_PATTERN = re.compile(b"%s|%s|%s" % (BOX, PLUG, NOTE), re.DOTALL)


def refusal_holds(data, number, place):
    """Whether a refusal of the reader's form is what the grammar says, as regular expressions."""
    before, rest = data[:place], data[place:]
    if number == 11:
        return len(rest) > 0 and FILE_PATTERN.fullmatch(before) is not None
    if RECORDS_PATTERN.fullmatch(before) is None:
        return False
    mark = rest[:2]
    known = mark in (b"\x5b\x00", b"\x5b\x01", b"\x5b\x02") or mark[:1] == b"\x5c"
    if number == 8:
        return len(mark) == 2 and not known
    box_after_plug = mark == b"\x5b\x01" and has_plug(before)
    if number == 10:
        return box_after_plug
    cut = len(mark) < 2 or (known and mark != b"\x5b\x00" and ONE_RECORD_PATTERN.match(rest) is None)
    return number == 9 and cut and not box_after_plug


def has_plug(records):
    """Whether well-formed records hold a plug."""
    return any(match.group()[:2] == b"\x5b\x02" for match in ONE_RECORD_PATTERN.finditer(records))


def file_examples(report):
    """The reader, the writer and the printing program on files made by hand."""
    part = "files: by hand"
    box, plug, end, note = b"\x5b\x01" + bytes(16), b"\x5b\x02" + bytes(8), b"\x5b\x00", b"\x5c\x07\x02ab"
    form = [
        (b"", (9, 0)),
        (b"\x5b", (9, 0)),
        (b"\xff", (9, 0)),
        (b"\xff\xff", (8, 0)),
        (b"\x5b\x03", (8, 0)),
        (b"\x5d\x00", (8, 0)),
        (b"\x5a\x01" + bytes(16), (8, 0)),
        (end, None),
        (end + b"\x00", (11, 2)),
        (end + end, (11, 2)),
        (box, (9, 18)),
        (box[:-1], (9, 0)),
        (box + plug + b"\x5b", (9, 28)),
        (box + plug[:-1], (9, 18)),
        (box + plug + box + end, (10, 28)),
        (box + plug + box[:5], (10, 28)),
        (box + plug + box[:2], (10, 28)),
        (plug + note + box, (10, 15)),
        (box + note + plug + note + end, None),
        (b"\x5c\x00", (9, 0)),
        (b"\x5c\x00\x00" + end, None),
        (b"\x5c\xff\xff" + bytes(255) + end, None),
        (b"\x5c\xff\xff" + bytes(254), (9, 0)),
        (box + b"\x5c\x00\x03\x5b\x00", (9, 18)),
        (note, (9, 5)),
    ]
    for data, wanted in form:
        report.same(part, files.parsed(data)[0], wanted, data)
    report.same(part, files.read(box * 2 + plug + end, 7, 1), (("refused", 7, 8), [files.UNTOUCHED_NUMBER] * 7, [files.UNTOUCHED_NUMBER]))
    report.same(part, files.read(box + plug + end, 4, 1, 5), (("refused", 7, 2), [5] * 4, [5]))
    report.same(part, files.read(box + plug + end, 5, 3, 5), (("counts", 1, 1), [0] * 4 + [5], [0, 0, 5]))
    report.same(part, files.read(box + box + plug + b"\x00\x00", 0, 0, 5), (("refused", 8, 46), [], []))
    report.same(part, files.read(b"\x5b\x01\x80\x00\x00\x00\x7f\xff\xff\xff\xff\xff\xff\xff\x00\x00\x00\x01" + end, 4, 0)[1], [-(2**31), 2**31 - 1, -1, 1])
    report.same(part, files.write([0, 0, 0, 0], [], 20), (("count", 20), box + end))
    report.same(part, files.write([0, 0, 0, 0], [0, 0], 32, 9), (("count", 30), box + plug + end + b"\x09\x09"))
    report.same(part, files.write([0, 0, 0, 0], [0, 0], 29, 9), (("refused", 7, 30), b"\x09" * 29))
    report.same(part, files.write([], [0], 29, 9)[0], ("refused", 2, 0))
    report.same(part, files.write([0] * 4, [0], 0)[0], ("refused", 1, 1))
    report.same(part, files.write([0] * 3, [0], 0)[0], ("refused", 1, 3))
    report.same(part, files.write([0] * 4, [0, 0, 0, 16001], 0)[0], ("refused", 6, 2))
    report.same(part, files.write([1, 0, 0, 0], [0, 16001], 0)[0], ("refused", 5, 1))
    report.same(part, files.write([0] * 4 * 1025, [], 0)[0], ("refused", 3, 1025))
    report.same(part, files.write([-1, -16000, 0, 16000], [-1, 1], 30)[1], bytes.fromhex("5b01ffffffffffffc1800000000000003e805b02ffffffff000000015b00"))
    printed = [
        (b"", b"refused 9 0\n"),
        (end, b"refused 2 0\n"),
        (plug + end, b"refused 2 0\n"),
        (box + end, b"boxes 1 plugs 0\n"),
        (box * 1025 + end, b"refused 3 1025\n"),
        (box * 1024 + end, b"boxes 1024 plugs 0\n"),
        (box + b"\x5b\x01" + (16001).to_bytes(4, "big") * 4 + end, b"refused 4 2\n"),
        (b"\x5b\x01" + (1).to_bytes(4, "big") + bytes(12) + plug + end, b"refused 5 1\n"),
        (box + plug + b"\x5b\x02" + (16001).to_bytes(4, "big") * 2 + plug + end, b"boxes 1 plugs 3\n1 undecided\n2 refused 6\n3 undecided\n"),
        (box + plug + box, b"refused 10 28\n"),
        (box + end + bytes(65536 - 20), b"refused 11 20\n"),
        (box + end + bytes(65537 - 20), b"refused 12 65536\n"),
        (bytes(65537), b"refused 12 65536\n"),
        (bytes(65536), b"refused 8 0\n"),
    ]
    for data, wanted in printed:
        report.same(part, printing.print_text(data), wanted, data[:40])
    full = file_of_length(65536, box)
    report.same(part, (len(full), printing.print_text(full)), (65536, b"boxes 1 plugs 0\n"))
    report.same(part, printing.print_text(full[:-2] + b"\x5c"), b"refused 9 65534\n")


def file_of_length(length, box):
    """A well-formed file of one box and notes with that many bytes."""
    data = box
    while length - len(data) - 2 > 258 + 3:
        data += b"\x5c\x00\xff" + bytes(255)
    rest = length - len(data) - 2
    first = rest // 2
    return data + b"".join(b"\x5c\x01" + bytes([size - 3]) + bytes(size - 3) for size in (first, rest - first)) + b"\x5b\x00"


def written_files(report):
    """What the programs are run on and must write, and the samples, are what write_cases writes; and the drivers meet every word and refusal."""
    for path, data in write_cases.written().items():
        found = Path(path).read_bytes() if Path(path).is_file() else None
        report.true("files: as write_cases writes them", found == data, path)
    met = {
        "areas_main": set(re.findall("refused [0-9]+", write_cases.areas()[1].decode())),
        "verdicts_main": set(re.findall("refused [0-9]+|[a-z]+side|undecided", write_cases.verdicts()[1].decode())),
        "files_main": set(re.findall("refused [0-9]+", write_cases.read_and_written()[1].decode())),
    }
    refusals = {"areas_main": (1, 2, 3, 4, 5, 7), "verdicts_main": range(1, 7), "files_main": range(1, 12)}
    for crate, numbers in refusals.items():
        wanted = {"refused %d" % number for number in numbers}
        wanted |= {"inside", "outside", "undecided"} if crate == "verdicts_main" else set()
        report.same("files: every answer of the drivers is met", met[crate], wanted, crate)


def random_files(report, generator, count):
    """The reader against the grammar, short buffers, and reading and writing again. Returns how often each cause was met."""
    met = {}
    for _ in range(count):
        data = cases.random_file(generator)
        refusal, boxes, plugs = files.parsed(data)
        met[refusal and refusal[0]] = met.get(refusal and refusal[0], 0) + 1
        report.same("files: well formed = grammar", refusal is None, FILE_PATTERN.fullmatch(data) is not None, data)
        if refusal is not None:
            report.true("files: refusals = grammar", refusal_holds(data, *refusal), (data, refusal))
            report.same("files: buffers", files.read(data, 3, 2, 5), (("refused",) + refusal, [5] * 3, [5] * 2))
            report.same("files: printed", printing.print_text(data), b"refused %d %d\n" % refusal)
            continue
        for boxes_length, plugs_length in product((len(boxes) - 1, len(boxes), len(boxes) + 3), (len(plugs) - 1, len(plugs), len(plugs) + 2)):
            if boxes_length < 0 or plugs_length < 0:
                continue
            if boxes_length < len(boxes):
                wanted = ("refused", 7, len(boxes)), [5] * boxes_length, [5] * plugs_length
            elif plugs_length < len(plugs):
                wanted = ("refused", 7, len(plugs)), [5] * boxes_length, [5] * plugs_length
            else:
                answer = ("counts", len(boxes) // 4, len(plugs) // 2)
                wanted = answer, boxes + [5] * (boxes_length - len(boxes)), plugs + [5] * (plugs_length - len(plugs))
            report.same("files: buffers", files.read(data, boxes_length, plugs_length, 5), wanted, data)
    for _ in range(count // 4):
        boxes, plugs = cases.small_round(generator)
        plugs = plugs * generator.below(3)
        length = 18 * (len(boxes) // 4) + 10 * (len(plugs) // 2) + 2
        answer, written = files.write(boxes, plugs, length + 3)
        report.same("files: written and read again", answer, ("count", length))
        report.same("files: written and read again", written[length:], bytes([files.UNTOUCHED_BYTE]) * 3)
        report.same("files: written and read again", files.parsed(written[:length]), (None, boxes, plugs))
        report.same("files: written and read again", files.write(boxes, plugs, length - 1)[0], ("refused", 7, length))
    return met


# ---------------------------------------------------------------------------------------------------------------------------
# Full rounds


def full_rounds(report, generator, words):
    """1,024 boxes on the circle, at random, and in convex position: polygons by their stated properties, verdicts and reasons."""
    for position, (east, north) in enumerate(cases.circle_points()):
        angle = 2 * pi * position / cases.BOXES
        held = abs(east - cases.RADIUS * cos(angle)) < 0.5001 and abs(north - cases.RADIUS * sin(angle)) < 0.5001
        report.true("full rounds: circle table", held)
    sizes = {}
    for kind in ("circle", "random", "convex"):
        boxes, plugs = cases.KINDS[kind](generator)
        report.same("full rounds: accepted", (rounds.check_boxes(boxes), rounds.check_plugs(plugs)), (None, None))
        polygons = full_polygons(report, boxes, kind)
        sizes[kind] = tuple(len(vertices) for vertices in polygons)
        places = [(plugs[at], plugs[at + 1]) for at in range(0, len(plugs), 2)]
        for vertices in polygons:
            for drawn in range(4):
                east, north = vertices[generator.below(len(vertices))]
                places += [(east, north), (east + generator.between(-1, 1), north + generator.between(-1, 1))]
        places = [plug for plug in places if rounds.check_plug(plug) is None]
        for number, plug in enumerate(places):
            full_verdict(report, boxes, polygons, plug, kind, words, number % 12 == 0)
    report.same("full rounds: convex position", sizes["convex"], (1024,) * 5)
    return sizes


def full_polygons(report, boxes, kind):
    """The outer polygon and the four corner polygons of a full round, out of the buffers, by their stated properties."""
    records = rounds.records_of(boxes)
    sets = [rounds.all_corners(records)] + [[rounds.corner(record, name) for record in records] for name in range(4)]
    outer, outer_after = rounds.outer_polygon(boxes, [3] * 8193)
    corners, corners_after = rounds.corner_polygons(boxes, [3] * 8193)
    polygons = []
    for answer, after in ((outer, outer_after), (corners, corners_after)):
        start = 0
        for vertex_count in answer[1:]:
            numbers = after[start : start + 2 * vertex_count]
            start += 2 * vertex_count
            polygons.append(list(zip(numbers[::2], numbers[1::2])))
        report.same("full rounds: zeros and rest", after[start:], [0] * (8192 - start) + [3])
    for points, vertices in zip(sets, polygons):
        report.same("full rounds: polygons", rounds.check_polygon(points, vertices), None, kind)
    return polygons


def full_verdict(report, boxes, polygons, plug, kind, words, also_directions):
    """A verdict on a full round against its polygons, its reasons and, if asked for, all candidate directions across a corner."""
    found = rounds.verdict(boxes, plug)[1]
    words[found] = words.get(found, 0) + 1
    sides = [[rounds.turn(vertices[at - 1], vertices[at], plug) for at in range(len(vertices))] for vertices in polygons]
    in_outer = max(sides[0]) <= 0
    in_all = all(max(values) < 0 for values in sides[1:])
    wanted = "inside" if in_all else "undecided" if in_outer else "outside"
    report.same("full rounds: verdicts = polygons", found, wanted, (kind, plug))
    if found == "undecided":
        reasons = rounds.find_reasons(boxes, plug)
        report.same("full rounds: reasons", rounds.check_reasons(boxes, plug, reasons), None, (kind, plug))
    if also_directions:
        first = rounds.first_driver_by_directions(rounds.records_of(boxes), plug, with_pairs=False)
        report.same("full rounds: verdicts = all directions", first is None, found == "inside", (kind, plug))


# ---------------------------------------------------------------------------------------------------------------------------


def main():
    """Runs everything and prints the counts."""
    began = time.time()
    generator = cases.Generator(SEED)
    report = Report()
    words, tiny_words, full_words = {}, {}, {}
    print("seed %d" % SEED)
    measured_rounds(report)
    limits(report)
    wrong_turnings(report)
    random_rounds(report, generator, 2400, words)
    larger_random_points(report, generator, 60)
    medium_rounds(report, generator, 120)
    found, wanted = brute_force(report, generator, 600, 1500, tiny_words)
    file_examples(report)
    met = random_files(report, generator, 6000)
    written_files(report)
    sizes = full_rounds(report, generator, full_words)
    for part, count in report.counts.items():
        print("%8d  %s" % (count, part))
    print("words of the small random rounds: %s" % sorted(words.items()))
    print("words of the tiny rounds with all picks: %s" % sorted(tiny_words.items()))
    print("words of the full rounds: %s" % sorted(full_words.items()))
    print("vertices of the full rounds (outer, SW, SE, NE, NW): %s" % sizes)
    print("refusals of the random files: %s" % sorted((cause or 0, count) for cause, count in met.items()))
    print("second driver's picks found with a denominator up to 4: %d of %d; reasons show all of them" % (found, wanted))
    for failure in report.failures[:MOST_FAILURES_SHOWN]:
        print("FAILED %s" % failure[:600])
    print("%d checks, %d failed, %.1f seconds" % (sum(report.counts.values()), len(report.failures), time.time() - began))
    return 1 if report.failures else 0


if __name__ == "__main__":
    sys.exit(main())
