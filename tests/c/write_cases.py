"""Writes tests/c/cases.h: what tests/c/answers.c lends to each call for C, and what each call must answer.

Every expected number comes from the independent implementation of docs/SCOPE.md in oracle/, by definition, and none from the library. This program also
checks that the values differ wherever a wrong order of fields or parameters could hide behind equal ones.

Run from anywhere: python3 -B tests/c/write_cases.py [--check]
"""

import sys
from itertools import combinations, permutations
from math import gcd
from pathlib import Path

HERE = Path(__file__).resolve().parent
sys.path.insert(0, str(HERE.parent.parent))

from oracle import files, printing, rounds  # noqa: E402

WORDS = {"inside": 1, "outside": 2, "undecided": 3}

# ---- rounds

# 8 boxes. Their corner polygons have 3, 5, 6 and 4 vertices, the outer polygon 7.
UNEQUAL = [-3, -6, 7, 9, -4, -23, -1, -16, -5, 7, 10, 13, -5, -12, -5, -10, 4, 0, 10, 3, -5, -6, -5, -1, -5, 9, -4, 24, -14, 18, -11, 18]
ROUND_B = [0, 0, 2, 2, 8, 0, 10, 2, 8, 8, 10, 10, 0, 8, 2, 10]
FIVE = [-3, -21, 5, -20, 12, 9, 21, 17, 25, 3, 28, 10, -28, 2, -23, 6, -11, 24, -6, 32]
SPAN = [-16000, -16000, 16000, 16000]

# Only one corner name and one direction, but for its length, succeed for the first driver: SW, SE, NE, NW.
ONE_DIRECTION = [
    ([20, -30, 29, -24, -27, 7, -26, 9, -30, -2, -23, 1, 17, 3, 19, 6, -2, -16, 7, -10], (-5, 5)),
    ([-24, -13, -17, -11, 8, 25, 11, 34, -13, 4, -10, 5, 0, 24, 5, 30, -9, -26, -2, -24], (-7, 8)),
    ([-6, -3, 2, 2, 5, 13, 14, 22, 25, 9, 26, 13, 9, -10, 14, -8, 13, -17, 21, -11], (8, -3)),
    (FIVE, (11, -5)),
]

# Only one set of corner points, with one ratio of weights, succeeds for the second driver: two SW, SE, NE, NW corners of two boxes; three points, of
# a point box, another one and a line, or of a line and a point box.
ONE_BALANCE = [
    ([-14, -2, -9, 5, -9, 15, -2, 24, -29, 17, -24, 22, 25, -28, 26, -23, -14, -13, -10, -9, 4, -6, 12, -3], (-16, -9)),
    ([17, -1, 18, 3, 9, -15, 18, -13, -20, -17, -18, -10, 22, 9, 24, 16, -3, 13, 1, 17, -26, 20, -20, 22], (22, 1)),
    ([-18, 4, -10, 5, 25, -2, 34, 3, 10, 17, 12, 18, -23, 3, -19, 9, 19, 14, 22, 21, -21, -29, -15, -28], (26, 15)),
    ([15, 10, 18, 19, -16, -30, -15, -25, -14, 18, -12, 25, 15, -25, 24, -24, 18, -3, 19, 0, -19, -27, -12, -25], (-17, -5)),
    ([5, 9, 5, 9, 0, 0, 0, 0, 0, 0, 12, 0], (5, 2)),
    ([0, -15999, 0, 16000, -16000, 15998, -16000, 15998], (-5000, 40)),
]

# Boxes that are refused: their list, and how many times over. 1,025 boxes are five 205 times.
REFUSED = [
    ("6 numbers", [0, 0, 1, 1, 5, 6], 1),
    ("one number more", UNEQUAL + [3], 1),
    ("no box", [], 1),
    ("1,025 boxes", FIVE, 205),
    ("west of box 3 beyond", ROUND_B[:8] + [-16001, 0, 1, 1], 1),
    ("south of box 2 beyond", ROUND_B[:4] + [0, -16001, 1, 1], 1),
    ("east of box 2 beyond, and box 3 reversed", ROUND_B[:4] + [0, 0, 16001, 1] + [3, 0, 2, 0], 1),
    ("north of box 5 beyond, and south over it", ROUND_B + [0, 2147483647, 1, 16001], 1),
    ("box 2 west over east", ROUND_B[:4] + [8, 0, 7, 2] + ROUND_B[8:], 1),
    ("box 3 south over north, and box 4 beyond", ROUND_B[:8] + [8, 8, 10, 7] + [0, 0, 0, 16001], 1),
]

# ---- values that differ


def must(condition, what):
    """Stops if the cases do not show what they are for."""
    if not condition:
        raise AssertionError("tests/c/write_cases.py: " + what)


def refused_by(answer):
    """Number and place of an answer, or zeros."""
    return answer[1:] if answer[0] == "refused" else (0, 0)


def first_choices(records, plug):
    """Every corner name and candidate direction that succeed for the first driver. A cone of directions has its sides among the candidates, so one
    choice alone is the only direction there is, but for its length."""
    return [
        (name, direction)
        for name in range(4)
        for direction in rounds.candidate_directions(records, plug)
        if all(rounds.dot(direction, rounds.minus(rounds.corner(record, name), plug)) <= 0 for record in records)
    ]


def second_choices(records, plug):
    """Every least set of corner points that has the plug in its hull, with weights above zero; those of a set are given but for a common factor."""
    points = sorted(set(rounds.all_corners(records)))
    vectors = [rounds.minus(point, plug) for point in points]
    found = [((point, 1),) for point, vector in zip(points, vectors) if vector == (0, 0)]
    for pair in combinations(range(len(points)), 2):
        ends = [vectors[place] for place in pair]
        weights = None if (0, 0) in ends else rounds.pair_weights(*ends)
        if weights is not None:
            found.append(tuple(zip([points[place] for place in pair], weights)))
    for triple in combinations(range(len(points)), 3):
        weights = rounds.zero_weights([vectors[place] for place in triple])
        if weights is not None and min(weights) > 0:
            found.append(tuple(zip([points[place] for place in triple], weights)))
    return found


# ---- C


class Lists:
    """The lists of the cases as arrays of C, each once; an empty list is NULL."""

    def __init__(self):
        self.names, self.lines = {}, []

    def name(self, kind, items):
        """The name of the array of the items."""
        items = tuple(items)
        if not items:
            return "NULL"
        if (kind, items) not in self.names:
            name = "%s_%d" % (kind, len(self.names) + 1)
            self.names[kind, items] = name
            shown = ["0x%02X" % item if kind == "bytes" else str(item) for item in items]
            self.lines.append("static const %s %s[] = {" % ("uint8_t" if kind == "bytes" else "int32_t", name))
            line = "   "
            for position, item in enumerate(shown):
                item = " " + item + ("," if position + 1 < len(shown) else "")
                if len(line) + len(item) > 140:
                    self.lines.append(line)
                    line = "   "
                line += item
            self.lines += [line, "};"]
        return self.names[kind, items]

    def numbers(self, items):
        return self.name("numbers", items)

    def bytes(self, items):
        return self.name("bytes", items)


def table(kind, rows):
    """The cases of a kind as an array of C."""
    return ["static const struct %s_case %s_cases[] = {" % (kind, kind)] + ["    {%s}," % ", ".join(map(str, row)) for row in rows] + ["};", ""]


def hashed(data):
    """The 64-bit FNV-1a hash of bytes, as a number of C."""
    value = 0xCBF29CE484222325
    for byte in data:
        value = (value ^ byte) * 0x100000001B3 % 2**64
    return "UINT64_C(0x%016X)" % value


def quoted(text):
    """A name or a text as C has it."""
    return '"%s"' % text.replace("\n", "\\n")


# ---- the cases of each kind


def polygons(lists):
    """Both polygon calls: name; boxes, times over; room; refused, place; outer vertices; corner vertices; vertices."""
    cases = [("unequal counts", UNEQUAL, 1, room) for room in (69, 64, 63, 1, 0)]
    cases += [
        ("round B", ROUND_B, 1, 32),
        ("in line", [3, -1, 3, -1, 9, 1, 9, 1, 0, -2, 0, -2], 1, 25),
        ("all in one point", [5, -7, 5, -7, 5, -7, 5, -7], 1, 16),
        ("the span", SPAN + [3, 4, 3, 4], 1, 17),
        ("1,024 boxes", ROUND_B, 256, 8193),
        ("1,024 boxes, one number short", ROUND_B, 256, 8191),
    ]
    cases += [(name, boxes, times, room) for name, boxes, times in REFUSED for room in (70, 0)]
    rows, seen = [], set()
    for name, boxes, times, room in cases:
        outer, outer_buffer = rounds.outer_polygon(boxes * times, [7] * room)
        corners, corner_buffer = rounds.corner_polygons(boxes * times, [7] * room)
        refusal = refused_by(outer)
        must(refusal == refused_by(corners), "the polygon calls refuse alike")
        must(refusal == (0, 0) or refusal[0] != refusal[1], "number and place differ: " + name)
        seen.add(refusal[0])
        counts = (outer[1],) + corners[1:] if refusal == (0, 0) else (0,) * 5
        if name == "unequal counts" and refusal == (0, 0):
            must(len(set(counts) | {len(boxes) // 4, room}) == 7, "all counts differ")
        vertices = outer_buffer[: 2 * counts[0]] + corner_buffer[: 2 * sum(counts[1:])]
        row = (quoted(name), lists.numbers(boxes), len(boxes), times, room) + refusal
        rows.append(row + (counts[0], "{%d, %d, %d, %d}" % counts[1:], lists.numbers(vertices)))
    must(seen == {0, 1, 2, 3, 4, 5, 7}, "each refusal of the polygon calls")
    return table("polygon", rows)


def verdicts(lists):
    """The three calls: name; boxes, times over; plug; refused, place; word; corner and direction if there is only one, else -1, 0, 0; how many points
    succeed with their weights if there is only one choice, else 0; those points."""
    cases = [
        ("round B inside", ROUND_B, 1, (3, 7)),
        ("round B outside", ROUND_B, 1, (11, 5)),
        ("round B undecided", ROUND_B, 1, (2, 5)),
        ("inside, and outside with east and north exchanged", FIVE, 1, (-5, 11)),
        ("a low box, undecided, and outside with east and north exchanged", [-9, -2, 9, 3, 4, -1, 5, 1], 1, (7, 2)),
        ("a low box, outside, and undecided with east and north exchanged", [-9, -2, 9, 3, 4, -1, 5, 1], 1, (2, 7)),
        ("the span", SPAN, 1, (16000, -15999)),
        ("the span's corner points", [-16000, -16000, -16000, -16000, 16000, -16000, 16000, -16000, 15999, 16000, 15999, 16000], 1, (9001, -16000)),
        ("1,024 boxes", ROUND_B, 256, (2, 4)),
        ("plug east beyond", ROUND_B, 1, (16001, 5)),
        ("plug north beyond", ROUND_B, 1, (5, -16001)),
        ("plug far beyond", ROUND_B, 1, (-2147483648, 2147483647)),
    ]
    cases += [("one direction %d" % name, boxes, 1, plug) for name, (boxes, plug) in enumerate(ONE_DIRECTION)]
    cases += [("one balance %d" % name, boxes, 1, plug) for name, (boxes, plug) in enumerate(ONE_BALANCE)]
    cases += [(name, boxes, times, plug) for name, boxes, times in REFUSED for plug in ((1, 2), (16001, 0))]
    rows, seen, words, exchanged, permuted = [], set(), set(), set(), set()
    corners_forced, entries_forced = set(), set()
    for name, boxes, times, plug in cases:
        answer = rounds.verdict(boxes * times, plug)
        refusal = refused_by(answer)
        must(refusal == (0, 0) or refusal[0] != refusal[1], "number and place differ: " + name)
        seen.add(refusal[0])
        word = WORDS[answer[1]] if refusal == (0, 0) else 0
        words.add(word)
        if refusal == (0, 0) and times == 1:
            exchanged.add((word, WORDS[rounds.verdict(boxes, plug[::-1])[1]]))
            for order in permutations(range(4)):
                records = [tuple(record[place] for place in order) for record in rounds.records_of(boxes)]
                if rounds.verdict_records(records, plug) != answer:
                    permuted.add(order)
        corner, direction, points = -1, (0, 0), ()
        if word == 3 and times == 1:
            records = rounds.records_of(boxes)
            first, second = first_choices(records, plug), second_choices(records, plug)
            must(first and second, "a choice for each driver: " + name)
            if len(first) == 1:
                corner, direction = first[0]
                corners_forced.add(corner)
                must(0 not in direction and abs(direction[0]) != abs(direction[1]), "the direction's parts differ: " + name)
            if len(second) == 1:
                points = tuple(point + (weight,) for point, weight in second[0])
                divisor = gcd(*(point[2] for point in points))
                points = tuple((east, north, weight // divisor) for east, north, weight in points)
                entries_forced.add(len(points))
                must(len(set(point[2] for point in points)) == len(points), "the weights differ: " + name)
        must(not name.startswith("one direction") or corner == int(name[-1]), "one direction: " + name)
        must(not name.startswith("one balance") or points, "one balance: " + name)
        shown = "{%s}" % (", ".join("{%d, %d, %d}" % point for point in points) or "{0, 0, 0}")
        rows.append((quoted(name), lists.numbers(boxes), len(boxes), times) + plug + refusal + (word, corner) + direction + (len(points), shown))
    must(seen == {0, 1, 2, 3, 4, 5, 6}, "each refusal of the verdict")
    must(words == {0, 1, 2, 3}, "each word")
    must({one for one, other in exchanged if one != other} == {1, 2, 3}, "for each word a plug with another one if east and north are exchanged")
    must(len(permuted) == 23, "every order of a record's edges but the right one gives another answer")
    must(corners_forced == {0, 1, 2, 3} and {2, 3} <= entries_forced, "each corner alone, and two points and three alone")
    return table("verdict", rows)


def hexadecimal(text):
    return bytes.fromhex(text)


BOX = "5B01 00000001 FFFFFFFE 00000003 00000004"
BOX_2 = "5B01 80000000 7FFFFFFF FFFFFF00 00010203"
PLUG = "5B02 00000005 FFFFFFFA"
PLUG_2 = "5B02 0000000B 00000016"
PLUG_3 = "5B02 FFFF8000 12345678"
END = "5B00"


def readings(lists):
    """The reader: name; file; room for boxes and for plugs; refused, place; box and plug count; boxes; plugs."""
    three = "5C01 02 5B00" + BOX + BOX_2 + "5CFF 00" + BOX + PLUG + "5C00 01 FF" + PLUG_2 + END
    cases = [("three boxes and two plugs, with notes", three, boxes, plugs) for boxes, plugs in ((12, 4), (17, 6), (11, 4), (12, 3), (0, 3), (12, 0))]
    cases += [
        ("one box and three plugs", BOX_2 + PLUG + PLUG_2 + PLUG_3 + END, 5, 9),
        ("one box and no plug", BOX + END, 4, 0),
        ("no box and one plug", PLUG_3 + END, 0, 2),
        ("only the end", END, 0, 0),
        ("only the end, buffers lent", END, 3, 5),
        ("no byte", "", 0, 0),
        ("no byte, buffers lent", "", 6, 7),
        ("unknown mark at 0", "5A00", 4, 2),
        ("unknown mark at 18", BOX + "5B03" + END, 4, 2),
        ("a lone byte where a mark belongs", BOX + PLUG + "5B", 4, 2),
        ("no end record", BOX + PLUG, 4, 2),
        ("a box cut short", BOX + BOX_2[:-2], 8, 2),
        ("a note cut short", BOX + "5C07 04 010203", 8, 2),
        ("a box after a plug", BOX + PLUG + BOX_2 + END, 8, 2),
        ("a box after two plugs, cut short", PLUG + PLUG_2 + "5B01 00", 8, 2),
        ("a byte after the end", BOX + END + "00", 4, 2),
        ("a byte after the end, buffers short", BOX + PLUG + END + "5B", 0, 0),
    ]
    rows, seen = [], []
    for name, text, boxes_room, plugs_room in cases:
        data = hexadecimal(text)
        answer, boxes, plugs = files.read_into(data, [7] * boxes_room, [7] * plugs_room)
        refusal = refused_by(answer)
        must(refusal == (0, 0) or refusal[0] != refusal[1], "number and place differ: " + name)
        seen.append(refusal)
        counts = answer[1:] if refusal == (0, 0) else (0, 0)
        row = (quoted(name), lists.bytes(data), len(data), boxes_room, plugs_room) + refusal + counts
        rows.append(row + (lists.numbers(boxes[: 4 * counts[0]]), lists.numbers(plugs[: 2 * counts[1]])))
    must({number for number, _ in seen} == {0, 7, 8, 9, 10, 11}, "each refusal of the reader")
    must({(7, 12), (7, 4)} <= set(seen), "7 for boxes and for plugs")
    return table("read", rows)


def writings(lists):
    """The writer: name; boxes, times over; plugs; room; refused, place; byte count; hash of those bytes."""
    two, three = ROUND_B[4:12], [3, -4, 16000, -16000, 5, 6]
    cases = [("two boxes and three plugs", two, 1, three, room) for room in (68, 75, 67, 1, 0)]
    cases += [
        ("four boxes and no plug", ROUND_B, 1, [], 80),
        ("four boxes and no plug, no room", ROUND_B, 1, [], 0),
        ("plug list of 3 numbers", ROUND_B, 1, [1, 2, 3], 200),
        ("plug list of 5 numbers, plug 1 beyond, no room", ROUND_B, 1, [16001, 2, 3, 4, 5], 0),
        ("box list of 6 numbers, plug list of 3", ROUND_B[:6], 1, [1, 2, 3], 200),
        ("east of plug 2 beyond", ROUND_B, 1, [1, 2, 16001, 3, 4, 5], 200),
        ("north of plug 3 beyond", ROUND_B, 1, [1, 2, 3, 4, 5, -16001, 16001, 0], 0),
        ("1,024 boxes, one byte short", ROUND_B, 256, [], 18433),
        ("1,024 boxes", ROUND_B, 256, three, 18464),
    ]
    cases += [(name, boxes, times, plugs, room) for name, boxes, times in REFUSED for plugs, room in ((three, 100), ([16001], 0), ([], 0))]
    rows, seen = [], set()
    for name, boxes, times, plugs, room in cases:
        answer, written = files.write_into(boxes * times, plugs, bytes(room))
        refusal = refused_by(answer)
        must(refusal == (0, 0) or refusal[0] != refusal[1], "number and place differ: " + name)
        seen.add(refusal[0])
        count = answer[1] if refusal == (0, 0) else 0
        row = (quoted(name), lists.numbers(boxes), len(boxes), times, lists.numbers(plugs), len(plugs), room)
        rows.append(row + refusal + (count, hashed(written[:count])))
    must(seen == {0, 1, 2, 3, 4, 5, 6, 7}, "each refusal of the writer")
    return table("write", rows)


def prints(lists):
    """The printing program's text: name; file; text."""
    cases = [
        ("docs/SCOPE.md", "5B01 00000000 00000000 00000004 00000004 5B02 00000002 00000002 5B02 00000005 00000002 5B00"),
        ("no byte", ""),
        ("unknown mark", BOX + "5B03"),
        ("cut short", BOX + PLUG),
        ("box after plug", PLUG + BOX),
        ("byte after the end", BOX + END + "00"),
        ("edge beyond", BOX + BOX_2 + END),
        ("no box", PLUG + END),
    ]
    cases = [(name, hexadecimal(text)) for name, text in cases]
    cases += [
        ("round B", files.file_bytes(ROUND_B, [5, 5, 2, 5, 11, 5, 16001, 0, 3, 3])),
        ("edges reversed", files.file_bytes(ROUND_B + [1, 0, 0, 0], [])),
        ("no plug", files.file_bytes(FIVE, [])),
    ]
    rows = [(quoted(name), lists.bytes(data), len(data), quoted(printing.print_text(data).decode("ascii"))) for name, data in cases]
    must({row[3].split()[1] for row in rows if "refused" in row[3].split()[0]} == {"2", "4", "5", "8", "9", "10", "11"}, "refusals in the text")
    return table("print", rows)


def longest():
    """The text of the longest input that is taken, by its length and hash. answers.c makes the same input."""
    boxes = ROUND_B[:12]
    plugs = []
    for place in range(6548):
        plugs += [16001 if place % 50 == 7 else place % 13 - 1, place % 11]
    data = files.file_bytes(boxes, plugs)
    must(len(data) == printing.MOST_INPUT_BYTES, "the longest input")
    # The same few plugs come again and again, so each is judged once.
    known, judged = {}, rounds.verdict
    rounds.verdict = lambda boxes, plug: known.get(plug) or known.setdefault(plug, judged(boxes, plug))
    text = printing.print_text(data)
    rounds.verdict = judged
    must(all(word in text for word in (b" inside\n", b" outside\n", b" undecided\n", b" refused 6\n")), "every kind of line")
    too_long = printing.print_text(data + b"\0").decode("ascii")
    must(too_long == "refused 12 65536\n", "an input that is too long")
    return [
        "#define LONGEST_PLUGS 6548",
        "#define LONGEST_TEXT_LENGTH %d" % len(text),
        "#define LONGEST_TEXT_HASH %s" % hashed(text),
        "#define TOO_LONG_TEXT %s" % quoted(too_long),
        "",
    ]


def limits():
    """The limits of docs/SCOPE.md."""
    return [
        "#define LIMIT_BOXES %d" % rounds.MOST_BOXES,
        "#define LIMIT_SPAN %d" % rounds.SPAN,
        "#define LIMIT_DIRECTION %d" % rounds.LARGEST_DIRECTION_PART,
        "#define LIMIT_WEIGHT %d" % rounds.LARGEST_WEIGHT,
        "#define LIMIT_INPUT %d" % printing.MOST_INPUT_BYTES,
        "",
    ]


def written():
    """The file's text."""
    lists = Lists()
    tables = polygons(lists) + verdicts(lists) + readings(lists) + writings(lists) + prints(lists)
    head = ["/* Written by tests/c/write_cases.py from the oracle's answers. Included by answers.c alone, which says what the columns are. */", ""]
    return "\n".join(head + limits() + longest() + lists.lines + [""] + tables).rstrip("\n") + "\n"


def main(arguments):
    """Writes the file, or compares it."""
    path = HERE / "cases.h"
    if arguments != ["--check"]:
        path.write_text(written(), encoding="ascii")
    elif not path.is_file() or path.read_text(encoding="ascii") != written():
        print("tests/c/cases.h is not what tests/c/write_cases.py writes")
        return 1
    return 0


if __name__ == "__main__":
    sys.exit(main(sys.argv[1:]))
