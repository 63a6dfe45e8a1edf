"""Writes what each program is run on, its file `stdin`, and what it must write, its file `stdout`, by the independent implementation; and the
sample rounds. From the repository's root:
    python3 -m oracle.write_cases            # writes the files
    python3 -m oracle.write_cases --check    # exits with 1 if one of them differs

A driver (crates/areas_main, verdicts_main, files_main) reads a count of cases, then case by case what its `src/main.rt` says. A count is four bytes, high
byte first; a number is its two's complement. A driver holds its list from case to case, and a case starts with what is new at the front of it.
"""

import sys
from itertools import groupby
from pathlib import Path

from . import cases, files, printing, rounds

SEED = 20011

# What the drivers' buffers hold before a call.
AREAS_MARK = 77777
FILES_MARK = -7
FILES_MARK_BYTE = 0xA5

# How many numbers and bytes the drivers' lists and buffers have.
BOXES_ROOM, ANSWER_ROOM = 4104, 8200
FILE_ROOM, EDGES_ROOM, COORDINATES_ROOM, WRITTEN_ROOM = 18480, 4104, 16, 128


def count_bytes(count):
    """A count as four bytes."""
    return count.to_bytes(4, "big")


def run_lengths(numbers):
    """The numbers with a space before each; of a run of equal ones, one and how many."""
    runs = [(number, len(list(run))) for number, run in groupby(numbers)]
    return "".join(f" {number}" if length == 1 else f" {number}*{length}" for number, length in runs)


def words(*parts):
    """The parts, one space apart."""
    return " ".join(str(part) for part in parts)


def reply(name, answer):
    """A refusal's number and place, or the name and what was answered."""
    return words("refused" if answer[0] == "refused" else name, *answer[1:])


class Driver:
    """The standard input of a driver and what it must print, case by case."""

    def __init__(self, held, item_bytes):
        self.held, self.item_bytes = held, item_bytes
        self.cases, self.parts, self.lines = 0, [], []

    def lend(self, items):
        """A list that is lent: what is new at the front of the list held, and how many of it are lent."""
        differing = [place for place, item in enumerate(items) if item != self.held[place]]
        new = differing[-1] + 1 if differing else 0
        self.held[:new] = items[:new]
        self.cases += 1
        self.parts += [count_bytes(new), b"".join(self.item_bytes(item) for item in items[:new]), count_bytes(len(items))]

    def counts(self, lengths, rooms):
        """The lengths of the parts of buffers that are lent."""
        if any(length > room for length, room in zip(lengths, rooms)):
            raise ValueError("a buffer that the driver has not")
        self.parts += [count_bytes(length) for length in lengths]

    def texts(self):
        """The two files."""
        return count_bytes(self.cases) + b"".join(self.parts), "".join(line + "\n" for line in self.lines).encode("ascii")


# ---------------------------------------------------------------------------------------------------------------------------
# Rounds

ROUND_B = [0, 0, 2, 2, 8, 0, 10, 2, 8, 8, 10, 10, 0, 8, 2, 10]
LINE_AND_POINT = [0, 0, 1, 0, 2, 3, 2, 3]
ONE_BOX = [0, 0, 4, 4]
SPAN = [-16000, -16000, 16000, 16000]
SPAN_POINTS = [-16000, -16000, -16000, -16000, 16000, -16000, 16000, -16000, 0, 16000, 0, 16000]

# All in one point; in line: level, upright, slanting up and down; repeated; one box, one line, one point; the edges of the span; four points of which
# none is in the hull of the others, so that the corner polygons fill the buffer to the last number.
SHAPES = [
    [5, -7, 5, -7] * 3,
    [0, 3, 2, 3, 5, 3, 9, 3, -4, 3, -4, 3],
    [-6, 0, -6, 2, -6, 5, -6, 5, -6, -4, -6, 1],
    [0, 0, 0, 0, 2, 1, 2, 1, 4, 2, 4, 2, -6, -3, -6, -3],
    [0, 0, 0, 0, 3, -3, 3, -3, -1, 1, -1, 1],
    [1, 1, 4, 3, 1, 1, 4, 3, 0, 5, 2, 6, 1, 1, 4, 3, 0, 5, 2, 6],
    ONE_BOX,
    [0, 0, 4, 0],
    [0, 0, 0, 0],
    SPAN + [16000, -16000, 16000, -16000],
    [1, 1, 1, 1, 9, 2, 9, 2, 8, 10, 8, 10, -1, 9, -1, 9],
    LINE_AND_POINT,
]

LEAST, GREATEST = -(2**31), 2**31 - 1

# Boxes that are refused, and those next to them that are not: the lengths of the list, each edge beyond the span, reversed edges, and which comes first.
CHECKED = [
    [0] * 4096,
    [0] * 4099,
    [0] * 4100,
    [],
    [0],
    [0, 0, 1],
    [0, 0, 1, 1, 0],
    [0, 0, 0, 0, 0, 0],
    SPAN,
    [-16001, 0, 0, 0],
    [0, -16001, 0, 0],
    [0, 0, 16001, 0],
    [0, 0, 0, 16001],
    [16001, 0, 0, 0],
    [0, 16001, 0, 0],
    [0, 0, -16001, 0],
    [0, 0, 0, -16001],
    [GREATEST, 0, LEAST, 0],
    [LEAST, LEAST, GREATEST, GREATEST],
    [1, 0, 0, 0],
    [0, 1, 0, 0],
    [5, 5, 5, 5],
    [0, 5, 9, 5],
    [0, 0, 1, 1, 2, 0, 1, 1],
    [0, 0, 1, 1, 0, 2, 1, 1, 16001, 0, 1, 1],
    [0, 0, 1, 1, 0, 0, 1, 1, 0, 0, 1, 16001],
    [0, 0, 1, 1, 16001, 0, 1, 1, 5, 0, 4, 0],
    [2, 0, 1, 1, 16001, 0, 0, 0],
    [16001, 0, 1, 1, 2, 0, 1, 1, 0],
    [2, 0, 1, 16001],
]


def random_rounds(generator, count):
    """Small, degenerate, ring and edge rounds in turn."""
    kinds = (cases.small_round, cases.degenerate_round, cases.ring_round, cases.edge_round)
    return [kinds[number % len(kinds)](generator) for number in range(count)]


# ---------------------------------------------------------------------------------------------------------------------------
# The drivers


def areas():
    """Both polygon calls, with buffers of 8 × N numbers, one less, and longer."""
    driver = Driver([0] * BOXES_ROOM, files.number_bytes)

    def run(boxes, *lengths):
        for length in lengths:
            driver.lend(boxes)
            driver.counts((length, length), (ANSWER_ROOM, ANSWER_ROOM))
            for name, call in (("outer", rounds.outer_polygon), ("corners", rounds.corner_polygons)):
                answer, buffer = call(boxes, [AREAS_MARK] * length)
                driver.lines.append(reply(name, answer) + ":" + run_lengths(buffer))

    generator = cases.Generator(SEED)
    for boxes in CHECKED:
        run(boxes, 16)
        if len(boxes) < 16:
            run(boxes, 0)
    run([0] * 4096, 8192, 8191)
    for boxes in [ROUND_B] + SHAPES:
        run(boxes, 2 * len(boxes), 2 * len(boxes) - 1, 2 * len(boxes) + 3)
    for boxes, _ in random_rounds(generator, 80):
        run(boxes, 2 * len(boxes) + generator.below(3))
    # all extreme, at random and about a circle, on both sides of the bounds of the program's: scratch for 32 and for 256 boxes, inner keys dropped from 48 on
    for count in (11, 12, 32, 33, 47, 48, 256, 257):
        run(cases.convex_round(generator)[0][: 4 * count], 8 * count)
        run(cases.random_round(generator)[0][: 4 * count], 8 * count, 8 * count - 1)
    run(strided(cases.circle_round(generator)[0], 8), 1024)
    # 1,025 boxes, and 1,024 of them
    boxes = cases.random_round(generator)[0]
    run(boxes + ONE_BOX, 8200)
    run(boxes, 8192, 8191, 8200)
    return driver.texts()


def strided(boxes, step):
    """Every so many boxes of a list."""
    return [number for record in rounds.records_of(boxes)[::step] for number in record]


PLUGS = [(16000, -16000), (16001, 0), (0, -16001), (-16001, 16001), (0, GREATEST), (LEAST, 0)]

# Round B's plugs; the others of docs/SCOPE.md; its known wrong turnings: middles say inside, whole-metre doors and corners alone say outside, a plug on a
# corner polygon, one stop and two; each edge of one box, and one metre beyond it; the edges of the span.
PLUGGED = [
    (ROUND_B, [(5, 5), (3, 3), (2, 5), (0, 0), (10, 5), (11, 5)]),
    (LINE_AND_POINT, [(1, 1), (1, 2)]),
    (ONE_BOX, [(2, 2)]),
    ([0, 0, 8, 8, 20, 0, 28, 8, 10, 20, 18, 28], [(8, 7)]),
    ([0, 0, 4, 0, 2, 3, 2, 3], [(2, 1)]),
    ([0, 0, 0, 0, 8, 0, 8, 0, 8, 8, 8, 8, 0, 8, 0, 8], [(0, 4), (1, 4)]),
    ([-5, -5, 5, 5], [(0, 0)]),
    ([-5, -5, 5, 5, -6, -6, 6, 6], [(0, 0)]),
    ([3, 4, 3, 4], [(3, 4), (3, 5)]),
    ([0, 0, 0, 0, 6, 3, 6, 3], [(4, 2), (8, 4), (2, 2)]),
    ([-7, 3, -2, 4], [(-7, 3), (-2, 4), (-8, 3), (-7, 2), (-1, 4), (-2, 5)]),
    (SPAN, PLUGS),
    (SPAN_POINTS, [(0, 0), (15999, 16000), (8000, 0), (8001, 0)]),
]


def verdicts():
    """The verdict's word, from both calls."""
    driver = Driver([0] * BOXES_ROOM, files.number_bytes)

    def run(boxes, *plugs):
        for plug in plugs:
            driver.lend(boxes)
            driver.parts += [files.number_bytes(number) for number in plug]
            answer = rounds.verdict(boxes, plug)
            line = answer[1] if answer[0] == "verdict" else words(*answer)
            driver.lines.append(f"{line}, {line}")

    generator = cases.Generator(SEED)
    for boxes in CHECKED:
        run(boxes, (0, 0), (16001, 0))
    # round B at the front of 1,024 boxes, and of 1,025
    for boxes in (ROUND_B[4:] + [0] * 4084, ROUND_B[4:] + [0] * 4088):
        run(boxes, (5, 5), (0, 0), (11, 5))
    for boxes, plugs in PLUGGED:
        run(boxes, *plugs)
    for boxes in SHAPES:
        corners = rounds.all_corners(rounds.records_of(boxes))
        run(boxes, corners[0], ((corners[0][0] + corners[-1][0]) // 2, (corners[0][1] + corners[-1][1]) // 2), (100, 3))
    for boxes, plug in random_rounds(generator, 200):
        run(boxes, tuple(plug))
    boxes, plugs = cases.random_round(generator, plugs=12)
    run(boxes, *zip(plugs[::2], plugs[1::2]))
    return driver.texts()


# ---------------------------------------------------------------------------------------------------------------------------
# Files

BOX = "5B01 00000001 00000002 00000003 00000004"
PLUG = "5B02 00000005 FFFFFFFA"
END = "5B00"
EXAMPLE = "5B01 00000000 00000000 00000004 00000004 5B02 00000002 00000002 5B02 00000005 00000002 5B00"
SAMPLE = "5C01 01 FF" + BOX + "5C02 00" + PLUG + "5C03 01 5B" + END

# By cause: unknown marks; files that stop; boxes after plugs; bytes after the end. Then notes, and the extreme numbers.
FORMS = [
    ["0000", "5B03" + END, BOX + "5BFF" + END, "5BFF", "5AFF00", "5D0000", "005B01", PLUG + "FF5B"],
    ["", "5B", "00", BOX, BOX + "5B", BOX + PLUG, "5B01", "5B02 00000001 000000", "5C00", "5CFF", "5C00 03 0102", BOX + "5C00 01"],
    [PLUG + BOX + END, PLUG + "5B01 0000", PLUG + "5B01", PLUG + "5C00 00" + BOX + END],
    [END + "00", END + END, BOX + PLUG + END + "5B03", "5C00 01 02" + END + "FF"],
    [END, "5C00 00" + END, "5CFF 02 5B00" + "5C7F 00" + END, SAMPLE],
    ["5B01 80000000 7FFFFFFF FFFFFFFF 00000001 5B02 80000001 FFFF8000" + END],
]
LONG_NOTE = bytes([0x5C, 0x2A, 0xFF]) + bytes(255) + bytes([0x5B, 0x00])

# A file, and the lengths of the buffers of boxes, of plugs and of bytes written.
LENGTHS = [
    (EXAMPLE, 4, 4, 40),
    (EXAMPLE, 4, 4, 39),
    (EXAMPLE, 4, 4, 44),
    (EXAMPLE, 3, 4, 96),
    (EXAMPLE, 4, 3, 96),
    (EXAMPLE, 3, 3, 96),
    (EXAMPLE, 0, 4, 96),
    (EXAMPLE, 4, 0, 96),
    (EXAMPLE, 5, 7, 96),
    (EXAMPLE, 8, 6, 96),
    (EXAMPLE, 4, 5, 96),
    (END, 0, 0, 96),
    (END, 0, 2, 96),
    (END, 3, 2, 96),
    (END, 4, 0, 20),
    (END, 4, 0, 0),
    (BOX + "5B", 0, 0, 0),
]

# Boxes and plugs that the writer is lent: accepted, and refused by each cause that comes before the length.
LISTS = [
    (SPAN + [-1, -256, -1, 255], [-16000, 16000]),
    ([0, 0, 16001, 4], [2, 2]),
    ([0, 0, 16001, 4], [2, 16001]),
    ([0, 0, 4, 4, 4, 0, 0, 4], [2, 2]),
    ([0, 0, 4, 4], [2, 2, 0, -16001]),
    ([0, 0, 4, 4], [2, 2, -16001, 0]),
    ([0, 0, 4, 4], [0, 0, 1, 1, 0, 16001, 16001, 0]),
    ([0, 0, 4, 4], [0, 0, 16000, -16000]),
]


def read_and_written():
    """The reader, and the writer on what the reader's buffers then hold."""
    driver = Driver(bytearray(FILE_ROOM), lambda byte: bytes([byte]))

    def run(data, edges=12, coordinates=8, written=0):
        driver.lend(data)
        driver.counts((edges, coordinates, written), (EDGES_ROOM, COORDINATES_ROOM, WRITTEN_ROOM))
        answer, boxes, plugs = files.read_into(data, [FILES_MARK] * edges, [FILES_MARK] * coordinates)
        driver.lines.append(reply("read", answer) + ": boxes" + run_lengths(boxes) + ", plugs" + run_lengths(plugs))
        answer, buffer = files.write_into(boxes, plugs, bytes([FILES_MARK_BYTE]) * written)
        driver.lines.append(reply("written", answer) + ": " + buffer.hex())

    generator = cases.Generator(SEED)
    for texts in FORMS:
        for text in texts:
            run(bytes.fromhex(text))
    for length in (260, 259, 258, 257):
        run(LONG_NOTE[:length])
    for text, *lengths in LENGTHS:
        run(bytes.fromhex(text), *lengths)
    for boxes, plugs in LISTS:
        run(files.file_bytes(boxes, plugs), len(boxes), len(plugs), 96)
        run(files.file_bytes(boxes, plugs), len(boxes), len(plugs), 4)
        run(files.file_bytes(boxes, plugs), len(boxes), len(plugs) + 1, 4)
    sample = bytes.fromhex(SAMPLE)
    for length in range(len(sample) + 1):
        run(sample[:length])
    for place in range(len(sample)):
        run(sample[:place] + bytes([sample[place] ^ 1]) + sample[place + 1 :], 4, 2, 30)
    for _ in range(60):
        run(cases.random_file(generator))
    for boxes, plugs in random_rounds(generator, 40):
        run(files.file_bytes(boxes, plugs), len(boxes), len(plugs), 96 + generator.below(33))
    # 1,025 boxes, which no round may have; and 1,024, where the first record is a note of the same length
    data = files.file_bytes([number // 400 for number in range(4100)], [])
    for edges in (4102, 4100, 4099):
        run(data, edges, 0, 4)
    data = bytes([0x5C, 0x00, 0x0F]) + data[3:]
    for edges in (4096, 4095):
        run(data, edges, 0, 4)
    return driver.texts()


# ---------------------------------------------------------------------------------------------------------------------------
# The printing program, and the files

# A sample's boxes and plugs.
SAMPLES = {
    "example": ([0, 0, 4, 4], [2, 2, 5, 2]),
    "round-b": (ROUND_B, [5, 5, 3, 3, 2, 5, 0, 0, 10, 5, 11, 5]),
}


def written():
    """Every file that this program writes: its path, and its bytes."""
    found = {}
    for crate, driver in (("areas_main", areas), ("verdicts_main", verdicts), ("files_main", read_and_written)):
        found[f"crates/{crate}/stdin"], found[f"crates/{crate}/stdout"] = driver()
    for name, (boxes, plugs) in SAMPLES.items():
        found[f"samples/{name}.round"] = files.file_bytes(boxes, plugs)
    sample = found["samples/round-b.round"]
    found["crates/print_round/stdin"], found["crates/print_round/stdout"] = sample, printing.print_text(sample)
    return found


def main(arguments):
    """Writes the files, or compares them."""
    status = 0
    for path, data in written().items():
        if arguments != ["--check"]:
            Path(path).parent.mkdir(parents=True, exist_ok=True)
            Path(path).write_bytes(data)
        elif not Path(path).is_file() or Path(path).read_bytes() != data:
            print(f"{path} is not what oracle/write_cases.py writes")
            status = 1
    return status


if __name__ == "__main__":
    sys.exit(main(sys.argv[1:]))
