"""Tests of feltloquat.py: the measured rounds of docs/SCOPE.md, what the calls take, and random rounds and files against the package `oracle`
of this repository.

Run: python3 bindings/python/test_feltloquat.py
It prints the seed and how many cases agreed; a difference prints its case and ends the run with 1.
"""

import copy
import ctypes
import doctest
import importlib.util
import inspect
import os
import pickle
import re
import shutil
import sys
import tempfile
import time
import tracemalloc
import typing
import unittest
import unittest.mock
from array import array
from collections import UserList, deque

try:
    import numpy
except ImportError:
    numpy = None

HERE = os.path.dirname(os.path.abspath(__file__))
sys.path[:0] = [HERE, os.path.join(HERE, "..", "..")]

import feltloquat
from oracle import cases, files, printing, rounds

SEED = 20815
ROUNDS = 20000
FILES = 8000

ROUND_B = [0, 0, 2, 2, 8, 0, 10, 2, 8, 8, 10, 10, 0, 8, 2, 10]


def answer_of(call, *arguments):
    """What a call returns, or ("refused", number, place)."""
    try:
        return call(*arguments)
    except feltloquat.Refused as refused:
        return ("refused", refused.number, refused.place)


def reasons_of(verdict):
    """The reasons of an undecided verdict as the oracle takes them."""
    corner = feltloquat.CORNERS.index
    direction = verdict.direction
    entries = tuple((entry.box_number, corner(entry.corner), entry.weight) for entry in verdict.entries)
    return (corner(direction.corner), (direction.east, direction.north), entries)


class Measured(unittest.TestCase):
    """The measured rounds of docs/SCOPE.md."""

    def test_round_b(self):
        words = {(5, 5): "inside", (3, 3): "inside", (2, 5): "undecided", (0, 0): "undecided", (10, 5): "undecided", (11, 5): "outside"}
        for (east, north), word in words.items():
            self.assertEqual(feltloquat.word(ROUND_B, east, north), word)
            self.assertEqual(feltloquat.verdict(ROUND_B, east, north).word, word)
        outer = feltloquat.outer_polygon(ROUND_B)
        start = outer.index((0, 0))
        self.assertEqual(outer[start:] + outer[:start], [(0, 0), (0, 10), (10, 10), (10, 0)])

    def test_two_and_one_box(self):
        boxes = [0, 0, 1, 0, 2, 3, 2, 3]
        self.assertEqual(feltloquat.word(boxes, 1, 1), "undecided")
        self.assertEqual(feltloquat.word(boxes, 1, 2), "outside")
        self.assertEqual(feltloquat.word([0, 0, 4, 4], 2, 2), "undecided")

    def test_limits(self):
        self.assertEqual(feltloquat.word([0, 0, 16000, 1], 20, 20), "outside")
        self.assertEqual(answer_of(feltloquat.word, [0, 0, 16001, 1], 20, 20), ("refused", 4, 1))
        self.assertEqual(feltloquat.word([0, 0, 1, 1] * 1024, 20, 20), "outside")
        self.assertEqual(answer_of(feltloquat.word, [0, 0, 1, 1] * 1025, 20, 20), ("refused", 3, 1025))
        self.assertEqual(feltloquat.outer_polygon_into([0, 0, 1, 1], [5] * 8), 4)
        self.assertEqual(answer_of(feltloquat.outer_polygon_into, [0, 0, 1, 1], [5] * 7), ("refused", 7, 8))

    def test_sample_file(self):
        text = "5B01 00000000 00000000 00000004 00000004 5B02 00000002 00000002 5B02 00000005 00000002 5B00"
        file = bytes.fromhex(text)
        self.assertEqual(feltloquat.read_round(file), ([0, 0, 4, 4], [2, 2, 5, 2]))
        self.assertEqual(feltloquat.write_round([0, 0, 4, 4], [2, 2, 5, 2]), file)
        self.assertEqual(feltloquat.print_round(file), "boxes 1 plugs 2\n1 undecided\n2 outside\n")
        self.assertEqual(feltloquat.print_round(bytes(65537)), "refused 12 65536\n")
        for count in (0, 1000):
            boxes, plugs = [0, 0, 4, 4] * 1024, [2, 5] * count
            self.assertEqual(feltloquat.read_round(feltloquat.write_round(boxes, plugs)), (boxes, plugs))

    def test_numbers_beyond_32_bits(self):
        for call in (feltloquat.verdict, feltloquat.word):
            self.assertRaises(OverflowError, call, [0, 0, 2**31, 1], 0, 0)
            self.assertRaises(OverflowError, call, [0, 0, 1, 1], 0, -(2**31) - 1)
            self.assertRaises(OverflowError, call, [0, 0, 1, 10**5000], 0, 0)
            self.assertRaises(OverflowError, call, [0, 0, 1, 1], 10**5000, 0)

    def test_examples_of_the_documentation(self):
        self.assertEqual(doctest.testmod(feltloquat).failed, 0)


class WholeNumber:
    """A whole number that is no int."""

    def __init__(self, value):
        self.value = value

    def __index__(self):
        return self.value


# Every call on a list that serves as boxes and as plugs, and on a file.
LIST_CALLS = {
    "verdict": lambda boxes: feltloquat.verdict(boxes, 2, 5),
    "word": lambda boxes: feltloquat.word(boxes, 2, 5),
    "outer_polygon": lambda boxes: feltloquat.outer_polygon(boxes),
    "outer_polygon_into": lambda boxes: feltloquat.outer_polygon_into(boxes, [0] * 32),
    "corner_polygons": lambda boxes: feltloquat.corner_polygons(boxes),
    "corner_polygons_into": lambda boxes: feltloquat.corner_polygons_into(boxes, [0] * 32),
    "write_round": lambda boxes: feltloquat.write_round(boxes, [2, 5]),
    "write_round of plugs": lambda plugs: feltloquat.write_round(ROUND_B, plugs),
    "write_round_into": lambda boxes: feltloquat.write_round_into(boxes, [2, 5], bytearray(84)),
    "write_round_into of plugs": lambda plugs: feltloquat.write_round_into(ROUND_B, plugs, bytearray(154)),
}
FILE_CALLS = {
    "read_round": lambda file: feltloquat.read_round(file),
    "read_round_into": lambda file: feltloquat.read_round_into(file, [0] * 16, [0] * 2),
    "print_round": lambda file: feltloquat.print_round(file),
}


def number_buffers(numbers):
    """Buffers of signed 32-bit numbers, by name: all that a call reads, and those of them that it can write."""
    own = array("i", numbers)
    writable = {
        "array": array("i", numbers),
        "memoryview": memoryview(array("i", numbers)),
        "ctypes": (ctypes.c_int32 * len(numbers))(*numbers),
    }
    if numpy is not None:
        writable["numpy"] = numpy.array(numbers, dtype=numpy.int32)
    return {**writable, "read-only": memoryview(own).toreadonly(), "bytes": memoryview(own.tobytes()).cast("i")}, writable


def byte_buffers(file):
    """The same for bytes."""
    writable = {
        "bytearray": bytearray(file),
        "memoryview": memoryview(bytearray(file)),
        "array": array("B", file),
        "ctypes": (ctypes.c_uint8 * len(file))(*file),
    }
    return {**writable, "bytes": bytes(file), "read-only": memoryview(bytearray(file)).toreadonly()}, writable


class Arguments(unittest.TestCase):
    """What the calls take, and what they turn back before the library is called."""

    def raises(self, error, text, call, *arguments):
        """The call raises just that error, with the text in its message; it is no refusal of the table."""
        with self.assertRaises(error) as caught:
            call(*arguments)
        self.assertIs(type(caught.exception), error)
        self.assertIn(text, str(caught.exception))

    def test_record_with_another_number_of_edges(self):
        good = (0, 0, 4, 4)
        self.raises(ValueError, "records[0] has 3 edges", feltloquat.verdict_on_records, [(0, 0, 4)], 2, 2)
        self.raises(ValueError, "records[1] has 5 edges", feltloquat.verdict_on_records, [good, (0, 0, 4, 4, 4)], 2, 2)
        self.raises(ValueError, "records[2] has 0 edges", feltloquat.verdict_on_records, [good, good, iter(())], 2, 2)
        self.raises(TypeError, "records[1]", feltloquat.verdict_on_records, [good, 4], 2, 2)
        three = memoryview(array("i", [0, 0, 4] * 4)).cast("B").cast("i", [4, 3])
        self.raises(ValueError, "3 edges", feltloquat.verdict_on_records, three, 2, 2)

    def test_bytes_beyond_255(self):
        for name, call in FILE_CALLS.items():
            self.raises(ValueError, "file[0] is no byte", call, [0x15B, 0x100])
            self.raises(ValueError, "file[1] is no byte", call, [0x5B, -1])
            self.raises(TypeError, "file[1] is no whole number but of type float", call, [0x5B, 0.0])
            self.raises(TypeError, "file", call, 2)
            self.assertEqual(answer_of(call, [0x5B, 2]), answer_of(call, bytes([0x5B, 2])), name)
        self.raises(ValueError, "file[29] is no byte", feltloquat.write_round_into, [0, 0, 4, 4], [2, 5], [0] * 29 + [256])

    def test_refused_is_a_value_error_that_can_be_pickled(self):
        with self.assertRaises(ValueError) as caught:
            feltloquat.word([0, 0, 1, 1, 0, 0, 16001, 1], 0, 0)
        refused = caught.exception
        pickled = [pickle.loads(pickle.dumps(refused, protocol)) for protocol in range(pickle.HIGHEST_PROTOCOL + 1)]
        for other in pickled + [copy.copy(refused), copy.deepcopy(refused)]:
            self.assertIs(type(other), feltloquat.Refused)
            self.assertEqual((other.number, other.place, str(other)), (4, 2, "refused 4 2: box edge beyond 16,000"))
            self.assertEqual(other.args, ("refused 4 2: box edge beyond 16,000",))
            self.assertEqual((other, hash(other)), (refused, hash(refused)))
        for other in (feltloquat.Refused(4, 1), feltloquat.Refused(5, 2), ValueError(4, 2), (4, 2)):
            self.assertNotEqual(refused, other)

    def test_whole_numbers(self):
        five, numbers = WholeNumber(5), [WholeNumber(number) for number in ROUND_B]
        for name, call in LIST_CALLS.items():
            self.assertEqual(call(numbers), call(ROUND_B), name)
            self.raises(TypeError, "[1] is no whole number but of type float", call, [0, 0.0, 4, 4])
            self.raises(TypeError, "[3] is no whole number but of type str", call, [0, 0, 4, "4"])
            self.raises(OverflowError, "[2] is no signed 32-bit number", call, [0, 0, 2**31, 4])
        for call in (feltloquat.verdict, feltloquat.word):
            self.assertEqual(call(ROUND_B, five, five), call(ROUND_B, 5, 5))
            self.raises(TypeError, "east is no whole number but of type float", call, ROUND_B, 5.0, 5)
            self.raises(TypeError, "north is no whole number but of type str", call, ROUND_B, 5, "5")
            self.raises(OverflowError, "east is no signed 32-bit number", call, ROUND_B, -(2**31) - 1, 5)
        records = [numbers[place : place + 4] for place in range(0, 16, 4)]
        self.assertEqual(feltloquat.verdict_on_records(records, five, five), feltloquat.verdict(ROUND_B, 5, 5))
        self.raises(TypeError, "records[1][2] is no whole", feltloquat.verdict_on_records, [(0, 0, 4, 4), (0, 0, 4.0, 4)], 2, 2)
        self.raises(OverflowError, "records[1][3] is no", feltloquat.verdict_on_records, [(0, 0, 4, 4), (0, 0, 4, 2**31)], 2, 2)
        self.raises(TypeError, "east is no whole number", feltloquat.verdict_on_records, records, 5.0, 5)

    @unittest.skipIf(numpy is None, "numpy is not installed")
    def test_whole_numbers_of_numpy(self):
        five, numbers = numpy.int64(5), list(numpy.array(ROUND_B, dtype=numpy.int64))
        self.assertEqual(feltloquat.verdict(numbers, five, five), feltloquat.verdict(ROUND_B, 5, 5))
        self.raises(TypeError, "east is no whole number but of type float64", feltloquat.word, ROUND_B, numpy.float64(5), 5)

    def test_iterators(self):
        file = feltloquat.write_round(ROUND_B, [2, 5])
        for calls, values in ((LIST_CALLS, ROUND_B), (FILE_CALLS, file)):
            for name, call in calls.items():
                wanted = call(values)
                self.assertEqual(call(tuple(values)), wanted, name)
                self.assertEqual(call(iter(values)), wanted, name)
                self.assertEqual(call(value for value in values), wanted, name)
        records = rounds.records_of(ROUND_B)
        self.assertEqual(feltloquat.verdict_on_records(map(iter, records), 2, 5), feltloquat.verdict(ROUND_B, 2, 5))
        for call in (*LIST_CALLS.values(), *FILE_CALLS.values(), lambda records: feltloquat.verdict_on_records(records, 2, 5)):
            self.raises(TypeError, "of type NoneType", call, None)

    def test_buffers_are_read_with_no_copy(self):
        many = [0, 0, 1, 1] * 100000
        file = feltloquat.write_round(ROUND_B, [2, 5])
        for name, buffer in number_buffers(ROUND_B)[0].items():
            for call in LIST_CALLS:
                self.assertEqual(LIST_CALLS[call](buffer), LIST_CALLS[call](ROUND_B), (call, name))
        for name, buffer in number_buffers(many)[0].items():
            records = memoryview(buffer).cast("B").cast("i", [100000, 4])
            calls = [lambda: feltloquat.verdict(buffer, 2, 5), lambda: feltloquat.word(buffer, 2, 5)]
            calls += [lambda: feltloquat.outer_polygon_into(buffer, []), lambda: feltloquat.corner_polygons_into(buffer, [])]
            calls += [lambda: feltloquat.write_round_into(buffer, [], []), lambda: feltloquat.verdict_on_records(records, 2, 5)]
            for call in calls:
                self.without_copy(call, ("refused", 3, 100000), name)
            self.without_copy(lambda: feltloquat.write_round_into(ROUND_B, buffer, []), ("refused", 7, 2000074), name)
        for name, buffer in byte_buffers(file)[0].items():
            for call in FILE_CALLS:
                self.assertEqual(FILE_CALLS[call](buffer), FILE_CALLS[call](file), (call, name))
        for name, buffer in byte_buffers(bytes(400000))[0].items():
            self.without_copy(lambda: feltloquat.read_round_into(buffer, [], []), ("refused", 8, 0), name)
        for name, buffer in number_buffers(ROUND_B)[0].items():
            records = memoryview(buffer).cast("B").cast("i", [4, 4])
            self.assertEqual(feltloquat.verdict_on_records(records, 2, 5), feltloquat.verdict(ROUND_B, 2, 5), name)

    def without_copy(self, call, wanted, case):
        """The call's answer; it takes far less memory than a copy of 400,000 items would."""
        tracemalloc.start()
        try:
            given = answer_of(call)
            peak = tracemalloc.get_traced_memory()[1]
        finally:
            tracemalloc.stop()
        self.assertEqual(given, wanted, case)
        self.assertLess(peak, 100000, case)

    def test_buffers_are_written_with_no_copy(self):
        for call in (feltloquat.outer_polygon_into, feltloquat.corner_polygons_into):
            wanted = list(range(100, 140))
            count = call(ROUND_B, wanted)
            self.assertEqual(wanted[32:], list(range(132, 140)))
            for name, buffer in number_buffers(list(range(100, 140)))[1].items():
                self.assertEqual(call(array("i", ROUND_B), buffer), count, name)
                self.assertEqual(list(buffer), wanted, name)
                self.assertEqual(answer_of(call, ROUND_B, memoryview(buffer)[:31]), ("refused", 7, 32), name)
                self.assertEqual(list(buffer), wanted, name)
            for name, buffer in number_buffers([7] * 400000)[1].items():
                self.without_copy(lambda: call(ROUND_B, buffer), count, name)
        file = feltloquat.write_round(ROUND_B, [2, 5])
        for name, boxes in number_buffers([7] * 20)[1].items():
            plugs = number_buffers([7] * 5)[1][name]
            self.assertEqual(feltloquat.read_round_into(file, boxes, plugs), (4, 1), name)
            self.assertEqual((list(boxes), list(plugs)), (ROUND_B + [7] * 4, [2, 5] + [7] * 3), name)
        for name, buffer in byte_buffers([7] * 90)[1].items():
            self.assertEqual(feltloquat.write_round_into(ROUND_B, [2, 5], buffer), 84, name)
            self.assertEqual(bytes(buffer), file + bytes([7] * 6), name)
        for name, buffer in number_buffers([7] * 400000)[1].items():
            self.without_copy(lambda: feltloquat.read_round_into(file, buffer, [7] * 2), (4, 1), name)
            self.without_copy(lambda: feltloquat.read_round_into(file, [7] * 16, buffer), (4, 1), name)
        for name, buffer in byte_buffers([7] * 400000)[1].items():
            self.without_copy(lambda: feltloquat.write_round_into(ROUND_B, [2, 5], buffer), 84, name)
        numbers = [7] * 90
        self.assertEqual(feltloquat.write_round_into(ROUND_B, [2, 5], numbers), 84)
        self.assertEqual(numbers, list(file) + [7] * 6)

    def test_what_cannot_be_written(self):
        file = feltloquat.write_round(ROUND_B, [2, 5])
        boxes, plugs, own = [7] * 16, [7] * 2, array("i", [7] * 32)
        frozen = memoryview(own).toreadonly()
        for call in (feltloquat.outer_polygon_into, feltloquat.corner_polygons_into):
            self.raises(TypeError, "buffer is read-only", call, ROUND_B, frozen)
            self.raises(TypeError, "buffer is read-only", call, [], frozen)
            self.raises(TypeError, "buffer is neither a list nor a buffer", call, ROUND_B, (7,) * 32)
            self.raises(TypeError, "buffer is neither a list nor a buffer", call, ROUND_B, iter([7] * 32))
            self.raises(TypeError, "buffer is neither a list nor a buffer", call, ROUND_B, dict.fromkeys(range(32)))
            self.raises(TypeError, "buffer[31] is no whole number", call, ROUND_B, [7] * 31 + [7.0])
        self.raises(TypeError, "boxes is read-only", feltloquat.read_round_into, file, frozen, plugs)
        self.raises(TypeError, "plugs is read-only", feltloquat.read_round_into, file, boxes, frozen)
        self.raises(TypeError, "file is read-only", feltloquat.write_round_into, ROUND_B, [2, 5], bytes(90))
        self.assertEqual((boxes, plugs, list(own)), ([7] * 16, [7] * 2, [7] * 32))

    def test_other_buffers_are_copied(self):
        numbers = [
            *(array(code, ROUND_B) for code in "qlILHhBb"),
            bytes(ROUND_B),
            (ctypes.c_int64 * 16)(*ROUND_B),
            (ctypes.c_int32.__ctype_be__ * 16)(*ROUND_B),
            memoryview(array("i", [number for number in ROUND_B for _ in range(2)]))[::2],
            memoryview(array("i", ROUND_B[::-1]))[::-1],
            memoryview(b"\0" + array("i", ROUND_B).tobytes())[1:].cast("i"),
            *([numpy.array(ROUND_B), numpy.repeat(numpy.array(ROUND_B, dtype=numpy.int32), 2)[::2]] if numpy is not None else []),
        ]
        for buffer in numbers:
            for name, call in LIST_CALLS.items():
                self.assertEqual(call(buffer), call(ROUND_B), (name, buffer))
        file = feltloquat.write_round(ROUND_B, [2, 5])
        for buffer in (array("i", list(file)), array("H", list(file)), memoryview(file[::-1])[::-1]):
            for name, call in FILE_CALLS.items():
                self.assertEqual(call(buffer), call(file), (name, buffer))
        wide = [(ctypes.c_int64 * 4)(*record) for record in rounds.records_of(ROUND_B)]
        for records in (wide, (ctypes.c_int64 * 4 * 4)(*wide)):
            self.assertEqual(feltloquat.verdict_on_records(records, 2, 5), feltloquat.verdict(ROUND_B, 2, 5))

    def test_buffers_that_are_no_lists(self):
        square = memoryview(array("i", ROUND_B)).cast("B").cast("i", [4, 4])
        for call in LIST_CALLS.values():
            self.raises(TypeError, "[0] is no whole number but of type float", call, array("f", ROUND_B))
            for buffer in (square, memoryview((ctypes.c_int32.__ctype_be__ * 16)(*ROUND_B))):
                self.raises(TypeError, "is no list of signed 32-bit numbers but of type memoryview", call, buffer)
            self.raises(OverflowError, "[2] is no signed 32-bit number", call, array("q", [0, 0, 2**31, 4]))
        for call in FILE_CALLS.values():
            self.raises(TypeError, "file[0] is no whole number but of type float", call, array("d", [0]))
            self.raises(ValueError, "file[0] is no byte", call, array("H", [0x15B, 0x100]))
        self.raises(TypeError, "records[0] is no list of four edges", feltloquat.verdict_on_records, array("i", ROUND_B), 2, 5)

    def test_other_targets_are_copied_and_given_back(self):
        for call in (feltloquat.outer_polygon_into, feltloquat.corner_polygons_into):
            wanted = [7] * 34
            count = call(ROUND_B, wanted)
            targets = [
                UserList([7] * 34),
                deque([7] * 34),
                array("q", [7] * 34),
                (ctypes.c_int64 * 34)(*[7] * 34),
                (ctypes.c_int32.__ctype_be__ * 34)(*[7] * 34),
                memoryview(array("i", [7] * 68))[::2],
                memoryview(bytearray(b"\0" + array("i", [7] * 34).tobytes()))[1:].cast("i"),
                *([numpy.array([7] * 34), numpy.array([7] * 68)[::2]] if numpy is not None else []),
            ]
            for target in targets:
                self.assertEqual((call(ROUND_B, target), list(target)), (count, wanted), target)
            short = UserList([7] * 31)
            self.assertEqual((answer_of(call, ROUND_B, short), list(short)), (("refused", 7, 32), [7] * 31))
            for narrow in (array("h", [7] * 34), array("I", [7] * 34), array("f", [7] * 34), bytearray(34)):
                self.raises(TypeError, "buffer has format", call, ROUND_B, narrow)
        file = feltloquat.write_round(ROUND_B, [2, 5])
        boxes, plugs = UserList([7] * 17), UserList([7] * 3)
        self.assertEqual(feltloquat.read_round_into(file, boxes, plugs), (4, 1))
        self.assertEqual((boxes, plugs), (ROUND_B + [7], [2, 5, 7]))
        for target in (UserList([7] * 85), array("i", [7] * 85), memoryview(bytearray([7] * 170))[::2]):
            self.assertEqual(feltloquat.write_round_into(ROUND_B, [2, 5], target), 84)
            self.assertEqual(list(target), [*file, 7])

    def test_shared_memory(self):
        own = array("i", ROUND_B + [7] * 32)
        whole, before = memoryview(own), own.tolist()
        for call in (feltloquat.outer_polygon_into, feltloquat.corner_polygons_into):
            self.raises(ValueError, "shares memory", call, whole[:16], own)
            self.raises(ValueError, "shares memory", call, whole[:16], whole[15:47])
            self.raises(ValueError, "shares memory", call, whole[32:], whole[:33])
        file = feltloquat.write_round(ROUND_B, [2, 5])
        numbers = [7] * 16
        self.raises(ValueError, "shares memory", feltloquat.read_round_into, file, own, whole[46:])
        self.raises(ValueError, "one list", feltloquat.read_round_into, file, numbers, numbers)
        self.raises(ValueError, "shares memory", feltloquat.write_round_into, whole[:16], [2, 5], whole.cast("B"))
        self.raises(ValueError, "shares memory", feltloquat.write_round_into, ROUND_B, whole[46:], whole.cast("B"))
        self.assertEqual((own.tolist(), numbers), (before, [7] * 16))
        self.assertEqual(feltloquat.outer_polygon_into(whole[:16], whole[16:]), 4)
        self.assertEqual(own.tolist()[:16], ROUND_B)

    def test_buffers_are_free_after_the_call(self):
        """An array that is held cannot be resized. A refusal's traceback holds the frames of the call."""
        boxes, numbers, file = array("i", ROUND_B), array("i", [0] * 31), bytearray(83)
        calls = [
            lambda: feltloquat.word(boxes, 16001, 0),
            lambda: feltloquat.word(boxes, 0.0, 0),
            lambda: feltloquat.outer_polygon_into(boxes, numbers),
            lambda: feltloquat.outer_polygon_into(boxes, file),
            lambda: feltloquat.write_round_into(boxes, numbers, file),
            lambda: feltloquat.outer_polygon_into(file, numbers),
            lambda: feltloquat.read_round_into(file, numbers, boxes),
        ]
        for call in calls:
            with self.assertRaises((feltloquat.Refused, TypeError)):
                try:
                    call()
                finally:
                    for buffer in (boxes, numbers, file):
                        buffer.append(0)
                        buffer.pop()
        numbers = array("i", [0, 0, 4] * 4)
        records = memoryview(numbers).cast("B").cast("i", [4, 3])
        with self.assertRaises(ValueError):
            try:
                feltloquat.verdict_on_records(records, 2, 5)
            finally:
                records.release()
                numbers.append(0)

    def test_empty_lists(self):
        for empty in ([], (), iter([]), array("i"), memoryview(array("i")), (ctypes.c_int32 * 0)(), (ctypes.c_int32 * 0).from_address(0)):
            self.assertEqual(answer_of(feltloquat.word, empty, 0, 0), ("refused", 2, 0))
        for empty in ([], b"", bytearray(), iter([]), (ctypes.c_uint8 * 0).from_address(0)):
            self.assertEqual(answer_of(feltloquat.read_round, empty), ("refused", 9, 0))
        for empty in ([], iter([])):
            self.assertEqual(answer_of(feltloquat.verdict_on_records, empty, 0, 0), ("refused", 2, 0))
        self.assertEqual(feltloquat.write_round(ROUND_B, array("i")), feltloquat.write_round(ROUND_B, []))

    def test_import_without_the_shared_object(self):
        with tempfile.TemporaryDirectory() as folder:
            folder = os.path.realpath(folder)
            binding = os.path.join(folder, "bindings", "python", "feltloquat.py")
            os.makedirs(os.path.dirname(binding))
            shutil.copy(feltloquat.__file__, binding)
            default, named = os.path.join(folder, "target", "library", "libfeltloquat.so"), os.path.join(folder, "named.so")
            for variable, place in ((None, default), ("", default), (named, named), ("libc.so.6", "libc.so.6")):
                with self.assertRaises(OSError) as caught:
                    self.imported(binding, variable)
                for text in (place, "./library", "FELTLOQUAT_LIBRARY"):
                    self.assertIn(text, str(caught.exception))
            self.assertEqual(self.imported(binding, feltloquat._PLACE).word(ROUND_B, 5, 5), "inside")
            beside = os.path.join(folder, "target", "staticlib", "libfeltloquat.so")
            for place in (beside, default):
                os.makedirs(os.path.dirname(place))
                shutil.copy(feltloquat._PLACE, place)
                found = self.imported(binding, None)
                self.assertEqual((found._PLACE, found.word(ROUND_B, 5, 5)), (place, "inside"))

    def imported(self, path, variable):
        """The binding at a path, imported with the environment variable as said."""
        specification = importlib.util.spec_from_file_location("feltloquat_elsewhere", path)
        module = importlib.util.module_from_spec(specification)
        with unittest.mock.patch.dict(os.environ):
            os.environ.pop("FELTLOQUAT_LIBRARY", None)
            if variable is not None:
                os.environ["FELTLOQUAT_LIBRARY"] = variable
            specification.loader.exec_module(module)
        return module

    def test_names_and_types(self):
        """__all__ has every public name of the module itself, and every call says the types of all that it takes and gives."""
        members = {name: value for name, value in vars(feltloquat).items() if getattr(value, "__module__", "feltloquat") == "feltloquat"}
        public = [name for name, value in members.items() if not name.startswith("_") and not inspect.ismodule(value)]
        self.assertEqual(sorted(feltloquat.__all__), sorted(public))
        for call in filter(inspect.isfunction, members.values()):
            self.assertEqual(set(typing.get_type_hints(call)), {*inspect.signature(call).parameters, "return"}, call)

    def test_version(self):
        with open(os.path.join(HERE, "..", "rust", "Cargo.toml"), encoding="utf-8") as file:
            self.assertEqual(feltloquat.__version__, re.search('^version = "(.*)"$', file.read(), re.MULTILINE).group(1))


class Random(unittest.TestCase):
    """Random rounds and files, against the oracle."""

    def test_rounds(self):
        generator = cases.Generator(SEED)
        kinds = (cases.small_round, cases.degenerate_round, cases.ring_round, cases.edge_round)
        words = dict.fromkeys(feltloquat.WORDS[1:], 0)
        start = time.time()
        for number in range(ROUNDS):
            boxes, plug = kinds[number % 4](generator)
            case = "seed %d, round %d: boxes %s, plug %s" % (SEED, number, boxes, plug)
            given = feltloquat.verdict(boxes, *plug)
            self.assertEqual(("verdict", given.word), rounds.verdict(boxes, tuple(plug)), case)
            self.assertEqual(given.word, feltloquat.word(boxes, *plug), case)
            self.assertEqual(given, feltloquat.verdict_on_records(rounds.records_of(boxes), *plug), case)
            if given.word == "undecided":
                self.assertIsNone(rounds.check_reasons(boxes, tuple(plug), reasons_of(given)), case)
            words[given.word] += 1
        print("rounds, seed %d: %d verdicts agreed %s, %.1f s" % (SEED, ROUNDS, words, time.time() - start))

    def test_polygons(self):
        generator = cases.Generator(SEED)
        start = time.time()
        for number in range(ROUNDS // 4):
            boxes, _ = cases.small_round(generator)
            length = 2 * len(boxes) + generator.below(4) - 1
            case = "seed %d, round %d: boxes %s, buffer %d" % (SEED, number, boxes, length)
            self.compare_polygons(boxes, length, case)
        print("polygons, seed %d: %d rounds agreed, %.1f s" % (SEED, ROUNDS // 4, time.time() - start))

    def compare_polygons(self, boxes, length, case):
        """Both polygon calls, with the buffer afterwards. The start of a polygon is open."""
        needed, before = 2 * len(boxes), list(range(100, 100 + length))
        records = rounds.records_of(boxes)
        calls = [
            (lambda buffer: (feltloquat.outer_polygon_into(boxes, buffer),), [rounds.all_corners(records)]),
            (
                lambda buffer: feltloquat.corner_polygons_into(boxes, buffer),
                [[rounds.corner(record, name) for record in records] for name in range(4)],
            ),
        ]
        for call, points in calls:
            after = list(before)
            counts = answer_of(call, after)
            refusal = rounds.check_length(length, needed)
            if refusal is not None:
                self.assertEqual((counts, after), (("refused",) + refusal, before), case)
                continue
            numbers = after[:needed]
            for listed, count in zip(points, counts):
                vertices = [(numbers[2 * place], numbers[2 * place + 1]) for place in range(count)]
                self.assertIsNone(rounds.check_polygon(listed, vertices), case)
                self.assertEqual(len(vertices), len(rounds.polygon(listed)), case)
                del numbers[: 2 * count]
            self.assertEqual((numbers, after[needed:]), ([0] * len(numbers), before[needed:]), case)

    def test_refusals(self):
        generator = cases.Generator(SEED)
        causes = {}
        start = time.time()
        for number in range(ROUNDS // 16):
            boxes, plug = cases.small_round(generator)
            for _ in range(1 + generator.below(2)):
                boxes, plug = self.spoilt(generator, boxes, plug)
            case = "seed %d, round %d: boxes %s, plug %s" % (SEED, number, boxes[:40], plug)
            for call, cause in self.refused_calls(generator, boxes, plug, case):
                causes.setdefault(call, set()).add(cause)
        self.assertEqual(
            causes,
            {
                "verdict": {1, 2, 3, 4, 5, 6},
                "word": {1, 2, 3, 4, 5, 6},
                "verdict_on_records": {2, 3, 4, 5, 6},
                "outer_polygon": {1, 2, 3, 4, 5, 7},
                "corner_polygons": {1, 2, 3, 4, 5, 7},
                "write_round": {1, 2, 3, 4, 5, 6, 7},
            },
        )
        print("refusals, seed %d: agreed %s, %.1f s" % (SEED, causes, time.time() - start))

    def refused_calls(self, generator, boxes, plug, case):
        """Every call that checks boxes, where it is refused, with its cause. The answer is the refusal, and the lent buffer is as it was."""
        refusal = rounds.check_boxes(boxes) or rounds.check_plug(tuple(plug))
        if refusal is not None:
            for name in ("verdict", "word"):
                self.assertEqual(answer_of(getattr(feltloquat, name), boxes, *plug), ("refused",) + refusal, case)
                yield name, refusal[0]
            if len(boxes) % 4 == 0:
                records = rounds.records_of(boxes)
                self.assertEqual(rounds.verdict_records(records, tuple(plug)), ("refused",) + refusal, case)
                self.assertEqual(answer_of(feltloquat.verdict_on_records, records, *plug), ("refused",) + refusal, case)
                yield "verdict_on_records", refusal[0]
        before = list(range(100, 100 + max(2 * len(boxes) - generator.below(2), 0)))
        refusal = rounds.check_polygon_call(boxes, before)
        if refusal is not None:
            for name in ("outer_polygon", "corner_polygons"):
                after = list(before)
                self.assertEqual(answer_of(getattr(feltloquat, name + "_into"), boxes, after), ("refused",) + refusal, case)
                self.assertEqual(after, before, case)
                yield name, refusal[0]
        plugs, before = list(plug) + [0] * generator.below(2), bytes(range(100, 100 + generator.below(60)))
        wanted, buffer = files.write_into(boxes, plugs, before)
        if wanted[0] == "refused":
            after = bytearray(before)
            self.assertEqual(answer_of(feltloquat.write_round_into, boxes, plugs, after), wanted, case)
            self.assertEqual((bytes(after), buffer), (before, before), case)
            yield "write_round", wanted[1]

    def spoilt(self, generator, boxes, plug):
        """A round with one more fault."""
        kind, boxes, plug = generator.below(6), list(boxes), list(plug)
        place = generator.below(max(len(boxes), 1))
        if kind == 0:
            boxes = boxes + [0] * (1 + generator.below(3))
        elif kind == 1:
            boxes = []
        elif kind == 2:
            boxes = [0, 0, 1, 1] * (1025 + generator.below(2))
        elif kind == 3 and boxes:
            boxes[place] = (16001, -16001, 2**31 - 1, -(2**31))[generator.below(4)]
        elif kind == 4 and len(boxes) >= 4:
            place -= place % 4
            boxes[place] = min(boxes[min(place + 2, len(boxes) - 1)] + 1, 2**31 - 1)
        else:
            plug[generator.below(2)] = (16001, -16001)[generator.below(2)]
        return boxes, plug

    def test_files(self):
        generator = cases.Generator(SEED)
        start = time.time()
        for number in range(FILES):
            boxes, plugs = cases.small_round(generator)
            file = bytearray(files.file_bytes(boxes, plugs))
            self.assertEqual(feltloquat.write_round(boxes, plugs), bytes(file))
            place = generator.below(len(file))
            damage = generator.below(4)
            if damage == 0:
                file[place] ^= 1 << generator.below(8)
            elif damage == 1:
                del file[place]
            elif damage == 2:
                file.insert(place, generator.below(256))
            lengths = (len(boxes) + generator.below(3) - 1, len(plugs) + generator.below(3) - 1)
            lists = [files.UNTOUCHED_NUMBER] * lengths[0], [files.UNTOUCHED_NUMBER] * lengths[1]
            given = answer_of(feltloquat.read_round_into, file, *lists)
            wanted, *after = files.read(bytes(file), *lengths)
            case = "seed %d, file %d: %s, lengths %s" % (SEED, number, file.hex(), lengths)
            self.assertEqual(given, wanted if wanted[0] == "refused" else wanted[1:], case)
            self.assertEqual(list(lists), after, case)
            self.assertEqual(feltloquat.print_round(file), printing.print_text(bytes(file)).decode("ascii"), case)
        print("files, seed %d: %d agreed, %.1f s" % (SEED, FILES, time.time() - start))


if __name__ == "__main__":
    unittest.main()
