"""Round areas from stop boxes: polygons and plug verdicts, over the proved library.

A box is four whole numbers in metres from the depot's datum: west, south, east, north. A round has 1 to 1,024 boxes, given as one flat
list of numbers, four to a box. A plug is an east and a north. Every number is from -16,000 to 16,000. Boxes and plugs are numbered from 1.

    >>> import feltloquat
    >>> boxes = [0, 0, 2, 2, 8, 0, 10, 2, 8, 8, 10, 10, 0, 8, 2, 10]
    >>> feltloquat.verdict(boxes, 5, 5).word
    'inside'
    >>> feltloquat.word(boxes, 11, 5)
    'outside'
    >>> sorted(feltloquat.outer_polygon(boxes))
    [(0, 0), (0, 10), (10, 0), (10, 10)]
    >>> feltloquat.word([0, 0, 1, 1, 0, 0, 16001, 1], 0, 0)
    Traceback (most recent call last):
    feltloquat.Refused: refused 4 2: box edge beyond 16,000

What every call takes:

- A whole number is anything with __index__: an int, a numpy.int64. Else TypeError; beyond signed 32 bits OverflowError.
- A list of numbers is any iterable of whole numbers, which is copied. A buffer of signed 32-bit numbers that is contiguous, aligned and of
  one dimension (array.array("i"), numpy.int32, memoryview, ctypes) is lent to the library with no copy.
- A file is any iterable of whole numbers from 0 to 255 (else ValueError); a contiguous buffer of bytes is lent with no copy.
- What a call writes into is a list or what is like one, or a buffer whose items hold every number; else TypeError. Such a buffer as above
  is written in place, and may share no memory with the other lists of the call: ValueError. All else is copied, and then given back.

All that is checked before the library is called. A buffer is held during the call only; nothing else may change it then.

    >>> from array import array
    >>> feltloquat.word(array("i", boxes), 5, 5)
    'inside'

The shared object is linked from the static library by the system's compiler, at the root of the repository:

    ./library

It is looked for there, in target/library and then in target/staticlib, or where the environment variable FELTLOQUAT_LIBRARY says; an
OSError says where it was not found.
include/feltloquat.h says what each call promises. For CPython.
"""

import ctypes
import operator
import os
import struct
from collections.abc import Callable, Iterable, Mapping, MutableSequence, Sequence
from typing import Any, Literal, NamedTuple, Optional, Protocol, SupportsIndex, Union

__all__ = [
    "CAUSES",
    "CORNERS",
    "WORDS",
    "Direction",
    "Entry",
    "Refused",
    "Verdict",
    "corner_polygons",
    "corner_polygons_into",
    "outer_polygon",
    "outer_polygon_into",
    "print_round",
    "read_round",
    "read_round_into",
    "verdict",
    "verdict_on_records",
    "word",
    "write_round",
    "write_round_into",
]
__version__ = "0.1.0"

_Corner = Literal["SW", "SE", "NE", "NW"]
_Word = Literal["inside", "outside", "undecided"]

CORNERS: tuple[_Corner, ...] = ("SW", "SE", "NE", "NW")
WORDS: tuple[Any, ...] = (None, "inside", "outside", "undecided")
CAUSES = {
    1: "box list not a multiple of 4 numbers, or plug list not of 2",
    2: "no box",
    3: "more than 1,024 boxes",
    4: "box edge beyond 16,000",
    5: "west over east, or south over north",
    6: "plug beyond 16,000",
    7: "buffer shorter than needed",
    8: "unknown mark",
    9: "file stops within a record, or with no end record",
    10: "box after a plug",
    11: "byte after the end record",
    12: "program input over 65,536 bytes",
}


class Refused(ValueError):
    """A call was turned back: the number of the cause in the table, and its place. Equal if both are."""

    def __init__(self, number: int, place: int) -> None:
        super().__init__("refused %d %d: %s" % (number, place, CAUSES.get(number, "unknown cause")))
        self.number = number
        self.place = place

    def __reduce__(self) -> tuple[Any, ...]:
        return type(self), (self.number, self.place), self.__dict__

    def __eq__(self, other: object) -> bool:
        return (self.number, self.place) == (other.number, other.place) if isinstance(other, Refused) else NotImplemented

    def __hash__(self) -> int:
        return hash((self.number, self.place))


class Direction(NamedTuple):
    """The first driver's reason: that corner of every box is the pick, and none is ahead of the plug in the direction."""

    corner: _Corner
    east: int
    north: int


class Entry(NamedTuple):
    """An entry of the second driver's reason: a box number from 1, a corner name and a weight."""

    box_number: int
    corner: _Corner
    weight: int


class Verdict(NamedTuple):
    """A word; where it is 'undecided' a Direction and three Entries whose weighted sum of (corner - plug) is zero, else None."""

    word: _Word
    direction: Optional[Direction]
    entries: Optional[tuple[Entry, Entry, Entry]]


class _Buffer(Protocol):
    """Anything with Python's buffer protocol."""

    def __buffer__(self, flags: int, /) -> memoryview: ...


_Numbers = Union[Iterable[SupportsIndex], _Buffer]
_Records = Union[Iterable[Iterable[SupportsIndex]], _Buffer]
_Writable = Union[MutableSequence[int], _Buffer]
_Point = tuple[int, int]


# ---- the structs of include/feltloquat.h


class _Answer(ctypes.Structure):
    _fields_ = [("refused", ctypes.c_uint32), ("place", ctypes.c_uint64)]


class _OuterAnswer(_Answer):
    _fields_ = [("vertices", ctypes.c_size_t)]


class _CornersAnswer(_Answer):
    _fields_ = [(name, ctypes.c_size_t) for name in ("southwest", "southeast", "northeast", "northwest")]


class _Entry(ctypes.Structure):
    _fields_ = [("number", ctypes.c_size_t), ("corner", ctypes.c_uint32), ("weight", ctypes.c_uint32)]


class _VerdictAnswer(_Answer):
    _fields_ = [
        ("word", ctypes.c_uint32),
        ("corner", ctypes.c_uint32),
        ("east", ctypes.c_int32),
        ("north", ctypes.c_int32),
        ("first", _Entry),
        ("second", _Entry),
        ("third", _Entry),
    ]


class _WordAnswer(_Answer):
    _fields_ = [("word", ctypes.c_uint32)]


class _Box(ctypes.Structure):
    _fields_ = [(name, ctypes.c_int32) for name in ("west", "south", "east", "north")]


class _ReadAnswer(_Answer):
    _fields_ = [("boxes", ctypes.c_size_t), ("plugs", ctypes.c_size_t)]


class _WriteAnswer(_Answer):
    _fields_ = [("bytes", ctypes.c_size_t)]


# ---- lists as the library takes them: a view of memory, released after the call


class _Kind(NamedTuple):
    """What a list is made of: its code for struct; the codes of buffers that are lent with no copy; those whose items, of
    that size or more, hold every number; and the error for a number out of its range."""

    name: str
    code: str
    codes: tuple[str, ...]
    wide: tuple[str, ...]
    size: int
    least: int
    most: int
    error: type[Exception]


_NUMBER = _Kind("signed 32-bit number", "i", ("i", "l"), tuple("ilqn"), 4, -(2**31), 2**31 - 1, OverflowError)
_BYTE = _Kind("byte", "B", ("B", "b", "c"), tuple("BHILQNhilqn"), 1, 0, 255, ValueError)


def _whole_number(value: SupportsIndex, kind: _Kind, name: str) -> int:
    try:
        number = operator.index(value)
    except TypeError:
        raise TypeError("%s is no whole number but of type %s" % (name, type(value).__name__)) from None
    if not kind.least <= number <= kind.most:
        raise kind.error("%s is no %s: it is not from %d to %d" % (name, kind.name, kind.least, kind.most))
    return number


def _plug(east: SupportsIndex, north: SupportsIndex) -> _Point:
    return _whole_number(east, _NUMBER, "east"), _whole_number(north, _NUMBER, "north")


def _blank(count: int, kind: _Kind) -> memoryview:
    return memoryview(bytearray(count * kind.size)).cast(kind.code)


def _copied(values: Sequence[SupportsIndex], kind: _Kind, name_of: Callable[[int], str]) -> memoryview:
    """A view of a copy. struct takes what has __index__; where it fails, the first fault is named."""
    try:
        packed = struct.pack("%d%s" % (len(values), kind.code), *values)
    except struct.error:
        for place, value in enumerate(values):
            _whole_number(value, kind, name_of(place))
        raise
    return memoryview(_Copy(packed)).cast(kind.code)


class _Copy(bytearray):
    """The memory of a copy."""


def _viewed(values: Any) -> Optional[memoryview]:
    """A view of a buffer's own memory; None for what is no buffer."""
    try:
        return memoryview(values)
    except TypeError:
        return None


def _fits(view: memoryview, kind: _Kind, dimensions: int = 1) -> bool:
    """Whether the library can take the view's own memory."""
    if view.format.lstrip("@=<") not in kind.codes or (view.itemsize, view.ndim) != (kind.size, dimensions):
        return False
    return view.c_contiguous and _address(view) % kind.size == 0


def _listed(values: Any, name: str, items: str) -> list[Any]:
    fault = "%s is no list of %s but of type %s" % (name, items, type(values).__name__)
    try:
        numbers = iter(values)
    except (TypeError, NotImplementedError):
        raise TypeError(fault) from None
    try:
        return list(numbers)
    except NotImplementedError:  # a memoryview of items that it does not read
        raise TypeError(fault) from None


def _lent(values: _Numbers, kind: _Kind, name: str) -> memoryview:
    """A list for the library to read."""
    if not isinstance(values, (list, tuple)):
        view = _viewed(values)
        if view is not None:
            if _fits(view, kind):
                return view
            view.release()
        values = _listed(values, name, kind.name + "s")
    return _copied(values, kind, lambda place: "%s[%d]" % (name, place))


def _lent_to_write(values: _Writable, kind: _Kind, name: str) -> memoryview:
    """A list or a buffer for the library to write into: its own memory, or a copy that _give_back writes there."""
    view = None if isinstance(values, list) else _viewed(values)
    if view is not None:
        fault = ""
        if view.readonly:
            fault = "is read-only"
        elif _fits(view, kind):
            return view
        elif view.format.lstrip("@=<>!") not in kind.wide or view.itemsize < kind.size:
            fault = "has format %r with %d bytes an item" % (view.format, view.itemsize)
        view.release()
        if fault:
            raise TypeError("%s %s; needed is a writable buffer that holds every %s" % (name, fault, kind.name))
    elif not hasattr(type(values), "__setitem__") or isinstance(values, Mapping):
        raise TypeError("%s is neither a list nor a buffer, but of type %s" % (name, type(values).__name__))
    return _copied(_listed(values, name, kind.name + "s"), kind, lambda place: "%s[%d]" % (name, place))


def _give_back(values: Any, view: memoryview) -> None:
    """Writes into a list or a buffer what the library wrote into its copy."""
    if isinstance(values, list):
        values[:] = view.tolist()
    elif isinstance(view.obj, _Copy):
        for place, number in enumerate(view):
            values[place] = number


def _lent_records(records: _Records) -> memoryview:
    """Records for the library to read: their edges one behind another, or a buffer of two dimensions."""
    view = None if isinstance(records, (list, tuple)) else _viewed(records)
    if view is not None:
        fits, shape = _fits(view, _NUMBER, dimensions=2), view.shape
        if fits and shape[1] == 4:
            return view
        view.release()
        if fits:
            raise ValueError("records have %d edges each, not 4" % shape[1])
    edges: list[SupportsIndex] = []
    for place, record in enumerate(_listed(records, "records", "records")):
        if not isinstance(record, (list, tuple)):
            record = _listed(record, "records[%d]" % place, "four edges")
        if len(record) != 4:
            raise ValueError("records[%d] has %d edges, not 4" % (place, len(record)))
        edges += record
    return _copied(edges, _NUMBER, lambda place: "records[%d][%d]" % divmod(place, 4))


# ---- where a view's memory is: CPython's Py_buffer, which memoryview keeps to itself


class _PyBuffer(ctypes.Structure):
    _fields_ = [
        ("buf", ctypes.c_void_p),
        ("obj", ctypes.c_void_p),
        ("len", ctypes.c_ssize_t),
        ("itemsize", ctypes.c_ssize_t),
        ("readonly", ctypes.c_int),
        ("ndim", ctypes.c_int),
        ("format", ctypes.c_void_p),
        ("shape", ctypes.c_void_p),
        ("strides", ctypes.c_void_p),
        ("suboffsets", ctypes.c_void_p),
        ("internal", ctypes.c_void_p),
    ]


# Prototypes of our own: the functions of ctypes.pythonapi are shared by all modules, and so are types set on them.
_get_buffer = ctypes.PYFUNCTYPE(ctypes.c_int, ctypes.py_object, ctypes.POINTER(_PyBuffer), ctypes.c_int)(("PyObject_GetBuffer", ctypes.pythonapi))
_release_buffer = ctypes.PYFUNCTYPE(None, ctypes.POINTER(_PyBuffer))(("PyBuffer_Release", ctypes.pythonapi))
_NOTHING = ctypes.c_int64()


def _address(view: memoryview) -> int:
    """Where a view's memory starts; it stays there until the view is released. With no item, anywhere that is aligned."""
    if not view.nbytes:
        return ctypes.addressof(_NOTHING)
    buffer = _PyBuffer()
    _get_buffer(view, buffer, 0)
    _release_buffer(buffer)
    return buffer.buf


# ---- the library

_ROOT = os.path.dirname(os.path.dirname(os.path.dirname(os.path.realpath(__file__))))
_PLACES = [os.path.join(_ROOT, "target", folder, "libfeltloquat.so") for folder in ("library", "staticlib")]
_PLACE = os.environ.get("FELTLOQUAT_LIBRARY") or next(filter(os.path.exists, _PLACES), _PLACES[0])
_BUILD = "./library"


def _not_found(fault: Exception) -> OSError:
    return OSError(
        "feltloquat's shared object was looked for at %s, in vain: %s\n"
        "Build it at the root of the repository:\n    %s\n"
        "or say where it is in the environment variable FELTLOQUAT_LIBRARY." % (_PLACE, fault, _BUILD)
    )


try:
    _library = ctypes.CDLL(_PLACE)
except OSError as error:
    raise _not_found(error) from error


def _function(name: str, result: Any, arguments: list[Any]) -> Any:
    try:
        function = getattr(_library, "feltloquat_" + name)
    except AttributeError as error:
        raise _not_found(error) from error
    function.restype = result
    function.argtypes = arguments
    return function


def _declare(name: str, answer: Any, read: list[Any], written: list[Any], numbers: int = 0) -> Callable[..., Any]:
    """A call of the library: pointers and lengths for the lists that it reads, then for those that it writes; then 32-bit numbers. The call
    takes views and numbers. A refused answer is raised."""
    sizes = [ctypes.sizeof(item) for item in read + written]
    function = _function(name, answer, [ctypes.c_void_p, ctypes.c_size_t] * len(sizes) + [ctypes.c_int32] * numbers)

    def call(*arguments: Any) -> Any:
        words: list[int] = []
        spans: list[tuple[int, int]] = []
        for view, size in zip(arguments, sizes):
            start = _address(view)
            words += (start, view.nbytes // size)
            spans.append((start, start + view.nbytes))
        for place in range(len(read), len(sizes)):
            start, end = spans[place]
            if any(start < other_end and other_start < end for other_start, other_end in spans[:place]):
                raise ValueError("a buffer to be written shares memory with another list of the call")
        result = function(*words, *arguments[len(sizes) :])
        if result.refused:
            raise Refused(result.refused, result.place)
        return result

    return call


_outer_polygon = _declare("outer_polygon", _OuterAnswer, [ctypes.c_int32], [ctypes.c_int32])
_corner_polygons = _declare("corner_polygons", _CornersAnswer, [ctypes.c_int32], [ctypes.c_int32])
_verdict = _declare("verdict", _VerdictAnswer, [ctypes.c_int32], [], 2)
_word = _declare("word", _WordAnswer, [ctypes.c_int32], [], 2)
_verdict_on_records = _declare("verdict_on_records", _VerdictAnswer, [_Box], [], 2)
_read_round = _declare("read_round", _ReadAnswer, [ctypes.c_uint8], [ctypes.c_int32, ctypes.c_int32])
_write_round = _declare("write_round", _WriteAnswer, [ctypes.c_int32, ctypes.c_int32], [ctypes.c_uint8])
_print_round = _function("print_round", ctypes.c_size_t, [ctypes.c_void_p, ctypes.c_size_t, ctypes.c_void_p])


# ---- polygons


def outer_polygon_into(boxes: _Numbers, buffer: _Writable) -> int:
    """The outer polygon into a list or buffer, which needs 8 numbers for each box: east and north per vertex, then zeros up to 8 for each
    box; the numbers beyond are unchanged. Returns how many vertices there are. Refused by 1 to 5, then 7; the list is then as it was."""
    with _lent(boxes, _NUMBER, "boxes") as lent, _lent_to_write(buffer, _NUMBER, "buffer") as numbers:
        answer = _outer_polygon(lent, numbers)
        _give_back(buffer, numbers)
    return answer.vertices


def outer_polygon(boxes: _Numbers) -> list[_Point]:
    """The hull of all four corners of all boxes: its extreme points, each once, clockwise, as pairs. The start is open."""
    with _lent(boxes, _NUMBER, "boxes") as lent, _blank(2 * len(lent), _NUMBER) as numbers:
        return _points(numbers, [_outer_polygon(lent, numbers).vertices])[0]


def corner_polygons_into(boxes: _Numbers, buffer: _Writable) -> tuple[int, int, int, int]:
    """The corner polygons SW, SE, NE, NW into a list or buffer, one behind another, as outer_polygon_into does. Returns the four counts."""
    with _lent(boxes, _NUMBER, "boxes") as lent, _lent_to_write(buffer, _NUMBER, "buffer") as numbers:
        answer = _corner_polygons(lent, numbers)
        _give_back(buffer, numbers)
    return (answer.southwest, answer.southeast, answer.northeast, answer.northwest)


def corner_polygons(boxes: _Numbers) -> list[list[_Point]]:
    """The hulls of the SW, SE, NE and NW corner of every box, each as outer_polygon lists its own."""
    with _lent(boxes, _NUMBER, "boxes") as lent, _blank(2 * len(lent), _NUMBER) as numbers:
        answer = _corner_polygons(lent, numbers)
        return _points(numbers, [answer.southwest, answer.southeast, answer.northeast, answer.northwest])


def _points(numbers: memoryview, counts: list[int]) -> list[list[_Point]]:
    """The polygons with so many vertices, one behind another."""
    flat = numbers[: 2 * sum(counts)].tolist()
    points = list(zip(flat[::2], flat[1::2]))
    polygons = []
    for count in counts:
        polygons.append(points[:count])
        del points[:count]
    return polygons


# ---- verdicts


def verdict(boxes: _Numbers, east: SupportsIndex, north: SupportsIndex) -> Verdict:
    """The Verdict on the plug, with its reasons where it is undecided. Refused by 1 to 5, then 6 with place 1."""
    with _lent(boxes, _NUMBER, "boxes") as lent:
        return _verdict_of(_verdict(lent, *_plug(east, north)))


def word(boxes: _Numbers, east: SupportsIndex, north: SupportsIndex) -> _Word:
    """The verdict's word alone: 'inside', 'outside' or 'undecided'. Refused as verdict is."""
    with _lent(boxes, _NUMBER, "boxes") as lent:
        return WORDS[_word(lent, *_plug(east, north)).word]


def verdict_on_records(records: _Records, east: SupportsIndex, north: SupportsIndex) -> Verdict:
    """The same Verdict for boxes given as records: any iterable of iterables of four edges (west, south, east, north); a buffer of signed
    32-bit numbers with two dimensions, the second of 4, is lent with no copy. A record with another number of edges is a ValueError, before any
    call, that is not Refused: the table has no such cause. Refused by 2 to 5, then 6 with place 1."""
    with _lent_records(records) as lent:
        return _verdict_of(_verdict_on_records(lent, *_plug(east, north)))


def _verdict_of(answer: Any) -> Verdict:
    if WORDS[answer.word] != "undecided":
        return Verdict(WORDS[answer.word], None, None)
    direction = Direction(CORNERS[answer.corner], answer.east, answer.north)
    first, second, third = [Entry(e.number, CORNERS[e.corner], e.weight) for e in (answer.first, answer.second, answer.third)]
    return Verdict("undecided", direction, (first, second, third))


# ---- the round file


def read_round_into(file: _Numbers, boxes: _Writable, plugs: _Writable) -> tuple[int, int]:
    """Reads a round file into two lists or buffers, whose remainder is unchanged; returns how many boxes and plugs there are. Form only.
    Refused by the earliest fault of 8 to 11, then 7 for boxes, then 7 for plugs; the lists are then as they were."""
    if boxes is plugs:
        raise ValueError("boxes and plugs are one list")
    with (
        _lent(file, _BYTE, "file") as lent,
        _lent_to_write(boxes, _NUMBER, "boxes") as box_numbers,
        _lent_to_write(plugs, _NUMBER, "plugs") as plug_numbers,
    ):
        answer = _read_round(lent, box_numbers, plug_numbers)
        _give_back(boxes, box_numbers)
        _give_back(plugs, plug_numbers)
    return (answer.boxes, answer.plugs)


def read_round(file: _Numbers) -> tuple[list[int], list[int]]:
    """The boxes and the plugs of a round file, as two flat lists."""
    with _lent(file, _BYTE, "file") as lent:
        boxes, plugs = _blank(len(lent) // 18 * 4, _NUMBER), _blank(len(lent) // 10 * 2, _NUMBER)
        answer = _read_round(lent, boxes, plugs)
    return boxes[: 4 * answer.boxes].tolist(), plugs[: 2 * answer.plugs].tolist()


def write_round_into(boxes: _Numbers, plugs: _Numbers, file: _Writable) -> int:
    """Writes boxes, plugs and end into a bytearray, another buffer of bytes or a list, whose remainder is unchanged; returns the byte count.
    Refused by 1 to 5 for the boxes, then 1 and 6 for the plugs, then 7; the file is then as it was."""
    with (
        _lent(boxes, _NUMBER, "boxes") as lent_boxes,
        _lent(plugs, _NUMBER, "plugs") as lent_plugs,
        _lent_to_write(file, _BYTE, "file") as written,
    ):
        answer = _write_round(lent_boxes, lent_plugs, written)
        _give_back(file, written)
    return answer.bytes


def write_round(boxes: _Numbers, plugs: _Numbers) -> bytes:
    """A round as the bytes of a file without notes."""
    with _lent(boxes, _NUMBER, "boxes") as lent_boxes, _lent(plugs, _NUMBER, "plugs") as lent_plugs:
        file = _blank(len(lent_boxes) // 4 * 18 + len(lent_plugs) // 2 * 10 + 2, _BYTE)
        return bytes(file[: _write_round(lent_boxes, lent_plugs, file).bytes])


# ---- the printing program


def print_round(file: _Numbers) -> str:
    """The text that the printing program prints for a round file: one line 'refused NUMBER PLACE', 12 for more than 65,536 bytes; or
    'boxes COUNT plugs COUNT', then per plug its number and a word, or its number and 'refused 6'."""
    with _lent(file, _BYTE, "file") as lent, _blank(131072, _BYTE) as text:
        count = _print_round(_address(lent), len(lent), _address(text))
        return str(text[:count], "ascii")
