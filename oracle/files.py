"""The round file of docs/SCOPE.md, read and written by hand, with the refusals 1 to 11 and their places.

An answer is ("refused", number, place), or ("counts", boxes, plugs) from the reader, or ("count", bytes) from the writer.
"""

from . import rounds

BOX_MARK = 0x5B01
PLUG_MARK = 0x5B02
END_MARK = 0x5B00
NOTE_MARKS = range(0x5C00, 0x5D00)

# What an untouched place of a lent buffer holds, where only its length is given.
UNTOUCHED_NUMBER = -777777777
UNTOUCHED_BYTE = 0xA5


def number_at(data, offset):
    """The four-byte number at an offset: two's complement, high byte first."""
    return int.from_bytes(data[offset : offset + 4], "big", signed=True)


def number_bytes(number):
    """A number as four bytes."""
    return number.to_bytes(4, "big", signed=True)


def record_at(data, offset):
    """The kind of the record at an offset, and the size it should have, which may reach beyond the end of the file. Fewer than
    two bytes, none included, are a record that is cut short."""
    left = len(data) - offset
    if left < 2:
        return ("cut", 2)
    mark = 256 * data[offset] + data[offset + 1]
    if mark == BOX_MARK:
        return ("box", 2 + 16)
    if mark == PLUG_MARK:
        return ("plug", 2 + 8)
    if mark == END_MARK:
        return ("end", 2)
    if mark in NOTE_MARKS:
        return ("note", 3 + (data[offset + 2] if left > 2 else 0))
    return ("unknown", 2)


def parsed(data):
    """The form of a file: (refusal, boxes, plugs) with the refusal None, or one of 8 to 11 with its place. Only form is judged."""
    boxes, plugs = [], []
    offset = 0
    while True:
        kind, size = record_at(data, offset)
        if kind == "unknown":
            return (8, offset), [], []
        if kind == "box" and plugs:
            return (10, offset), [], []
        if offset + size > len(data):
            return (9, offset), [], []
        if kind == "box":
            boxes += [number_at(data, offset + 2 + 4 * place) for place in range(4)]
        if kind == "plug":
            plugs += [number_at(data, offset + 2 + 4 * place) for place in range(2)]
        offset += size
        if kind == "end":
            return ((11, offset) if offset < len(data) else None), boxes, plugs


def read_into(data, boxes_buffer, plugs_buffer):
    """The reader's answer, and both buffers afterwards."""
    refusal, boxes, plugs = parsed(data)
    if refusal is None:
        refusal = rounds.check_length(len(boxes_buffer), len(boxes)) or rounds.check_length(len(plugs_buffer), len(plugs))
    if refusal is not None:
        return ("refused",) + refusal, list(boxes_buffer), list(plugs_buffer)
    answer = ("counts", len(boxes) // 4, len(plugs) // 2)
    return answer, boxes + list(boxes_buffer[len(boxes) :]), plugs + list(plugs_buffer[len(plugs) :])


def read(data, boxes_buffer_length, plugs_buffer_length, untouched=UNTOUCHED_NUMBER):
    """The reader's answer and both buffers afterwards, for buffers that hold `untouched` at every place before."""
    return read_into(data, [untouched] * boxes_buffer_length, [untouched] * plugs_buffer_length)


def file_bytes(boxes, plugs):
    """Boxes, plugs and end as bytes, without notes."""
    parts = []
    for start in range(0, len(boxes), 4):
        parts.append(BOX_MARK.to_bytes(2, "big"))
        parts += [number_bytes(number) for number in boxes[start : start + 4]]
    for start in range(0, len(plugs), 2):
        parts.append(PLUG_MARK.to_bytes(2, "big"))
        parts += [number_bytes(number) for number in plugs[start : start + 2]]
    parts.append(END_MARK.to_bytes(2, "big"))
    return b"".join(parts)


def write_into(boxes, plugs, buffer):
    """The writer's answer, and the buffer of bytes afterwards. The length needed is counted before any byte is made."""
    refusal = rounds.check_boxes(boxes) or rounds.check_plugs(plugs)
    if refusal is None:
        refusal = rounds.check_length(len(buffer), 18 * (len(boxes) // 4) + 10 * (len(plugs) // 2) + 2)
    if refusal is not None:
        return ("refused",) + refusal, bytes(buffer)
    written = file_bytes(boxes, plugs)
    return ("count", len(written)), written + bytes(buffer[len(written) :])


def write(boxes, plugs, buffer_length, untouched=UNTOUCHED_BYTE):
    """The writer's answer and the buffer afterwards, for a buffer that holds `untouched` at every place before."""
    return write_into(boxes, plugs, bytes([untouched]) * buffer_length)
