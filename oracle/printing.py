"""The printing program of docs/SCOPE.md. Run as a program, it reads standard input: python3 -m oracle.printing < FILE"""

import sys

from . import files, rounds

MOST_INPUT_BYTES = 65536


def print_text(data):
    """Exactly the bytes that the printing program writes for this standard input."""
    if len(data) > MOST_INPUT_BYTES:
        return b"refused 12 %d\n" % MOST_INPUT_BYTES
    refusal, boxes, plugs = files.parsed(data)
    if refusal is None:
        refusal = rounds.check_boxes(boxes)
    if refusal is not None:
        return b"refused %d %d\n" % refusal
    lines = ["boxes %d plugs %d" % (len(boxes) // 4, len(plugs) // 2)]
    for number in range(1, len(plugs) // 2 + 1):
        answer = rounds.verdict(boxes, (plugs[2 * number - 2], plugs[2 * number - 1]))
        lines.append("%d %s" % (number, "refused 6" if answer[0] == "refused" else answer[1]))
    return "".join(line + "\n" for line in lines).encode("ascii")


if __name__ == "__main__":
    sys.stdout.buffer.write(print_text(sys.stdin.buffer.read()))
