"""Draws docs/round-b.svg: round B (docs/SCOPE.md 9.1) with its boxes, polygons, sure inside and plugs, each at its true position.

python3 docs/round-b.py > docs/round-b.svg
"""

# Pixels per metre, and where the datum is drawn. A metre is two periods of the dashes, so that dashes of sides that share a line fall in step.
METRE = 48
LEFT, TOP = 90, 60
WIDTH, HEIGHT = 800, 826

BOXES = [(0, 0, 2, 2), (8, 0, 10, 2), (8, 8, 10, 10), (0, 8, 2, 10)]

# Of each corner: the edges that make it, as indices of a box, the colour of its polygon, and the dashes. Of the 24 pixels of a period SW and NE
# take the first 12, SE and NW the last 12. Of two corner polygons that share a line one is of each kind, so neither hides the other.
CORNERS = {
    "SW": ((0, 1), "#d35400", "12 12", 0),
    "SE": ((2, 1), "#1f6fb2", "12 12", 12),
    "NE": ((2, 3), "#8e2a8e", "4 4 4 12", 0),
    "NW": ((0, 3), "#8a6d00", "4 4 4 12", 12),
}
OUTER = 'stroke="#9aa0a6" stroke-width="9" stroke-linejoin="miter"'
SURE = 'fill="#d6efd6"'
BOX = 'fill="#5f6368" fill-opacity="0.18" stroke="#5f6368" stroke-width="1"'
COLOURS = {"inside": "#1e7d34", "undecided": "#111", "outside": "#c0211f"}

# A plug's label: bold, with a white rim that keeps it off the lines.
HALO = ' font-weight="bold" stroke="white" stroke-width="4" stroke-linejoin="round" paint-order="stroke"'

# plug, word, and where its label starts, in pixels right of the plug and below it
PLUGS = [
    ((5, 5), "inside", (13, 5)),
    ((3, 3), "inside", (13, 5)),
    ((2, 5), "undecided", (13, 24)),
    ((0, 0), "undecided", (-8, 27)),
    ((10, 5), "undecided", (13, -16)),
    ((11, 5), "outside", (13, 5)),
]


def x(east):
    return LEFT + east * METRE


def y(north):
    return TOP + (10 - north) * METRE


def rectangle(west, south, east, north, style):
    print(f'<rect x="{x(west)}" y="{y(north)}" width="{(east - west) * METRE}" height="{(north - south) * METRE}" {style}/>')


def line(x1, y1, x2, y2, style):
    print(f'<line x1="{x1}" y1="{y1}" x2="{x2}" y2="{y2}" {style}/>')


def text(left, top, words, colour="#222", anchor="start", more=""):
    print(f'<text x="{left}" y="{top}" fill="{colour}" text-anchor="{anchor}"{more}>{words}</text>')


def dashed(colour, dashes, offset):
    return f'fill="none" stroke="{colour}" stroke-width="3.5" stroke-dasharray="{dashes}" stroke-dashoffset="{offset}"'


def hull(points):
    """The edges of the hull of some points, which in round B is always a rectangle with its sides along the axes."""
    easts, norths = zip(*points)
    return min(easts), min(norths), max(easts), max(norths)


def corners(name):
    """That one corner of every box."""
    (east, north), *_ = CORNERS[name]
    return [(box[east], box[north]) for box in BOXES]


print(f'<svg xmlns="http://www.w3.org/2000/svg" viewBox="0 0 {WIDTH} {HEIGHT}" width="{WIDTH}" height="{HEIGHT}" font-family="sans-serif" font-size="15">')
print("<title>Round B: boxes, outer polygon, corner polygons, the sure inside, and plugs by word</title>")
print(f'<rect width="{WIDTH}" height="{HEIGHT}" fill="white"/>')

# The axes, a metre off the outer polygon.
for tick in range(0, 13, 2):
    line(x(tick), y(-1), x(tick), y(-1) + 7, 'stroke="#777"')
    text(x(tick), y(-1) + 24, tick, "#555", "middle")
for tick in range(0, 11, 2):
    line(x(-1) - 7, y(tick), x(-1), y(tick), 'stroke="#777"')
    text(x(-1) - 12, y(tick) + 5, tick, "#555", "end")
line(x(-1), y(-1), x(13), y(-1), 'stroke="#777"')
line(x(-1), y(-1), x(-1), y(10.4), 'stroke="#777"')
text(x(13) + 30, y(-1) + 5, "east", "#555", "middle")
text(x(-1), y(10.4) - 8, "north", "#555", "middle")

# The areas, then the thick line and the thin dashes over it.
inner = [hull(corners(name)) for name in CORNERS]
sure = max(w for w, *_ in inner), max(s for _, s, *_ in inner), min(e for *_, e, _ in inner), min(n for *_, n in inner)
rectangle(*sure, SURE)
rectangle(*hull([point for name in CORNERS for point in corners(name)]), f'fill="none" {OUTER}')
for number, box in enumerate(BOXES, 1):
    rectangle(*box, BOX)
    text(x((box[0] + box[2]) / 2), y((box[1] + box[3]) / 2) + 5, f"box {number}", anchor="middle")
for name, (_, colour, dashes, offset) in CORNERS.items():
    rectangle(*hull(corners(name)), dashed(colour, dashes, offset))
for name, (_, colour, _, _) in CORNERS.items():
    for east, north in corners(name):
        print(f'<rect x="{x(east) - 4}" y="{y(north) - 4}" width="8" height="8" fill="{colour}"/>')
text(x(5), y(7) + 5, "sure inside", COLOURS["inside"], "middle")

for (east, north), word, (right, down) in PLUGS:
    print(f'<circle cx="{x(east)}" cy="{y(north)}" r="7" fill="{COLOURS[word]}" stroke="white" stroke-width="2"/>')
    text(x(east) + right, y(north) + down, f"({east}, {north}) {word}", COLOURS[word], more=HALO)

# The legend, in two columns.
top = y(-1) + 62
for row, (name, (_, colour, dashes, _)) in enumerate(CORNERS.items()):
    line(40, top + 26 * row, 112, top + 26 * row, dashed(colour, dashes, 0))
    print(f'<rect x="72" y="{top + 26 * row - 4}" width="8" height="8" fill="{colour}"/>')
    text(124, top + 26 * row + 5, f"{name} polygon: {name} corners of all boxes")
line(420, top, 492, top, OUTER)
text(504, top + 5, "outer polygon: all corners")
print(f'<rect x="420" y="{top + 17}" width="72" height="18" {SURE}/>')
text(504, top + 31, "sure inside: strictly inside all four")
print(f'<rect x="420.5" y="{top + 43.5}" width="71" height="17" {BOX}/>')
text(504, top + 57, "box: the door is somewhere in it")
for place, word in enumerate(COLOURS):
    print(f'<circle cx="{432 + 24 * place}" cy="{top + 78}" r="7" fill="{COLOURS[word]}"/>')
text(504, top + 83, "plug: inside, undecided, outside")
text(40, top + 120, "Every line is at its true position. Where two corner polygons share a line, their dashes alternate,", "#555")
text(40, top + 141, "and the outer polygon lies below them. (2, 5) is on two polygons, SE and NE, so it is undecided.", "#555")
print("</svg>")
