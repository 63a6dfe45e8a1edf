"""Draws docs/crates.svg from crates.txt: each crate above those that it uses, with a line to each that it does not also use through another.

python3 docs/crates.py > docs/crates.svg
"""
import pathlib

ROOT = pathlib.Path(__file__).resolve().parent.parent
WIDTH, HEIGHT, GAP_X, GAP_Y, MARGIN = 118, 22, 12, 34, 16
COLOURS = ["#dfe8f3", "#e6f0dd", "#f7ead0", "#f3dfe0", "#e7e0f0", "#e9e9e9"]


def read_crates():
    """The crates' dependencies, and the heading that each stands under."""
    uses, heading, under = {}, "", {}
    for line in (ROOT / "crates.txt").read_text().splitlines()[1:]:
        if line.startswith("#"):
            heading = line[1:].strip()
        elif ":" in line:
            # A static library is `NAME staticlib: ..`.
            name, needs = line.split(":")
            name = name.split()[0]
            uses[name] = needs.split()
            under[name] = heading
    for name in uses:
        uses[name] = [need for need in uses[name] if need in uses]
    return uses, under


def reach(uses, name, seen):
    for need in uses[name]:
        if need not in seen:
            seen.add(need)
            reach(uses, need, seen)
    return seen


def main():
    uses, under = read_crates()
    level = {}
    for name in uses:
        level[name] = 1 + max((level[need] for need in uses[name]), default=-1)
    direct = {}
    for name in uses:
        through = set()
        for need in uses[name]:
            reach(uses, need, through)
        direct[name] = [need for need in uses[name] if need not in through]
    rows = [[name for name in uses if level[name] == k] for k in range(max(level.values()) + 1)]
    place = {}
    for k, row in enumerate(rows):
        row.sort(key=lambda name: sum(place[need][0] for need in direct[name]) / max(1, len(direct[name])))
        for i, name in enumerate(row):
            place[name] = (i - (len(row) - 1) / 2, k)
    across = max(len(row) for row in rows) * (WIDTH + GAP_X)
    total = across + 2 * MARGIN
    headings = list(dict.fromkeys(under.values()))
    tall = len(rows) * (HEIGHT + GAP_Y) + 2 * MARGIN + 18 * len(headings)

    def middle(name):
        i, k = place[name]
        return total / 2 + i * (WIDTH + GAP_X), tall - MARGIN - HEIGHT / 2 - k * (HEIGHT + GAP_Y)

    out = [f'<svg xmlns="http://www.w3.org/2000/svg" viewBox="0 0 {total:.0f} {tall:.0f}" font-family="sans-serif" font-size="12">',
           '<rect width="100%" height="100%" fill="white"/>']
    for name in uses:
        x, y = middle(name)
        for need in direct[name]:
            u, v = middle(need)
            out.append(f'<path d="M{x:.0f},{y + HEIGHT / 2:.0f} C{x:.0f},{y + HEIGHT / 2 + 20:.0f} {u:.0f},{v - HEIGHT / 2 - 20:.0f} {u:.0f},{v - HEIGHT / 2:.0f}" fill="none" stroke="#999" stroke-width="0.8"/>')
    for name in uses:
        x, y = middle(name)
        out.append(f'<rect x="{x - WIDTH / 2:.0f}" y="{y - HEIGHT / 2:.0f}" width="{WIDTH}" height="{HEIGHT}" rx="3" fill="{COLOURS[headings.index(under[name]) % len(COLOURS)]}" stroke="#666"/>')
        out.append(f'<text x="{x:.0f}" y="{y + 4:.0f}" text-anchor="middle">{name}</text>')
    for k, heading in enumerate(headings):
        y = MARGIN + 18 * k
        out.append(f'<rect x="{MARGIN}" y="{y}" width="12" height="12" fill="{COLOURS[k % len(COLOURS)]}" stroke="#666"/><text x="{MARGIN + 18}" y="{y + 10}">{heading}</text>')
    out.append("</svg>")
    print("\n".join(out))


main()
