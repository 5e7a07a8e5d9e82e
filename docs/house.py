#!/usr/bin/env python3
"""The house as a picture: reads crates.txt, writes docs/house.svg (make house).

Crates stand in rows. A line goes down from row to row, and through each row between by a lane, a place in the row that no box takes:
so none runs behind a box. Lines to one crate share its lanes.
"""
import pathlib
import re

ROOT = pathlib.Path(__file__).resolve().parent.parent
WIDTH, LEFT, ROW, BOX, LANE, GAP = 1000, 200, 62, 30, 8, 16
COLOURS = {"public": "#cfe2ff", "inside": "#e6e6e6", "theorems": "#ffe8a3", "program": "#cfeccf"}
WORDS = {"public": "public calls", "inside": "only called from here", "theorems": "no code, theorems", "program": "programs"}


def plan():
    """Floors in order: number, title, and its crates with what each uses."""
    floors = {}
    for line in (ROOT / "crates.txt").read_text().splitlines():
        title = re.match(r"# (\d): (.*)", line)
        if title:
            number = int(title[1])
            floors.setdefault(number, (title[2], {}))
        elif re.match(r"\w+( staticlib)?:", line):
            name, uses = line.split(":")
            floors[number][1][name.split()[0]] = uses.split()
    return floors


def kind(name):
    folder = ROOT / "crates" / name / "src"
    code = "".join(p.read_text() for p in sorted(folder.glob("*.rt")))
    if (folder / "main.rt").exists():
        return "program"
    if not re.search(r"\bfn ", code):
        return "theorems"
    return "inside" if (folder / "lib.rt").read_text().startswith("// Inside") else "public"


def direct(uses):
    """Of what each crate uses, what no other crate that it uses reaches."""
    reached = {}
    for name, us in uses.items():
        reached[name] = set().union(*({u} | reached[u] for u in us if u in reached))
    return {name: [u for u in us if u in uses and not any(u in reached[v] for v in us if v in uses)] for name, us in uses.items()}


def rows_of(crates):
    """The crates of a floor in rows: each above those of the same floor that it uses."""
    level = {}
    for name, uses in crates.items():
        level[name] = 1 + max((level[u] for u in uses if u in level), default=-1)
    return [[n for n in crates if level[n] == i] for i in range(1 + max(level.values()))]


# ---- rows of boxes and lanes; a lane is the pair of the crate that it leads to and the number of its row


def linked(rows, uses):
    """The lanes put into the rows, and the links, each from an item to one in the row below."""
    row_of = {name: i for i, row in enumerate(rows) for name in row}
    links = set()
    for name, below in direct(uses).items():
        for other in below:
            way = [name] + [(other, i) for i in range(row_of[name] - 1, row_of[other], -1)] + [other]
            links.update(zip(way, way[1:]))
    for lane in sorted({item for link in links for item in link if isinstance(item, tuple)}):
        rows[lane[1]].append(lane)
    return sorted(links, key=str)


def wide(item):
    return LANE if isinstance(item, tuple) else 14 + 7.2 * len(item)


def packed(row, wanted, width):
    """Middles in the order of the row, as near to those wanted as it goes: where items would overlap they stand side by side."""
    starts, at = [], LEFT
    for item in row:
        starts.append(at + wide(item) / 2)
        at += wide(item) + GAP
    blocks = []
    for item, start in zip(row, starts):
        blocks.append((wanted[item] - start, 1))
        while len(blocks) > 1 and blocks[-2][0] > blocks[-1][0]:
            (a, m), (b, n) = blocks.pop(), blocks.pop()
            blocks.append(((a * m + b * n) / (m + n), m + n))
    shifts = [min(max(shift, 0), width - at) for shift, count in blocks for _ in range(count)]
    return {item: start + shift for item, start, shift in zip(row, starts, shifts)}


def middles(rows, links):
    """Where the middle of each item is, and how wide the picture gets: items move towards those that they are linked to."""
    near = {item: [] for row in rows for item in row}
    for upper, lower in links:
        near[upper].append(lower)
        near[lower].append(upper)
    width = max([WIDTH] + [LEFT + sum(wide(item) + GAP for item in row) for row in rows])
    x = {item: LEFT + (width - LEFT) * (i + 1) / (len(row) + 1) for row in rows for i, item in enumerate(row)}
    for turn in range(60):
        for row in rows if turn % 2 == 0 else rows[::-1]:
            wanted = {item: sum(x[n] for n in near[item]) / len(near[item]) if near[item] else x[item] for item in row}
            if turn < 40:
                row.sort(key=lambda item: wanted[item])
            x.update(packed(row, wanted, width))
    return x, width


# ---- drawing


def wrapped(text, most=27):
    lines = [""]
    for word in text.split():
        if len(lines[-1]) + len(word) >= most:
            lines.append("")
        lines[-1] = (lines[-1] + " " + word).strip()
    return lines


def heights(floors):
    """How high each row's middle is above the ground, and each floor's number, title, foot and height."""
    y, bands, foot = [], [], 0
    for number, (title, crates) in sorted(floors.items()):
        count = len(rows_of(crates))
        y += [foot + ROW * i + ROW / 2 for i in range(count)]
        bands.append((number, title, foot, ROW * count))
        foot += ROW * count + 10
    return y, bands, foot


def floors_drawn(bands, width, flip):
    """A band for each floor, with its title."""
    for number, title, foot, high in bands:
        yield f'<rect x="4" y="{flip(foot + high):.0f}" width="{width - 8:.0f}" height="{high}" fill="#fafafa" stroke="#ddd"/>'
        for i, line in enumerate(wrapped(f"{number}: {title}")):
            yield f'<text x="12" y="{flip(foot + high) + 18 + 14 * i:.0f}" fill="#444">{line}</text>'


def lines_drawn(links, at):
    """A curve for each link, from the foot of an item to the head of the one below, and a line down each lane."""
    for upper, lower in links:
        (x, y), (u, v) = at[upper], at[lower]
        y, v = y + BOX / 2, v - BOX / 2
        middle = (y + v) / 2
        yield f'<path d="M{x:.0f} {y:.0f}C{x:.0f} {middle:.0f} {u:.0f} {middle:.0f} {u:.0f} {v:.0f}" fill="none" stroke="#999"/>'
        if isinstance(lower, tuple):
            yield f'<path d="M{u:.0f} {v:.0f}v{BOX}" stroke="#999"/>'


def boxes_drawn(at):
    """A box for each crate, in the colour of its kind."""
    for name, (x, y) in at.items():
        if not isinstance(name, tuple):
            yield f'<rect x="{x - wide(name) / 2:.0f}" y="{y - BOX / 2:.0f}" width="{wide(name):.0f}" height="{BOX}" rx="5" fill="{COLOURS[kind(name)]}" stroke="#666"/>'
            yield f'<text x="{x:.0f}" y="{y + 4:.0f}" text-anchor="middle">{name}</text>'


def colours_drawn():
    """What the colours say."""
    for i, (k, word) in enumerate(WORDS.items()):
        yield f'<rect x="{LEFT + 200 * i}" y="10" width="16" height="16" fill="{COLOURS[k]}" stroke="#666"/><text x="{LEFT + 22 + 200 * i}" y="23">{word}</text>'


def draw():
    floors = plan()
    uses = {name: us for _, crates in floors.values() for name, us in crates.items()}
    rows = [row for _, (_, crates) in sorted(floors.items()) for row in rows_of(crates)]
    y, bands, height = heights(floors)
    links = linked(rows, uses)
    x, width = middles(rows, links)
    flip = lambda above: height - above + 40
    at = {item: (x[item], flip(y[i])) for i, row in enumerate(rows) for item in row}
    out = [
        f'<svg xmlns="http://www.w3.org/2000/svg" width="{width:.0f}" height="{height + 60:.0f}" font-family="sans-serif" font-size="12">',
        '<rect width="100%" height="100%" fill="white"/>',
        *floors_drawn(bands, width, flip),
        *lines_drawn(links, at),
        *boxes_drawn(at),
        *colours_drawn(),
        "</svg>",
    ]
    return "\n".join(out) + "\n"


if __name__ == "__main__":
    (ROOT / "docs" / "house.svg").write_text(draw())
