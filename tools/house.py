#!/usr/bin/env python3
"""Draws the house: which library stands on which, from crates.txt.

    tools/house.py            writes docs/house.svg
    tools/house.py --check    tells whether that is the picture of crates.txt, and whether each crate has its place

A layer is the longest way down to the bottom, so all that a crate stands on is drawn below it. A line joins two crates
where the upper one names the lower one, and names no other that stands on it too. The check asks that each crate names
crates on lines above its own alone, that it stands under a subject, and that the tables of docs/ARCHITECTURE.md and
docs/PROVED.md have a row for it and for no other. The picture has a light and a dark look.
"""
import colorsys
import pathlib
import re
import sys

TOP = pathlib.Path(__file__).resolve().parent.parent
PICTURE = TOP / "docs/house.svg"
TABLES = ("docs/ARCHITECTURE.md", "docs/PROVED.md")
WIDTH, SIDE, ROW, HIGH, WIDE, THIN, GAP = 1200, 12, 84, 40, 156, 2, 11
STYLE = """
svg { --back: #ffffff; --ink: #24292f; --dim: #57606a; --line: #8c959f; }
@media (prefers-color-scheme: dark) { svg { --back: #0d1117; --ink: #e6edf3; --dim: #b1bac4; --line: #768390; } }
text { font: 13px ui-monospace, monospace; fill: var(--ink); text-anchor: middle; }
text.subject { font: 12px system-ui, sans-serif; fill: var(--dim); }
path { fill: none; stroke: var(--line); stroke-width: 1.3; } rect.back { fill: var(--back); }
"""


class House:
    """The crates, in the order of their lines: the subject of each, and what it stands on."""

    def __init__(self, text):
        self.subjects, self.below, self.unnamed, subject = {}, {}, [], None
        for line in text.splitlines():
            if line.startswith("#"):
                subject = line[1:].strip()
            elif not line:
                subject = None
            else:
                head, uses = line.split(":")
                name = head.split()[0]
                self.below[name] = uses.split()
                self.subjects[name] = subject
        self.all_below = {}
        for name, uses in self.below.items():
            self.below[name] = [use for use in uses if use in self.below]
            over = [use for use in self.below[name] if use in self.all_below]
            self.all_below[name] = set(self.below[name]).union(*(self.all_below[use] for use in over))

    def drawn(self):
        """The libraries and the program: what measures and tests stands on top of them, and isn't drawn."""
        return [name for name in self.below if not name.startswith(("bench_", "tests_"))]

    def libraries(self):
        return [name for name in self.drawn() if name != "aim"]

    def edges(self):
        """What each stands on, but for what another of these stands on too."""
        for name in self.drawn():
            for use in self.below[name]:
                if not any(use in self.all_below[other] for other in self.below[name]):
                    yield name, use

    def layers(self):
        """The number of each one's layer, from the bottom, which is 0."""
        layers = {}
        for name in self.drawn():
            layers[name] = 1 + max((layers[use] for use in self.below[name]), default=-1)
        return layers

    def chain(self):
        """A longest chain, from the top."""
        layers = self.layers()
        chain = [max(layers, key=layers.get)]
        while layers[chain[-1]]:
            chain.append(max(self.below[chain[-1]], key=layers.get))
        return chain


def spread(wanted, widths):
    """Places in a row, in this order and apart by their widths, as near to the wanted ones as that can be."""
    offsets, blocks, at = [], [], 0
    for width in widths:
        offsets.append(at + width / 2)
        at += width + GAP
    for want, offset in zip(wanted, offsets):
        blocks.append([want - offset, 1])
        while len(blocks) > 1 and blocks[-2][0] > blocks[-1][0]:
            (left, some), (right, more) = blocks[-2:]
            blocks[-2:] = [[(left * some + right * more) / (some + more), some + more]]
    starts = [start for start, count in blocks for _ in range(count)]
    most = WIDTH - SIDE - (at - GAP)
    return [min(max(start, SIDE), most) + offset for start, offset in zip(starts, offsets)]


class Picture:
    """Rows of crates and of bends, where a line goes past a layer, each with its place from the left."""

    def __init__(self, house):
        self.house, self.layers = house, house.layers()
        self.rows = [[] for _ in range(1 + max(self.layers.values()))]
        for name, layer in self.layers.items():
            self.rows[layer].append(name)
        self.near = {name: set() for name in self.layers}
        self.lines = [self.line(upper, lower) for upper, lower in house.edges()]
        self.places = {item: WIDTH * (k + 1) / (len(row) + 1) for row in self.rows for k, item in enumerate(row)}
        for turn in range(200):
            self.settle(turn < 120)

    def line(self, upper, lower):
        """The items from one crate down to another; between them a bend a layer."""
        bends = [(upper, lower, layer) for layer in range(self.layers[upper] - 1, self.layers[lower], -1)]
        for bend in bends:
            self.rows[bend[2]].append(bend)
            self.near[bend] = set()
        items = [upper, *bends, lower]
        for one, other in zip(items, items[1:]):
            self.near[one].add(other)
            self.near[other].add(one)
        return items

    def wide(self, item):
        return WIDE if isinstance(item, str) else THIN

    def settle(self, reorder):
        """Each row goes to where its items' neighbours are, in the order of these places while it still may change."""
        for row in self.rows + self.rows[::-1]:
            want = {item: self.middle(item) for item in row}
            if reorder:
                row.sort(key=lambda item: (want[item], str(item)))
            places = spread([want[item] for item in row], [self.wide(item) for item in row])
            self.places.update(zip(row, places))

    def middle(self, item):
        """The middle of its neighbours' places, added in one order, so that it is the same on each run."""
        near = sorted(self.near[item], key=str)
        return sum(map(self.places.get, near)) / len(near) if near else self.places[item]

    def height(self, item):
        layer = self.layers[item] if isinstance(item, str) else item[2]
        return SIDE + (len(self.rows) - 1 - layer) * ROW

    def drawn_line(self, items):
        """From the lower side of a crate through the bends to the upper side of another."""
        x, y = self.places[items[0]], self.height(items[0]) + HIGH
        told = f"M{x:.0f} {y}"
        for item in items[1:]:
            next_x, next_y = self.places[item], self.height(item)
            told += f"C{x:.0f} {y + 24} {next_x:.0f} {next_y - 24} {next_x:.0f} {next_y}"
            x, y = next_x, next_y
            if not isinstance(item, str):
                y += HIGH
                told += f"V{y}"
        return f'<path d="{told}"/>'

    def drawn_crate(self, name, subjects):
        x, y = self.places[name], self.height(name)
        subject = self.house.subjects[name]
        return (f'<g class="s{subjects.index(subject)}"><rect x="{x - WIDE / 2:.0f}" y="{y}" width="{WIDE}" '
                f'height="{HIGH}" rx="5"/><text x="{x:.0f}" y="{y + 17}">{name}</text>'
                f'<text class="subject" x="{x:.0f}" y="{y + 33}">{subject}</text></g>')

    def svg(self):
        subjects = list(dict.fromkeys(map(self.house.subjects.get, self.layers)))
        tall = 2 * SIDE + len(self.rows) * ROW - (ROW - HIGH)
        size = f'width="{WIDTH}" height="{tall}"'
        parts = [f'<svg xmlns="http://www.w3.org/2000/svg" viewBox="0 0 {WIDTH} {tall}" {size} '
                 'role="img" aria-label="which library stands on which">',
                 f"<style>{STYLE}{colours(len(subjects))}</style>", f'<rect class="back" {size}/>']
        parts += [self.drawn_line(items) for items in self.lines]
        parts += [self.drawn_crate(name, subjects) for name in self.layers]
        return "\n".join(parts + ["</svg>", ""])


def colours(count):
    """A colour for each subject, pale on light ground and deep on dark."""

    def hexed(turn, light, full):
        return "#" + "".join(f"{round(255 * part):02x}" for part in colorsys.hls_to_rgb(turn, light, full))

    def rules(fill, edge):
        turns = [(k, k * 0.382 % 1) for k in range(count)]
        return "\n".join(f".s{k} rect {{ fill: {hexed(t, *fill)}; stroke: {hexed(t, *edge)}; }}" for k, t in turns)

    light, dark = rules((.93, .7), (.45, .5)), rules((.16, .35), (.6, .45))
    return f"{light}\n@media (prefers-color-scheme: dark) {{\n{dark}\n}}\n"


def rows_of(page):
    """The crates that begin a row of a table."""
    return re.findall(r"^\| \[?`(\w+)`", (TOP / page).read_text(), re.M)


def check(house):
    """Asks all that the head of this file says. Gives how many questions were asked, and what lacks."""
    asked, lacking, above = 0, [], set()
    for name, uses in house.below.items():
        asked += 1 + len(uses)
        lacking += [f"{name} stands on {use}, whose line isn't above its own" for use in uses if use not in above]
        lacking += [] if house.subjects[name] else [f"{name} stands under no subject"]
        above.add(name)
    if not lacking:
        asked += 1
        is_drawn = PICTURE.is_file() and PICTURE.read_text() == Picture(house).svg()
        lacking += [] if is_drawn else ["docs/house.svg isn't the picture of crates.txt: tools/house.py draws it"]
    for page in TABLES:
        asked += 1
        rows = rows_of(page)
        odd = sorted(set(rows) ^ set(house.below)) + sorted({name for name in rows if rows.count(name) > 1})
        lacking += [f"{page} has no row, or more than one, for just these: {' '.join(odd)}"] if odd else []
    return asked, lacking


def main():
    house = House((TOP / "crates.txt").read_text())
    if sys.argv[1:] not in ([], ["--check"]):
        sys.exit(__doc__)
    if not sys.argv[1:]:
        PICTURE.write_text(Picture(house).svg())
        return
    asked, lacking = check(house)
    for line in lacking:
        print(f"house: {line}", file=sys.stderr)
    chain = [] if any("isn't above" in line for line in lacking) else house.chain()
    print(f"house: {len(house.libraries())} libraries; the longest chain has {len(chain)} crates: {' '.join(chain)}")
    print(f"house: {asked - len(lacking)} passed, {len(lacking)} failed")
    sys.exit(1 if lacking else 0)


main()
