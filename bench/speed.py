#!/usr/bin/env python3
"""The processor time of a call, by what a script has more or less of, of a program beside a peer: as tables, and as a picture.

    python3 bench/speed.py PROGRAM PEER [--repeats N] [--picture FILE.svg] [--only NAME] [--scale SHARE] [--names ONE OTHER]

Both read the same scripts with the word `replay`, in turn, and the least user and system time of the runs of each counts, less
that of the same head without a call: so opening isn't in it. Each script's answers have to be the same. The names of the
measures are vehicles, lanes, tiles, spans and calls; SHARE makes all scripts shorter, for a first look. Processor times suffer
from other work on the machine too, so it says how busy that was.
"""
import argparse
import hashlib
import math
import os
import pathlib
import random
import re
import subprocess
import sys
import tempfile
from typing import NamedTuple

TOP = pathlib.Path(__file__).resolve().parent.parent
TURNS = ("left", "straight", "right")
MOST_CALLS = 250_000
SMALL = """aim 1
grid 4000 4 100 0 450 256
times 1500 25 20 0 0
lanes 2
move 0 straight line 0 1500 4000 1500 40
move 1 straight line 2500 0 2500 4000 40
policy plain fcfs
"""
# What a call costs a city: so many crossings, each with so many vehicles an hour, which call so often.
CITY, FLOW, CALLS_A_VEHICLE = 10_000, 1_800, 3


class Script(NamedTuple):
    """A point of a measure: how much of it there is, the head, and the calls."""

    amount: int
    head: str
    calls: list


def twelve_lanes(rows=48):
    """The head of the example of twelve lanes, on a ground of so many rows of tiles."""
    text = (TOP / "examples/twelve-lanes.aim").read_text()
    head = text[: text.index("vehicles ")]
    return re.sub(r"^grid (\d+) \d+ (\d+ \d+ \d+) \d+$", rf"grid \1 {rows} \2 8192", head, count=1, flags=re.M)


def crossed(lanes):
    """A head with so many straight lanes, a quarter of them from each side."""
    ways = {0: (0, 1, 1, 0), 1: (1, 0, 0, 1), 2: (1, 1, -1, 0), 3: (1, 1, 0, -1)}
    lines = ["aim 1", "grid 24000 48 100 250 1200 8192", "times 3000 100 100 2 5", f"lanes {lanes}"]
    for lane in range(lanes):
        at, way = 3000 + 2700 * (lane // 4), lane % 4
        ends = {0: (0, at, 24000, at), 1: (24000 - at, 0, 24000 - at, 24000), 2: (24000, 24000 - at, 0, 24000 - at),
                3: (at, 24000, at, 0)}[way]
        lines.append(f"move {lane} straight line {' '.join(map(str, ends))} 240")
    return "\n".join([*lines, "policy plain fcfs", ""])


def traffic(calls, vehicles, ways, gap, lead, speeds, rest):
    """So many requests of vehicles that take turns, one each `gap` steps: a way, an arrival and a speed are drawn for each. A
    vehicle's crossing is over when its turn comes again."""
    lots, lines = random.Random(53), []
    for call in range(calls):
        moment, (lane, turn), speed = gap * call, lots.choice(ways), lots.randint(*speeds)
        arrive = moment + lots.randint(*lead)
        lines.append(f"{call % vehicles} {moment} request {call // vehicles + 1} {lane} {turn} {arrive} {speed} {rest(speed)} car")
    return lines


def cars(calls, ways=tuple((lane, TURNS[lane % 3]) for lane in range(12)), vehicles=256):
    """Cars of 4.5 m at 10 to 13 m a second, two a second, where a step is 20 ms."""
    return traffic(calls, vehicles, ways, 25, (100, 199), (200, 260), lambda _: "300 2 4500 1900")


def slow(calls, speed):
    """Cars that all go so fast, farther apart the slower they are."""
    ways = [(lane, "straight") for lane in (1, 4, 7, 10)]
    return traffic(calls, 256, ways, 6000 // speed, (100, 199), (speed, speed), lambda speed: f"{speed} 0 4500 1900")


def spans_of(speed):
    """How many spans a straight crossing at that speed needs, by the tests' plain manager."""
    sys.path.insert(0, str(TOP / "tests"))
    from plain.crossings import Crossings
    from plain.messages import Params
    from plain.scripts import ReplayScript

    script = ReplayScript()
    for line in twelve_lanes().split("\n")[:-1]:
        script.take(script.read(line.encode()))
    return Crossings(script.layout).spans(Params(1, "straight", 200, speed, speed, 0, 4500, 1900, False, 200), False)


def small(vehicles, calls):
    ways = [(0, "straight"), (1, "straight")]
    head = SMALL + f"vehicles {vehicles}\nbegin\n"
    return Script(vehicles, head, traffic(calls, vehicles, ways, 24, (10, 40), (400, 500), lambda speed: f"{speed} 0 1000 700"))


def large(amount, head, calls):
    return Script(amount, head + "vehicles 256\nbegin\n", calls)


def measures(scale):
    """Each measure with its scripts, the least amount first."""
    def count(calls):
        return max(300, int(calls * scale))

    lanes = [(n, [(lane, "straight") for lane in range(n)]) for n in (1, 2, 4, 8, 16)]
    return {
        "vehicles": [small(n, count(200_000)) for n in (2, 16, 256, 4096, 65_536)],
        "lanes": [large(n, crossed(n), cars(count(20_000), ways)) for n, ways in lanes],
        "tiles": [large(n, twelve_lanes(n), cars(count(20_000))) for n in (8, 16, 24, 32, 48, 64)],
        "spans": [large(spans_of(speed), twelve_lanes(), slow(count(10_000), speed)) for speed in (480, 240, 120, 60)],
        "calls": [large(n, twelve_lanes(), cars(n)) for n in (1000, 10_000, 100_000, MOST_CALLS) if n <= count(MOST_CALLS)],
    }


# ---- Measuring.

class Peers:
    """The two programs, and a folder for scripts."""

    def __init__(self, paths, folder, repeats):
        self.paths, self.folder, self.repeats = [str(path) for path in paths], pathlib.Path(folder), repeats

    def least(self, lines):
        """The least processor seconds of each over a script, and how many of its calls were granted."""
        script = self.folder / "script"
        script.write_text(lines)
        answers = [subprocess.run([path, "replay"], stdin=script.open(), stdout=subprocess.PIPE, check=True).stdout
                   for path in self.paths]
        if len({hashlib.sha256(answer).digest() for answer in answers}) > 1:
            raise SystemExit(f"the two answer otherwise: {script}")
        times = [[self.seconds(path, script) for path in self.paths] for _ in range(self.repeats)]
        return [min(of_one) for of_one in zip(*times)], answers[0].count(b" -> confirm ")

    def seconds(self, path, script):
        with script.open() as source:
            process = subprocess.Popen([path, "replay"], stdin=source, stdout=subprocess.DEVNULL)
            _, status, use = os.wait4(process.pid, 0)
        if status:
            raise SystemExit(f"{path} ended with {status}")
        return use.ru_utime + use.ru_stime

    def call_times(self, script):
        """The microseconds of a call of each, and the share of calls that were granted."""
        opening, _ = self.least(script.head + "end\n")
        whole, granted = self.least(script.head + "\n".join(script.calls) + "\nend\n")
        times = [max(0.01, (of_all - of_head) / len(script.calls) * 1e6) for of_all, of_head in zip(whole, opening)]
        return times, granted / len(script.calls)


class Row(NamedTuple):
    amount: int
    times: list
    granted: float


def table(name, rows, names):
    """The rows in Markdown."""
    lines = [f"| {name} | {names[0]}, µs a call | {names[1]} | ratio | granted |", "|---|---|---|---|---|"]
    for amount, (own, other), granted in rows:
        lines.append(f"| {amount:,} | {own:.2f} | {other:.2f} | {own / other:.2f} | {granted:.0%} |")
    return "\n".join(lines)


def city(rows):
    """What one processor serves, and what a city would need, by the longest script of all calls."""
    last = rows[-1]
    a_second = 1e6 / last.times[0]
    needed = CITY * FLOW / 3600 * CALLS_A_VEHICLE
    return (f"One processor serves {a_second:,.0f} calls a second, of which {a_second * last.granted:,.0f} are granted. {CITY:,} "
            f"crossings with {FLOW:,} vehicles an hour each that call {CALLS_A_VEHICLE} times make {needed:,.0f} calls a second: "
            f"{needed / a_second:.2f} processors.")


# ---- The picture.

PANEL_WIDE, PANEL_HIGH, LEFT, TOP_OF, GAP_X, GAP_Y, COLUMNS = 230, 170, 52, 56, 66, 66, 3
STYLE = """
svg { --back: #ffffff; --ink: #24292f; --dim: #6e7781; --line: #d8dee4; --own0: #0b5cad; --own1: #b34700; }
@media (prefers-color-scheme: dark) {
  svg { --back: #0d1117; --ink: #e6edf3; --dim: #9198a1; --line: #30363d; --own0: #6cb6ff; --own1: #ffa657; }
}
text { font: 11px system-ui, sans-serif; fill: var(--ink); } text.head { font-size: 13px; font-weight: 600; }
text.dim { fill: var(--dim); } .grid { stroke: var(--line); } rect.back { fill: var(--back); }
.own0 { --own: var(--own0); } .own1 { --own: var(--own1); }
path.way { stroke: var(--own); stroke-width: 2; fill: none; } circle { fill: var(--own); } text.own { fill: var(--own); }
"""


class Scale:
    """A logarithmic scale from amounts to places, both ends in it."""

    def __init__(self, least, greatest, start, end):
        self.low, self.high, self.start, self.end = math.log10(least), math.log10(greatest), start, end

    def place(self, amount):
        share = (math.log10(amount) - self.low) / ((self.high - self.low) or 1)
        return self.start + share * (self.end - self.start)


def short(amount):
    """An amount in few signs."""
    for size, sign in ((1_000_000, " M"), (1000, " k")):
        if amount >= size:
            return f"{amount / size:.3g}{sign}"
    return f"{amount:.3g}"


def panel(name, rows, at, heights):
    """A measure's panel: its frame, the amounts below, and a line for each of the two."""
    x0, y0 = LEFT + at % COLUMNS * (PANEL_WIDE + GAP_X), TOP_OF + at // COLUMNS * (PANEL_HIGH + GAP_Y)
    across = Scale(rows[0].amount, rows[-1].amount, x0 + 10, x0 + PANEL_WIDE - 10)
    up = Scale(*heights, y0 + PANEL_HIGH, y0)
    parts = [f'<text class="head" x="{x0}" y="{y0 - 10}">{name}</text>']
    for mark in [10**k for k in range(round(math.log10(heights[0])), round(math.log10(heights[1])) + 1)]:
        y = up.place(mark)
        parts.append(f'<path class="grid" d="M{x0} {y:.1f}H{x0 + PANEL_WIDE}"/>')
        parts.append(f'<text class="dim" x="{x0 - 6}" y="{y + 4:.1f}" text-anchor="end">{short(mark)}</text>')
    for row in rows:
        parts.append(f'<text class="dim" x="{across.place(row.amount):.1f}" y="{y0 + PANEL_HIGH + 16}" '
                     f'text-anchor="middle">{short(row.amount)}</text>')
    for number in range(2):
        places = [(across.place(row.amount), up.place(row.times[number])) for row in rows]
        way = "L".join(f"{x:.1f} {y:.1f}" for x, y in places)
        parts.append(f'<g class="own{number}"><path class="way" d="M{way}"/>'
                     + "".join(f'<circle cx="{x:.1f}" cy="{y:.1f}" r="3"/>' for x, y in places) + "</g>")
    return "\n".join(parts)


def picture(found, names):
    """All panels, with one scale of times."""
    times = [time for rows in found.values() for row in rows for time in row.times]
    heights = 10 ** math.floor(math.log10(min(times))), 10 ** math.ceil(math.log10(max(times)))
    wide = LEFT + COLUMNS * (PANEL_WIDE + GAP_X)
    high = TOP_OF + -(-len(found) // COLUMNS) * (PANEL_HIGH + GAP_Y)
    panels = [panel(name, rows, at, heights) for at, (name, rows) in enumerate(found.items())]
    legend = "".join(f'<text class="own own{number}" x="{LEFT + 220 + 150 * number}" y="22">● {name}</text>'
                     for number, name in enumerate(names))
    return "\n".join([
        f'<svg xmlns="http://www.w3.org/2000/svg" viewBox="0 0 {wide} {high}" width="{wide}" height="{high}" role="img">',
        f"<title>Processor time of a call</title><style>{STYLE}</style>",
        f'<rect class="back" width="{wide}" height="{high}"/>',
        f'<text x="{LEFT - 40}" y="22">microseconds a call, of one processor</text>{legend}', *panels, "</svg>", ""])


def main():
    parser = argparse.ArgumentParser(description=__doc__, formatter_class=argparse.RawDescriptionHelpFormatter)
    parser.add_argument("program")
    parser.add_argument("peer")
    parser.add_argument("--repeats", type=int, default=5)
    parser.add_argument("--picture", type=pathlib.Path)
    parser.add_argument("--only", action="append")
    parser.add_argument("--scale", type=float, default=1.0)
    parser.add_argument("--names", nargs=2, default=["aim", "plain"], metavar=("ONE", "OTHER"))
    given = parser.parse_args()
    found = {}
    with tempfile.TemporaryDirectory() as folder:
        peers = Peers([given.program, given.peer], folder, given.repeats)
        for name, scripts in measures(given.scale).items():
            if given.only and name not in given.only:
                continue
            found[name] = [Row(script.amount, *peers.call_times(script)) for script in scripts]
            print(table(name, found[name], given.names) + "\n", flush=True)
    if "calls" in found:
        print(city(found["calls"]))
    print(f"load {os.getloadavg()[0]:.1f} on {os.cpu_count()} processors, least of {given.repeats} runs")
    if given.picture:
        given.picture.write_text(picture(found, given.names))


if __name__ == "__main__":
    main()
