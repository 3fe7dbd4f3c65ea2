#!/usr/bin/env python3
"""Draws a drive of two vehicles: time downwards, their letters to the manager, its answers, and the tiles they are on.

    tools/drive_picture.py SCRIPT OUTPUT > PICTURE.svg

SCRIPT is a drive script in which two vehicles have plans, and OUTPUT what `aim drive` printed for it. What is lost,
late or repeated is told by the fates in the script; all else is taken from the output. The picture has a light and a
dark look.
"""
import math
import sys

STEP, TOP, MIDDLE, FIRST_TILE, TILE = 25, 66, 340, 656, 32
SIDES = (84, 596)
STYLE = """
svg { --back: #ffffff; --ink: #24292f; --dim: #6e7781; --line: #d8dee4; --both: #eaeef2;
      --own0: #0b5cad; --own1: #b34700; --lost: #c4001d; }
@media (prefers-color-scheme: dark) {
  svg { --back: #0d1117; --ink: #e6edf3; --dim: #9198a1; --line: #30363d; --both: #21262d;
        --own0: #6cb6ff; --own1: #ffa657; --lost: #ff7b72; }
}
text { font: 11px system-ui, sans-serif; fill: var(--ink); paint-order: stroke; stroke: var(--back); stroke-width: 3px;
       stroke-linejoin: round; }
text.head { font-size: 13px; font-weight: 600; } text.dim { fill: var(--dim); }
text.number { font-size: 10px; stroke: none; } text.bar { fill: var(--back); stroke: none; font-weight: 600; }
.own0 { --own: var(--own0); } .own1 { --own: var(--own1); }
.letter { stroke: var(--own); stroke-width: 1.5; fill: none; } .late { stroke-dasharray: 6 4; }
.tip, .tile { fill: var(--own); } .life { stroke: var(--dim); stroke-width: 1.5; } .grid { stroke: var(--line); }
.across { stroke: var(--own); stroke-width: 9; stroke-linecap: round; opacity: .55; }
.lost { stroke: var(--lost); stroke-width: 2.2; fill: none; } .served { fill: var(--back); stroke: var(--dim); }
"""


class Drive:
    """Of two vehicles: letters with their fates, entries, crossings and tiles."""

    def __init__(self, script, output):
        self.planned, self.fates, self.entries, self.sent = [], {}, [], {}
        self.entered, self.crossing, self.tiles, self.last = {}, {}, [], 0
        for words in (line.split(" ") for line in script.split("\n")):
            if words[0] == "plan":
                self.planned.append(int(words[1]))
            elif words[0] in ("up", "down"):
                self.fates[words[0], int(words[1])] = words[2:]
            elif words[0] == "until":
                self.until = int(words[1])
        for line in output.split("\n"):
            words = line.split(" ")
            if " -> " in line:
                arrow_at = words.index("->")
                self.entries.append((words[1], int(words[2]), words[3:arrow_at], words[arrow_at + 1 :]))
            elif words[0] == "log":
                self.last = max(self.last, int(words[3]))
                if words[2] == "sent":
                    self.sent.setdefault(int(words[1]), []).append((int(words[3]), words[4:]))
                if words[2] == "entered":
                    self.entered[int(words[1])] = int(words[3]), int(words[4])
            elif words[0] == "tiles":
                self.tiles.append([int(word) for word in words[1:]])

    def steps_of(self, way, vehicle, place, step):
        """The steps in which the letter of that place comes, by its fate, and whether it comes late."""
        fates = self.fates.get((way, vehicle), [])
        fate = fates[place] if place < len(fates) else "d"
        if fate == "l":
            return [], False
        late = 0 if fate in ("d", "r") else int(fate)
        steps = [step + late] + [step + 1] * (fate == "r")
        return [at for at in steps if at < self.until], late > 0


def height(step):
    return TOP + STEP * step


def safe(text):
    return text.replace("&", "&amp;").replace("<", "&lt;")


def asked(words):
    """A message in short."""
    if words[0] == "request":
        return f"request {words[1]} for {words[4]}"
    return f"{words[0]} {words[1]} of {words[2]}" + (f" for {words[5]}" if words[0] == "change" else "")


def answered(words):
    """An answer in short."""
    if words[0] == "confirm":
        return f"confirm {words[1]}: step {words[2]}"
    return f"{words[1]}, next {words[-3]}" if words[0] == "reject" else " ".join(words)


def text(x, y, words, kind="", anchor="middle", turned=0.0):
    more = f' transform="rotate({turned:.1f} {x} {y:.0f})"' if turned else ""
    mark = f' class="{kind}"' if kind else ""
    return f'<text{mark} x="{x}" y="{y:.0f}" text-anchor="{anchor}"{more}>{safe(words)}</text>'


def arrow(x0, y0, x1, y1, kind):
    """A letter from one place to another, with its tip."""
    along = 9 if x1 > x0 else -9
    rise = (y1 - y0) / (x1 - x0) * along
    return (f'<path class="letter {kind}" d="M{x0} {y0:.0f}L{x1} {y1:.0f}"/><path class="tip" '
            f'd="M{x1} {y1:.0f}l{-along} {-rise - 3.5:.1f}v7z"/>')


def cross(x, y):
    return f'<path class="lost" d="M{x - 6} {y - 6}l12 12m0 -12l-12 12"/>'


def letters(drive, vehicle, x):
    """What one vehicle sends, and the answers to it."""
    parts, side, seen = [], 1 if x < MIDDLE else -1, set()
    near, from_own, from_middle = MIDDLE - 14 * side, *(("start", "end") if side > 0 else ("end", "start"))
    for place, (step, words) in enumerate(drive.sent.get(vehicle, [])):
        y, (steps, is_late) = height(step), drive.steps_of("up", vehicle, place, step)
        label = asked(words) + (" again" if words[1] in seen else "")
        seen.add(words[1])
        for at in steps:
            parts.append(arrow(x, y, near + 5 * side, height(at), "late" if is_late else ""))
        if not steps:
            end = x + 150 * side
            parts += [f'<path class="letter" d="M{x} {y}H{end}"/>', cross(end, y),
                      text(end + 12 * side, y + 4, "lost", anchor=from_own),
                      text(x + 10 * side, y - 5, label, anchor=from_own)]
            continue
        parts.append(text(near - 4 * side, y - 5, label, anchor=from_middle))
    own = [(step, reply) for caller, step, _, reply in drive.entries if caller == str(vehicle)]
    for place, (step, reply) in enumerate(own):
        steps, is_late = drive.steps_of("down", vehicle, place, step + 1)
        for count, at in enumerate(steps):
            y0, y1 = height(step), height(at)
            parts.append(arrow(near, y0 + 5, x, y1, "late" if is_late else ""))
            falls = (y1 - y0 - 5) / abs(near - x)
            label = (answered(reply) if count == 0 else "again") + (", late" if is_late else "")
            # In time it stands where the letter comes; late it stands nearer to where the letter went off.
            away = 96 if count else 102 if is_late else 12
            turned = -side * math.degrees(math.atan(falls))
            parts.append(text(x + away * side, y1 - 5 - away * falls, label, "", from_own, turned))
        if not steps:
            parts.append(cross(near - 20 * side, height(step) + 10))
    return parts


def lifes(drive):
    """The lines of the vehicles and of the manager, and the entries of the journal on it."""
    end, parts = height(drive.last) + 14, []
    for number, (vehicle, x) in enumerate(zip(drive.planned, SIDES)):
        parts += [f'<path class="life" d="M{x} {TOP - 14}V{end}"/>', text(x, TOP - 36, f"vehicle {vehicle}", "head")]
        if vehicle in drive.entered:
            step, reservation = drive.entered[vehicle]
            granted = drive.entries[reservation][3]
            last = step + int(granted[6]) - int(granted[2])
            parts.append(f'<g class="own{number}"><path class="across" d="M{x} {height(step)}V{height(last)}"/></g>')
            away, anchor = (12, "start") if x < MIDDLE else (-12, "end")
            parts.append(text(x + away, height(step) + 4, f"enters on {reservation}", anchor=anchor))
    parts += [f'<path class="life" d="M{MIDDLE} {TOP - 14}V{end}"/>', text(MIDDLE, TOP - 36, "the manager", "head")]
    for place, (caller, step, act, reply) in enumerate(drive.entries):
        y = height(step)
        if caller == "operator":
            label = f"the operator: {' '.join(act)}, {'from ' + reply[1] if reply[1:] else reply[0]}"
            parts.append(text(MIDDLE - 16, y + 4, label, anchor="end"))
        parts += [f'<circle class="served" cx="{MIDDLE}" cy="{y}" r="9"/>', text(MIDDLE, y + 4, str(place), "number")]
    return parts


def tiles(drive):
    """The tiles, one column each: those of the first vehicle, those of both, those of the second."""
    whose = {}
    for vehicle, row, col, _, _ in drive.tiles:
        whose.setdefault((row, col), set()).add(drive.planned.index(vehicle))
    order = sorted(whose, key=lambda tile: (min(whose[tile]) + max(whose[tile]), tile))
    parts = [text(FIRST_TILE + TILE * len(order) / 2, TOP - 36, "tiles: row, column", "head")]
    for place, tile in enumerate(order):
        x = FIRST_TILE + TILE * place
        if len(whose[tile]) == 2:
            parts.append(f'<rect x="{x + 1}" y="{TOP - 14}" width="{TILE - 2}" height="{STEP * drive.last + 28}" '
                         'fill="var(--both)"/>')
        parts.append(text(x + TILE / 2, TOP - 19, f"{tile[0]}, {tile[1]}"))
    for vehicle, row, col, first, last in drive.tiles:
        x, y = FIRST_TILE + TILE * order.index((row, col)), height(first) - STEP / 2
        parts.append(f'<g class="own{drive.planned.index(vehicle)}"><rect class="tile" x="{x + 4}" y="{y + 1}" '
                     f'width="{TILE - 8}" height="{STEP * (last - first + 1) - 2}" rx="3"/></g>')
        parts += [text(x + TILE / 2, height(step) + 4, str(step), "bar") for step in (first, last)]
    return parts, FIRST_TILE + TILE * len(order)


def picture(drive):
    bars, right = tiles(drive)
    wide, high = right + 14, height(drive.last) + 30
    parts = [f'<svg xmlns="http://www.w3.org/2000/svg" viewBox="0 0 {wide} {high}" width="{wide}" height="{high}">',
             "<title>A drive of two vehicles: letters, answers and tiles, step by step</title>",
             f"<style>{STYLE}</style>", f'<rect width="{wide}" height="{high}" rx="8" fill="var(--back)"/>',
             text(30, TOP - 36, "step", "dim")]
    for step in range(0, drive.last + 1):
        if step % 5 == 0:
            parts.append(f'<path class="grid" d="M44 {height(step)}H{right}"/>')
        parts.append(text(30, height(step) + 4, str(step), "number dim"))
    for number, (vehicle, x) in enumerate(zip(drive.planned, SIDES)):
        parts += [f'<g class="own{number}">', *letters(drive, vehicle, x), "</g>"]
    return "\n".join([*parts, *lifes(drive), *bars, "</svg>", ""])


def main(paths):
    script, output = (open(path, encoding="ascii").read() for path in paths)
    sys.stdout.write(picture(Drive(script, output)))


if __name__ == "__main__":
    main(sys.argv[1:])
