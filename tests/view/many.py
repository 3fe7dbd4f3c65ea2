#!/usr/bin/env python3
"""Great inputs for the page.

`many.py` prints a drive script of 256 vehicles on twelve lanes. `journal(folder)` writes a script of as many lines as
a script may have, and a journal for it. That journal is made here to be long: it is no output of the program, since
nothing says that its answers are right.
"""

import pathlib
import sys

ROOT = pathlib.Path(__file__).resolve().parents[2]
MOST_LINES = 262144
TURNS = ("left", "straight", "right")


def header():
    """The lines of the realistic layout, up to its policy."""
    text = (ROOT / "examples" / "twelve-lanes.aim").read_text()
    return text[: text.index("vehicles ")]


def words():
    """Numbers without a pattern, the same in each run."""
    state = 20080531
    while True:
        state = (state * 1103515245 + 12345) % 2**31
        yield state >> 8


def drive(count=256):
    """A drive: a vehicle each 33 steps, lanes and speeds without a pattern, some faults on links."""
    lines, some = [header(), f"vehicles {count}\nbegin\nuntil {33 * count + 4000}\n"], words()
    for v in range(count):
        lane, lead, speed = next(some) % 12, 100 + next(some) % 100, 200 + next(some) % 61
        lines.append(f"plan {v} {33 * v} {lead} 50 {lane} {TURNS[lane % 3]} {speed} 300 2 4500 1900 car\n")
        if v % 5 == 0:
            up, down = (("l", "d l"), ("r", "9"), ("7 l", "r r"), ("d d 20", "d"))[v // 5 % 4]
            lines.append(f"up {v} {up}\ndown {v} {down}\n")
    return "".join(lines) + "end\n"


def steps(parts, spacing, speed, most, gain, length):
    """The number of crossing steps."""
    front, count = 0, 0
    while front - length <= parts * spacing:
        front, speed, count = front + min(speed, most), speed + gain, count + 1
    return count


def journal(folder, vehicles=2000):
    """Writes long.aim and long.out: requests of which one in twenty is confirmed, cancels behind these."""
    head, parts = header(), (280, 240, 95)
    count = MOST_LINES - head.count("\n") - 3
    script, output = [head, f"vehicles {vehicles}\nbegin\n"], []
    for i in range(count):
        v, number, moment = i % vehicles, i // vehicles + 1, i // 5
        lane = v % 12
        speed = 200 + v % 61
        params = f"{lane} {TURNS[lane % 3]} {moment + 120} {speed} 300 2 4500 1900 car"
        if v % 20 == 0:
            last = moment + 120 + steps(parts[lane % 3], 100, speed, 300, 2, 4500) - 1
            say, answer = f"request {number} {params}", f"confirm {i} {moment + 120} 2 2 fast {last}"
            if number % 2 == 0:
                say, answer = f"cancel {number} {i - vehicles}", f"ack {i - vehicles}"
        else:
            say = f"request {number} {params}"
            answer = f"reject taken {v % 48} {v // 7 % 48} {moment + 130} {v // 20 * 20} next {moment + 60} held none"
            if v % 3 == 0:
                answer = f"reject distance {speed * 90} next {moment + 60} held none"
        script.append(f"{v} {moment} {say}\n")
        output.append(f"{i} {v} {moment} {say} -> {answer}\n")
    script.append("end\n")
    output.append(f"end {count}\n")
    paths = pathlib.Path(folder, "long.aim"), pathlib.Path(folder, "long.out")
    paths[0].write_text("".join(script))
    paths[1].write_text("".join(output))
    return paths


if __name__ == "__main__":
    sys.stdout.write(drive())
