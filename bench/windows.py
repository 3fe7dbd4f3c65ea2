#!/usr/bin/env python3
"""The processor time of a vehicle that is served, by a program that reads version 4: asking with windows beside asking for one
arrival after the other.

    python3 bench/windows.py PROGRAM [--vehicles N] [--repeats N] [--rounds N] [--window STEPS]

The same vehicles drive over twelve lanes in version 3 and in version 4, with a wait of WINDOW steps, one each half a second. The
calls of each drive, again and again, later in time and with higher numbers, are a script for `replay`. Its processor time, less that
of the same head without a call, is told for each vehicle that came across. The least of REPEATS runs in turn counts.
"""
import argparse
import pathlib
import random
import subprocess
import tempfile

from speed import TURNS, Peers, twelve_lanes

MOST_LINES = 262_000


def head(version, window):
    """The head of twelve lanes in this version."""
    times = {3: "times 3000 100 100 2 2 5", 4: f"times 3000 100 100 2 2 5 {window}"}[version]
    lines = [times if line.startswith("times ") else line for line in twelve_lanes().split("\n")]
    return "\n".join([f"aim {version}", *lines[1:]])


def drive(version, vehicles, window):
    """A drive of that many vehicles, the same ones in both versions."""
    lots = random.Random(57)
    lines = [f"vehicles {vehicles}", "begin", f"until {min(65_536, 25 * vehicles + 20_000)}"]
    for vehicle in range(vehicles):
        lane = lots.randrange(12)
        numbers = f"{25 * vehicle} {lots.randrange(100, 200)} 50 {lane} {TURNS[lane % 3]} {lots.randrange(200, 261)} 300 2 4500 1900"
        lines.append(f"plan {vehicle} {numbers} car start" + f" {window}" * (version == 4))
    return head(version, window) + "\n".join([*lines, "end", ""])


def calls_of(program, script):
    """The calls of a drive, as words, in the order of its journal."""
    told = subprocess.run([program, "drive", "1"], input=script, stdout=subprocess.PIPE, text=True, check=False)
    if told.returncode:
        raise SystemExit(f"{program}: {told.stdout.strip()}")
    return [line.split(" -> ")[0].split(" ")[1:] for line in told.stdout.split("\n") if " -> " in line]


def later(words, steps, numbers, ids):
    """A call so many steps later, with a higher number, and with the id that its reservation has then."""
    words = list(words)
    words[1], words[3] = str(int(words[1]) + steps), str(int(words[3]) + numbers)
    if words[2] != "request":
        words[4] = str(int(words[4]) + ids)
    if words[2] in ("request", "change"):
        at = 6 if words[2] == "request" else 7
        has_latest = words[-1] not in ("car", "emergency")
        for place in [at] + [len(words) - 1] * has_latest:
            words[place] = str(int(words[place]) + steps)
    return " ".join(words)


def traffic(calls, rounds):
    """The calls, so many times, and how many vehicles come across by them."""
    last = max(int(words[1]) for words in calls) + 400
    rounds = min(rounds, MOST_LINES // len(calls))
    lines = [later(words, turn * last, turn * 70, turn * len(calls)) for turn in range(rounds) for words in calls]
    return lines, rounds * sum(words[2] == "done" for words in calls)


def main():
    parser = argparse.ArgumentParser(description=__doc__, formatter_class=argparse.RawDescriptionHelpFormatter)
    parser.add_argument("program")
    parser.add_argument("--vehicles", type=int, default=256)
    parser.add_argument("--repeats", type=int, default=5)
    parser.add_argument("--rounds", type=int, default=100)
    parser.add_argument("--window", type=int, default=200)
    given = parser.parse_args()
    each = {}
    with tempfile.TemporaryDirectory() as folder:
        for version in (3, 4):
            calls = calls_of(given.program, drive(version, given.vehicles, given.window))
            lines, across = traffic(calls, given.rounds)
            peers = Peers([pathlib.Path(given.program).resolve()], folder, given.repeats)
            begin = head(version, given.window) + f"vehicles {given.vehicles}\nbegin\n"
            [opening], _ = peers.least(begin + "end\n")
            [whole], granted = peers.least(begin + "\n".join(lines) + "\nend\n")
            each[version] = (whole - opening) / across * 1e6
            print(f"version {version}: {len(lines):,} calls, {granted:,} granted, {across:,} vehicles across, "
                  f"{len(lines) / across:.2f} calls and {each[version]:.1f} µs a vehicle", flush=True)
    print(f"version 4 takes {each[4] / each[3]:.2f} of version 3's time")


if __name__ == "__main__":
    main()
