#!/usr/bin/env python3
"""Callers that share something, by how many threads they have and by how they share it: calls a second on the clock, and the
processor time of a call.

    python3 bench/callers.py [calm|busy] [--repeats N] [--peer SOURCES] [--programs FOLDER]

`bench_manager` and `bench_shards` are those that `rt run` left in their crates' `out`, or those of FOLDER. Beside them stands
what plain Rust does, built here: `claims.rs`, a table behind one mutex, and, where SOURCES says where the sources of a plain
program of the same rules are, its book behind one mutex (`peer`). `busy` lets as many loops run beside as there are
processors. The runs of all programs are made in turn, and the best of each counts. The time on the clock is the calls'
alone; the processor time is that of the whole run, opening and closing included.
"""
import argparse
import os
import pathlib
import re
import subprocess
import tempfile

HERE = pathlib.Path(__file__).resolve().parent
COUNTS = (1, 2, 4, 8, 16)
TURNS, ROUNDS = 40_000, 12


class Way:
    """A way to share, with the words of its program for so many callers."""

    def __init__(self, name, program, *words):
        self.name, self.program, self.words = name, program, words

    def call(self, callers):
        return [self.program, *(str(callers) if word is None else word for word in self.words)]


def built(name, folder):
    """Where a proved program is."""
    return folder / name if folder else HERE.parent / "crates" / name / "out" / name


def ways(said, folder):
    """The ways whose programs are there. The plain ones are built into the folder."""
    manager, shards = (built(name, said.programs) for name in ("bench_manager", "bench_shards"))
    book, claims = folder / "book", folder / "claims"
    subprocess.run(["rustc", "-O", "-o", claims, HERE / "claims.rs"], check=True)
    if said.peer:
        subprocess.run(["bash", HERE / "peer/build.sh", said.peer, book], check=True)
    all_ways = [
        Way("the manager's turn", manager, None, str(TURNS)),
        Way("the mailbox", manager, "mail", None, str(TURNS)),
        Way("plain book, one mutex", book, None, str(TURNS)),
        Way("shards, a quadrant each", shards, "apart", None, str(ROUNDS)),
        Way("shards, one quadrant", shards, "one", None, str(ROUNDS)),
        Way("plain claims, one mutex", claims, "apart", None, str(ROUNDS)),
    ]
    return [way for way in all_ways if way.program.exists()]


def run(call):
    """The calls a second, and the processor microseconds of a call."""
    process = subprocess.Popen(call, stdout=subprocess.PIPE)
    text = process.stdout.read().decode()
    _, status, use = os.wait4(process.pid, 0)
    if status:
        raise SystemExit(f"{call}: status {os.waitstatus_to_exitcode(status)}")
    calls, each = (int(re.search(pattern, text)[1]) for pattern in (r"(\d+) calls", r"(\d+) ns a call"))
    return 1e9 / max(each, 1), (use.ru_utime + use.ru_stime) / calls * 1e6


def best(shown, callers, repeats):
    """For each way the most calls a second, and the least processor time of a call."""
    found = {way.name: (0.0, 1e9) for way in shown}
    for _ in range(repeats):
        for way in shown:
            rate, time = run(way.call(callers))
            found[way.name] = max(found[way.name][0], rate), min(found[way.name][1], time)
    return found


def show(shown, repeats):
    """Prints the table."""
    print("| way | " + " | ".join(f"{count} threads" for count in COUNTS) + " |")
    print("|---" * (len(COUNTS) + 1) + "|")
    columns = [best(shown, callers, repeats) for callers in COUNTS]
    for way in shown:
        cells = [f"{found[way.name][0]:,.0f}, {found[way.name][1]:.2f} µs" for found in columns]
        print(f"| {way.name} | " + " | ".join(cells) + " |")


def words():
    """The words of the command line."""
    parser = argparse.ArgumentParser(description=__doc__.split("\n\n")[0])
    parser.add_argument("beside", nargs="?", choices=("calm", "busy"), default="calm")
    parser.add_argument("--repeats", type=int, default=5, metavar="N")
    parser.add_argument("--peer", metavar="SOURCES")
    parser.add_argument("--programs", type=pathlib.Path, metavar="FOLDER")
    return parser.parse_args()


def main():
    said = words()
    with tempfile.TemporaryDirectory() as folder:
        shown = ways(said, pathlib.Path(folder))
        count = os.cpu_count() if said.beside == "busy" else 0
        loops = [subprocess.Popen(["sh", "-c", "while :; do :; done"]) for _ in range(count)]
        try:
            show(shown, said.repeats)
        finally:
            for loop in loops:
                loop.kill()


main()
