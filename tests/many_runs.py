#!/usr/bin/env python3
"""Many runs of the commands that have workers, on a busy machine, each judged: no order of threads may give a wrong text, and
no run may hang.

    python3 tests/many_runs.py [--program PATH] [--runs 1000] [--busy N] [--jobs N] [COMMAND ..]

`shards`, `mail`, `grid` and `drive` are run so often each, or those that are named, with 2 to 64 workers. N loops run beside, as
many as there are processors if it isn't said, and so many runs are judged at once. It isn't part of the suite, since it takes an
hour or so. It prints a line for each run that is at fault, with the seed and the workers by which it is made again, and one for
each command. The status is 0 where all runs are right.
"""
import argparse
import multiprocessing
import os
import pathlib
import subprocess
import sys
import time
from typing import NamedTuple

import program
from judges import claims, drives, grids, mail, tiles
from scripts import claims as claim_scripts
from scripts import drives as drive_scripts
from scripts import events as event_scripts
from scripts import grids as grid_scripts

BUILT = pathlib.Path(__file__).resolve().parent.parent / "crates/aim/out/aim"
WORKERS = (2, 3, 4, 8, 16, 64)
# One script of so many is a great one: the others let many schedules be tried, these let each be long.
GREAT = 10
# A run that takes so many seconds hangs: on a busy machine the longest takes some ten.
PATIENCE = 300


class Run(NamedTuple):
    """A run: the command, and what its script and its workers go by."""

    path: str
    command: str
    number: int

    @property
    def seed(self):
        return self.number // len(WORKERS)

    @property
    def workers(self):
        return WORKERS[self.number % len(WORKERS)]

    @property
    def is_great(self):
        return self.seed % GREAT == GREAT - 1


class Judged(NamedTuple):
    """A run, the seconds that it took, and what is wrong with it, or None."""

    run: Run
    seconds: float
    fault: str


def shards_of(_, run):
    """A script of claims, its text, and its judge."""
    calls, count = (1024, 48) if run.is_great else (32, 12)
    script = claim_scripts.great(run.seed, calls=calls, count=count)
    return script.text, lambda text: claims.fault_of(script, text)


def mail_of(tested, run):
    """A script of events, its text, and its judge."""
    script = (event_scripts.great if run.is_great else event_scripts.small_by)(tested, run.seed)
    return script.text, lambda text: mail.fault_of(tested, script, run.workers, text)


def drive_of(tested, run):
    """A script of a drive, and its judge."""
    script = (drive_scripts.busy if run.is_great else drive_scripts.small_by)(run.seed)
    return script, lambda text: drives.fault_of(tested, script, run.workers, text) or tiles.shared(text.split("\n"))


def grid_of(tested, run):
    """A script of several crossings, and its judge."""
    script = (grid_scripts.day if run.is_great and run.seed % 50 == GREAT - 1 else grid_scripts.small_by)(run.seed)
    return script, lambda text: grids.fault_of(tested, script, text)


COMMANDS = {"shards": shards_of, "mail": mail_of, "grid": grid_of, "drive": drive_of}


def fault_of(tested, run, text, judge):
    """What is wrong with what the program does with the text, or None, and the seconds that it took."""
    start = time.monotonic()
    try:
        ran = tested.run(run.command, str(run.workers), script=text)
    except subprocess.TimeoutExpired:
        return f"no end after {PATIENCE} seconds", PATIENCE
    seconds = time.monotonic() - start
    if ran.status:
        return f"status {ran.status}: {ran.text[:100]!r}", seconds
    return judge(ran.text), seconds


def judged(run):
    """Makes the run, and judges it."""
    tested = program.Program(run.path)
    text, judge = COMMANDS[run.command](tested, run)
    fault, seconds = fault_of(tested, run, text, judge)
    return Judged(run, seconds, fault)


def told(command, results):
    """Prints what came of a command's runs, and gives how many are at fault."""
    wrong = [judged for judged in results if judged.fault]
    for found in wrong:
        print(f"{command} {found.run.workers}, seed {found.run.seed}: {found.fault}", flush=True)
    longest = max(results, key=lambda found: found.seconds)
    print(f"{command}: {len(results)} runs, {len(results) - len(wrong)} right, the longest {longest.seconds:.1f} s "
          f"(seed {longest.run.seed}, {longest.run.workers} workers)", flush=True)
    return len(wrong)


def words():
    """The words of the command line."""
    parser = argparse.ArgumentParser(description=__doc__.split("\n\n")[0])
    parser.add_argument("--program", default=BUILT, metavar="PATH")
    parser.add_argument("--runs", type=int, default=1000)
    parser.add_argument("--busy", type=int, default=os.cpu_count(), metavar="N")
    parser.add_argument("--jobs", type=int, default=os.cpu_count(), metavar="N")
    parser.add_argument("commands", nargs="*", metavar="COMMAND", help="shards, mail, grid, drive")
    said = parser.parse_args()
    if unknown := set(said.commands) - set(COMMANDS):
        parser.error(f"no such command: {', '.join(sorted(unknown))}")
    return said


def main():
    said, wrong = words(), 0
    path = str(pathlib.Path(said.program).resolve())
    program.PATIENCE = PATIENCE
    loops = [subprocess.Popen(["sh", "-c", "while :; do :; done"]) for _ in range(said.busy)]
    try:
        with multiprocessing.Pool(said.jobs) as pool:
            for command in said.commands or COMMANDS:
                runs = [Run(path, command, number) for number in range(said.runs)]
                wrong += told(command, list(pool.imap_unordered(judged, runs)))
    finally:
        for loop in loops:
            loop.kill()
    return 1 if wrong else 0


if __name__ == "__main__":
    sys.exit(main())
