"""That workers work side by side: so many threads of the program are there at once, and calls of different workers interleave
in what it prints, as no body with one worker prints them.

A schedule may let each worker end before the next begins, so a few runs may show nothing; that one of many shows both is sure
where there are threads. With one worker none does."""
import os
import tempfile
from itertools import groupby
from typing import Callable, NamedTuple

import pytest

from program import PATIENCE
from scripts import claims
from scripts.grids import block
from scripts.layouts import TURNS, TWELVE_LANES

WORKERS, VEHICLES, ATTEMPTS = 4, 256, 200
HEAD = TWELVE_LANES.format(version=1, times="3000 100 100 2 5", policies="policy plain fcfs", vehicles=VEHICLES)


def request(vehicle):
    """What one of many vehicles says of itself, which all come at once."""
    lane = vehicle % 12
    return f"{lane} {TURNS[lane % 3]}", f"{200 + vehicle % 61} 300 2 4500 1900 car"


def drive_script():
    """All drivers ask in the first step."""
    plans = ["plan {} 0 {} 50 {} {}".format(vehicle, 100 + vehicle % 97, *request(vehicle)) for vehicle in range(VEHICLES)]
    return HEAD + "\n".join(["until 20", *plans, "end", ""])


def grid_script():
    """All vehicles begin at once, half of them at each of two crossings."""
    legs = ["leg {} {} 1 {} 50 {} {}".format(vehicle, vehicle % 2, 100 + vehicle % 97, *request(vehicle))
            for vehicle in range(VEHICLES)]
    return "\n".join(["crossings 2", *(2 * block(HEAD)).split("\n")[:-1], f"vehicles {VEHICLES}", "begin", "until 20", *legs,
                      "end", ""])


def mail_script():
    """Each vehicle has one event: with one worker they come in the order of the vehicles' numbers."""
    events = []
    for vehicle in range(VEHICLES):
        way, rest = request(vehicle)
        events.append(f"{vehicle} 0 request 1 {way} {100 + vehicle % 97} {rest}")
    return HEAD + "\n".join([*events, "end", ""])


# ---- The order of calls that a text shows: lists, in each of which one worker's calls would stand together.

def callers_of(text):
    """All callers, in the order of the entries."""
    yield [int(line.split(" ")[1]) for line in text.split("\n") if line[:1].isdigit()]


def callers_by_step(text):
    """Those of each step at each crossing."""
    lines = [line.split(" ") for line in text.split("\n") if line[:1].isdigit() or line.startswith("crossing ")]
    for is_entry, part in groupby(lines, lambda words: words[0] != "crossing"):
        for _, entries in groupby(part, lambda words: words[2]) if is_entry else []:
            yield [int(words[1]) for words in entries]


class Command(NamedTuple):
    """A command with a script whose callers are so many, and how to see the order of its calls."""

    name: str
    script: str
    callers: int
    orders: Callable

    def is_mixed(self, text):
        """Whether a worker calls again behind another one's call. The workers have runs of neighbours."""
        length = -(-self.callers // WORKERS)
        for order in self.orders(text):
            turns = [worker for worker, _ in groupby(caller // length for caller in order)]
            if len(turns) > len(set(turns)):
                return True
        return False


COMMANDS = [
    Command("shards", claims.great(1).text, 64, callers_of),
    Command("mail", mail_script(), VEHICLES, callers_of),
    Command("drive", drive_script(), VEHICLES, callers_by_step),
    Command("grid", grid_script(), VEHICLES, callers_by_step),
]
each_command = pytest.mark.parametrize("command", COMMANDS, ids=lambda command: command.name)


def threads_of(run):
    """How many threads a running program has just now."""
    try:
        return len(os.listdir(f"/proc/{run.pid}/task"))
    except FileNotFoundError:
        return 0


def watched(program, command, workers):
    """How many threads were seen at once in a run, and whether it is mixed."""
    with tempfile.TemporaryFile() as script, tempfile.TemporaryFile() as output:
        script.write(command.script.encode())
        script.seek(0)
        run = program.start(command.name, str(workers), stdin=script, stdout=output)
        most = 0
        while run.poll() is None:
            most = max(most, threads_of(run))
        assert run.wait(timeout=PATIENCE) == 0
        output.seek(0)
        return most, command.is_mixed(output.read().decode())


def seen(program, command, workers, attempts):
    """The most threads, whether any run is mixed, and how many runs it took to see as many threads and a mixed one."""
    most, is_mixed, number = 0, False, 0
    while number < attempts and not (most >= WORKERS and is_mixed):
        threads, mixed = watched(program, command, workers)
        most, is_mixed, number = max(most, threads), is_mixed or mixed, number + 1
    return most, is_mixed, number


@each_command
def test_workers_run_side_by_side(program, command, record_property):
    most, is_mixed, number = seen(program, command, WORKERS, ATTEMPTS)
    record_property("runs", number)
    assert most >= WORKERS, f"at most {most} threads at once in {number} runs with {WORKERS} workers"
    assert is_mixed, f"no calls of different workers interleave in {number} runs"


@each_command
def test_one_worker_is_told_apart(program, command):
    """The same look at a program that has one worker sees neither: so a body with one worker fails above."""
    most, is_mixed, _ = seen(program, command, 1, 2)
    assert most < WORKERS and not is_mixed
