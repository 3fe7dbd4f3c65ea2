"""`drive` and `generate`: scripts with 1, 2 and 4 workers, judged by the rules of drives; and texts that the judge refuses."""
import random

import pytest
from hypothesis import given
from hypothesis import strategies

from judges import drives, tiles
from judges.texts import difference
from scripts.changed import changed_texts
from scripts.drives import busy, generated, small, small_by
from scripts.layouts import CROSSING, PLAIN_AND_LIGHTS

LOSSY = CROSSING.format(version=1, times="1500 25 20 0 0", policies=PLAIN_AND_LIGHTS, vehicles=2) + """until 40
plan 0 0 10 3 0 straight 500 500 0 1000 700 car
up 0 l
down 0 r
plan 1 1 12 3 1 straight 500 500 0 1000 700 car
down 1 4
cancel 1 7
operator 2 switch lights
end
"""
LOSSY_TEXT = """0 1 1 request 1 1 straight 13 500 500 0 1000 700 car -> confirm 0 13 0 0 steady 23
1 operator 2 switch 1 -> switched 1502
2 0 3 request 1 0 straight 10 500 500 0 1000 700 car -> reject taken 1 2 14 1 next 6 held none
3 1 4 request 1 1 straight 13 500 500 0 1000 700 car -> confirm 0 13 0 0 steady 23
4 0 6 request 2 0 straight 16 500 500 0 1000 700 car -> reject distance 3500 next 11 held none
5 1 7 cancel 2 0 -> ack 0
6 1 8 request 3 1 straight 20 500 500 0 1000 700 car -> confirm 6 20 0 0 steady 30
7 0 11 request 3 0 straight 18 500 500 0 1000 700 car -> reject taken 1 2 21 1 next 14 held none
8 0 14 request 4 0 straight 21 500 500 0 1000 700 car -> reject taken 1 2 24 1 next 17 held none
9 0 17 request 5 0 straight 24 500 500 0 1000 700 car -> confirm 9 24 0 0 steady 34
10 1 31 done 4 6 -> ack 6
11 0 35 done 6 9 -> ack 9
log 0 sent 0 request 1 0 straight 10 500 500 0 1000 700 car
log 0 sent 3 request 1 0 straight 10 500 500 0 1000 700 car
log 0 got 4 1 reject taken 1 2 14 1 next 6 held none
log 0 got 5 1 reject taken 1 2 14 1 next 6 held none
log 0 sent 6 request 2 0 straight 16 500 500 0 1000 700 car
log 0 got 7 2 reject distance 3500 next 11 held none
log 0 sent 11 request 3 0 straight 18 500 500 0 1000 700 car
log 0 got 12 3 reject taken 1 2 21 1 next 14 held none
log 0 sent 14 request 4 0 straight 21 500 500 0 1000 700 car
log 0 got 15 4 reject taken 1 2 24 1 next 17 held none
log 0 sent 17 request 5 0 straight 24 500 500 0 1000 700 car
log 0 got 18 5 confirm 9 24 0 0 steady 34
log 0 entered 24 9
log 0 sent 35 done 6 9
log 0 got 36 6 ack 9
log 1 sent 1 request 1 1 straight 13 500 500 0 1000 700 car
log 1 sent 4 request 1 1 straight 13 500 500 0 1000 700 car
log 1 got 5 1 confirm 0 13 0 0 steady 23
log 1 got 6 1 confirm 0 13 0 0 steady 23
log 1 sent 7 cancel 2 0
log 1 got 8 2 ack 0
log 1 sent 8 request 3 1 straight 20 500 500 0 1000 700 car
log 1 got 9 3 confirm 6 20 0 0 steady 30
log 1 entered 20 6
log 1 sent 31 done 4 6
log 1 got 32 4 ack 6
tiles 0 1 0 24 28
tiles 0 1 1 25 30
tiles 0 1 2 27 32
tiles 0 1 3 29 34
tiles 1 0 2 20 24
tiles 1 1 2 21 26
tiles 1 2 2 23 28
tiles 1 3 2 25 30
end 12
"""
EARLY = CROSSING.format(version=3, times="1500 25 20 1 3 4", policies=PLAIN_AND_LIGHTS, vehicles=1) + """until 40
plan 0 0 10 3 0 straight 500 500 0 1000 700 car early
end
"""
EARLY_TEXT = """0 0 0 request 1 0 straight 10 500 500 0 1000 700 car -> confirm 0 10 1 3 steady 20
1 0 20 done 2 0 -> ack 0
log 0 sent 0 request 1 0 straight 10 500 500 0 1000 700 car
log 0 got 1 1 confirm 0 10 1 3 steady 20
log 0 entered 9 0
log 0 sent 20 done 2 0
log 0 got 21 2 ack 0
tiles 0 1 0 9 13
tiles 0 1 1 10 15
tiles 0 1 2 12 17
tiles 0 1 3 14 19
end 2
"""

# What drivers do at the edges of their rules, on the small crossing with windows from 1 step early to 3 steps late.
EDGES = {
    "an answer in the last step of the window": (
        "until 40", "plan 0 0 10 255 0 straight 500 500 0 1000 700 car start", "down 0 12"),
    "an answer one step behind the window": (
        "until 40", "plan 0 0 10 255 0 straight 500 500 0 1000 700 car start", "down 0 13"),
    "an answer in the first step of the early window": (
        "until 40", "plan 0 0 10 255 0 straight 500 500 0 1000 700 car early", "down 0 8"),
    "a second change before the first is answered": (
        "until 90", "plan 0 0 10 3 0 straight 500 500 0 1000 700 car start", "change 0 1 40", "change 0 2 60",
        "down 0 d 5"),
    "a cancel before a change is answered": (
        "until 90", "plan 0 0 10 3 0 straight 500 500 0 1000 700 car start", "change 0 1 40", "cancel 0 2",
        "down 0 d 9"),
    "a cancel and a change of one step": (
        "until 90", "plan 0 0 10 3 0 straight 500 500 0 1000 700 car start", "change 0 4 40", "cancel 0 4"),
    "a cancel in the step of entering": (
        "until 40", "plan 0 0 10 3 0 straight 500 500 0 1000 700 car start", "cancel 0 10"),
    "a change in the step of entering": (
        "until 40", "plan 0 0 10 3 0 straight 500 500 0 1000 700 car early", "change 0 9 20"),
    "a change that is refused, and then the crossing": (
        "until 40", "plan 0 0 10 3 0 straight 500 500 0 1000 700 car start", "change 0 3 1"),
    "a change from too far, then another request": (
        "until 60", "plan 2 0 30 3 1 straight 500 500 0 1000 700 car start",
        "plan 0 1 12 3 0 straight 500 500 0 1000 700 car start",
        "plan 1 2 29 3 0 straight 500 500 0 1000 700 car start", "change 0 5 50", "cancel 0 7"),
    "a stop between a confirm and a change": (
        "until 40", "plan 0 0 10 3 0 straight 500 500 0 1000 700 car start", "change 0 3 20", "operator 2 stop"),
    "a stop before an answer that is late": (
        "until 40", "plan 0 0 10 3 0 straight 500 500 0 1000 700 car early", "down 0 6 2", "operator 2 stop"),
    "a first letter that comes behind the second": (
        "until 60", "plan 0 0 20 5 0 straight 500 500 0 1000 700 car start", "cancel 0 8", "up 0 d 9 r 7 r"),
    "all letters twice": (
        "until 60", "plan 0 0 20 1 0 straight 500 500 0 1000 700 car early", "up 0 r r r r r r r r",
        "down 0 r r r r r r r r"),
    "answers that are all lost": (
        "until 120", "plan 0 0 20 1 0 straight 500 500 0 1000 700 car start", "down 0" + " l" * 64),
    "a done that is lost": (
        "until 60", "plan 0 0 10 4 0 straight 500 500 0 1000 700 car start", "up 0 d l l"),
    "a plan with a speed of nought": (
        "until 9", "plan 0 0 3 3 0 straight 0 500 0 1000 700 car start"),
}


def faulty(vehicle, way, fate):
    """The lossy script, with the first fate of one link in the place of what it was; a link without a line gets one."""
    lines = LOSSY.split("\n")
    name = f"{way} {vehicle} "
    if any(line.startswith(name) for line in lines):
        return "\n".join(f"{name}{fate}" if line.startswith(name) else line for line in lines)
    place = next(at for at, line in enumerate(lines) if line.startswith(f"plan {vehicle} "))
    return "\n".join(lines[: place + 1] + [f"{name}{fate}"] + lines[place + 1 :])


# ---- Runs.

def judged(program, script, workers, wanted=None):
    """What is wrong with a run, or None, and its text. Where a text is wanted it has to be that one."""
    ran = program.run("drive", str(workers), script=script)
    if ran.status:
        return f"status {ran.status}: {ran.text[:100]!r}", ran.text
    lines = ran.text.split("\n")
    fault = drives.fault_of(program, script, workers, ran.text) or tiles.shared(lines)
    return fault or wanted and difference(lines, wanted.split("\n")), ran.text


@pytest.mark.parametrize("workers, wanted", [(1, LOSSY_TEXT), (2, None), (4, None)])
def test_lossy_drive(program, workers, wanted):
    fault, _ = judged(program, LOSSY, workers, wanted)
    assert not fault, fault


@pytest.mark.parametrize("fate", ("d", "l", "r", "1", "255"))
@pytest.mark.parametrize("vehicle, way", [(0, "up"), (0, "down"), (1, "up"), (1, "down")])
def test_first_letter(program, vehicle, way, fate):
    fault, _ = judged(program, faulty(vehicle, way, fate), 1)
    assert not fault, fault


def test_driver_that_enters_early(program):
    fault, _ = judged(program, EARLY, 1, EARLY_TEXT)
    assert not fault, fault


@pytest.mark.parametrize("lines", EDGES.values(), ids=EDGES)
def test_edge(program, lines):
    head = CROSSING.format(version=3, times="1500 25 20 1 3 4", policies=PLAIN_AND_LIGHTS, vehicles=3)
    fault, _ = judged(program, head + "\n".join([*lines, "end", ""]), 1)
    assert not fault, fault


@given(script=small(), workers=strategies.sampled_from((1, 2, 64)))
def test_any_drive(program, script, workers):
    fault, _ = judged(program, script, workers)
    assert not fault, fault


@pytest.mark.parametrize("seed", range(18))
def test_small_drive(program, seed):
    fault, _ = judged(program, small_by(seed), (1, 2, 3, 64)[seed % 4])
    assert not fault, fault


@pytest.mark.parametrize("workers", (1, 2, 4))
@pytest.mark.parametrize("seed", range(3))
def test_busy_drive(program, seed, workers):
    fault, _ = judged(program, busy(seed), workers)
    assert not fault, fault


def callers_by_moment(text):
    """The vehicles that have calls in each moment of a report's journal."""
    callers = {}
    for line in text.split("\n"):
        words = line.split(" ")
        if "->" in words and words[1] != "operator":
            callers.setdefault(int(words[2]), set()).add(int(words[1]))
    return callers


@pytest.mark.parametrize("seed", range(6))
def test_workers_matter_only_where_calls_race(program, seed):
    """Vehicles come so far apart that no moment has calls of two: so the text is the same, however many workers there are."""
    die = random.Random(seed)
    plans = [
        f"plan {vehicle} {200 * vehicle} {die.randrange(5, 40)} {die.randrange(1, 9)} {die.randrange(2)} straight"
        f" {die.randrange(100, 501)} 500 {die.randrange(3)} 1000 700 car" for vehicle in range(6)]
    head = CROSSING.format(version=1, times="1500 25 20 0 0", policies=PLAIN_AND_LIGHTS, vehicles=6)
    script = head + "\n".join(["until 2000", *plans, "end", ""])
    fault, text = judged(program, script, 1)
    assert not fault, fault
    callers = callers_by_moment(text)
    assert len(callers) >= 12 and all(len(these) == 1 for these in callers.values()), callers
    for workers in (2, 3, 6):
        fault, other = judged(program, script, workers, text)
        assert not fault and other == text, fault


def test_256_vehicles(program):
    fault, _ = judged(program, generated(7, 256), 4)
    assert not fault, fault


def test_changed_texts_are_refused(program, checks):
    """So that what the judge lets pass says something."""
    for text in changed_texts(LOSSY_TEXT):
        checks("a changed text", None if drives.fault_of(program, LOSSY, 1, text) else f"it is let through: {text}")


def test_a_shared_tile_is_seen():
    """By the judge of tiles, also where a long visit has ended before another that began behind it."""
    assert tiles.shared(["tiles 0 1 1 5 9", "tiles 1 1 1 9 12"])
    assert tiles.shared(["tiles 0 1 1 0 30", "tiles 1 1 1 9 31"])
    assert not tiles.shared(["tiles 0 1 1 5 9", "tiles 1 1 1 10 12", "tiles 2 1 2 5 9", "tiles 0 1 1 0 2"])


# ---- `generate`.

def test_generate_twice(program):
    assert program.run("generate", "1", "60") == program.run("generate", "1", "60")


def summary_of(text, count):
    """What `generate` prints of a drive of so many vehicles."""
    lines = text.split("\n")
    replies = [line.split(" -> ")[1] for line in lines if " -> " in line]
    entered = [line for line in lines if line.startswith("log ") and line.split(" ")[2] == "entered"]
    return [f"steps {33 * count + 4000}", f"entries {len(replies)}",
            f"confirms {sum(reply.startswith('confirm ') for reply in replies)}",
            f"rejects {sum(reply.startswith('reject ') for reply in replies)}",
            f"entered {len(entered)}", f"end {len(replies)}", ""]


@pytest.mark.parametrize("number, count", [(1, 60), (0, 1), (4_294_967_295, 12)])
def test_generate(program, checks, number, count):
    fault, text = judged(program, generated(number, count), 1)
    checks("the drive of its script", fault)
    ran = program.run("generate", str(number), str(count))
    checks("what it prints", f"status {ran.status}" if ran.status else difference(ran.text.split("\n"), summary_of(text, count)))
