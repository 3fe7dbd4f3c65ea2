"""`grid`: scripts of several crossings with 1, 2, 3, 4 and 64 workers, judged by the rules of grids; and texts that the judge
refuses, also those of travellers that keep other rules."""
import pytest
from hypothesis import given
from hypothesis import strategies

from judges import grids, tiles
from judges.texts import difference
from scripts.changed import changed_texts
from scripts.grids import block, day, small, small_by
from scripts.layouts import CROSSING

PLAIN = block(CROSSING.format(version=1, times="1500 25 20 0 0", policies="policy plain fcfs", vehicles=1))
CAR = "0 straight 500 500 0 1000 700 car"
TWO = f"crossings 2\n{PLAIN}{PLAIN}vehicles 1\nbegin\nuntil 60\nleg 0 0 1 10 3 {CAR}\nleg 0 1 5 10 3 {CAR}\nend\n"
FIRST_TEXT = """crossing 0
0 0 1 request 1 0 straight 11 500 500 0 1000 700 car -> confirm 0 11 0 0 steady 21
1 0 22 done 2 0 -> ack 0
log 0 sent 1 request 1 0 straight 11 500 500 0 1000 700 car
log 0 got 2 1 confirm 0 11 0 0 steady 21
log 0 entered 11 0
log 0 sent 22 done 2 0
log 0 got 23 2 ack 0
tiles 0 1 0 11 15
tiles 0 1 1 12 17
tiles 0 1 2 14 19
tiles 0 1 3 16 21
"""
SECOND_TEXT = """crossing 1
0 0 28 request 1 0 straight 38 500 500 0 1000 700 car -> confirm 0 38 0 0 steady 48
1 0 49 done 2 0 -> ack 0
log 0 sent 28 request 1 0 straight 38 500 500 0 1000 700 car
log 0 got 29 1 confirm 0 38 0 0 steady 48
log 0 entered 38 0
log 0 sent 49 done 2 0
log 0 got 50 2 ack 0
tiles 0 1 0 38 42
tiles 0 1 1 39 44
tiles 0 1 2 41 46
tiles 0 1 3 43 48
"""
TWO_TEXT = f"{FIRST_TEXT}{SECOND_TEXT}end 4\n"


def tiles_fault(lines):
    """Two vehicles on one tile of one crossing, or None."""
    starts = [at for at, line in enumerate(lines) if line.startswith("crossing ")]
    parts = [lines[start:end] for start, end in zip(starts, starts[1:] + [len(lines)])]
    return next((fault for fault in map(tiles.shared, parts) if fault), None)


def judged(program, script, workers, wanted=None):
    """What is wrong with a run, or None, and its text. Where a text is wanted it has to be that one."""
    ran = program.run("grid", str(workers), script=script)
    if ran.status:
        return f"status {ran.status}: {ran.text[:100]!r}", ran.text
    lines = ran.text.split("\n")
    fault = grids.fault_of(program, script, ran.text) or tiles_fault(lines)
    return fault or wanted and difference(lines, wanted.split("\n")), ran.text


@pytest.mark.parametrize("workers", (1, 2, 4))
def test_two_crossings(program, workers):
    fault, _ = judged(program, TWO, workers, TWO_TEXT)
    assert not fault, fault


@pytest.mark.parametrize("until", (21, 22, 23, 24, 60))
def test_two_crossings_until(program, until):
    fault, _ = judged(program, TWO.replace("until 60", f"until {until}"), 1)
    assert not fault, fault


@given(script=small(), workers=strategies.sampled_from((1, 2, 64)))
def test_any_grid(program, script, workers):
    fault, _ = judged(program, script, workers)
    assert not fault, fault


@pytest.mark.parametrize("seed", range(24))
def test_small_grid(program, seed):
    fault, _ = judged(program, small_by(seed), (1, 2, 3, 64)[seed % 4])
    assert not fault, fault


def unfinished(script, text):
    """How many legs of a day aren't through at its end."""
    said = grids.Grid(script)
    parts, _ = grids.parts_of(text.split("\n"), len(said.blocks))
    logs = (grids.log_of(parts[leg.crossing], leg.vehicle) for leg in said.legs)
    return sum(grids.through_at(log) is None for log in logs)


@pytest.mark.parametrize("seed, all_workers", [(0, (1, 2, 4)), (1, (1,))])
def test_day(program, checks, seed, all_workers):
    script = day(seed)
    for workers in all_workers:
        fault, text = judged(program, script, workers)
        checks(f"{workers} workers", fault)
        left = unfinished(script, text)
        checks(f"all legs with {workers} workers", f"{left} aren't through" if left else None)


def crossed_from(program, first):
    """What is printed of the second crossing where its driver first asks in that step, whatever came before."""
    plan = f"{PLAIN}vehicles 1\nbegin\nuntil 60\nplan 0 {first} 10 3 {CAR}\nend\n"
    return "crossing 1\n" + "".join(program.run("drive", "1", script=plan).text.splitlines(True)[:-1])


def test_changed_texts_are_refused(program, checks):
    """So that what the judge lets pass says something."""
    for text in changed_texts(TWO_TEXT):
        checks("a changed text", None if grids.fault_of(program, TWO, text) else f"it is let through: {text}")


def test_other_travellers_are_refused(program, checks):
    others = {
        "a second leg that begins with the first": crossed_from(program, 5),
        "a second leg that begins where the DONE is sent": crossed_from(program, 27),
        "a second leg that begins one step late": crossed_from(program, 29),
        "a second leg that never begins": "crossing 1\n",
    }
    for what, second in others.items():
        text = f"{FIRST_TEXT}{second}end {4 if ' -> ' in second else 2}\n"
        checks(what, None if grids.fault_of(program, TWO, text) else "it is let through")
    text = f"{SECOND_TEXT}{FIRST_TEXT}end 4\n"
    checks("the crossings in another order", None if grids.fault_of(program, TWO, text) else "they are let through")
