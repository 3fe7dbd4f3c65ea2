"""`shards`: scripts of claims with 1, 2, 4 and 64 workers, whose histories are judged."""
import pytest
from hypothesis import given
from hypothesis import strategies

from judges import claims
from scripts.claims import great, small


def judged(program, script, workers):
    """What is wrong with a run, or None."""
    ran = program.run("shards", str(workers), script=script.text)
    return f"status {ran.status}: {ran.text[:100]!r}" if ran.status else claims.fault_of(script, ran.text)


@given(script=small(), workers=strategies.sampled_from((1, 2, 4, 64)))
def test_any_claims(program, script, workers):
    fault = judged(program, script, workers)
    assert not fault, fault


@pytest.mark.parametrize("workers", (1, 2, 4))
@pytest.mark.parametrize("seed", (1, 2))
def test_64_callers(program, seed, workers):
    fault = judged(program, great(seed), workers)
    assert not fault, fault


def changed_texts(lines):
    """What is changed in a history, whose last line is `end N`."""
    for at, line in enumerate(lines[:-1]):
        ticket, caller, act, number, said = line.split(" ")
        others = {
            "another answer": (ticket, caller, act, number, "no" if said == "yes" else "yes"),
            "another caller": (ticket, 1 - int(caller), act, number, said),
            "another ticket": (int(ticket) + 1, caller, act, number, said),
            "another number": (ticket, caller, act, int(number) + 1, said),
        }
        for what, words in others.items():
            yield what, [*lines[:at], " ".join(map(str, words)), *lines[at + 1 :]]
        yield "a line left out", lines[:at] + lines[at + 1 :]
        yield "a line twice", lines[: at + 1] + lines[at:]


def test_changed_histories_are_refused(program, checks):
    """So that what the judge lets pass says something."""
    script = great(3, callers=2, calls=8, count=3)
    text = program.run("shards", "1", script=script.text).text
    checks("the history as it is", claims.fault_of(script, text))
    for what, lines in changed_texts(text.split("\n")[:-1]):
        checks(what, None if claims.fault_of(script, "\n".join([*lines, ""])) else f"it is let through: {lines}")
