"""`mail`: scripts of events with 1, 2, 4 and 64 workers, whose journals are judged; and texts that the judge refuses."""
import pytest
from hypothesis import given
from hypothesis import strategies

from judges import mail
from scripts import events


def judged(program, script, workers):
    """What is wrong with a run, or None, and its text."""
    ran = program.run("mail", str(workers), script=script.text)
    if ran.status:
        return f"status {ran.status}: {ran.text[:100]!r}", ran.text
    return mail.fault_of(program, script, workers, ran.text), ran.text


@given(data=strategies.data(), workers=strategies.sampled_from((1, 2, 64)))
def test_any_clients(program, data, workers):
    fault, _ = judged(program, data.draw(events.small(program)), workers)
    assert not fault, fault


@pytest.mark.parametrize("seed", range(24))
def test_few_clients(program, checks, seed):
    script = events.small_by(program, seed)
    for workers in (1, 2, 64):
        checks(f"{workers} workers", judged(program, script, workers)[0])


@pytest.mark.parametrize("seed", range(3))
def test_256_clients(program, checks, seed):
    script = events.great(program, seed)
    for workers in (1, 2, 4):
        checks(f"{workers} workers", judged(program, script, workers)[0])


# ---- Texts that the judge has to refuse, so that what it lets pass says something.

def other_calls(program, script):
    """What is changed in the calls of one worker, and what is then answered."""
    calls = events.rounds_of(script.events, range(script.vehicles))
    again = lambda calls: program.run("replay", script=events.script_of(script.head, calls)).text
    for at, call in enumerate(calls):
        later = next((k for k in range(at + 1, len(calls)) if calls[k][0] == call[0] and calls[k] != call), None)
        if later is not None:
            swapped = calls[:at] + [calls[later], *calls[at + 1 : later], call] + calls[later + 1 :]
            yield "two calls of a vehicle swapped", again(swapped)
        yield "a call left out", again(calls[:at] + calls[at + 1 :])
        yield "a call made twice", again(calls[: at + 1] + calls[at:])


def other_lines(text):
    """What is changed in single lines of a text."""
    lines = text.split("\n")[:-1]
    for at, line in enumerate(lines):
        yield "a line left out", "\n".join([*lines[:at], *lines[at + 1 :], ""])
        words = line.split(" ")
        for place, word in enumerate(words):
            if word.isdigit():
                raised = " ".join([*words[:place], str(int(word) + 1), *words[place + 1 :]])
                yield "a number raised", "\n".join([*lines[:at], raised, *lines[at + 1 :], ""])
    replies = [line.split(" -> ")[-1] for line in lines[:-1]]
    for at, reply in enumerate(replies):
        other = next(other for other in [*replies, "emergency-stop"] if other != reply)
        changed = lines[at].split(" -> ")[0] + " -> " + other
        yield "another reply", "\n".join([*lines[:at], changed, *lines[at + 1 :], ""])


def test_changed_texts_are_refused(program, checks):
    script = events.small_by(program, 3)
    fault, text = judged(program, script, 1)
    checks("the text as it is", fault)
    changed = [*other_calls(program, script), *other_lines(text)]
    assert {what for what, _ in changed} == {
        "two calls of a vehicle swapped", "a call left out", "a call made twice", "a line left out", "a number raised",
        "another reply"}
    for what, other in changed:
        checks(what, None if mail.fault_of(program, script, 1, other) else f"it is let through: {other}")
