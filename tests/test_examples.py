"""The examples, as a user runs them; words that the program doesn't know, inputs and outputs that fail, and limits."""
import os
import re
import resource
import select
import subprocess
import sys

import pytest

from conftest import TOP
from program import PATIENCE

EXAMPLES = TOP / "examples"
FIRST, CONFIRMED = (EXAMPLES / "first.aim").read_bytes(), (EXAMPLES / "first.out").read_bytes()


def words_for(script):
    """A drive has an `until` line, routes begin with `crossings`. Both are run with one worker, as the mailbox's clients."""
    if re.search("^crossings ", script.read_text(), re.M):
        return ["grid", "1"]
    if re.search("^until ", script.read_text(), re.M):
        return ["drive", "1"]
    return ["mail", "1"] if script.stem == "mail" else ["replay"]


@pytest.mark.parametrize("output", sorted(EXAMPLES.glob("*.out")), ids=lambda output: output.stem)
def test_example(command, output):
    """Each prints what stands beside it."""
    script = output.with_suffix(".aim")
    assert command.run(*words_for(script), script=script.read_bytes()) == (0, output.read_bytes())


def test_no_script(command):
    assert command.run("replay") == (3, b"bad line 1 end\n")


def test_unknown_words(command):
    assert command.run("replay", "now") == (2, b"usage\n")


def test_folder_as_input(command):
    folder = os.open(EXAMPLES, os.O_RDONLY)
    ran = command.run("replay", stdin=folder)
    os.close(folder)
    assert ran == (4, b"")


def test_full_output(command):
    with open("/dev/full", "wb") as full:
        assert command.run("replay", script=FIRST, stdout=full).status == 5


def test_too_little_memory(program):
    """Nothing was written."""
    limit = 10_000 * 1024
    ran = program.run("replay", script=FIRST, preexec_fn=lambda: resource.setrlimit(resource.RLIMIT_AS, (limit, limit)))
    assert ran == (7, b"")


@pytest.mark.parametrize("vehicles, spans, wanted", [
    (4096, 4096, (0, CONFIRMED)), (65536, 256, (0, CONFIRMED)),
    (4097, 4096, (6, b"limit sheets\n")), (65537, 1, (6, b"limit vehicles\n"))])
def test_most_vehicles(command, vehicles, spans, wanted):
    """Memory is there for the most vehicles that the spans allow; and limits past them."""
    script = re.sub(b"(?m)^vehicles .*", b"vehicles %d" % vehicles, re.sub(b"(?m) 4096$", b" %d" % spans, FIRST))
    assert command.run("replay", script=script) == wanted


def test_events_are_answered_at_once(command, checks):
    """The answer to each is awaited before the next is given."""
    lines = (EXAMPLES / "refusal.aim").read_bytes().splitlines(True)
    answers = (EXAMPLES / "refusal.out").read_bytes().splitlines(True)
    run = command.start("replay", stderr=subprocess.DEVNULL)
    run.stdin.write(b"".join(line for line in lines if b" request " not in line and line != b"end\n"))
    events = [line for line in lines if b" request " in line]
    for event, wanted in zip(events, answers):
        run.stdin.write(event)
        got = b""
        while not got.endswith(b"\n") and select.select([run.stdout], [], [], PATIENCE)[0]:
            part = os.read(run.stdout.fileno(), 65536)
            got += part or b" and no more\n"
        checks.same(f"the answer to {event!r}, at once", wanted, got)
    text, _ = run.communicate(timeout=PATIENCE)
    number = len(lines)
    checks.same("an end without its line", (3, b"bad line %d end\n" % number), (run.returncode, text))


def test_chart_behind_a_session(command):
    text = (EXAMPLES / "session.out").read_bytes()
    entries = text[: text.index(b"end ")]
    ran = command.run("chart", "1755", script=(EXAMPLES / "session.aim").read_bytes())
    assert ran == (0, entries + b"....\n....\n####\n....\nend 17\n")


@pytest.mark.parametrize("words, last", [([], "end 11 0"), (["--json"], '{"end":11} 0')], ids=("text", "json"))
def test_partner_process(command, words, last):
    """It asks, and reads answers."""
    done = subprocess.run([sys.executable, EXAMPLES / "partner.py", command.path, *words], stdout=subprocess.PIPE, text=True,
                          timeout=PATIENCE, check=True)
    assert done.stdout.splitlines()[-1] == last


def test_picture_of_a_drive():
    """It is made of the example as it stands."""
    made = subprocess.run([sys.executable, TOP / "tools/drive_picture.py", EXAMPLES / "lossy.aim", EXAMPLES / "lossy.out"],
                          stdout=subprocess.PIPE, text=True, timeout=PATIENCE, check=True)
    assert made.stdout == (TOP / "docs/pictures/drive.svg").read_text()
