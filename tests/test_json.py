"""`replay-json` over the cases that replay a script, each turned into JSON lines by examples/json_lines.py. What it prints
is the case's output, turned into JSON lines too, and the status is the case's; a line whose words are at fault is `form`
there. Inputs that are cut within a line are left out."""
import importlib.util
import re
import subprocess
import sys

import pytest
from hypothesis import given
from hypothesis import strategies

from conftest import TOP
from judges import texts
from program import PATIENCE
from scripts import events

FAULT = re.compile(rb'"kind":"(unknown|words|number|range)"}')
EXAMPLE = TOP / "examples/json_lines.py"
CASES = sorted(case for case in (TOP / "tests/cases").iterdir() if case.is_dir())
FIRST = (TOP / "examples/first.aim").read_bytes()

spec = importlib.util.spec_from_file_location("json_lines", EXAMPLE)
json_lines = importlib.util.module_from_spec(spec)
spec.loader.exec_module(json_lines)


def as_json(text):
    """The lines as JSON lines, or None where one of them is no line of a script or of a replay."""
    lines = []
    try:
        for line in text.decode().split("\n")[:-1]:
            value = json_lines.value_of(line)
            if " ".join(json_lines.words_of(value)) != line:
                return None
            lines.append(json_lines.compact(value) + "\n")
    except (json_lines.Refused, KeyError, IndexError, TypeError, AttributeError, ValueError):
        return None
    return "".join(lines).encode()


def script_of(case):
    """The case's script as JSON lines, or None where it has none."""
    text = (case / "input").read_bytes()
    is_replay = (case / "words").read_text() == "replay\n" and text.endswith(b"\n")
    return as_json(text) if is_replay else None


SCRIPTS = {case: script for case, script in ((case, script_of(case)) for case in CASES) if script is not None}


@pytest.mark.parametrize("case", SCRIPTS, ids=lambda case: case.name)
def test_case_in_json(program, case):
    ran = program.run("replay-json", script=SCRIPTS[case])
    wanted = FAULT.sub(b'"kind":"form"}', as_json((case / "output").read_bytes()))
    fault = texts.ran_otherwise(ran, int((case / "status").read_text()), wanted)
    assert not fault, fault


@pytest.mark.parametrize("length, last", [(400, b'{"end":1}'), (401, b'{"bad":1,"kind":"long"}')])
def test_length_of_a_line(program, length, last):
    """The first line of the first example has so many bytes, by white space behind it."""
    first, *others = as_json(FIRST).splitlines()
    ran = program.run("replay-json", script=b"\n".join([first.ljust(length), *others, b""]))
    assert ran.output.splitlines()[-1] == last


def test_the_example_turns_lines_there_and_back():
    def turned(word, text):
        return subprocess.run([sys.executable, EXAMPLE, word], input=text, stdout=subprocess.PIPE, timeout=PATIENCE,
                              check=True).stdout

    assert turned("to-json", FIRST) == as_json(FIRST)
    assert turned("to-text", as_json(FIRST)) == FIRST


@given(data=strategies.data())
def test_any_script_is_answered_as_its_text_is(program, data):
    script = data.draw(events.small(program))
    ran = program.run("replay-json", script=as_json(script.text.encode()))
    fault = texts.ran_otherwise(ran, 0, as_json(program.run("replay", script=script.text).output))
    assert not fault, fault
