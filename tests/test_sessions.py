"""A session: lines that aren't taken are answered and change nothing, and each line is answered before the next is read."""
import os
import re
import resource
import select
import subprocess

import pytest

from conftest import TOP
from program import PATIENCE

EXAMPLES = TOP / "examples"
FIRST = (EXAMPLES / "first.aim").read_bytes()
SESSION, ANSWERED = (EXAMPLES / "session.aim").read_bytes(), (EXAMPLES / "session.out").read_bytes()
HEAD = FIRST[: FIRST.index(b"begin\n") + 6]
REPLAYS = [path for path in sorted(EXAMPLES.glob("*.out"))
           if not re.search(rb"(?m)^(until|crossings) ", path.with_suffix(".aim").read_bytes()) and path.stem != "mail"]


@pytest.mark.parametrize("output", REPLAYS, ids=lambda output: output.stem)
def test_whole_scripts(command, output):
    """Of a whole script a session prints what a replay prints."""
    script = output.with_suffix(".aim").read_bytes()
    assert command.run("session", script=script) == command.run("replay", script=script)


def test_lines_between(command):
    """Lines at fault before and behind each line of a script: each is answered, and the other answers stay."""
    between = [(b"nothing", b"unknown"), (b"", b"unknown"), (b"aim 9", None), (b"x" * 401, b"long"), (b"y" * 300_000, b"long"),
               (b"begin", None), (b"0 0 request 1", b"words"), (b"operator 0 stop 0", b"words")]
    lines, script, wanted = SESSION.splitlines(), [], ANSWERED.splitlines()
    answers = iter(wanted)
    text = []
    for place, line in enumerate(lines):
        bad, kind = between[place % len(between)]
        script += [bad] if kind else []
        text += [b"bad line %d %s" % (len(script), kind)] if kind else []
        script.append(line)
        if re.match(rb"(operator|end|\d)", line):
            text.append(next(answers))
    assert command.run("session", script=b"".join(line + b"\n" for line in script)) == (0, b"".join(line + b"\n" for line in text))


def test_faults_of_the_header(command):
    """The next line is taken as if the one at fault had not come."""
    lines = HEAD.splitlines()
    places = [place for place, line in enumerate(lines) if line.startswith((b"grid", b"times", b"lanes", b"vehicles"))]
    script, text = [], []
    for place, line in enumerate(lines):
        if place in places:
            script.append(b"begin")
            text.append(b"bad line %d order" % len(script))
        if line.startswith(b"vehicles"):
            script.append(b"vehicles 70000")
            text.append(b"limit vehicles")
        script.append(line)
    script += FIRST[len(HEAD):].splitlines()
    text += (EXAMPLES / "first.out").read_bytes().splitlines()
    assert command.run("session", script=b"\n".join(script)) == (0, b"\n".join(text) + b"\n")


def test_the_end_of_the_input(command, checks):
    for cut in (0, 1, len(HEAD), len(FIRST) - 5, len(FIRST) - 4, len(FIRST) - 2):
        script = FIRST[:cut]
        ran = command.run("session", script=script)
        number = len(script.splitlines())
        checks.same(f"{cut} bytes", (3, b"bad line %d end" % (number + 1)), (ran.status, ran.output.splitlines()[-1]))
    checks.same("no byte 10 behind the end", command.run("replay", script=FIRST), command.run("session", script=FIRST[:-1]))


def test_answers_come_at_once(command, checks):
    """The answer to each line is awaited before the next is given, also of one at fault, and `end` ends it with the input open."""
    run = command.start("session", stderr=subprocess.DEVNULL)
    asked = [(b"nothing\n", b"bad line 1 unknown\n"), (HEAD + b"operator 0\n", b"bad line %d words\n" % (HEAD.count(b"\n") + 2)),
             (FIRST[len(HEAD):].splitlines(True)[0], (EXAMPLES / "first.out").read_bytes().splitlines(True)[0]), (b"end\n", b"end 1\n")]
    for line, wanted in asked:
        run.stdin.write(line)
        got = b""
        while not got.endswith(b"\n") and select.select([run.stdout], [], [], PATIENCE)[0]:
            part = os.read(run.stdout.fileno(), 65536)
            got += part or b" and no more\n"
        checks.same(f"the answer to {line[-40:]!r}, at once", wanted, got)
    checks.same("the status", 0, run.wait(PATIENCE))
    run.stdin.close()
    run.stdout.close()


def test_more_lines_than_a_script_has(command):
    """A replay takes 262,144 lines, a session goes on."""
    many = 262_200
    ran = command.run("session", script=HEAD + b"0 0 done 1 7\n" * many + b"end\n")
    assert (ran.status, ran.output.count(b"\n"), ran.output.splitlines()[-1]) == (0, many + 1, b"end %d" % many)


def test_more_orders_than_there_is_room_for(command):
    """Each further one is answered so, and vehicles are answered as before."""
    room = 262_144
    ran = command.run("session", script=HEAD + b"operator 0 stop\n" * (room + 2) + b"0 0 done 1 7\nend\n")
    lines = ran.output.splitlines()
    assert (ran.status, len(lines), lines[room:-2]) == (0, room + 4, [b"limit orders"] * 2)
    assert lines[-2].startswith(b"%d 0 0 done 1 7 -> " % room) and lines[-1] == b"end %d" % (room + 1)


def test_too_little_memory(program):
    limit = 10_000 * 1024
    ran = program.run("session", script=FIRST, preexec_fn=lambda: resource.setrlimit(resource.RLIMIT_AS, (limit, limit)))
    assert ran == (7, b"")
