"""Once the end of the input was seen, or a line that decides, nothing is read again: as at a terminal, where the input can go
on behind its end. What comes behind is whole and waits for another reader, and the answer is that to the bytes before."""
import os
import pty
import termios

import pytest

from conftest import TOP
from program import Program

CASES = TOP / "tests/cases"
EXAMPLES = TOP / "examples"
CLAIMS = b"shards 4 9 2\nset 0 3 0 3 0 8\nset 2 2 1 1 3 3\nclaim 0 0\nclaim 1 1\nfree 0 0\nclaim 1 1\nend\n"
JSON = b'{"form":"aim","n":1}\n{"form":"grid"}\n'
SCRIPTS = {
    "replay": (["replay"], (CASES / "a-first-confirm/input").read_bytes()),
    "replay-json": (["replay-json"], JSON),
    "chart": (["chart", "10"], (CASES / "a-first-confirm/input").read_bytes()),
    "drive": (["drive", "1"], (CASES / "drive-lost-late-and-repeated-letters/input").read_bytes()),
    "grid": (["grid", "1"], (EXAMPLES / "route.aim").read_bytes()),
    "mail": (["mail", "1"], (CASES / "mail-two-clients/input").read_bytes()),
    "shards": (["shards", "1"], CLAIMS),
}
# These, and the one that goes on behind a line at fault.
WITH_SESSION = {**SCRIPTS, "session": (["session"], SCRIPTS["replay"][1])}
END = b"\x04"


class Terminal:
    """A terminal at which lines are typed, of which a reader gets one at a time."""

    def __init__(self, typed):
        # The terminal keeps 4,095 bytes for a reader, and drops what is typed beyond.
        assert len(typed) < 4000
        self.keys, self.lines = pty.openpty()
        modes = termios.tcgetattr(self.lines)
        modes[3] = modes[3] & ~termios.ECHO | termios.ICANON
        termios.tcsetattr(self.lines, termios.TCSANOW, modes)
        os.write(self.keys, typed)

    def left(self):
        """What no one has read."""
        os.set_blocking(self.lines, False)
        read = b""
        try:
            while part := os.read(self.lines, 4096):
                read += part
        except BlockingIOError:
            pass
        return read

    def close(self):
        os.close(self.keys)
        os.close(self.lines)


def at_terminal(program, words, typed):
    """What a run prints over what is typed, and what it leaves of it."""
    terminal = Terminal(typed)
    try:
        return program.run(*words, stdin=terminal.lines), terminal.left()
    finally:
        terminal.close()


@pytest.mark.parametrize("words, script", WITH_SESSION.values(), ids=WITH_SESSION)
def test_nothing_is_read_behind_the_end(program, checks, words, script):
    """The end comes behind each line, and within it: there the first sign only ends what was typed of the line."""
    starts = [0] + [place + 1 for place, byte in enumerate(script) if byte == 10]
    for start, behind in zip(starts, starts[1:]):
        for place, signs in ((start, END), ((start + behind) // 2, END * (1 + (start != (start + behind) // 2)))):
            wanted = program.run(*words, script=script[:place])
            rest = script[place:]
            ran, left = at_terminal(program, words, script[:place] + signs + rest)
            checks.same(f"cut behind byte {place}", wanted, ran)
            checks.same(f"cut behind byte {place}: what is left", rest, left)


def test_nothing_is_read_behind_the_line_that_ends_a_session(program):
    """The line `end`, and no line at fault."""
    script = SCRIPTS["replay"][1]
    ran, left = at_terminal(program, ["session"], b"nothing\n" + script + script)
    assert (ran.status, ran.output, left) == (0, b"bad line 1 unknown\n" + program.run("replay", script=script).output, script)


def test_a_read_behind_the_end_is_seen(program):
    """By the same means, of a reader that reads on."""
    words, script = SCRIPTS["replay"]
    before, rest = script[: script.index(b"end\n")], b"end\n"
    reads_on = Program("/bin/sh")
    terminal = ["-c", '(cat; cat) | "$0" "$@"', program.path, *words]
    ran, left = at_terminal(reads_on, terminal, before + END + rest + END)
    assert (ran, left) == (program.run(*words, script=script), b"")
    assert ran != program.run(*words, script=before)


@pytest.mark.parametrize("words, script", SCRIPTS.values(), ids=SCRIPTS)
def test_nothing_is_read_behind_a_line_that_decides(program, checks, words, script):
    """A line at fault in the place of each line, where the input has no end."""
    lines = script.splitlines(True)
    for place in range(len(lines)):
        before, rest = b"".join(lines[:place]) + b"nothing\n", b"".join(lines[place:])
        ran, left = at_terminal(program, words, before + rest)
        checks.same(f"line {place + 1}", program.run(*words, script=before), ran)
        checks.same(f"line {place + 1}: what is left", rest, left)
