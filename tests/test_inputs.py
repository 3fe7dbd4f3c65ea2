"""Inputs that are cut, broken, great, endless or in pieces, and outputs that are full or go away."""
import os
import select

import pytest

from conftest import TOP
from program import PATIENCE

CASE = TOP / "tests/cases/a-first-confirm"
SCRIPT = (CASE / "input").read_bytes()
TEXT = (CASE / "output").read_bytes()
CONFIRMED = TEXT.split(b"\n")[0] + b"\n"
HEADER = SCRIPT[: SCRIPT.index(b"begin\n") + 6]
# Bytes that no text has.
NO_TEXT = (b"\0", b"\t", b"\xff", b"\r")


class Command:
    """A command whose script is read whole before anything is printed, with a case of it, and what begins its calls."""

    def __init__(self, words, case, call):
        self.words, self.call = words, call
        self.script = (TOP / "tests/cases" / case / "input").read_bytes()
        self.text = (TOP / "tests/cases" / case / "output").read_bytes()


DRIVE = Command(["drive", "1"], "drive-lost-late-and-repeated-letters", b"plan ")
MAIL = Command(["mail", "1"], "mail-two-clients", b" request ")
read_whole = pytest.mark.parametrize("whole", [DRIVE, MAIL], ids=lambda whole: whole.words[0])


def cancels(count):
    """So many calls, of which none finds a reservation."""
    return [b"0 0 cancel %d 0\n" % (k + 1) for k in range(count)]


# ---- Scripts that are cut.

def cut(place):
    """The status and the text of the script cut behind so many bytes, where its header is whole."""
    rest = SCRIPT[len(HEADER) : place]
    event = SCRIPT[len(HEADER) :].split(b"\n")[0]
    if place == len(SCRIPT) or rest == event + b"\nend":
        return 0, TEXT
    if rest == b"":
        return 3, b"bad line 14 end\n"
    if rest in (event, event + b"\n"):
        return 3, CONFIRMED + b"bad line 15 end\n"
    if rest.startswith(event):
        return 3, CONFIRMED + b"bad line 15 unknown\n"
    # An event that lacks words, or whose last word isn't whole, spells no line: but a number does that lacks digits.
    return 3, b"bad line 14 words\n"


def test_replay_cut_behind_each_byte(program, checks):
    for place in range(len(SCRIPT) + 1):
        ran = program.run("replay", script=SCRIPT[:place])
        if place > len(HEADER):
            checks.same(f"cut behind byte {place}", cut(place), ran)
        else:
            number = SCRIPT[:place].count(b"\n") + 1
            checks.same(f"cut behind byte {place}: status", 3, ran.status)
            is_line = ran.output.startswith(b"bad line ") and ran.output.count(b"\n") == 1
            checks.same(f"cut behind byte {place}: line", True, is_line)
            is_there = is_line and int(ran.output.split()[2]) in (number, number + 1)
            checks.same(f"cut behind byte {place}: number", True, is_there)


def cut_line(rest, line, number):
    """The text for a script of whose line of that number only such a rest is there, and no line behind it."""
    words, whole = rest.split(" "), line.split(" ")
    lacks_digits = len(words) == len(whole) and whole[-1].isdigit()
    if rest in ("", line):
        return f"bad line {number + (rest != '')} end\n"
    if words[0] != whole[0]:
        return f"bad line {number} unknown\n"
    if lacks_digits and words[-1] == "" and whole[0] not in ("up", "down"):
        return f"bad line {number} number\n"
    if lacks_digits and words[-1] != "":
        # A number that lacks digits is a number. But as many stations of a move are too far apart.
        return f"bad line {number} spacing\n" if whole[0] == "move" else f"bad line {number + 1} end\n"
    if len(words) == len(whole) and whole[0] == "operator" and words[-1] != "":
        return f"bad line {number} policy\n"
    return f"bad line {number} words\n"


@read_whole
def test_cut_behind_each_byte(program, checks, whole):
    """Where the script isn't whole, the verdict alone is printed."""
    script = whole.script.decode()
    for place in range(len(script) + 1):
        before, rest = script[:place].split("\n")[:-1], script[:place].split("\n")[-1]
        wanted = 0, whole.text
        if script[:place].rstrip("\n") != script.rstrip("\n"):
            wanted = 3, cut_line(rest, script.split("\n")[len(before)], len(before) + 1).encode()
        checks.same(f"cut behind byte {place}", wanted, program.run(*whole.words, script=whole.script[:place]))


# ---- Bytes that no text has, and long lines.

def is_verdict(ran, number):
    """Whether that line is said to be at fault, and nothing besides."""
    texts = [b"bad line %d %s\n" % (number, kind) for kind in (b"unknown", b"words", b"number")]
    return ran.status == 3 and ran.output in texts


def test_replay_with_other_bytes(program, checks):
    """In the place of each byte of the event."""
    for place in range(len(HEADER), SCRIPT.index(b"\n", len(HEADER))):
        for byte in NO_TEXT:
            ran = program.run("replay", script=SCRIPT[:place] + byte + SCRIPT[place + 1 :])
            checks.same(f"byte {byte!r} at {place}", True, is_verdict(ran, 14))


@read_whole
def test_other_bytes(program, checks, whole):
    """In the place of each byte of the calls."""
    lines = whole.script.split(b"\n")[:-1]
    for number, line in enumerate(lines, 1):
        around = [b"\n".join(lines[: number - 1] + [b""]), b"\n".join([b"", *lines[number:], b""])]
        for place in range(len(line)) if whole.call in line else []:
            for byte in NO_TEXT:
                ran = program.run(*whole.words, script=(line[:place] + byte + line[place + 1 :]).join(around))
                checks.same(f"byte {byte!r} at {place} of line {number}", True, is_verdict(ran, number))


@read_whole
def test_length_of_each_line(program, checks, whole):
    """Each line filled up to the greatest length, and past it."""
    lines = whole.script.split(b"\n")[:-1]
    for number, line in enumerate(lines, 1):
        around = [b"\n".join(lines[: number - 1] + [b""]), b"\n".join([b"", *lines[number:], b""])]
        for length, kind in ((400, b"words"), (401, b"long")):
            wanted = 3, b"bad line %d %s\n" % (number, kind)
            got = program.run(*whole.words, script=line.ljust(length).join(around))
            checks.same(f"line {number} filled up to {length} bytes", wanted, got)


# ---- Great and endless inputs.

def test_as_many_lines_as_allowed(program):
    script = HEADER + b"".join(cancels(262_144 - 14)) + b"end\n"
    ran = program.run("replay", script=script)
    assert script.count(b"\n") == 262_144 and (ran.status, ran.output[-11:]) == (0, b"end 262130\n")


def test_one_line_more(program, checks):
    ran = program.run("replay", script=HEADER + b"".join(cancels(262_144 - 13)) + b"end\n")
    checks.same("262,145 lines", (6, b"limit lines\n"), (ran.status, ran.output[-12:]))
    checks.same("the entries before them", 262_144 - 13, ran.output.count(b" -> ack 0\n"))


def test_one_line_more_of_a_script_of_events(program):
    """Of which none is answered."""
    ran = program.run(*MAIL.words, script=HEADER + b"".join(cancels(262_144 - 13)) + b"end\n")
    assert ran == (6, b"limit lines\n")


@pytest.mark.parametrize("before, blank, wanted", [
    (b"", b"a", b"bad line 1 long\n"), (b"aim 1\n", b" ", b"bad line 2 long\n")])
def test_64_mib_in_one_line(program, before, blank, wanted):
    assert program.run("replay", script=before + blank * 67_108_864) == (3, wanted)


@read_whole
def test_64_mib_in_the_first_line(program, whole):
    assert program.run(*whole.words, script=b"a" * 67_108_864) == (3, b"bad line 1 long\n")


@pytest.mark.parametrize("words", (["replay"], DRIVE.words, MAIL.words), ids=lambda words: words[0])
def test_endless_input(program, words):
    """No more of it is read than decides."""
    with open("/dev/zero", "rb") as endless:
        assert program.run(*words, stdin=endless) == (3, b"bad line 1 long\n")


# ---- Inputs in pieces.

def test_answers_while_it_waits(program, checks):
    """Calls that come in pieces that end anywhere: all calls that are whole are answered before further bytes come."""
    calls = cancels(300)
    answers = [b"%d %s -> ack 0\n" % (k, call[:-1]) for k, call in enumerate(calls)]
    whole = HEADER + b"".join(calls)
    run = program.start("replay")
    place, got = 0, b""
    for size in (1, len(HEADER), 3, 16, 17, 100, 1, 999, 2, 2000):
        run.stdin.write(whole[place : place + size])
        place += size
        wanted = b"".join(answers[: whole[len(HEADER) : place].count(b"\n")])
        while len(got) < len(wanted) and select.select([run.stdout], [], [], PATIENCE)[0]:
            got += os.read(run.stdout.fileno(), 65536) or bytes(len(wanted))
        checks.same(f"the answers to {place} bytes, before more come", wanted, got)
    text, _ = run.communicate(whole[place:] + b"end\n", timeout=PATIENCE)
    checks.same("the answers to the rest", (0, b"".join(answers) + b"end 300\n"), (run.returncode, got + text))


@read_whole
def test_byte_by_byte(program, whole):
    run = program.start(*whole.words)
    for place in range(len(whole.script)):
        run.stdin.write(whole.script[place : place + 1])
    text, _ = run.communicate(timeout=PATIENCE)
    assert (run.returncode, text) == (0, whole.text)


# ---- Inputs and outputs that fail.

@pytest.mark.parametrize("words", (["replay"], ["session"], DRIVE.words, MAIL.words), ids=lambda words: words[0])
def test_folder_as_input(program, words):
    folder = os.open(TOP, os.O_RDONLY)
    ran = program.run(*words, stdin=folder)
    os.close(folder)
    assert ran == (4, b"")


@pytest.mark.parametrize("words, script", [(["replay"], SCRIPT), (["session"], SCRIPT), (DRIVE.words, DRIVE.script), (MAIL.words, MAIL.script)])
def test_full_output(program, words, script):
    with open("/dev/full", "wb") as full:
        assert program.run(*words, script=script, stdout=full).status == 5


def is_ended(status):
    """Whether a program whose reader went away ended by that, and not with a status of a script."""
    return status == 5 or status < 0


@pytest.mark.parametrize("word", ("replay", "session"))
def test_reader_of_a_replay_goes_away(program, word):
    read, write = os.pipe()
    run = program.start(word, stdout=write)
    os.close(write)
    run.stdin.write(HEADER + b"1 0 cancel 1 0\n")
    os.read(read, 10)
    os.close(read)
    try:
        run.stdin.write(b"".join(cancels(20_000)) + b"end\n")
        run.stdin.close()
    except BrokenPipeError:
        pass
    assert is_ended(run.wait(timeout=PATIENCE))


@pytest.mark.parametrize("count", (0, 10))
def test_reader_of_a_drive_goes_away(program, count):
    """At once, or behind some bytes of a text of some MiB."""
    head = DRIVE.script[: DRIVE.script.index(b"vehicles ")] + b"vehicles 256\nbegin\nuntil 400\n"
    plans = b"".join(b"plan %d 0 10 3 9 straight 500 500 0 1000 700 car\n" % vehicle for vehicle in range(256))
    read, write = os.pipe()
    run = program.start(*DRIVE.words, stdout=write)
    os.close(write)
    if count == 0:
        os.close(read)
    run.stdin.write(head + plans + b"end\n")
    run.stdin.close()
    if count != 0:
        os.read(read, count)
        os.close(read)
    assert is_ended(run.wait(timeout=PATIENCE))
