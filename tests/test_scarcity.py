"""Where memory is short, and where no second process or thread can be had. Whatever is missing, each run ends: with the whole
text, or with status 7 and nothing written."""
import os
import re
import resource
import shutil
import subprocess
import tempfile

import pytest

from conftest import TOP
from program import Program

PAGES = 16 * resource.getpagesize()
NOBODY = 65534
CLAIMS = b"shards 4 9 2\nset 0 3 0 3 0 8\nset 2 2 1 1 3 3\nclaim 0 0\nclaim 1 1\nfree 0 0\nclaim 1 1\nend\n"
CLAIMED = b"0 0 claim 0 yes\n1 0 free 0 yes\n2 1 claim 1 yes\n3 1 claim 1 no\nend 4\n"


class Command:
    """A command with a script, and the text that one worker prints."""

    def __init__(self, words, script, text):
        self.words, self.script, self.text = words, script, text

    @classmethod
    def of_case(cls, words, case):
        folder = TOP / "tests/cases" / case
        return cls(words, (folder / "input").read_bytes(), (folder / "output").read_bytes())

    def with_workers(self, count):
        """The same command with so many workers."""
        return Command([self.words[0], str(count)], self.script, self.text)

    def fault(self, got):
        """What is wrong with a status and a text, or None: the whole text, or status 7 and nothing. With several workers
        calls may come in another order: then the last line is one that ends a text. Other tests judge such texts."""
        status, text = got
        if status == 7:
            return f"status 7, and {text[:100]!r}" if text else None
        alone = self.words[-1] in ("1", "replay", "session")
        whole = text == self.text if alone else re.fullmatch(rb"(.+\n)*end \d+\n", text)
        return None if status == 0 and whole else f"status {status}, {text[:100]!r}"


REPLAY = Command.of_case(["replay"], "a-first-confirm")
SESSION = Command.of_case(["session"], "a-first-confirm")
WITH_WORKERS = [
    Command.of_case(["drive", "1"], "drive-lost-late-and-repeated-letters"),
    Command.of_case(["mail", "1"], "mail-two-clients"),
    Command.of_case(["grid", "1"], "grid-legs-of-two-vehicles-in-turn"),
    Command(["shards", "1"], CLAIMS, CLAIMED),
]


def name_of(value):
    return "-".join(value.words) if isinstance(value, Command) else None


def outcome(program, command, **more):
    """The status and the text of a run."""
    try:
        return program.run(*command.words, script=command.script, stderr=subprocess.DEVNULL, **more)
    except subprocess.TimeoutExpired:
        return "none, since it doesn't end", b""


def within(program, command, limit):
    """The outcome where the program may have so many bytes of address space. A shell lets it have no more, which costs less
    than a copy of this process that does."""
    shell = Program("/bin/sh")
    words = ["-c", f'ulimit -v {limit // 1024} && exec "$0" "$@"', program.path, *command.words]
    return outcome(shell, Command(words, command.script, command.text))


@pytest.fixture(scope="module")
def least(program):
    """The least count of pages within which the program answers that there are no words."""
    nothing = Command([], b"", b"")
    return next(k for k in range(1, 4000) if within(program, nothing, k * PAGES) == (2, b"usage\n"))


@pytest.mark.parametrize("command", [REPLAY, SESSION, *WITH_WORKERS], ids=name_of)
def test_ever_more_memory(program, checks, least, command):
    """First memory is wanting, at last the whole text comes."""
    refused, whole, limit = 0, 0, least
    while whole < 3 and limit < 4000:
        got = within(program, command, limit * PAGES)
        checks(f"within {limit * PAGES} bytes", command.fault(got))
        refused, whole, limit = refused + (got[0] == 7), whole + (got[0] == 0), limit + 1
    checks("memory was wanting", None if refused else "never")
    checks("the whole text", None if whole == 3 else f"{whole} times")


@pytest.mark.parametrize("count", (2, 64))
@pytest.mark.parametrize("command", WITH_WORKERS, ids=name_of)
def test_stacks(program, checks, least, command, count):
    """Threads whose stacks have room or not."""
    command = command.with_workers(count)
    for limit in range(least, 48 * 2**20 // PAGES, 3):
        checks(f"within {limit * PAGES} bytes", command.fault(within(program, command, limit * PAGES)))


def nobody(count):
    """Makes a program that of nobody, who may have so many processes and threads."""
    def prepare():
        resource.setrlimit(resource.RLIMIT_NPROC, (count, count))
        os.setgroups([])
        os.setgid(NOBODY)
        os.setuid(NOBODY)
    return prepare


@pytest.fixture
def nobodys(program):
    """The program where nobody may run it."""
    if os.geteuid() != 0:
        pytest.skip("only root may run a program as nobody")
    with tempfile.TemporaryDirectory() as folder:
        os.chmod(folder, 0o755)
        path = shutil.copy(program.path, folder)
        os.chmod(path, 0o755)
        yield Program(path)


def test_few_processes(nobodys, checks):
    """One process and few. Where no thread can be had, `mail` has no server, and the others go on in the thread that they
    have. All runs of nobody count together: so they stand in one test."""
    for command in [command.with_workers(count) for command in WITH_WORKERS for count in (1, 2, 64)]:
        what = " ".join(command.words)
        got = outcome(nobodys, command, preexec_fn=nobody(1))
        status = 7 if command.words[0] == "mail" else 0
        checks(f"{what} in one process", command.fault(got) if got[0] == status else f"status {got[0]}")
        for count in (2, 3, 4):
            checks(f"{what} in {count} processes", command.fault(outcome(nobodys, command, preexec_fn=nobody(count))))
