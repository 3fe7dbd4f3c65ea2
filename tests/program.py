"""The program that is tested, as a user runs it."""
import subprocess
from typing import NamedTuple

# Seconds after which a run counts as one that doesn't end. A machine under load is slow, and never that slow.
PATIENCE = 1200


class Ran(NamedTuple):
    """What a run ended with, and what it printed."""

    status: int
    output: bytes

    @property
    def text(self):
        return self.output.decode("utf-8", "replace")


class Program:
    """A program at a path."""

    def __init__(self, path):
        self.path = str(path)

    def run(self, *words, script=b"", **more):
        """Runs it over a script, with what `subprocess.run` takes besides."""
        if "stdin" not in more:
            more["input"] = script.encode() if isinstance(script, str) else script
        done = subprocess.run(
            [self.path, *words], stdout=more.pop("stdout", subprocess.PIPE), timeout=PATIENCE, check=False, **more)
        return Ran(done.returncode, done.stdout)

    def start(self, *words, **more):
        """Starts it, with its input and its output in pipes that keep nothing back."""
        more = {"stdin": subprocess.PIPE, "stdout": subprocess.PIPE, "bufsize": 0, **more}
        return subprocess.Popen([self.path, *words], **more)
