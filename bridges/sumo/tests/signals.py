"""What tests of interrupted commands share: a command that can be interrupted, and the processes that are there."""

import contextlib
import pathlib
import signal
import subprocess
import time

LONG = 600.0
"""Seconds after which something won't happen any more; far beyond what a slow and busy machine takes."""


def _fresh():
    """Ignores no signal, whatever the one who runs the tests ignores: a shell does in what it runs behind it, nohup too."""
    for number in (signal.SIGINT, signal.SIGTERM, signal.SIGHUP):
        signal.signal(number, signal.SIG_DFL)


def start(*words):
    """A command that hears an interrupt, though the tests may have been started where that is ignored."""
    return subprocess.Popen(
        list(map(str, words)), stdout=subprocess.DEVNULL, stderr=subprocess.PIPE, text=True,
        preexec_fn=_fresh)


def kill(process):
    """Leaves nothing of a command."""
    process.kill()
    process.wait()
    process.stderr.close()


def processes_with(word):
    """The numbers of the processes with a word in their command line."""
    found = []
    for path in pathlib.Path("/proc").glob("[0-9]*/cmdline"):
        with contextlib.suppress(OSError):
            if word.encode() in path.read_bytes():
                found.append(path.parent.name)
    return found


def wait(question):
    """True once a question is answered by yes; false where that takes too long."""
    begun = time.monotonic()
    while not question():
        if time.monotonic() - begun > LONG:
            return False
        time.sleep(0.05)
    return True
