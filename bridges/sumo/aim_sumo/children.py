"""The processes that a command begins: each has a group of its own, and none outlives an interrupted command."""

import contextlib
import os
import signal
import subprocess
import threading

from . import interrupts

PATIENCE = 30.0
"""Seconds that a process has to end by itself before it is killed."""


class _All:
    """The processes that are begun, and whether no more may begin."""

    lock = threading.Lock()
    begun = set()
    is_ending = False


def begin(words, **how):
    """A process that begins; `how` is as for `subprocess.Popen`."""
    with interrupts.held(), _All.lock:
        if _All.is_ending:
            raise KeyboardInterrupt
        process = subprocess.Popen(words, start_new_session=True, **how)
        _All.begun.add(process)
    return process


def call(words, stdin=subprocess.DEVNULL, text=True, **how):
    """Runs a process to its end; gives what `subprocess.run` gives, with its output."""
    process = begin(words, stdin=stdin, stdout=subprocess.PIPE, stderr=subprocess.PIPE, text=text, **how)
    try:
        out, err = process.communicate()
    finally:
        end(process)
    return subprocess.CompletedProcess(words, process.returncode, out, err)


def end(*processes):
    """Ends processes that are still there, each with its group."""
    with interrupts.held():
        for process in processes:
            _signal(process, signal.SIGTERM)
        for process in processes:
            _wait(process)
            _All.begun.discard(process)


def end_all():
    """Ends all processes; none begins after that."""
    with interrupts.held():
        with _All.lock:
            _All.is_ending = True
        end(*_All.begun)


def _signal(process, number):
    """Sends a signal to the group of a process that nobody has waited for yet."""
    if process.returncode is None:
        with contextlib.suppress(ProcessLookupError):
            os.killpg(process.pid, number)


def _wait(process):
    """Waits for a process that was told to end, and kills it where that takes too long."""
    try:
        process.wait(PATIENCE)
    except subprocess.TimeoutExpired:
        _signal(process, signal.SIGKILL)
        with contextlib.suppress(subprocess.TimeoutExpired):
            process.wait(PATIENCE)


interrupts.at_end(end_all)
