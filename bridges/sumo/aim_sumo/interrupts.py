"""Signals that end a command: it gives up what it does, ends what it began, and its status is 130.

A signal raises KeyboardInterrupt, but not where that would be lost or would leave something behind: while modules are
loaded (a library may clear an exception that comes then, as SUMO's does), while a process begins, while something is
put in place or taken away. There it is `held`, and raised afterwards. It is raised again each second until the command
has ended, where something swallowed it all the same. Loads nothing that takes long, so that it is in force early.
"""

import os
import signal
import sys
from _thread import get_ident

STATUS = 130
AGAIN = 1.0
"""Seconds after which a signal is raised again."""
NAMES = ("SIGINT", "SIGTERM", "SIGHUP")


class _State:
    """How it stands: the main thread, whether a signal has come, how many blocks hold it, whether all is over."""

    main = get_ident()
    has_come = False
    held = 0
    is_over = False
    endings = []


class held:
    """Keeps signals until a block has ended; other threads than the main one never get any."""

    def __enter__(self):
        if get_ident() == _State.main:
            _State.held += 1

    def __exit__(self, kind, fault, trace):
        if get_ident() == _State.main:
            _State.held -= 1
            look()


def look():
    """Raises KeyboardInterrupt where a signal has come: asked in each step of long work."""
    if _State.has_come and not _State.held and not _State.is_over and get_ident() == _State.main:
        raise KeyboardInterrupt


def at_end(ending):
    """Has a function called where a signal ended the command; it says nothing."""
    _State.endings.append(ending)


def guarded(load):
    """Runs the command that `load` gives, once its modules are there; gives its status."""
    _catch()
    try:
        try:
            with held():
                command = load()
            return command()
        finally:
            _finish()
    except KeyboardInterrupt:
        _finish()
        for ending in _State.endings:
            ending()
        _tell()
        os._exit(STATUS)  # without the endings of libraries and threads, which may be in the midst of something


def _catch():
    """Takes the signals that nobody has said to ignore."""
    for name in NAMES:
        number = getattr(signal, name)
        if signal.getsignal(number) != signal.SIG_IGN:
            signal.signal(number, _come)
    signal.signal(signal.SIGALRM, _come)


def _come(number, frame):
    if not _State.has_come and not _State.is_over:
        _State.has_come = True
        signal.setitimer(signal.ITIMER_REAL, AGAIN, AGAIN)
    look()


def _finish():
    """From now on a signal changes nothing."""
    _State.is_over = True
    signal.setitimer(signal.ITIMER_REAL, 0)


def _tell():
    """The last words of an interrupted command, as far as somebody reads them."""
    try:
        begin = "\r\x1b[K" if sys.stderr.isatty() else ""
        print(f"{begin}aim-sumo: interrupted; what it had begun was ended", file=sys.stderr)
        sys.stdout.flush()
        sys.stderr.flush()
    except (OSError, ValueError):
        pass
