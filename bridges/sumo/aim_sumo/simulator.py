"""Starts SUMO: as a library, or with its window, in which one can watch."""

import contextlib
import importlib
import os
import shutil
import subprocess
import sys

from . import children, interrupts
from .faults import NoSumo, Trouble

DEBIAN = "/usr/lib/python3/dist-packages"
"""Where Debian's packages put SUMO's modules; another Python than the system's doesn't look there."""
TOOLS = "/usr/share/sumo/tools"
INSTALL = "apt-get install --no-install-recommends sumo sumo-tools"

WINDOW = ("sumo-gui", "--start", "true", "--quit-on-end", "true")
"""The program with a window, which is led over a port."""

SAFE_BUT_NO_WAY = 39
"""SUMO's checks of a vehicle's speed: safe gap and bounds on; right of way and lights off."""
NO_CHECKS = 0
LIGHTS_BUT_NO_WAY = 55
"""Safe gap, bounds and lights on; right of way off, before the box and in it."""
ALL_CHECKS = 31
ALL_LANE_CHANGES = 1621
NO_LANE_CHANGES = 0


def module(name):
    """One of SUMO's Python modules; a folder of SUMO's tools on the path, which hides some of them, does no harm."""
    with interrupts.held():
        return _module(name)


def _module(name):
    try:
        return importlib.import_module(name)
    except ImportError:
        for known in [each for each in sys.modules if each == name or each.startswith(f"{name}.")]:
            del sys.modules[known]
    sys.path.insert(0, DEBIAN)
    try:
        return importlib.import_module(name)
    except ImportError as fault:
        raise NoSumo(f"SUMO's Python module {name} isn't there ({fault}); {INSTALL}") from fault
    finally:
        sys.path.remove(DEBIAN)


def call(words, **how):
    """Runs one of SUMO's programs to its end; gives what `subprocess.run` gives, with texts."""
    if shutil.which(words[0]) is None:
        raise NoSumo(f"SUMO's program {words[0]} isn't there; {INSTALL}")
    return children.call(words, **how)


def start(words, with_window=False):
    """A running SUMO; `words` are its options."""
    sumo = module("traci" if with_window else "libsumo")
    name = WINDOW[0] if with_window else "sumo"
    if shutil.which(name) is None:
        raise NoSumo(f"SUMO's program {name} isn't there; {INSTALL}")
    if with_window and not os.environ.get("DISPLAY"):
        raise NoSumo("there is no display for SUMO's window; run it without --gui, or set DISPLAY")
    try:
        if with_window:
            port = sumo.getFreeSocketPort()
            process = children.begin([*WINDOW, *words, "--remote-port", str(port)], stdout=subprocess.DEVNULL)
            sumo.init(port, proc=process)
        else:
            sumo.start([name, *words])
    except Exception as fault:  # SUMO's own exceptions have no common class in its two modules
        raise NoSumo(f"SUMO didn't start: {' '.join(str(fault).split()) or 'see what it said above'}") from fault
    return sumo


@contextlib.contextmanager
def running(words, with_window=False):
    """A running SUMO for a block, closed behind it."""
    sumo = start(words, with_window)
    try:
        yield sumo
    except BaseException:
        with contextlib.suppress(Exception):  # it may have ended already
            sumo.close()
        raise
    sumo.close()


def step(sumo, seconds):
    """One step of SUMO; `seconds` are those that have passed in it."""
    interrupts.look()
    try:
        sumo.simulationStep()
    except Exception as fault:  # SUMO's own exceptions have no common class in its two modules
        raise Trouble(f"SUMO ended at {seconds:.0f} s: {' '.join(str(fault).split())}") from fault


def options(net, files, step, seed):
    """The options that all runs have in common."""
    return [
        "-n", str(net), "--step-length", str(step), "--seed", str(seed),
        "--tripinfo-output", str(files["trips"]), "--tripinfo-output.write-unfinished", "true",
        "--tripinfo-output.write-undeparted", "true",
        "--message-log", str(files["log"]), "--no-step-log", "true",
        "--collision.check-junctions", "true", "--collision.action", "warn", "--collision.mingap-factor", "0",
        "--xml-validation", "never", "--duration-log.disable", "true",
    ]
