"""Words of the command line: each kind is read here, and one that can't be used is told in one line."""

import argparse
import math
import shlex
import sys

from .demand import SHARES
from .vehicles import read_shares


class Parser(argparse.ArgumentParser):
    """A parser that tells a mistake in one line, and takes no word that is cut short."""

    def __init__(self, **how):
        super().__init__(allow_abbrev=False, **how)

    def error(self, message):
        print(f"{self.prog}: {message} (see {self.prog} --help)", file=sys.stderr)
        raise SystemExit(2)


def number(low=-math.inf, high=math.inf, is_open=False):
    """A kind of word: a number within bounds; with `is_open` the lower bound isn't one of them."""
    bounds = f"above {low:g}" if is_open else f"of at least {low:g}"
    bounds = bounds + (f" and at most {high:g}" if high < math.inf else "")

    def read(text):
        try:
            value = float(text)
        except ValueError:
            value = math.nan
        if not (low < value or value == low and not is_open) or not value <= high or math.isinf(value):
            raise argparse.ArgumentTypeError(f"{text!r} isn't a number {bounds}")
        return value
    return read


positive = number(0.0, is_open=True)
natural = number(0.0)
share = number(0.0, 1.0)


def whole(low):
    """A kind of word: a whole number from `low` on."""

    def read(text):
        try:
            value = int(text)
        except ValueError:
            value = low - 1
        if value < low:
            raise argparse.ArgumentTypeError(f"{text!r} isn't a whole number from {low} on")
        return value
    return read


def flow(text):
    """A kind of word: vehicles an hour; a whole number where it is one."""
    value = positive(text)
    return int(value) if value == int(value) else value


def several(kind):
    """A kind of word: several of another kind, with commas between them."""

    def read(text):
        return [kind(part) for part in text.split(",")]
    return read


def switch(text):
    """A word that tells a switch, `SECONDS=NAME`."""
    seconds, equals, name = text.partition("=")
    if not equals or not name:
        raise argparse.ArgumentTypeError(f"{text!r} is no switch; write, say, 60=lights")
    natural(seconds)
    return text


def options(text):
    """Further options for SUMO, as a shell reads them."""
    try:
        return tuple(shlex.split(text))
    except ValueError as fault:
        raise argparse.ArgumentTypeError(f"{text!r} can't be read as options: {fault}") from None


def turns(text):
    """The shares of turns of a side's vehicles."""
    return read_shares(text, SHARES, "turns")


def sides(text):
    """The shares of the sides."""
    return read_shares(text, dict.fromkeys("WSEN", 0.0), "sides")
