#!/usr/bin/env python3
"""Writes a copy of the page view.html with a script and what the program printed for it inside.

Usage: fill.py SCRIPT [OUTPUT] > PAGE.html     (`-` is standard input)

    ./aim replay < examples/refusal.aim | tools/view/fill.py examples/refusal.aim - > refusal.html
"""

import json
import pathlib
import sys

PAGE = pathlib.Path(__file__).with_name("view.html")
PLACE = '<script type="application/json" id="given">null</script>'


def filled(texts):
    """The page with texts inside, each with its name."""
    given = json.dumps([{"name": name, "text": text} for name, text in texts]).replace("<", "\\u003c")
    page = PAGE.read_text(encoding="utf-8")
    if page.count(PLACE) != 1:
        raise SystemExit(f"fill.py: {PAGE.name} has not one place for texts")
    return page.replace(PLACE, PLACE.replace("null", given))


def read(name, role):
    """A file's text under its name, standard input's under its role; bytes that are no text become question marks."""
    if name == "-":
        return role, sys.stdin.buffer.read().decode("utf-8", "replace")
    path = pathlib.Path(name)
    return path.name, path.read_bytes().decode("utf-8", "replace")


def main(words):
    if not 1 <= len(words) <= 2:
        raise SystemExit(__doc__)
    try:
        texts = [read(name, role) for name, role in zip(words, ("script", "output"))]
    except OSError as error:
        raise SystemExit(f"fill.py: {error}") from None
    sys.stdout.write(filled(texts))


if __name__ == "__main__":
    main(sys.argv[1:])
