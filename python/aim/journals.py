"""Entries of journals, from their texts."""

from __future__ import annotations

from dataclasses import dataclass
from typing import Iterable, Iterator, Optional, Union

from .messages import Message, Order, read_act
from .replies import Reply, read_reply


@dataclass(frozen=True)
class Entry:
    """A call, and its answer."""

    position: int
    """Its place in the journal, from 0."""
    caller: Optional[int]
    """The vehicle's number, or None for the operator."""
    moment: int
    """The step at which it called."""
    act: Union[Message, Order]
    """What it said."""
    reply: Reply
    """What it was answered."""
    text: str
    """As `aim replay` prints it."""


def read_entry(text: str) -> Entry:
    """The entry that a text spells; ValueError where it spells none."""
    call, arrow, reply = text.partition(" -> ")
    words = call.split(" ")
    if not arrow or len(words) < 4:
        raise ValueError(f"no entry: {text}")
    caller = None if words[1] == "operator" else int(words[1])
    return Entry(int(words[0]), caller, int(words[2]), read_act(words[3:]), read_reply(reply.split(" ")), text)


def read_journal(lines: Iterable[str]) -> Iterator[Entry]:
    """The entries of a journal as `aim replay` prints it, up to the first line that is none: `end N`, or why the
    script isn't whole."""
    for line in lines:
        line = line.rstrip("\n")
        if " -> " not in line:
            return
        yield read_entry(line)
