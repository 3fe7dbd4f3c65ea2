"""The rules of claims, and a judge that holds the history that `shards WORKERS` printed against them.

It has to be legal, cell by cell: tickets 0, 1, 2 .., a claim answered yes exactly where none of its cells is in a claim that
stands, and a freeing exactly where the ticket is the caller's own claim that stands. Each caller's acts have to be the
script's, in its order."""
import re

ENTRY = re.compile("(\\d+) (\\d+) (claim|free) (\\d+) (yes|no)")


def cells_of(numbers):
    """The cells of a set: row, column, step."""
    row0, row1, col0, col1, first, last = numbers
    return [(r, c, s) for r in range(row0, row1 + 1) for c in range(col0, col1 + 1) for s in range(first, last + 1)]


class Grid:
    """The claims that stand, and the cells that they take."""

    def __init__(self):
        self.taken, self.standing = set(), {}

    def claim(self, ticket, caller, cells):
        """Whether the cells are free: then they are taken."""
        if not self.taken.isdisjoint(cells):
            return False
        self.standing[ticket] = caller, cells
        self.taken.update(cells)
        return True

    def free(self, ticket, caller):
        """Whether it is a claim of the caller's that stands: then it stands no more."""
        if ticket not in self.standing or self.standing[ticket][0] != caller:
            return False
        self.taken.difference_update(self.standing.pop(ticket)[1])
        return True


def next_call(asked, tickets):
    """What a caller calls next, which has made the calls of these tickets, or None."""
    if len(tickets) == len(asked):
        return None
    act, number = asked[len(tickets)]
    return act, number if act == "claim" else tickets[number]


def fault_of(script, printed):
    """What is wrong with the printed history of a script, or None."""
    lines, asked = printed.split("\n"), script.asked
    count = sum(len(calls) for calls in asked)
    if lines[-2:] != [f"end {count}", ""] or len(lines) != count + 2:
        return "the last line, or the count of lines"
    grid, tickets, cells = Grid(), [[] for _ in asked], [cells_of(numbers) for numbers in script.sets]
    for place, line in enumerate(lines[:-2]):
        found = ENTRY.fullmatch(line)
        if not found or found[1] != str(place):
            return f"{line!r} is no entry of ticket {place}"
        caller, act, number = int(found[2]), found[3], int(found[4])
        if caller >= len(asked) or (act, number) != next_call(asked[caller], tickets[caller]):
            return f"{line!r} isn't the caller's next call"
        tickets[caller].append(place)
        granted = grid.claim(place, caller, cells[number]) if act == "claim" else grid.free(number, caller)
        if found[5] != ("yes" if granted else "no"):
            return f"{line!r} is answered wrongly"
    return None
