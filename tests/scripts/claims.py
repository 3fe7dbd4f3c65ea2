"""Scripts of claims, as `shards` takes them: callers that claim sets of cells and free them again."""
import random
from typing import NamedTuple

from hypothesis import strategies


class Claims(NamedTuple):
    """A script: rows, horizon, sets of cells, and the calls of each caller, each `claim` or `free` and a number."""

    rows: int
    horizon: int
    sets: list
    asked: list

    @property
    def text(self):
        lines = [f"shards {self.rows} {self.horizon} {len(self.asked)}"]
        lines += ["set " + " ".join(map(str, numbers)) for numbers in self.sets]
        lines += [f"{act} {caller} {number}" for caller, calls in enumerate(self.asked) for act, number in calls]
        return "\n".join([*lines, "end", ""])

    def __repr__(self):
        return f"\n{self.text}"


def great(seed, callers=64, calls=1024, count=48):
    """64 callers with 1,024 calls each, over sets in one quadrant, in two and in all four."""
    lots = random.Random(seed)
    sets = []
    for _ in range(count):
        rows = sorted(lots.sample(range(16), 2)) if lots.random() < 0.3 else [lots.randrange(16)] * 2
        cols = sorted(lots.sample(range(16), 2)) if lots.random() < 0.3 else [lots.randrange(16)] * 2
        start = lots.randrange(90)
        sets.append((*rows, *cols, start, start + lots.randrange(8)))
    asked = [[] for _ in range(callers)]
    for made in [made for made in asked for _ in range(calls)]:
        if made and lots.random() < 0.5:
            made.append(("free", lots.randrange(max(0, len(made) - 4), len(made))))
        else:
            made.append(("claim", lots.randrange(count)))
    return Claims(16, 100, sets, asked)


def ranges(size):
    """A first and a last one of so many."""
    return strategies.tuples(strategies.integers(0, size - 1), strategies.integers(0, size - 1)).map(sorted)


@strategies.composite
def small(draw):
    """Few callers with few calls, over a small grid in few steps, so that claims meet."""
    rows, horizon = draw(strategies.integers(1, 6)), draw(strategies.integers(1, 8))
    cells = strategies.tuples(ranges(rows), ranges(rows), ranges(horizon)).map(lambda pairs: tuple(sum(pairs, [])))
    sets = draw(strategies.lists(cells, min_size=1, max_size=6))
    calls = strategies.lists(strategies.tuples(strategies.booleans(), strategies.integers(0, 9)), max_size=10)
    return Claims(rows, horizon, sets, [made_of(drawn, len(sets)) for drawn in draw(
        strategies.lists(calls, min_size=1, max_size=5))])


def made_of(drawn, sets):
    """A caller's calls: a freeing names a call before it, whether that was a claim or not."""
    made = []
    for is_freeing, number in drawn:
        made.append(("free", number % len(made)) if is_freeing and made else ("claim", number % sets))
    return made
