"""What is said of a layout and of types of vehicles on it: paths that nobody guards, what can't be driven, and spans."""

from .fit import depth, refusals
from .planner import GATHERED

SPANS_ROUND = 256


def told_of(fits, types, step, hold):
    """What `net` says of a layout with these types: inner ends, what can't be driven, and whether the spans are enough."""
    ends = [line for each in fits for line in inner_ends(each.layout)]
    return [*ends, *refusals(fits, types).values(), *few_spans(fits, types, step, hold)]


def inner_ends(layout):
    """Where paths begin or end inside the ground: no tile there is reserved for the part that is off the path."""
    lines = []
    for move in layout.moves:
        for what, point in (("begins", move.points[0]), ("ends", move.points[-1])):
            deep = depth(layout, point)
            if deep:
                lines.append(
                    f"the path of {move.name} {what} {deep} mm inside the ground: nothing is reserved there for what of "
                    "a vehicle is off the path, and no promise speaks of it")
    return lines


def few_spans(fits, types, step, hold):
    """Where a layout's spans are too few for a type that starts from the hold point; one line a junction at most."""
    lines = []
    for each in fits:
        needed, name, move = max(needs(each, step, types, hold))
        if needed > each.layout.spans:
            proposed = rounded(needed)
            lines.append(
                f"SPANS {each.layout.spans} of {each.name} is too few for a {name} on {move} that starts {hold:g} m "
                f"before the line, which needs {needed}: write {proposed} as the last number of the head's line grid; "
                "without that such vehicles stand farther back")
    return lines


def rounded(spans):
    """A number of spans to propose where so many are needed."""
    return -(-spans // SPANS_ROUND) * SPANS_ROUND


def needs(fits, step, types, hold):
    """The spans that each type needs on each move where it starts from the hold point, with the names of both."""
    found = []
    for move in fits.moves:
        for vehicle in types:
            fit = fits.of(move, vehicle)
            entry = GATHERED * (2 * vehicle.accel * hold) ** 0.5
            speed = max(1, int(entry / fit.way.entry_ratio * 1000 * step))
            found.append((fit.spans.needed(speed), vehicle.name, move.name))
    return found
