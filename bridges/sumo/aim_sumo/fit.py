"""Whether a type of vehicle can be driven on a move: its body on curves, other lanes, room in the manager's sheets."""

from dataclasses import dataclass

from .curve import Way
from .footprint import STEP, Spans, corners, cover, half_side, rectangle
from .judge import overlap

LANE_REACH = 40.0
"""Metres of other lanes, before the box and behind it, over which a body may not come."""
BESIDE = 0.8
"""Metres by which lanes are taken to be wider than the widest vehicle where paths begin or end inside the ground.

Nothing is reserved on such a lane outside the box: so a body that turns may use so much of it, and no other may.
"""
AT_BORDER = 100
"""Millimetres from the border up to which a path counts as beginning or ending there."""
WIDEST = 1.8
"""Metres of the width of a vehicle on another lane, where nobody says more."""


@dataclass(frozen=True)
class Fit:
    """What was found for a type of vehicle on a move; `swings_over` are lanes outside the box that its body meets."""

    move: object
    vehicle: object
    layout: object
    way: object
    cover: object
    swings_over: tuple

    @property
    def own_width(self):
        """The vehicle's own width in millimetres."""
        return round(self.vehicle.width * 1000)

    @property
    def declared_width(self):
        """The width that the vehicle declares, in millimetres: above its own only where it may and must."""
        if self.vehicle.widen and not self.cover.is_enough(self.own_width) and self.cover.half < 1e9:
            return self.cover.declared_width(self.own_width)
        return self.own_width

    @property
    def spans(self):
        return Spans(self.layout, self.move, self.way.declared, self.declared_width)

    def least_speed(self, greatest):
        """The least counted speed at which the manager has room for a crossing; None where it has for none."""
        return self.spans.least_speed(greatest)

    @property
    def refusal(self):
        """Why the type can't be driven on the move, and what would help; None where it can."""
        reasons = []
        if not self.cover.half < 1e9:
            reasons.append("its body is on the ground where nothing is reserved for it")
        elif self.declared_width > 30_000 or self.way.declared > 30_000:
            reasons.append("it would declare more than the 30,000 mm that the manager takes")
        elif not self.cover.is_enough(self.declared_width):
            static, width = self.cover.static(self.own_width), self.cover.declared_width(self.own_width)
            reasons.append(
                "its body leaves the tiles that are reserved for it, which takes a STATIC of "
                f"{static} mm in the head (it has {self.layout.fixed}), or --widen, by which it declares a width of "
                f"{width} mm")
        if self.swings_over and not self.vehicle.swing:
            reasons.append(f"its body comes over {', '.join(self.swings_over)} outside the box, which no buffer "
                           "changes and --swing allows")
        return f"{self.vehicle.name} can't be driven on {self.move.name}: {'; '.join(reasons)}" if reasons else None

    @property
    def half(self):
        """Half the side of the squares that the manager lays round its stations, in millimetres."""
        return half_side(self.layout, self.declared_width)


class Fits:
    """Finds fits at one junction, each once; `widest` is the width in metres of what may stand on other lanes."""

    def __init__(self, junction, is_mapped=True, widest=WIDEST):
        self._junction = junction
        self._is_mapped = is_mapped
        self._lane = widest + (BESIDE if _has_inner_ends(junction.layout) else 0.0)
        self._strips = _strips(junction, self._lane)
        self._known = {}

    @property
    def moves(self):
        return self._junction.layout.moves

    @property
    def name(self):
        """The junction's name."""
        return self._junction.id

    @property
    def layout(self):
        return self._junction.layout

    def of(self, move, vehicle):
        """The fit of a type on a move."""
        key = (move.name, vehicle)
        if key not in self._known:
            layout, link = self._junction.layout, self._junction.links[move.name]
            track = link.track
            way = Way(move, layout.spacing, vehicle.length, self._is_mapped, track)
            covered = cover(layout, move, Way(move, layout.spacing, vehicle.length, True, track), vehicle,
                            self._lane)
            self._known[key] = Fit(move, vehicle, layout, way, covered, self._swings(link, track, vehicle))
        return self._known[key]

    def _swings(self, link, track, vehicle):
        """The lanes outside the box, not the vehicle's own, that its body meets."""
        own = (link.entry_name, link.exit_name)
        others = {name: strips for name, strips in self._strips.items() if name not in own}
        found = set()
        for step in range(int((track.arc + vehicle.length) / (2 * STEP)) + 1):
            front = 2 * STEP * step
            body = corners(*rectangle(track.at(front), track.at(front - vehicle.length), vehicle.length, vehicle.width))
            box = _box(body)
            for name, strips in others.items():
                if name not in found and any(_meet(box, border) and overlap(body, strip) for strip, border in strips):
                    found.add(name)
        return tuple(sorted(found))


def depth(layout, point):
    """By how many millimetres a point is inside the ground, where that is more than counts as the border; else 0."""
    x, y = point
    inside = min(x, y, layout.side - x, layout.side - y)
    return inside if inside > AT_BORDER else 0


def _has_inner_ends(layout):
    """True where a path begins or ends inside the ground."""
    return any(depth(layout, point) for move in layout.moves for point in (move.points[0], move.points[-1]))


def _strips(junction, width):
    """The rectangles of the lanes outside the box, with their borders, by the lane's name."""
    found = {}
    for link in junction.links.values():
        for name, shape in ((link.entry_name, link.before[::-1]), (link.exit_name, link.after)):
            found.setdefault(name, _strip(shape, width))
    return found


def _strip(shape, width):
    """The rectangles along a lane, from the box on, as far as it matters."""
    found, way = [], 0.0
    for here, there in zip(shape, shape[1:]):
        size = ((there[0] - here[0]) ** 2 + (there[1] - here[1]) ** 2) ** 0.5
        share = min(1.0, (LANE_REACH - way) / size)
        end = (here[0] + share * (there[0] - here[0]), here[1] + share * (there[1] - here[1]))
        body = corners(*rectangle(end, here, share * size, width))
        found.append((body, _box(body)))
        way += size
        if way >= LANE_REACH:
            break
    return found


def _box(body):
    xs, ys = [x for x, _ in body], [y for _, y in body]
    return min(xs), min(ys), max(xs), max(ys)


def _meet(one, other):
    return one[0] < other[2] and other[0] < one[2] and one[1] < other[3] and other[1] < one[3]


def refusals(fits, vehicles):
    """What types can't be driven on: the refusals by move and type."""
    found = {}
    for each in fits:
        for move in each.moves:
            for vehicle in vehicles:
                refusal = each.of(move, vehicle).refusal
                if refusal:
                    found[(move.name, vehicle.name)] = refusal
    return found
