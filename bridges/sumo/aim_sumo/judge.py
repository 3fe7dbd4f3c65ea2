"""Judges of collisions: SUMO's own check, and a test of rectangles in and around the box that owes SUMO nothing."""

import math

NEAR = 10.0
"""Metres before the box, and between it and a rear, up to which vehicles are looked at."""


def rectangle(front, angle, length, width):
    """The corners of a vehicle whose front's middle is at a place; the angle is in degrees from north, clockwise."""
    x, y = front
    ux, uy = math.sin(math.radians(angle)), math.cos(math.radians(angle))
    half = width / 2
    return (
        (x - uy * half, y + ux * half),
        (x + uy * half, y - ux * half),
        (x + uy * half - ux * length, y - ux * half - uy * length),
        (x - uy * half - ux * length, y + ux * half - uy * length),
    )


def overlap(one, other):
    """True where two convex shapes share more than their borders: no edge of either parts them."""
    for shape in (one, other):
        for here, there in zip(shape, (*shape[1:], shape[0])):
            nx, ny = there[1] - here[1], here[0] - there[0]
            first = [nx * x + ny * y for x, y in one]
            second = [nx * x + ny * y for x, y in other]
            if max(first) <= min(second) + 1e-6 or max(second) <= min(first) + 1e-6:
                return False
    return True


class Judge:
    """Collects the pairs of vehicles that collided, by each of the two checks.

    It asks SUMO in each step for all vehicles in the box and near it, whoever drives them.
    """

    def __init__(self, sumo, junctions):
        self._sumo = sumo
        inside = tuple(f":{junction.id}_" for junction in junctions)
        self._inner = [name for name in sumo.lane.getIDList() if name.startswith(inside)]
        links = [link for junction in junctions for link in junction.links.values()]
        self._entries = {link.entry_name: link.entry_length for link in links}
        self._exits = sorted({link.exit_name for link in links})
        self._sizes = {}
        self.by_sumo = set()
        self.by_rectangles = set()

    def look(self):
        """Looks at one step."""
        for collision in self._sumo.simulation.getCollisions():
            self.by_sumo.add(tuple(sorted((collision.collider, collision.victim))))
        shapes = [self._shape(name) for name in self._near()]
        for place, (name, front, length, shape) in enumerate(shapes):
            for other, far, other_length, second in shapes[:place]:
                reach = length + other_length + 1
                if abs(front[0] - far[0]) < reach and abs(front[1] - far[1]) < reach and overlap(shape, second):
                    self.by_rectangles.add(tuple(sorted((name, other))))

    def _near(self):
        """The vehicles in the box and so near to it that a part of one may reach into it."""
        lane, place = self._sumo.lane.getLastStepVehicleIDs, self._sumo.vehicle.getLanePosition
        found = [name for inner in self._inner for name in lane(inner)]
        for entry, length in self._entries.items():
            for name in reversed(lane(entry)):
                if place(name) < length - NEAR:
                    break
                found.append(name)
        for leaving in self._exits:
            for name in lane(leaving):
                if place(name) > NEAR + self._size(name)[0]:
                    break
                found.append(name)
        return found

    def _shape(self, name):
        length, width = self._size(name)
        front = self._sumo.vehicle.getPosition(name)
        return name, front, length, rectangle(front, self._sumo.vehicle.getAngle(name), length, width)

    def _size(self, name):
        kind = self._sumo.vehicle.getTypeID(name)
        if kind not in self._sizes:
            self._sizes[kind] = self._sumo.vehicle.getLength(name), self._sumo.vehicle.getWidth(name)
        return self._sizes[kind]
