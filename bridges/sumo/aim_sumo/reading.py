"""Reads how a junction lies in a net of SUMO's, by SUMO's own library for that."""

import math
from dataclasses import dataclass

from . import simulator
from .faults import BadHead

REACH = 60.0
"""Metres of the lanes before the box and behind it that are read."""
LEAST_PIECE = 0.02
"""Points of a shape that are nearer than this are one."""


@dataclass(frozen=True)
class Path:
    """A connection through a junction: its lanes, and the shape of the lanes between them."""

    entry: object
    exit: object
    direction: str
    light: int
    light_name: str
    via: dict
    length: float
    speed: float
    inside: list

    @property
    def name(self):
        return f"{self.entry.getID()} to {self.exit.getID()}"

    @property
    def ends(self):
        """Its lanes in and out, as a link has them."""
        return (self.entry.getEdge().getID(), self.entry.getIndex(), self.exit.getEdge().getID(), self.exit.getIndex())


def read_net(path):
    """The net of a file, with the lanes inside its junctions."""
    sumolib = simulator.module("sumolib")
    try:
        return sumolib.net.readNet(str(path), withInternal=True, withPrograms=False)
    except FileNotFoundError:
        raise BadHead(f"there is no net {path}") from None
    except Exception as fault:  # the library lets any fault of the XML parser through
        raise BadHead(f"{path} can't be read as a net of SUMO's: {' '.join(str(fault).split())}") from fault


def paths_of(net, junction):
    """The connections through a junction by which cars may go, in the order of their lanes."""
    if not net.hasNode(junction):
        names = sorted(node.getID() for node in net.getNodes() if len(node.getIncoming()) > 1)
        raise BadHead(f"the net has no junction {junction}; it has {', '.join(names[:12])}{' ..' * (len(names) > 12)}")
    found = []
    for edge in net.getNode(junction).getIncoming():
        if edge.getFunction() == "internal":
            continue
        for lane in edge.getLanes():
            for join in lane.getOutgoing():
                if lane.allows("passenger") and join.getToLane().allows("passenger"):
                    found.append(_path(net, lane, join))
    return found


def _path(net, lane, join):
    """The path of a connection: a left turn may have two lanes inside, with a place to wait between them."""
    via, shape, offset, speed = {}, [], 0.0, math.inf
    name = join.getViaLaneID()
    while name:
        inner = net.getLane(name)
        via[name] = offset
        offset += inner.getLength()
        speed = min(speed, inner.getSpeed())
        shape += [point[:2] for point in inner.getShape()]
        onwards = [more for more in inner.getOutgoing() if more.getToLane() == join.getToLane()]
        name = onwards[0].getViaLaneID() if onwards else ""
    if not via:
        raise BadHead("the net has no lanes inside its junctions; make it without --no-internal-links")
    light = join.getTLLinkIndex()
    return Path(lane, join.getToLane(), join.getDirection(), light if light >= 0 else None,
                join.getTLSID() or None, via, offset, speed, clean(shape))


def clean(shape):
    """A shape without points that repeat the one before."""
    kept = [tuple(shape[0])]
    for point in shape[1:]:
        if math.dist(point, kept[-1]) > LEAST_PIECE:
            kept.append(tuple(point))
    return kept


def ends_of(path, reach=REACH):
    """The shapes of the lanes before the box, up to it, and behind it, as far as they are looked at."""
    before = clean([*(point[:2] for point in path.entry.getShape()), path.inside[0]])
    after = clean([path.inside[-1], *(point[:2] for point in path.exit.getShape())])
    return _last(before, reach), _last(after[::-1], reach)[::-1]


def _last(shape, reach):
    """The last metres of a shape; whole pieces of it."""
    kept = [shape[-1]]
    way = 0.0
    for point in shape[-2::-1]:
        way += math.dist(point, kept[-1])
        kept.append(point)
        if way >= reach:
            break
    return kept[::-1]


def moved(points, origin):
    """Points seen from an origin."""
    return [(round(x - origin[0], 4), round(y - origin[1], 4)) for x, y in points]
