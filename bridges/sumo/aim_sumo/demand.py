"""Demand: who comes when, and on which path. The same seed gives the same vehicles whatever the control."""

import random
from dataclasses import dataclass, field

from .faults import BadWord
from .net import side_of
from .vehicles import NAMED, Vehicle

SHARES = {"left": 0.25, "straight": 0.5, "right": 0.25}
COLOURS = {"car": "0.2,0.5,1", "human": "1,0.8,0.1", "emergency": "1,0.1,0.1"}


@dataclass(frozen=True)
class Demand:
    """Who comes: vehicles an hour, for how many seconds, and shares; those of turns are of a side's vehicles.

    `sides` are shares of the sides W, S, E, N (equal ones where it is empty), `mix` those of types by name, `refused`
    the pairs of a move and a type that don't come, since such a vehicle can't be driven there.
    """

    flow: float
    seed: int
    seconds: float = 600.0
    human: float = 0.0
    emergency: float = 0.0
    turns: dict = field(default_factory=lambda: dict(SHARES))
    sides: dict = field(default_factory=dict)
    mix: dict = field(default_factory=lambda: {"car": 1.0})
    types: dict = field(default_factory=lambda: dict(NAMED))
    refused: frozenset = frozenset()


@dataclass(frozen=True)
class Arrival:
    """A vehicle: when it comes, on which move, whether a car, an emergency vehicle or a person drives, and its type."""

    number: int
    time: float
    move: str
    kind: str
    vehicle: Vehicle = Vehicle()

    @property
    def id(self):
        return str(self.number)


def rates(layout, demand):
    """Vehicles a second on each move: each side has its share of the flow, a turn its share of its side."""
    sides = {}
    for move in layout.moves:
        sides.setdefault(side_of(move.points[0], layout.side), []).append(move)
    shares = demand.sides or dict.fromkeys(sides, 1.0)
    whole_sides = sum(shares.get(side, 0.0) for side in sides)
    if whole_sides <= 0:
        raise BadWord(f"nobody comes: the layout has roads at {', '.join(sorted(sides))}; give one a share by --sides")
    found = {}
    for side, moves in sides.items():
        whole = sum(demand.turns.get(turn, 0.0) for turn in {move.turn for move in moves})
        for move in moves:
            alike = sum(1 for other in moves if other.turn == move.turn)
            share = demand.turns.get(move.turn, 0.0) / whole / alike if whole else 0.0
            found[move.name] = demand.flow / 3600 * shares.get(side, 0.0) / whole_sides * share
    return found


def arrivals(layout, demand):
    """The vehicles of a run in the order of their times, by exponential gaps on each move."""
    chance = random.Random(1000 * demand.seed + 7)
    found = []
    for move, rate in rates(layout, demand).items():
        if rate > 0:
            time = chance.expovariate(rate)
            while time < demand.seconds:
                found.append((round(time, 2), move))
                time += chance.expovariate(rate)
    found.sort()
    kinds = random.Random(1000 * demand.seed + 8)
    types = random.Random(1000 * demand.seed + 9)
    return [
        Arrival(number, time, move, _kind(kinds, demand), _type(types, demand, move))
        for number, (time, move) in enumerate(found)]


def _kind(chance, demand):
    draw = chance.random()
    if draw < demand.emergency:
        return "emergency"
    return "human" if draw < demand.emergency + demand.human else "car"


def _type(chance, demand, move):
    """The type of a vehicle on a move: of those that can be driven there, by their shares."""
    draw = chance.random()
    shares = {name: share for name, share in demand.mix.items() if (move, name) not in demand.refused and share > 0}
    if not shares:
        raise BadWord(f"none of the types {', '.join(demand.mix)} can be driven on {move}")
    draw *= sum(shares.values())
    for name, share in shares.items():
        draw -= share
        if draw < 0:
            break
    return demand.types[name]


def write_routes(path, site, vehicles):
    """Writes SUMO's routes of the vehicles."""
    types = {_name_of(each): each for each in vehicles}
    lines = ["<routes>", *(_type_line(name, each) for name, each in types.items())]
    for name, link in site.links.items():
        lines.append(f' <route id="{name}" edges="{link.entry} {link.exit}"/>')
    for arrival in vehicles:
        link = site.links[arrival.move]
        lines.append(
            f' <vehicle id="{arrival.id}" type="{_name_of(arrival)}" route="{arrival.move}" '
            f'depart="{arrival.time:.2f}" departLane="{link.entry_lane}" departPos="0" departSpeed="max" '
            f'arrivalLane="{link.exit_lane}"/>')
    with open(path, "w", encoding="ascii") as routes:
        routes.write("\n".join([*lines, "</routes>"]) + "\n")


def _name_of(arrival):
    """The name of SUMO's type of a vehicle."""
    return f"{arrival.kind}.{arrival.vehicle.name}"


def _type_line(name, arrival):
    """A type of vehicle; in SUMO's own check a truck is a whole rectangle, and a passenger car has cut corners.

    The usual car speeds up and brakes as SUMO's does.
    """
    vehicle, usual = arrival.vehicle, NAMED["car"]
    is_usual = (vehicle.name, vehicle.accel, vehicle.hardest_brake) == (usual.name, usual.accel, usual.hardest_brake)
    more = "" if is_usual else f'accel="{vehicle.accel}" decel="{vehicle.hardest_brake}" '
    return (
        f' <vType id="{name}" guiShape="truck" color="{COLOURS[arrival.kind]}" length="{vehicle.length}" '
        f'width="{vehicle.width}" tau="{vehicle.headway}" minGap="{vehicle.gap}" sigma="{vehicle.sigma}" {more}'
        'speedFactor="1" speedDev="0" lcStrategic="-1" lcSpeedGain="0" lcKeepRight="0" lcCooperative="0"/>')
