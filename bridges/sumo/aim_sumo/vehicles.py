"""Types of vehicles: those that the bridge knows by name, those of a file, and the mix of a demand.

Metres, seconds, metres a second. Lengths, widths and accelerations of the named types are SUMO's defaults for its
classes of vehicles; a car is 4.5 by 1.8 metres.
"""

import tomllib
import zlib
from dataclasses import dataclass, fields, replace

from .faults import BadWord


@dataclass(frozen=True)
class Vehicle:
    """A type of vehicle.

    `headway` and `gap` are the seconds and metres that it keeps to the one ahead, `accel` and `brake` what a plan may
    ask of it, `hardest_brake` what SUMO may. `sigma` is SUMO's imperfection of drivers. With `widen` it may declare a
    width above its own, where its rear leaves its path on curves; with `swing` its body may come over other lanes
    outside the box, where no manager looks.
    """

    name: str = "car"
    length: float = 4.5
    width: float = 1.8
    accel: float = 2.5
    brake: float = 3.0
    hardest_brake: float = 4.5
    headway: float = 1.0
    gap: float = 2.5
    sigma: float = 0.0
    road_speed: float = 13.89
    widen: bool = False
    swing: bool = False

    def room(self, speed):
        """The gap that a vehicle keeps to the one ahead."""
        return self.gap + self.headway * speed


NAMED = {
    "car": Vehicle(),
    "delivery": Vehicle("delivery", 6.5, 2.16),
    "truck": Vehicle("truck", 7.1, 2.4, accel=1.3, brake=2.6, hardest_brake=4.0),
    "trailer": Vehicle("trailer", 16.5, 2.55, accel=1.0, brake=2.6, hardest_brake=4.0),
    "bus": Vehicle("bus", 12.0, 2.5, accel=1.2, brake=2.6, hardest_brake=4.0),
    "coach": Vehicle("coach", 14.0, 2.6, accel=2.0, brake=2.6, hardest_brake=4.0),
    "motorcycle": Vehicle("motorcycle", 2.2, 0.9),
}
MEASURES = {field.name: field.type for field in fields(Vehicle) if field.name not in ("name", "road_speed")}


def mark(types):
    """A short text that differs where types aren't as the bridge knows them by their names; nothing where they are."""
    own = sorted(repr(each) for each in types if each != NAMED.get(each.name))
    return f"{zlib.crc32(' '.join(own).encode()):08x}" if own else ""


def read_types(path):
    """The types of a TOML file: a table for each, named by it; what it doesn't say is as in `like`, or in a car."""
    try:
        with open(path, "rb") as file:
            tables = tomllib.load(file)
    except FileNotFoundError:
        raise BadWord(f"there is no file {path} of vehicle types") from None
    except (tomllib.TOMLDecodeError, UnicodeDecodeError) as fault:
        raise BadWord(f"{path} isn't TOML: {fault}") from None
    known = dict(NAMED)
    for name, table in tables.items():
        known[name] = _type(path, name, table, known)
    return known


def _type(path, name, table, known):
    """The type that a table of a file says."""
    if not isinstance(table, dict):
        raise BadWord(f"{path}: {name} isn't a table; write [{name}] and below it, say, length = 12.0")
    table = dict(table)
    like = table.pop("like", "car")
    if like not in known:
        raise BadWord(f"{path}: {name} is like {like}, which isn't one of {', '.join(known)}")
    for key, value in table.items():
        if key not in MEASURES:
            raise BadWord(f"{path}: {name} has no {key}; it may have like, {', '.join(MEASURES)}")
        wanted = bool if MEASURES[key] in ("bool", bool) else (int, float)
        if not isinstance(value, wanted) or (isinstance(value, bool) and wanted is not bool) or value < 0:
            raise BadWord(f"{path}: {key} of {name} is {value!r}; it must be a number from 0 on, or true or false")
    made = replace(known[like], name=name, **table)
    if not (0 < made.length <= 30 and 0 < made.width <= 30 and min(made.accel, made.brake, made.hardest_brake) > 0):
        raise BadWord(f"{path}: {name} must have a length and a width of up to 30 m, and be able to speed up and brake")
    return made


def read_mix(text, known):
    """The shares of a mix, `car=0.9,bus=0.1`, by the type's name."""
    return read_shares(text, known, "types of vehicles")


def read_shares(text, known, of_what):
    """Shares with names, `NAME=SHARE,NAME=SHARE`, scaled so that their sum is 1."""
    shares = {}
    for part in text.split(","):
        name, equals, number = part.partition("=")
        if name not in known:
            raise BadWord(f"{name!r} isn't one of the {of_what}: {', '.join(known)}")
        try:
            shares[name] = float(number)
        except ValueError:
            shares[name] = -1.0
        if not equals or not 0 <= shares[name] < float("inf"):
            raise BadWord(f"{part!r} is no share; write, say, {name}=0.5")
    whole = sum(shares.values())
    if whole <= 0:
        raise BadWord(f"the shares of {text!r} come to nothing")
    return {name: share / whole for name, share in shares.items()}
