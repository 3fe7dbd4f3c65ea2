"""Makes SUMO nets of a layout: its paths are the layout's own, so that the two agree by construction.

Each side of the square gets one road in and one road out, with a lane where the layout's paths begin and end. Four nets
of one shape are made, one a control. What netconvert made is read back and compared with the layout.
"""

import pathlib
import shutil
import xml.etree.ElementTree as ET
from dataclasses import dataclass

from . import reading, simulator
from .curve import shape_of, track_of
from .faults import BadHead
from .layout import read_head
from .site import CONTROLS, Junction, Link, Site, write_site

EXAMPLES = pathlib.Path(__file__).resolve().parents[1] / "examples"
HEADINGS = {"W": (1, 0), "S": (0, 1), "E": (-1, 0), "N": (0, -1)}
"""The heading of a vehicle that comes in from a side."""
TOLERANCE = 0.02


@dataclass(frozen=True)
class Road:
    """A road at one side: its lanes' places across, the rightmost first, and the width of each."""

    side: str
    is_entry: bool
    places: tuple
    width: float

    @property
    def name(self):
        return f"{'in' if self.is_entry else 'out'}_{self.side}"

    @property
    def heading(self):
        x, y = HEADINGS[self.side]
        return (x, y) if self.is_entry else (-x, -y)


def side_of(point, side):
    """The side of the square on which a point lies, in millimetres."""
    x, y = point
    for name, lies in (("W", x == 0), ("E", x == side), ("S", y == 0), ("N", y == side)):
        if lies:
            return name
    raise BadHead(f"a path begins or ends at {point}, which isn't on the border of the square")


def across(point, heading):
    """How far to the right of the origin a point in millimetres lies, seen in a heading; metres."""
    return (point[0] * heading[1] - point[1] * heading[0]) / 1000


def roads_of(layout, lane_width=3.0):
    """The roads of a layout, by name."""
    places = {}
    for move in layout.moves:
        for point, is_entry in ((move.points[0], True), (move.points[-1], False)):
            places.setdefault((side_of(point, layout.side), is_entry), set()).add(point)
    roads = {}
    for (side, is_entry), points in places.items():
        road = Road(side, is_entry, (), lane_width)
        row = sorted((across(point, road.heading) for point in points), reverse=True)
        gaps = {round(right - left, 3) for right, left in zip(row, row[1:])}
        if len(gaps) > 1:
            raise BadHead(f"the lanes of {road.name} aren't evenly spaced")
        roads[road.name] = Road(side, is_entry, tuple(row), gaps.pop() if gaps else lane_width)
    return roads


def ends_of_moves(layout, roads):
    """How each move leads from one road's lane to another's: (road, lane, road, lane) by the move's name."""
    starts = {}
    ends = {}
    for move in layout.moves:
        if starts.setdefault(move.lane, move.points[0]) != move.points[0]:
            raise BadHead(f"the moves of lane {move.lane} begin at different places")
        found = []
        for point, kind in ((move.points[0], "in"), (move.points[-1], "out")):
            road = roads[f"{kind}_{side_of(point, layout.side)}"]
            found += [road.name, road.places.index(across(point, road.heading))]
        ends[move.name] = tuple(found)
    return ends


def has_facing_lefts(layout):
    """True where left turns from opposite sides face each other, both from lanes that offer another turn too.

    Lights can't let such lanes go one by one in each direction, and where both go at once SUMO's vehicles collide.
    """
    sides = set()
    for move in layout.moves:
        alike = {other.turn for other in layout.moves if other.lane == move.lane}
        if move.turn == "left" and len(alike) > 1:
            sides.add(side_of(move.points[0], layout.side))
    return {"W", "E"} <= sides or {"S", "N"} <= sides


def _road_ends(road, side, length):
    """The two ends of the line that lies left of a road's leftmost lane, the outer one first; metres."""
    left = road.places[-1] - road.width / 2
    hx, hy = road.heading
    border = {"W": (0, None), "E": (side, None), "S": (None, 0), "N": (None, side)}[road.side]
    x = border[0] if border[0] is not None else left * hy
    y = border[1] if border[1] is not None else -left * hx
    sign = -1 if road.is_entry else 1
    return (x + sign * length * hx, y + sign * length * hy), (x, y)


def _text(points):
    """A shape in SUMO's spelling."""
    return " ".join(f"{x:.3f},{y:.3f}" for x, y in points)


def _write(path, root, elements):
    """Writes a file of plain elements."""
    tree = ET.Element(root)
    for tag, attributes in elements:
        ET.SubElement(tree, tag, {key: str(value) for key, value in attributes.items()})
    ET.indent(tree)
    ET.ElementTree(tree).write(path, encoding="unicode")


def _plain(folder, layout, control, roads, ends, settings):
    """Writes the plain files of one control; gives netconvert's words."""
    side = layout.side / 1000
    middle = side / 2
    kind = "priority" if control == "priority" else "traffic_light"
    square = _text([(0, 0), (side, 0), (side, side), (0, side)])
    nodes = [("node", {"id": "C", "x": middle, "y": middle, "type": kind, "shape": square})]
    edges = []
    for road in roads.values():
        outer, inner = _road_ends(road, side, settings["approach" if road.is_entry else "exit"])
        far = f"{road.name}_far"
        nodes.append(("node", {"id": far, "x": outer[0], "y": outer[1], "type": "dead_end"}))
        nodes_of_it = {"from": far, "to": "C"} if road.is_entry else {"from": "C", "to": far}
        shape = (outer, inner) if road.is_entry else (inner, outer)
        lanes = {"numLanes": len(road.places), "width": road.width, "speed": settings["speed"]}
        edges.append(("edge", {"id": road.name, **nodes_of_it, **lanes, "spreadType": "right", "shape": _text(shape)}))
    joins = []
    for name, (entry, entry_lane, leaving, exit_lane) in ends.items():
        lanes = {"from": entry, "to": leaving, "fromLane": entry_lane, "toLane": exit_lane}
        whole = {"contPos": 0} if control == "aim" else {}
        joins.append(("connection", {**lanes, **whole, "shape": _text(shape_of(layout.move(name)))}))
    words = []
    for root, letter, name, elements in (
        ("nodes", "n", "nod", nodes), ("edges", "e", "edg", edges), ("connections", "x", "con", joins),
    ):
        path = folder / f"{control}.{name}.xml"
        _write(path, root, elements)
        words += [f"-{letter}", str(path)]
    return words


def _convert(folder, control, words, faces):
    """Runs netconvert; where left turns face each other its lights give each side a green of its own."""
    path = folder / f"{control}.net.xml"
    lights = {"static": "static", "actuated": "actuated", "aim": "static"}.get(control)
    command = [
        "netconvert", *words, "-o", str(path), "--no-turnarounds", "true", "--precision", "3",
        "--offset.disable-normalization", "true", "--xml-validation", "never",
        *(["--tls.default-type", lights] if lights else []),
        *(["--tls.layout", "incoming"] if lights and faces else []),
    ]
    done = simulator.call(command)
    if done.returncode != 0:
        raise BadHead(f"netconvert refused the net of {control}: {' '.join(done.stderr.split())}")


def clear(folder, source):
    """Makes a folder, or takes out of it what was made for earlier nets; runs, and whatever isn't ours, stay."""
    folder.mkdir(parents=True, exist_ok=True)
    shutil.rmtree(folder / "tuned", ignore_errors=True)
    nets = [folder / f"{name}.net.xml" for name in CONTROLS] + [folder / "own.net.xml", folder / "own.net.xml.gz"]
    for path in (*folder.glob("free-*.json"), *nets, folder / "site.json"):
        if path.resolve() != pathlib.Path(source).resolve():
            path.unlink(missing_ok=True)


def make(head_path, folder, settings):
    """Makes the nets of a head in a folder; gives the site."""
    try:
        text = pathlib.Path(head_path).read_text(encoding="ascii")
    except FileNotFoundError:
        raise BadHead(f"there is no head {head_path}; the bridge's examples are in {EXAMPLES}") from None
    except (UnicodeDecodeError, OSError) as fault:
        raise BadHead(f"{head_path} can't be read as a head: {fault}") from None
    layout = read_head(text)
    folder = pathlib.Path(folder)
    clear(folder, head_path)
    roads = roads_of(layout)
    ends = ends_of_moves(layout, roads)
    faces = has_facing_lefts(layout)
    settings = {**settings, "controls": tuple(control for control in CONTROLS if not faces or control != "priority")}
    for control in settings["controls"]:
        _convert(folder, control, _plain(folder, layout, control, roads, ends, settings), faces)
    site = Site(folder, settings, [_junction(folder, layout, ends)])
    write_site(site)
    return site


def _junction(folder, layout, ends):
    """How the junction lies in the net of `aim`; refuses a net whose paths through the box aren't the layout's."""
    paths = {path.ends: path for path in reading.paths_of(reading.read_net(folder / "aim.net.xml"), "C")}
    links = {}
    for name, move_ends in ends.items():
        path = paths[move_ends]
        track = track_of(layout.move(name))
        if abs(path.length - track.arc) > TOLERANCE:
            raise BadHead(f"the net's path {path.name} is {path.length} m long, the layout's {name} {track.arc:.3f} m")
        before, after = reading.ends_of(path)
        links[name] = Link(
            name, *move_ends, path.entry.getLength(), path.via, track.arc, path.speed, path.entry.getSpeed(),
            path.exit.getSpeed(), path.light, before, track.shape, after)
    return Junction("C", layout, links, light="C")
