"""Makes layouts of the junctions of a net that somebody else made, and says how near each path is to the net's lane.

The net stays as it is, and so do its routes, types of vehicles and options: a folder for runs is made beside them.
Lengths are metres in the net and millimetres in a layout.
"""

import math
import pathlib
import shutil
import xml.etree.ElementTree as ET
from dataclasses import dataclass, replace

from . import interrupts, reading
from .advice import needs, rounded
from .curve import Track
from .faults import BadHead, BadWord
from .fit import Fits
from .layout import Move, Policy, read_head
from .net import clear
from .site import OWN_CONTROLS, Junction, Link, Site, write_site
from .vehicles import NAMED, Vehicle

SPACING, HALF, STATIC = 100, 1200, 250
TILE, MOST_TILES, MOST_LANES = 500, 64, 16
NEAR_ENOUGH = 0.5
"""Metres up to which a path may be from the net's lane."""
AS_A_LINE = 0.05
BETWEEN = 50.0
"""Metres that a road between two managed junctions must have."""
TURNS = ("left", "straight", "right")
NATURAL = {"l": "left", "L": "left", "s": "straight", "r": "right", "R": "right"}
CLASSES = {
    **NAMED, "passenger": Vehicle("passenger", 5.0), "emergency": Vehicle("emergency", 6.5, 2.16),
    "moped": Vehicle("moped", 2.1, 0.8), "bicycle": Vehicle("bicycle", 1.6, 0.65),
}
"""SUMO's lengths and widths of its classes of vehicles."""


@dataclass(frozen=True)
class Found:
    """A connection and the path that was found for it: two points or three, how far it is off, or why there is none."""

    path: object
    points: tuple = ()
    deviation: float = 0.0
    why_not: str = ""


def make(options, folder, settings):
    """Makes the layouts of the junctions that are named; gives the lines that tell of it."""
    source = _Source.of(options)
    net = reading.read_net(source.net)
    if not options.junction:
        crossings = sorted(node.getID() for node in net.getNodes() if len(node.getIncoming()) > 2)
        raise BadWord(f"name the junctions to be managed by --junction ID; the net has {', '.join(crossings[:12])}"
                      f"{' ..' * (len(crossings) > 12)}")
    types = source.types()
    lines, junctions = [], []
    for name in options.junction:
        junction, told = _junction(net, name, options, types)
        junctions.append(junction)
        lines += told
    _check_roads(junctions)
    clear(folder, source.net)
    ending = ".net.xml.gz" if source.net.suffix == ".gz" else ".net.xml"
    if (folder / f"own{ending}").resolve() != source.net.resolve():
        shutil.copyfile(source.net, folder / f"own{ending}")
    settings = {
        **settings, "controls": OWN_CONTROLS, "net": f"own{ending}", "routes": source.routes,
        "additional": source.additional, "options": source.options, "widest": max(each.width for each in types)}
    write_site(Site(folder, settings, junctions))
    return [f"{folder}: {len(junctions)} junction{'s' * (len(junctions) > 1)} of {source.net}", *lines]


@dataclass(frozen=True)
class _Source:
    """The files that a user named, and SUMO's further options."""

    net: pathlib.Path
    routes: list
    additional: list
    options: list

    @staticmethod
    def of(options):
        """The files of the command's words; those of a SUMO configuration where that is named."""
        path = pathlib.Path(options.source)
        if not path.is_file():
            raise BadWord(f"there is no file {path}")
        routes, additional, words = list(options.routes), list(options.additional), list(options.sumo)
        net = path
        if path.suffix == ".sumocfg":
            net, known = None, _configuration(path)
            for section, key, value in known:
                files = [str((path.parent / name).resolve()) for name in value.split(",")]
                if key == "net-file":
                    net = pathlib.Path(files[0])
                elif key == "route-files":
                    routes = routes or files
                elif key == "additional-files":
                    additional = additional or files
                elif section in ("processing", "routing", "traci_server", "random_number", "mesoscopic", ""):
                    words = [f"--{key}", value, *words]
            if net is None:
                raise BadWord(f"{path} names no net-file")
        for name in (*routes, *additional):
            if not pathlib.Path(name).is_file():
                raise BadWord(f"there is no file {name}")
        return _Source(net, [str(pathlib.Path(name).resolve()) for name in routes],
                       [str(pathlib.Path(name).resolve()) for name in additional], words)

    def types(self):
        """The types of vehicles in the files of routes, and SUMO's usual one."""
        found = {("passenger", CLASSES["passenger"])}
        for name in (*self.routes, *self.additional):
            try:
                for element in ET.parse(name).getroot().iter("vType"):
                    like = CLASSES.get(element.get("vClass", "passenger"), CLASSES["passenger"])
                    vehicle = replace(
                        like, name=element.get("id"), length=float(element.get("length", like.length)),
                        width=float(element.get("width", like.width)), widen=True)
                    found.add((vehicle.name, vehicle))
            except (ET.ParseError, ValueError) as fault:
                raise BadWord(f"{name} can't be read: {fault}") from fault
        return [vehicle for _, vehicle in sorted(found, key=lambda item: item[0])]


def _configuration(path):
    """The options of a SUMO configuration: section, name, value."""
    try:
        root = ET.parse(path).getroot()
    except ET.ParseError as fault:
        raise BadWord(f"{path} can't be read: {fault}") from fault
    found = []
    for section in root:
        inner = list(section)
        for element in inner or [section]:
            if element.get("value") is not None:
                found.append((section.tag if inner else "", element.tag, element.get("value")))
    return found


def _junction(net, name, options, types):
    """The junction with its layout, and the lines that tell of it."""
    found = [_found(path) for path in reading.paths_of(net, name)]
    kept = [each for each in found if not each.why_not]
    refused = [each for each in found if each.why_not]
    car = next(each for each in types if each.name == "passenger")
    if not kept:
        whys = [f"{each.path.name}: {each.why_not}" for each in refused[:3]] or ["no lane leads through it"]
        raise BadHead(f"{name} has no path that can be driven: {'; '.join(whys)}")
    while True:
        junction, sources = _built(name, kept, options.step)
        junction, over = _roomy(junction, sources, car, types, options)
        if not over:
            break
        refused += [replace(sources[move], why_not=why) for move, why in over.items()]
        kept = [each for each in kept if each not in [sources[move] for move in over]]
    layout = junction.layout
    lines = [f"{name}: {layout.lanes} lanes, {len(layout.moves)} paths, ground of {layout.side / 1000:g} m with "
             f"{layout.tiles} by {layout.tiles} tiles, STATIC {layout.fixed} mm, SPANS {layout.spans}"]
    for move in layout.moves:
        source = sources[move.name]
        kind = "a line" if len(move.points) == 2 else "a curve"
        lines.append(
            f"  {move.name} is {source.path.name}: {kind}, {source.deviation:.2f} m from the net's lane at most")
    lines += [f"  NOT DRIVEN: {each.path.name}: {each.why_not}" for each in refused]
    fits = Fits(junction, widest=max(each.width for each in types))
    for move in layout.moves:
        for vehicle in types:
            fit = fits.of(move, vehicle)
            if fit.refusal:
                lines.append(f"  NOT DRIVEN: {fit.refusal}")
            elif fit.declared_width > fit.own_width:
                lines.append(f"  {vehicle.name} declares a width of {fit.declared_width} mm on {move.name}")
    return junction, lines


def _found(path):
    """The path that is nearest to a connection's lanes: a line, or a curve of three points."""
    if path.direction == "t":
        return Found(path, why_not="it is a U-turn, which no path of a layout follows")
    ends = path.inside[0], path.inside[-1]
    if math.dist(*ends) < 1.0:
        return Found(path, why_not="it begins where it ends")
    tries = [ends, *((ends[0], middle, ends[1]) for middle in _middles(path))]
    best = min(((_deviation(points, path), points) for points in tries), key=lambda item: item[0])
    straight = _deviation(ends, path)
    if straight <= AS_A_LINE:
        best = (straight, ends)
    if best[0] > NEAR_ENOUGH:
        return Found(path, why_not=f"the nearest line or curve is {best[0]:.2f} m from the net's lane, and may be "
                     f"{NEAR_ENOUGH:g} m: it bends more than once")
    return Found(path, best[1], best[0])


def _middles(path):
    """Where the middle point of a curve may be: where both lanes' directions meet, and where the curve is nearest."""
    with interrupts.held():
        from scipy import optimize
    before, after = reading.ends_of(path)
    (x0, y0), (x2, y2) = path.inside[0], path.inside[-1]
    found = []
    ux, uy = x0 - before[-2][0], y0 - before[-2][1]
    vx, vy = after[1][0] - x2, after[1][1] - y2
    cross = ux * vy - uy * vx
    if abs(cross) > 0.1 * math.hypot(ux, uy) * math.hypot(vx, vy):
        share = ((x2 - x0) * vy - (y2 - y0) * vx) / cross
        if share > 0:
            found.append((x0 + share * ux, y0 + share * uy))
    begin = found[0] if found else ((x0 + x2) / 2, (y0 + y2) / 2)
    nearest = optimize.minimize(
        lambda middle: _deviation(((x0, y0), tuple(middle), (x2, y2)), path), begin, method="Nelder-Mead",
        options={"maxiter": 120, "xatol": 0.01, "fatol": 0.002})
    return [*found, tuple(map(float, nearest.x))]


def _deviation(points, path):
    """How far a line or curve and a connection's lanes are apart at most, seen from either."""
    count = 24
    if len(points) == 2:
        (x0, y0), (x2, y2) = points
        shape = [(x0 + (x2 - x0) * k / count, y0 + (y2 - y0) * k / count) for k in range(count + 1)]
    else:
        (x0, y0), (x1, y1), (x2, y2) = points
        shape = []
        for k in range(count + 1):
            t = k / count
            shape.append(((1 - t) ** 2 * x0 + 2 * t * (1 - t) * x1 + t * t * x2,
                          (1 - t) ** 2 * y0 + 2 * t * (1 - t) * y1 + t * t * y2))
    return max(_apart(shape, path.inside), _apart(path.inside, shape))


def _apart(points, shape):
    """How far the farthest of some points is from a shape."""
    track = Track([shape[0]], shape, [shape[-1]])
    return max(track.nearest(point, 0.0)[1] for point in points)


def _built(name, kept, step):
    """The junction of the paths that are driven, and where each move comes from."""
    lanes = sorted({(each.path.entry.getEdge().getID(), each.path.entry.getIndex()) for each in kept})
    if not lanes:
        raise BadHead(f"{name} has no path on which the body of a car stays off other lanes")
    if len(lanes) > MOST_LANES:
        raise BadHead(f"{name} has {len(lanes)} lanes that lead into it; a layout has {MOST_LANES} at most")
    points = [point for each in kept for point in each.points]
    origin = (min(x for x, _ in points), min(y for _, y in points))
    extent = max(max(x for x, _ in points) - origin[0], max(y for _, y in points) - origin[1]) * 1000
    tiles = min(MOST_TILES, math.ceil(extent / TILE))
    side = math.ceil(extent / tiles) * tiles
    sources, moves = {}, []
    for number, lane in enumerate(lanes):
        of_lane = [each for each in kept if each.path.ends[:2] == lane]
        for turn, each in _turns(of_lane):
            corners = tuple((min(side, round((x - origin[0]) * 1000)), min(side, round((y - origin[1]) * 1000)))
                            for x, y in each.points)
            move = Move(number, turn, corners, _parts(corners))
            moves.append(move)
            sources[move.name] = each
    return _with_layout(name, origin, side, tiles, len(lanes), moves, sources, STATIC, 8192, step), sources


def _turns(of_lane):
    """The paths of a lane with the names of their turns: SUMO's where they differ, else from the left to the right."""
    names = [NATURAL.get(each.path.direction, "straight") for each in of_lane]
    if len(set(names)) == len(names):
        return list(zip(names, of_lane))
    if len(of_lane) > len(TURNS):
        lane = of_lane[0].path.entry.getID()
        raise BadHead(f"the lane {lane} leads on by {len(of_lane)} paths; a layout has 3 at most")
    return list(zip(TURNS, sorted(of_lane, key=_bearing, reverse=True)))


def _bearing(each):
    """How far to the left a path leads, in radians."""
    before, after = reading.ends_of(each.path)
    come = math.atan2(before[-1][1] - before[-2][1], before[-1][0] - before[-2][0])
    go = math.atan2(after[1][1] - after[0][1], after[1][0] - after[0][0])
    return math.remainder(go - come, math.tau)


def _parts(corners):
    """How many parts a path is cut into, so that neighbouring stations are within the spacing of each other."""
    steepest = 0
    for axis in (0, 1):
        values = [point[axis] for point in corners]
        slopes = [abs(b - a) * (1 if len(values) == 2 else 2) for a, b in zip(values, values[1:])]
        steepest = max(steepest, *slopes)
    return max(1, -(-steepest // (SPACING - 1)))


def _with_layout(name, origin, side, tiles, lanes, moves, sources, static, spans, step):
    """The junction with the layout of some moves."""
    def steps(seconds, most):
        return max(1, min(most, round(seconds / step)))
    text = [
        "aim 3", f"grid {side} {tiles} {SPACING} {static} {HALF} {spans}",
        f"times {steps(60, 8192)} {steps(2, 65536)} {steps(6, 1024)} {steps(0.04, 1024)} {steps(0.04, 1024)} "
        f"{steps(0.1, 1024)}", f"lanes {lanes}"]
    for move in moves:
        kind = "line" if len(move.points) == 2 else "curve"
        numbers = " ".join(f"{x} {y}" for x, y in move.points)
        text.append(f"move {move.lane} {move.turn} {kind} {numbers} {move.parts}")
    text += [line for policy in (Policy("plain", "fcfs"), Policy("siren", "emerg")) for line in policy.lines]
    layout = read_head("\n".join(text))
    links = {move.name: _link(move, sources[move.name].path, origin, sources[move.name].deviation) for move in moves}
    return Junction(name, layout, links, origin, None)


def _link(move, path, origin, deviation):
    """How a move lies in the net."""
    before, after = reading.ends_of(path)
    return Link(
        move.name, *path.ends, path.entry.getLength(), path.via, path.length, path.speed, path.entry.getSpeed(),
        path.exit.getSpeed(), path.light, reading.moved(before, origin), reading.moved(path.inside, origin),
        reading.moved(after, origin), deviation)


def _roomy(junction, sources, car, types, options):
    """The junction with a static buffer and spans that its vehicles need; the moves that no car can be driven on."""
    layout = junction.layout
    fits = Fits(junction, widest=max(each.width for each in types))
    over, static = {}, STATIC
    for move in layout.moves:
        fit = fits.of(move, car)
        if fit.swings_over or not fit.cover.half < 1e9:
            lanes = ", ".join(fit.swings_over) or "ground that isn't its own"
            over[move.name] = f"the body of a car comes over {lanes}"
        else:
            static = max(static, -(-fit.cover.static(fit.own_width) // 10) * 10)
    if over:
        return junction, over
    args = (junction.id, junction.origin, layout.side, layout.tiles, layout.lanes, layout.moves, sources, static)
    junction = _with_layout(*args, 131_072, options.step)
    fits = Fits(junction, widest=max(each.width for each in types))
    spans = rounded(max(needs(fits, options.step, types, options.hold))[0])
    return _with_layout(*args, min(131_072, max(2048, spans)), options.step), {}


def _check_roads(junctions):
    """Refuses managed junctions that are too near to each other."""
    entries = {
        link.entry: (junction.id, link.entry_length) for junction in junctions for link in junction.links.values()}
    for junction in junctions:
        for link in junction.links.values():
            other, length = entries.get(link.exit, (None, math.inf))
            if length < BETWEEN:
                raise BadHead(f"the road {link.exit} from {junction.id} to {other} is {length:.0f} m long; between "
                              f"managed junctions it takes {BETWEEN:.0f} m")
