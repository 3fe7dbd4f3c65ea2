"""The ground, its tiles, the lanes with their stations, and the policies with their phases.

A set of tiles is one whole number: tile (row, column) is in it where bit row * rows + column is set. So the least bit is the
least tile by row and column.
"""
from dataclasses import dataclass, field

from plain.lines import BadLine

LIGHTS = ("light", "light-emerg")
GIVES_WAY = ("emerg", "light-emerg")


def expect(is_so, kind):
    """A condition of a line, and the kind of its fault."""
    if not is_so:
        raise BadLine(kind)


@dataclass
class Phase:
    red: int
    green: int
    lanes: list


@dataclass
class Policy:
    name: str
    kind: str
    phases: list = field(default_factory=list)

    @property
    def has_lights(self):
        return self.kind in LIGHTS

    @property
    def lacks_phase(self):
        return self.has_lights and not self.phases

    def green_lanes(self, offset):
        """The lanes that are green so many steps after the policy came to be in force. The phases go round: each is red first,
        then green."""
        if not self.has_lights:
            return []
        rest = offset % sum(phase.red + phase.green for phase in self.phases)
        for phase in self.phases:
            if rest < phase.red + phase.green:
                return phase.lanes if rest >= phase.red else []
            rest -= phase.red + phase.green
        raise AssertionError("an offset in a round is in one of its phases")


def line_station(start, end, parts, station):
    """A coordinate of a station on a straight line, rounded down."""
    return start + station * (end - start) // parts


def curve_station(start, pull, end, parts, station):
    """A coordinate of a station on a curve from the start to the end that the middle point pulls, rounded down."""
    rest = parts - station
    return (rest * rest * start + 2 * station * rest * pull + station * station * end) // (parts * parts)


class Layout:
    """An intersection, as the lines of a script's head build it."""

    def __init__(self, version):
        self.version = version
        self.lanes = []
        self.policies = []
        self.lane_tiles_known = {}

    # ---- The lines, each with its faults in the order in which they are told.

    def take_grid(self, side, n, spacing, static, half, spans):
        """The ground, and which of its tiles lie at the border. Fault: `grid`."""
        is_fine = (1 <= side <= 1_000_000 and 1 <= n <= 64 and side % n == 0 and 1 <= spacing <= 10_000
                   and static <= 10_000 and half <= 100_000 and 1 <= spans <= 131_072)
        expect(is_fine, "grid")
        self.side, self.rows, self.spacing, self.static, self.half, self.spans = side, n, spacing, static, half, spans
        self.tile = side // n
        inner = sum(1 << row * n + column for row in range(1, n - 1) for column in range(1, n - 1))
        self.edge_tiles = (1 << n * n) - 1 ^ inner

    def take_times(self, horizon, longest, clearance, edge, internal=0, early=None, late=None, window=0):
        """Version 1 has one number for early and late, and version 4 the longest window."""
        early, late = (internal, internal) if early is None else (early, late)
        expect(early <= edge and late <= edge, "buffers")
        is_fine = 1 <= horizon <= 8192 and 1 <= longest <= 65_536 and clearance <= 1024 and edge <= 1024 and window <= horizon
        expect(is_fine, "times")
        self.horizon, self.longest, self.clearance, self.early, self.late = horizon, longest, clearance, early, late
        self.edge, self.window = edge, window

    def take_lanes(self, n):
        """How many lanes there are. Fault: `lane`."""
        expect(1 <= n <= 16, "lane")
        self.lanes = [{} for _ in range(n)]

    def take_move(self, lane, turn, shape, **numbers):
        """The stations of a move. Faults: `move`, `spacing`, and in version 4 `border`."""
        is_there = lane < len(self.lanes) and turn not in self.lanes[lane]
        parts = numbers["legs"][2::3] if shape == "path" else [numbers["m"]]
        places = [value for name, value in numbers.items() if name not in ("m", "legs")]
        if shape == "path":
            places += [value for at, value in enumerate(numbers["legs"]) if at % 3 != 2]
        is_fine = min(parts) >= 1 and sum(parts) <= 4096 and max(places) <= self.side
        expect(is_there and is_fine, "move")
        stations = stations_of(shape, **numbers)
        steps = zip(stations, stations[1:])
        is_close = all(abs(x1 - x0) <= self.spacing and abs(y1 - y0) <= self.spacing for (x0, y0), (x1, y1) in steps)
        expect(is_close, "spacing")
        if self.version >= 4:
            expect(self.is_on_border(stations[0]) and self.is_on_border(stations[-1]), "border")
        self.lanes[lane][turn] = stations

    def take_policy(self, name, kind):
        """A policy without phases so far. Faults: `policy`, `phase`."""
        expect(name not in [policy.name for policy in self.policies], "policy")
        expect(len(self.policies) < 8 and not (self.policies and self.policies[-1].lacks_phase), "phase")
        self.policies.append(Policy(name, kind))

    def take_phase(self, red, green, lanes):
        """A phase of the last policy. Fault: `phase`."""
        last = self.policies[-1]
        is_fine = (last.has_lights and len(last.phases) < 16 and self.clearance <= red <= 65_536 and 1 <= green <= 65_536
                   and max(lanes) < len(self.lanes))
        expect(is_fine, "phase")
        tiles = [self.lane_tiles(lane) for lane in lanes]
        is_apart = all(one & other == 0 for at, one in enumerate(tiles) for other in tiles[:at])
        expect(is_apart, "phase")
        last.phases.append(Phase(red, green, lanes))

    def finish(self):
        """The last line of the head was taken: there is a policy, and the last one has its phases."""
        expect(self.policies and not self.policies[-1].lacks_phase, "phase")

    # ---- What the layout says.

    def is_on_border(self, place):
        """Whether a place lies on the border of the ground."""
        return any(coordinate in (0, self.side) for coordinate in place)

    def touched(self, x, y, half):
        """The tiles whose closed square meets the closed square of this half side round (x, y)."""
        row_first, row_last = self.range_touched(y, half)
        column_first, column_last = self.range_touched(x, half)
        columns = (1 << column_last - column_first + 1) - 1 << column_first
        return sum(columns << row * self.rows for row in range(row_first, row_last + 1))

    def range_touched(self, coordinate, half):
        """The first and the last row, or column, of those tiles: row r goes from r * tile to (r + 1) * tile, ends included."""
        touched = [row for row in range(self.rows)
                   if row * self.tile <= coordinate + half and (row + 1) * self.tile >= coordinate - half]
        return touched[0], touched[-1]

    def lane_tiles(self, lane):
        """The lane's tile set: all tiles that the square of half side `half` round a station of one of its moves touches."""
        if lane not in self.lane_tiles_known:
            tiles = 0
            for stations in self.lanes[lane].values():
                for x, y in stations:
                    tiles |= self.touched(x, y, self.half)
            self.lane_tiles_known[lane] = tiles
        return self.lane_tiles_known[lane]


def stations_of(shape, x0, y0, x1=0, y1=0, x2=0, y2=0, m=0, legs=()):
    """The stations 0 to m of a move."""
    if shape == "line":
        return [(line_station(x0, x1, m, j), line_station(y0, y1, m, j)) for j in range(m + 1)]
    if shape == "curve":
        return [(curve_station(x0, x1, x2, m, j), curve_station(y0, y1, y2, m, j)) for j in range(m + 1)]
    stations = [(x0, y0)]
    for x, y, parts in zip(legs[0::3], legs[1::3], legs[2::3]):
        start_x, start_y = stations[-1]
        stations += [(line_station(start_x, x, parts, r), line_station(start_y, y, parts, r)) for r in range(1, parts + 1)]
    return stations
