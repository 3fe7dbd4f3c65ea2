"""What a crossing needs: motion, feet, cells, and which params are bad.

A trial is a pair: the params, and whether the vehicle gains `accel` in each step (trial A) or nothing (trial B). Cells are a
dictionary from steps to sets of tiles; a step without a tile isn't in it.
"""
from dataclasses import replace

LATEST_MOMENT = 1_073_741_824
MOST_STEPS = 2048


def is_fast_made(params):
    """Whether trial A is made: else it would be trial B."""
    return params.accel > 0 and params.speed < params.max_speed


def front(params, accelerate, step):
    """How far the front is at the beginning of that crossing step."""
    gain = params.accel if accelerate else 0
    top = top_step(params, gain)
    ramp = step if top is None else min(step, top)
    way = params.speed * ramp + gain * ramp * (ramp - 1) // 2
    return way + params.max_speed * (step - ramp)


def top_step(params, gain):
    """The least step in which the greatest speed is reached, if there is one."""
    if params.speed >= params.max_speed:
        return 0
    if gain == 0:
        return None
    return -((params.speed - params.max_speed) // gain)


class Crossings:
    """The crossings of a layout. Their feet are kept: they don't depend on the arrival."""

    def __init__(self, layout):
        self.layout = layout
        self.squares_known = {}
        self.steps_known = {}
        self.spans_known = {}
        self.feet_known = {}
        self.shapes_known = {}
        self.bad_known = {}

    def steps(self, params, accelerate):
        """K, the number of crossing steps, or MOST_STEPS + 1 where there are more than MOST_STEPS."""
        key = replace(params, arrive=0, latest=0), accelerate
        if key not in self.steps_known:
            end = (len(self.stations(params)) - 1) * self.layout.spacing
            self.steps_known[key] = next(
                (step for step in range(MOST_STEPS + 1) if front(params, accelerate, step) - params.length > end), MOST_STEPS + 1)
        return self.steps_known[key]

    def stations(self, params):
        """The stations of the move."""
        return self.layout.lanes[params.lane][params.turn]

    def squares(self, params, half):
        """For each station the tiles that the square of that half side round it touches."""
        key = params.lane, params.turn, half
        if key not in self.squares_known:
            self.squares_known[key] = [self.layout.touched(x, y, half) for x, y in self.stations(params)]
        return self.squares_known[key]

    def feet(self, params, accelerate, extra):
        """The foot of each crossing step: the tiles that the square round a station that the vehicle covers then touches."""
        key = replace(params, arrive=0, latest=0), accelerate, extra
        if key not in self.feet_known:
            half = (params.width + 1) // 2 + self.layout.spacing + extra
            squares = self.squares(params, half)
            self.feet_known[key] = [
                self.foot(params, accelerate, step, squares) for step in range(self.steps(params, accelerate))]
        return self.feet_known[key]

    def foot(self, params, accelerate, step, squares):
        """The tiles of one crossing step, of the stations from under the rear at its beginning to under the front at its end."""
        spacing = self.layout.spacing
        low = (front(params, accelerate, step) - params.length) // spacing
        high = -(-front(params, accelerate, step + 1) // spacing)
        tiles = 0
        for square in squares[max(low, 0) : high + 1]:
            tiles |= square
        return tiles

    def shape(self, params, accelerate):
        """The cells that the crossing needs, the steps counted from the arrival on: an edge tile from `edge` before its crossing
        step to `edge` behind it, another from `early` before to `late` behind."""
        key = replace(params, arrive=0, latest=0), accelerate
        if key not in self.shapes_known:
            layout, shape = self.layout, {}
            for step, foot in enumerate(self.feet(params, accelerate, layout.static)):
                for s in range(step - layout.edge, step + layout.edge + 1):
                    tiles = foot & layout.edge_tiles
                    if step - layout.early <= s <= step + layout.late:
                        tiles = foot
                    shape[s] = shape.get(s, 0) | tiles
            self.shapes_known[key] = {s: shape[s] for s in sorted(shape) if shape[s]}
        return self.shapes_known[key]

    def cells(self, params, accelerate):
        """The cells that the trial needs, in order of their steps, none of which is below 0."""
        arrive = params.arrive
        return {arrive + s: tiles for s, tiles in self.shape(params, accelerate).items() if arrive + s >= 0}

    def spans(self, params, accelerate):
        """The pairs of a step and a row in which the trial has a cell. How much is cut off below step 0 is told by an arrival
        up to `edge`."""
        arrive, rows, row = min(params.arrive, self.layout.edge), self.layout.rows, (1 << self.layout.rows) - 1
        key = params.at(arrive), accelerate
        if key not in self.spans_known:
            cells = self.cells(*key)
            self.spans_known[key] = sum(1 for tiles in cells.values() for at in range(rows) if tiles >> at * rows & row)
        return self.spans_known[key]

    def trials(self, params):
        """The trials that are made at the arrival, in the order in which they are tried."""
        if self.layout.version >= 4:
            return [(params, is_fast_made(params))]
        return [(params, True)] * is_fast_made(params) + [(params, False)]

    def candidates(self, params):
        """The trials of a request, in the order in which they are tried: in version 4 one for each start of its window."""
        if self.layout.version >= 4:
            return ((params.at(start), is_fast_made(params)) for start in range(params.arrive, params.latest + 1))
        return iter(self.trials(params))

    def bad(self, params):
        """The first field that is bad, or None."""
        if params not in self.bad_known:
            self.bad_known[params] = self.find_bad(params)
        return self.bad_known[params]

    def find_bad(self, params):
        """The first field that is bad, or None, in the order in which they are told."""
        layout = self.layout
        if params.lane >= len(layout.lanes):
            return "lane"
        if params.turn not in layout.lanes[params.lane]:
            return "turn"
        if params.arrive > LATEST_MOMENT:
            return "arrive"
        if layout.version >= 4 and not params.arrive <= params.latest <= min(LATEST_MOMENT, params.arrive + layout.window):
            return "latest"
        if not 1 <= params.max_speed <= 4000:
            return "max"
        if not 1 <= params.speed <= params.max_speed:
            return "speed"
        if params.accel > 1000:
            return "accel"
        if not 1 <= params.length <= 30_000:
            return "length"
        if not 1 <= params.width <= 30_000:
            return "width"
        trials = self.trials(params)
        if self.steps(*trials[-1]) > MOST_STEPS:
            return "steps"
        if any(self.spans(*trial) > layout.spans for trial in trials):
            return "spans"
        return None
