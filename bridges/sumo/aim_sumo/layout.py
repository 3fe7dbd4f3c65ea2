"""Reads the head of a manager's script: ground, times, lanes with their moves, policies with their phases.

Lengths are millimetres and times are steps, as in the script. The manager judges each line in full; here a line is only
read, so that SUMO's net and the vehicles' plans can be made of it.
"""

from dataclasses import dataclass, field

from .faults import BadHead


@dataclass(frozen=True)
class Move:
    """A path through the box: a line of two points, or a curve of three, cut into `parts`."""

    lane: int
    turn: str
    points: tuple
    parts: int

    @property
    def name(self):
        """The name of the move in SUMO's files."""
        return f"{self.lane}.{self.turn}"


@dataclass(frozen=True)
class Phase:
    """Red for all lanes for `red` steps, then green for `lanes` for `green` steps."""

    red: int
    green: int
    lanes: tuple


@dataclass
class Policy:
    """A policy of the head, with the phases that follow it where it has lights."""

    name: str
    kind: str
    phases: list = field(default_factory=list)

    @property
    def has_lights(self):
        return self.kind in ("light", "light-emerg")

    @property
    def lines(self):
        """The policy's lines of a script."""
        phases = (f"phase {p.red} {p.green} {' '.join(map(str, p.lanes))}" for p in self.phases)
        return [f"policy {self.name} {self.kind}", *phases]


@dataclass
class Layout:
    """All that a head says."""

    ground: list = field(default_factory=list)
    side: int = 0
    tiles: int = 0
    spacing: int = 0
    fixed: int = 0
    half: int = 0
    spans: int = 0
    horizon: int = 0
    longest: int = 0
    clearance: int = 0
    early: int = 0
    late: int = 0
    edge: int = 0
    lanes: int = 0
    moves: list = field(default_factory=list)
    policies: list = field(default_factory=list)

    def policy(self, name):
        """The policy of that name."""
        for policy in self.policies:
            if policy.name == name:
                return policy
        raise BadHead(f"the head has no policy {name}; it has {', '.join(p.name for p in self.policies)}")

    def move(self, name):
        """The move of that name."""
        return next(move for move in self.moves if move.name == name)

    def head(self, first=None):
        """The head's lines with the policy named `first` in front, since the first one is in force from step 0."""
        order = self.policies
        if first is not None:
            chosen = self.policy(first)
            order = [chosen, *(policy for policy in self.policies if policy is not chosen)]
        return [*self.ground, *(line for policy in order for line in policy.lines)]


def read_head(text):
    """The layout of a head: the lines of a script up to the last policy or phase; later lines are left out."""
    layout = Layout()
    for number, line in enumerate(text.splitlines(), 1):
        words = line.split(" ")
        if words[0] in ("vehicles", "begin"):
            break
        try:
            _take(layout, words)
        except (ValueError, IndexError, KeyError) as fault:
            raise BadHead(f"line {number} of the head can't be read: {line!r}") from fault
        if words[0] not in ("policy", "phase"):
            layout.ground.append(line)
    if not (layout.side and layout.moves and layout.policies):
        raise BadHead("a head has the lines aim, grid, times, lanes, move and policy, in this order")
    if min(layout.side, layout.tiles, layout.spacing, layout.spans) < 1:
        raise BadHead("the side, the tiles, the spacing and the spans of the line grid must be above 0")
    for move in layout.moves:
        if not 0 <= move.lane < layout.lanes or move.parts < 1 or move.points[0] == move.points[-1]:
            raise BadHead(f"the move {move.name} must be of a lane below {layout.lanes}, have a part, and lead on")
    return layout


def _take(layout, words):
    """Adds one line of the head."""
    keyword, rest = words[0], words[1:]
    if keyword == "grid":
        layout.side, layout.tiles, layout.spacing, layout.fixed, layout.half, layout.spans = map(int, rest)
    elif keyword == "times":
        layout.horizon, layout.longest, layout.clearance, *windows, layout.edge = map(int, rest)
        layout.early, layout.late = windows[0], windows[-1]
    elif keyword == "lanes":
        layout.lanes = int(rest[0])
    elif keyword == "move":
        layout.moves.append(_move(rest))
    elif keyword == "policy":
        layout.policies.append(Policy(rest[0], rest[1]))
    elif keyword == "phase":
        red, green, *lanes = map(int, rest)
        layout.policies[-1].phases.append(Phase(red, green, tuple(lanes)))
    elif keyword != "aim":
        raise ValueError(keyword)


def _move(words):
    """The move of the words behind `move`."""
    lane, turn, shape, *numbers = words
    values = list(map(int, numbers))
    if len(values) != {"line": 5, "curve": 7}[shape]:
        raise ValueError(shape)
    points = tuple(zip(values[:-1:2], values[1:-1:2]))
    return Move(int(lane), turn, points, values[-1])
