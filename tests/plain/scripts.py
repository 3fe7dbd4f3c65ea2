"""Scripts: the lines of a stream, where each may stand, and which line decides."""
from dataclasses import dataclass, field

from plain.layouts import Layout, expect
from plain.lines import GRID_KEYWORDS, KEYWORDS, VERSIONS, BadLine, message_of, params_of, read_line
from plain.messages import Quiet, Stop, Switch

LATEST_MOMENT = 1_073_741_824
LONGEST_LINE = 400
MOST_LINES = 262_144
MOST_BYTES = 67_108_864
MOST_SPANS = 16_777_216
LAST_STEP = 65_536
MOST_ORDERS = 1_024


class Limit(Exception):
    """A script that goes past a limit."""

    def __init__(self, which):
        super().__init__(which)
        self.which = which


class Lines:
    """The lines of a stream, read one by one. `number` is that of the line that was read last, or that is at fault."""

    def __init__(self, source):
        self.source = source
        self.number = 0
        self.taken = 0
        self.is_over = False

    def next(self):
        """The next line without its end, or None behind the last one."""
        piece = b"" if self.is_over else self.source.readline(LONGEST_LINE + 1)
        self.number += 1
        if not piece:
            return None
        if self.number > MOST_LINES:
            raise Limit("lines")
        self.taken += len(piece)
        if self.taken > MOST_BYTES:
            raise Limit("bytes")
        if piece.endswith(b"\n"):
            return piece[:-1]
        if len(piece) > LONGEST_LINE:
            raise BadLine("long")
        self.is_over = True
        return piece


# Which forms may follow which in a head. The body and the blocks of a grid are told by the scripts themselves.
AFTER = {
    None: ["aim"],
    "aim": ["grid"],
    "grid": ["times"],
    "times": ["lanes"],
    "lanes": ["move", "policy"],
    "move": ["move", "policy"],
    "policy": ["policy", "phase"],
    "phase": ["policy", "phase"],
    "vehicles": ["begin"],
}
BLOCK_MAY_END = ("lanes", "move", "policy", "phase")


class Head:
    """A script up to its `begin` line, whose layout the lines build."""

    keywords = KEYWORDS
    most_vehicles = 65_536

    def __init__(self):
        self.version = 1
        self.last = None
        self.layout = None
        self.vehicles = 0

    def read(self, line):
        """The line that these bytes spell."""
        return read_line(line, self.version, self.keywords)

    def take(self, line):
        """Takes a line. Raises BadLine or Limit where it decides."""
        if self.last in ("begin", "body"):
            self.take_body(line.form, line.fields)
            self.last = "end" if line.form == "end" else "body"
            return
        expect(self.may_follow(line.form), "order")
        getattr(self, f"take_{line.form}")(**line.fields)
        self.last = line.form

    def may_follow(self, form):
        """Whether a line of that form may stand behind the last one."""
        if form == "vehicles":
            return self.last in BLOCK_MAY_END
        return form in AFTER.get(self.last, [])

    def take_aim(self, n):
        expect(n in VERSIONS, "version")
        self.version = n
        self.layout = Layout(n)

    def take_grid(self, **fields):
        self.layout.take_grid(**fields)

    def take_times(self, **fields):
        self.layout.take_times(**fields)

    def take_lanes(self, **fields):
        self.layout.take_lanes(**fields)

    def take_move(self, **fields):
        self.layout.take_move(**fields)

    def take_policy(self, **fields):
        self.layout.take_policy(**fields)

    def take_phase(self, **fields):
        self.layout.take_phase(**fields)

    def take_vehicles(self, n):
        """The end of the head. Faults: `phase`, `vehicle`; limits: `vehicles`, `sheets`."""
        self.layout.finish()
        expect(n >= 1, "vehicle")
        self.vehicles = n
        if n > self.most_vehicles:
            raise Limit("vehicles")
        if n * self.spans_of_all() > MOST_SPANS:
            raise Limit("sheets")

    def spans_of_all(self):
        """The spans of a vehicle at all crossings."""
        return self.layout.spans

    def take_begin(self):
        pass

    def take_body(self, form, fields):
        raise NotImplementedError

    # ---- What bodies share.

    def order_of(self, form, fields):
        """The order of the operator, whose policy and lane are there."""
        if form == "stop":
            return Stop()
        if form == "quiet":
            expect(fields["lane"] < len(self.layout.lanes), "lane")
            return Quiet(fields["lane"], fields["until"])
        names = [policy.name for policy in self.layout.policies]
        expect(fields["name"] in names, "policy")
        return Switch(names.index(fields["name"]))

    def event_of(self, vehicle, moment, message):
        """A vehicle, a moment and a message that may be served."""
        expect(vehicle < self.vehicles, "vehicle")
        expect(moment <= LATEST_MOMENT, "moment")
        return vehicle, moment, message_of(message)


ORDER_FORMS = ("switch", "stop", "quiet")


class ReplayScript(Head):
    """Events and orders, as `replay` and `chart` take them. `call` is what the last line calls for, if anything: a caller's
    number, or None for the operator, a moment, and a message or an order."""

    def __init__(self):
        super().__init__()
        self.call = None

    def take(self, line):
        self.call = None
        super().take(line)

    def take_body(self, form, fields):
        if form == "event":
            self.call = self.event_of(**fields)
        elif form in ORDER_FORMS:
            order = self.order_of(form, fields)
            expect(fields["moment"] <= LATEST_MOMENT, "moment")
            self.call = None, fields["moment"], order
        else:
            expect(form == "end", "order")


class MailScript(ReplayScript):
    """Events alone, of few vehicles."""

    most_vehicles = 256

    def take_body(self, form, fields):
        expect(form not in ORDER_FORMS, "order")
        super().take_body(form, fields)


@dataclass
class Plan:
    """What a driver does. `changes` are pairs of a step and a lead."""

    vehicle: int
    first: int
    lead: int
    resend: int
    fields: dict
    is_ahead: bool = False
    wait: int = 0
    changes: list = field(default_factory=list)
    cancel: int | None = None
    up: list | None = None
    down: list | None = None
    crossing: int | None = None

    def params(self, arrive):
        """What it asks for to arrive at that step."""
        return params_of(self.fields, arrive, arrive + self.wait)


class DriveScript(Head):
    """Plans of drivers, fates of their letters, and orders, as `drive` takes them."""

    most_vehicles = 256

    def __init__(self):
        super().__init__()
        self.until = None
        self.plans = {}
        self.orders = []

    def take_body(self, form, fields):
        expect((form == "until") == (self.last == "begin"), "order")
        if form in ORDER_FORMS:
            self.take_order(form, fields)
        elif form in ("change", "cancel", "up", "down"):
            expect(fields["v"] in self.plans, "order")
            getattr(self, f"take_{form}")(self.plans[fields["v"]], fields)
        else:
            expect(form in ("until", "plan", "end"), "order")
            getattr(self, f"take_{form}")(fields)

    def take_until(self, fields):
        expect(1 <= fields["step"] <= LAST_STEP, "moment")
        self.until = fields["step"]

    def take_order(self, form, fields):
        """An order, none before the one above it. Faults: `policy`, `lane`, `moment`; limit: `orders`."""
        order = self.order_of(form, fields)
        latest = self.orders[-1][0] if self.orders else 0
        expect(latest <= fields["moment"] < self.until, "moment")
        if len(self.orders) == MOST_ORDERS:
            raise Limit("orders")
        self.orders.append((fields["moment"], order))

    def take_plan(self, fields):
        """The plan of a vehicle. Faults: `vehicle`, `driver`."""
        expect(fields["v"] < self.vehicles, "vehicle")
        is_fine = (fields["v"] not in self.plans and fields["first"] < self.until and 1 <= fields["lead"] <= LAST_STEP
                   and 1 <= fields["resend"] <= 255 and fields.get("wait", 0) <= LAST_STEP)
        expect(is_fine, "driver")
        self.plans[fields["v"]] = Plan(fields["v"], fields["first"], fields["lead"], fields["resend"], fields,
                                       fields.get("window") == "early", fields.get("wait", 0))

    def take_change(self, plan, fields):
        """A change of a plan. Fault: `driver`."""
        is_later = not plan.changes or plan.changes[-1][0] < fields["step"]
        is_fine = len(plan.changes) < 4 and is_later and fields["step"] < self.until and 1 <= fields["lead"] <= LAST_STEP
        expect(is_fine, "driver")
        plan.changes.append((fields["step"], fields["lead"]))

    def take_cancel(self, plan, fields):
        expect(plan.cancel is None and fields["step"] < self.until, "driver")
        plan.cancel = fields["step"]

    def take_up(self, plan, fields):
        expect(plan.up is None, "driver")
        plan.up = fields["fates"]

    def take_down(self, plan, fields):
        expect(plan.down is None, "driver")
        plan.down = fields["fates"]

    def take_end(self, fields):
        pass


class GridScript(Head):
    """Several crossings, and routes of vehicles over them, as `grid` takes them."""

    keywords = GRID_KEYWORDS
    most_vehicles = 256

    def __init__(self):
        super().__init__()
        self.crossings = None
        self.layouts = []
        self.until = None
        self.legs = []

    def may_follow(self, form):
        """Whether a line of that form may stand behind the last one."""
        is_last = len(self.layouts) == self.crossings
        if self.last is None:
            return form == "crossings"
        if form == "aim":
            return self.last == "crossings" or (self.last in BLOCK_MAY_END and not is_last)
        return super().may_follow(form) and (form != "vehicles" or is_last)

    def take_crossings(self, n):
        expect(1 <= n <= 8, "crossing")
        self.crossings = n

    def take_aim(self, n):
        expect(n in VERSIONS and (not self.layouts or n == self.version), "version")
        if self.layouts:
            self.layout.finish()
        super().take_aim(n)
        self.layouts.append(self.layout)

    def spans_of_all(self):
        """The spans of a vehicle at all crossings."""
        return sum(layout.spans for layout in self.layouts)

    def take_body(self, form, fields):
        expect((form == "until") == (self.last == "begin") and form in ("until", "leg", "end"), "order")
        if form == "until":
            expect(1 <= fields["step"] <= LAST_STEP, "moment")
            self.until = fields["step"]
        elif form == "leg":
            self.take_leg(fields)

    def take_leg(self, fields):
        """A leg of a route. Faults: `vehicle`, `route`."""
        expect(fields["v"] < self.vehicles, "vehicle")
        is_new = all((leg.vehicle, leg.crossing) != (fields["v"], fields["crossing"]) for leg in self.legs)
        is_fine = (fields["crossing"] < self.crossings and is_new and 1 <= fields["first"] <= LAST_STEP
                   and 1 <= fields["lead"] <= LAST_STEP and 1 <= fields["resend"] <= 255 and fields.get("wait", 0) <= LAST_STEP)
        expect(is_fine, "route")
        self.legs.append(Plan(fields["v"], fields["first"], fields["lead"], fields["resend"], fields,
                              wait=fields.get("wait", 0), crossing=fields["crossing"]))


def read_whole(script, source):
    """Takes all lines of a script. Answers None where it is whole, else what its last line says."""
    lines = Lines(source)
    try:
        while (line := lines.next()) is not None:
            script.take(script.read(line))
        expect(script.last == "end", "end")
    except BadLine as bad:
        return f"bad line {lines.number} {bad.kind}", 3
    except Limit as limit:
        return f"limit {limit.which}", 6
    return None
