"""The manager: the history of what was asked and answered, what is asked of it, and the answer to what comes next."""
from plain.crossings import Crossings
from plain.layouts import GIVES_WAY
from plain.messages import (OPERATOR, Ack, Confirm, EmergencyStop, Entry, Quiet, Quieted, Reject, Stale, Stop, Stopped,
                            Switch, Switched)


def least_bit(tiles):
    """The least tile of a set, as its bit."""
    return (tiles & -tiles).bit_length() - 1


class Manager:
    """A layout, and the history of the entries. Each question is one over the whole history."""

    def __init__(self, layout):
        self.layout = layout
        self.crossings = Crossings(layout)
        self.entries = []
        self.orders = []
        self.fresh = []
        self.fresh_by = {}
        self.greens_known = {}

    # ---- Calls.

    def serve(self, vehicle, moment, message):
        """Answers a vehicle's message, and appends the entry."""
        return self.append(vehicle, moment, message, self.answer(vehicle, self.now(moment), message))

    def operate(self, moment, order):
        """Answers an order of the operator, and appends the entry."""
        match order:
            case Switch():
                reply = Switched(self.now(moment) + self.layout.horizon)
            case Stop():
                reply = Stopped()
            case Quiet():
                reply = Quieted()
        self.greens_known = {}
        return self.append(OPERATOR, moment, order, reply)

    def append(self, caller, moment, act, reply):
        """Appends an entry, and answers it."""
        is_fresh = caller != OPERATOR and act.seq > self.greatest_seq(caller)
        entry = Entry(len(self.entries), caller, moment, act, reply, self.now(moment), is_fresh)
        self.entries.append(entry)
        if caller == OPERATOR:
            self.orders.append(entry)
        if is_fresh:
            self.fresh.append(entry)
            self.fresh_by.setdefault(caller, []).append(entry)
        return entry

    # ---- Questions over the history.

    def now(self, moment=0):
        """The greatest of the moment and all moments in the history."""
        return max(moment, self.entries[-1].now) if self.entries else moment

    def greatest_seq(self, vehicle):
        """The greatest number of the vehicle's messages, or -1."""
        fresh = self.fresh_by.get(vehicle)
        return fresh[-1].act.seq if fresh else -1

    def granted(self, entry):
        """The cells that an entry grants: those of the trial that its reply names, begun at its start."""
        return self.crossings.cells(entry.act.params.at(entry.reply.start), entry.reply.accelerate)

    def holds(self, vehicle, now):
        """The entry of the reservation that the vehicle holds: its last fresh Confirm, which no later fresh CANCEL or DONE of it
        names, and of whose cells some aren't past."""
        given_up = []
        for entry in reversed(self.fresh_by.get(vehicle, [])):
            if isinstance(entry.reply, Confirm):
                is_standing = entry.position not in given_up and max(self.granted(entry)) >= now
                return entry if is_standing else None
            if entry.act.kind in ("cancel", "done"):
                given_up.append(entry.act.id)
        return None

    def held_by_others(self, vehicle, now):
        """The cells that vehicles other than this one hold, for each of these vehicles."""
        entries = {other: self.holds(other, now) for other in self.fresh_by if other != vehicle}
        return {other: self.granted(entry) for other, entry in entries.items() if entry}

    def policy_at(self, step):
        """The policy that is in force at a step, and from when on: that of the last switch whose start isn't later."""
        for entry in reversed(self.orders):
            if isinstance(entry.act, Switch) and entry.reply.start <= step:
                return self.layout.policies[entry.act.policy], entry.reply.start
        return self.layout.policies[0], 0

    def is_quiet(self, lane, step):
        """Whether the operator said that nobody who isn't automated enters from that lane in that step."""
        return any(isinstance(entry.act, Quiet) and entry.act.lane == lane and entry.now <= step < entry.act.until
                   for entry in self.orders)

    def greens(self, step):
        """The lanes that are green in a step, and aren't quiet."""
        if step not in self.greens_known:
            policy, start = self.policy_at(step)
            self.greens_known[step] = [lane for lane in policy.green_lanes(step - start) if not self.is_quiet(lane, step)]
        return self.greens_known[step]

    def claiming(self, step):
        """The lanes whose tile sets are claimed at a step: those that are green then, or were within the clearance."""
        first = max(0, step - self.layout.clearance)
        return sorted({lane for t in range(first, step + 1) for lane in self.greens(t)})

    def claims(self, step, own_lane=None):
        """For each lane other than that one that claims tiles at a step, the least one first: the lane and its tiles."""
        return [(lane, self.layout.lane_tiles(lane)) for lane in self.claiming(step) if lane != own_lane]

    def distance(self, lane):
        """The least distance from which a message of the lane was refused a cell since the lane's last fresh Confirm, or None."""
        least = None
        for entry in reversed(self.fresh):
            if not entry.act.asks or entry.act.params.lane != lane:
                continue
            if isinstance(entry.reply, Confirm):
                return least
            if isinstance(entry.reply, Reject) and entry.reply.reason[0] in ("green", "taken"):
                asked = (entry.act.params.arrive - entry.now) * entry.act.params.speed
                least = asked if least is None else min(least, asked)
        return least

    def approached(self, vehicle, message, now):
        """The lanes that an emergency approaches, the message at hand included."""
        calls = [entries[-1] for other, entries in self.fresh_by.items() if other != vehicle]
        if self.layout.version >= 4:
            calls = [entry for entry in calls if not isinstance(entry.reply, Confirm)]
        return sorted({message.params.lane for message in [entry.act for entry in calls] + [message]
                       if message.asks and self.is_coming(message.params, now)})

    def is_coming(self, params, now):
        """Whether these are params of an emergency that is still expected."""
        return params.emergency and self.crossings.bad(params) is None and params.arrive + self.layout.horizon >= now

    def standing_next(self, vehicle):
        """The next of the vehicle's last fresh refusal, or 0."""
        return next((entry.reply.next for entry in reversed(self.fresh_by.get(vehicle, [])) if isinstance(entry.reply, Reject)), 0)

    # ---- The answer.

    def answer(self, vehicle, now, message):
        """The reply to a message: that of the first rule that applies."""
        greatest = self.greatest_seq(vehicle)
        if message.seq < greatest:
            return Stale(greatest)
        held = self.holds(vehicle, now)
        standing = self.standing_next(vehicle)
        if message.seq == greatest:
            last = self.fresh_by[vehicle][-1]
            return last.reply if message == last.act else self.refusal(("reused", message.seq), standing, held)
        if not message.asks:
            return Ack(message.id)
        if any(isinstance(entry.act, Stop) for entry in self.orders):
            return EmergencyStop()
        reason = self.own_refusal(message, held, now) or self.too_soon(standing, now)
        if reason:
            return self.refusal(reason, standing, held)
        reason = self.refused_unseen(vehicle, message, now)
        answer = reason or self.search(vehicle, message.params, now)
        if isinstance(answer, Confirm):
            return answer
        return self.refusal(answer, self.next_allowed(now, message.params.arrive), held)

    def refusal(self, reason, next_step, held):
        """A Reject, with the reservation that the vehicle held before."""
        return Reject(reason, next_step, held.position if held else None)

    def next_allowed(self, now, arrive):
        """The first step at which a refused vehicle may ask again."""
        return now + max(1, min(self.layout.longest, max(0, arrive - now) // 2))

    def own_refusal(self, message, held, now):
        """What the vehicle's own reservation says against the message."""
        if message.kind == "request":
            return ("holds", held.position) if held else None
        if not held or held.position != message.id:
            return ("no-reservation",)
        first = min(self.granted(held))
        return ("begun", first) if first <= now else None

    def too_soon(self, standing, now):
        """Whether the vehicle asks before it may."""
        return ("too-soon", standing) if now < standing else None

    def refused_unseen(self, vehicle, message, now):
        """The refusals that look at no other vehicle's cells and at no green."""
        params, layout = message.params, self.layout
        field = self.crossings.bad(params)
        if field:
            return ("bad", field)
        if params.arrive <= now + layout.edge:
            return ("late", now)
        if max(self.crossings.cells(*self.crossings.trials(params)[-1])) >= now + layout.horizon:
            return ("far", now + layout.horizon)
        if layout.version < 4:
            distance = self.distance(params.lane)
            if distance is not None and (params.arrive - now) * params.speed > distance:
                return ("distance", distance)
        policy, _ = self.policy_at(params.arrive)
        approached = self.approached(vehicle, message, now)
        if policy.kind in GIVES_WAY and approached and params.lane not in approached:
            return ("emergency", approached[0])
        return None

    def search(self, vehicle, params, now):
        """The Confirm of the first candidate that is free, or why there is none: the least blocked cell of trial B, and in version
        4 of the first candidate."""
        blocks = Blocks(self, vehicle, params.lane, now)
        for trial, accelerate in self.crossings.candidates(params):
            cells = self.crossings.cells(trial, accelerate)
            if max(cells) >= now + self.layout.horizon:
                break
            if blocks.first_in(cells) is None:
                last = trial.arrive + self.crossings.steps(trial, accelerate) - 1
                return Confirm(len(self.entries), trial.arrive, self.layout.early, self.layout.late, accelerate, last)
        told, accelerate = self.crossings.trials(params)[-1]
        return blocks.reason(*blocks.first_in(self.crossings.cells(told, accelerate)))

    # ---- The chart.

    def chart(self, step):
        """A line of each row, the north one first: `#` where a vehicle holds the tile in that step, `g` where a lane claims it."""
        rows, held, claimed = self.layout.rows, 0, 0
        if step >= self.now():
            for cells in self.held_by_others(None, self.now()).values():
                held |= cells.get(step, 0)
            for _, tiles in self.claims(step):
                claimed |= tiles

        def sign(row, column):
            bit = 1 << row * rows + column
            return "#" if held & bit else "g" if claimed & bit else "."

        return ["".join(sign(row, column) for column in range(rows)) for row in reversed(range(rows))]


class Blocks:
    """What blocks the cells of a vehicle in a lane: other lanes' greens, and what other vehicles hold."""

    def __init__(self, manager, vehicle, lane, now):
        self.manager, self.lane = manager, lane
        self.held = manager.held_by_others(vehicle, now)
        self.known = {}

    def tiles(self, step):
        """The tiles that are blocked in a step."""
        if step not in self.known:
            blocked = 0
            for _, tiles in self.manager.claims(step, self.lane):
                blocked |= tiles
            for cells in self.held.values():
                blocked |= cells.get(step, 0)
            self.known[step] = blocked
        return self.known[step]

    def first_in(self, cells):
        """The least of these cells that is blocked, by step, row and column: the step and the tile's bit. Or None."""
        for step, tiles in cells.items():
            blocked = tiles & self.tiles(step)
            if blocked:
                return step, least_bit(blocked)
        return None

    def reason(self, step, bit):
        """Why that cell is blocked: green by the least lane that claims it, else taken by the vehicle that holds it."""
        row, column = divmod(bit, self.manager.layout.rows)
        for lane, tiles in self.manager.claims(step, self.lane):
            if tiles >> bit & 1:
                return ("green", row, column, step, lane)
        for vehicle, cells in self.held.items():
            if cells.get(step, 0) >> bit & 1:
                return ("taken", row, column, step, vehicle)
        raise AssertionError("a blocked cell is claimed or held")
