"""Drivers, the links over which their letters go, and agents: drivers on their way to a manager."""
from dataclasses import dataclass

from plain.messages import Ack, Confirm, EmergencyStop, Message, Reject, message_text, reply_text

MOST_SENT = 64
FARTHEST = 65_536


@dataclass(frozen=True)
class Sent:
    step: int
    message: Message

    @property
    def text(self):
        return f"sent {self.step} {message_text(self.message)}"


@dataclass(frozen=True)
class Got:
    step: int
    seq: int
    reply: object

    @property
    def text(self):
        return f"got {self.step} {self.seq} {reply_text(self.reply)}"


@dataclass(frozen=True)
class Entered:
    step: int
    id: int

    @property
    def text(self):
        return f"entered {self.step} {self.id}"


class Known:
    """What a log says."""

    def __init__(self, log):
        self.sent_count = 0
        self.latest = None
        self.last_sending = None
        self.answer = None
        self.active = None
        self.suspended = None
        self.granted = {}
        self.entered = None
        self.was_stopped = False
        self.changes_used = 0
        self.next = 0
        self.distances = []
        for item in log:
            match item:
                case Sent():
                    self.note_sent(item)
                case Got():
                    self.note_got(item)
                case Entered():
                    self.entered = self.entered or item

    @property
    def is_waiting(self):
        return self.latest is not None and self.answer is None

    @property
    def is_done_sent(self):
        return self.latest is not None and self.latest.kind == "done"

    def note_sent(self, item):
        """What a sending changes: a message that is new becomes the latest, and waits."""
        message = item.message
        self.sent_count += 1
        self.last_sending = item.step
        if self.latest is not None and message.seq == self.latest.seq:
            return
        self.latest, self.answer = message, None
        if message.kind == "change":
            self.changes_used += 1
        if message.kind != "request":
            self.active, self.suspended = None, message.id if message.kind == "change" else None

    def note_got(self, item):
        """What a reply changes: it counts where it is the first one to the latest message."""
        reply = item.reply
        if isinstance(reply, EmergencyStop):
            self.was_stopped = True
        if not self.is_waiting or item.seq != self.latest.seq:
            return
        self.answer, self.suspended = reply, None
        if isinstance(reply, Confirm):
            self.active, self.granted[reply.id] = reply.id, reply
        if isinstance(reply, Reject):
            self.next = reply.next
            if reply.reason[0] == "distance":
                self.distances.append(reply.reason[1])
            if self.latest.kind == "change" and reply.held == self.latest.id:
                self.active = reply.held


class Driver:
    """A plan and a log. What it does next is told by these two and the step."""

    def __init__(self, plan, first):
        self.plan, self.first = plan, first
        self.log = []
        self.known = Known([])
        self.is_cancel_used = False

    def note(self, item):
        """Appends an item to the log."""
        self.log.append(item)
        self.known = Known(self.log)

    def got(self, step, seq, reply):
        """Hears a reply."""
        self.note(Got(step, seq, reply))

    def enter(self, step):
        """Enters where it is active and the window is open."""
        known = self.known
        if known.active is None or known.entered or known.was_stopped:
            return
        window = known.granted[known.active]
        opens = max(0, window.start - window.early) if self.plan.is_ahead else window.start
        if opens <= step <= window.start + window.late:
            self.note(Entered(step, known.active))

    def act(self, step):
        """Sends what the first rule that applies says, and answers it, or None."""
        message = self.choose(step)
        if message is not None:
            self.note(Sent(step, message))
        return message

    def choose(self, step):
        """The message that it sends at that step, or None: the first rule that applies decides."""
        known, plan = self.known, self.plan
        if known.sent_count >= MOST_SENT or (known.was_stopped and not known.entered):
            return None
        if known.entered and not known.is_done_sent:
            granted = known.granted[known.entered.id]
            is_through = step > known.entered.step + (granted.last - granted.start)
            return self.new("done", id=known.entered.id) if is_through else None
        own = known.suspended if known.active is None else known.active
        if not known.entered and own is not None:
            if plan.cancel is not None and plan.cancel <= step and not self.is_cancel_used:
                self.is_cancel_used = True
                return self.new("cancel", id=own)
            if known.changes_used < len(plan.changes) and plan.changes[known.changes_used][0] <= step:
                return self.new("change", id=own, arrive=step + plan.changes[known.changes_used][1])
        if known.is_waiting:
            return known.latest if step - known.last_sending >= plan.resend else None
        if known.is_done_sent:
            return None
        return self.choose_without_waiting(step)

    def choose_without_waiting(self, step):
        """The rules of a driver whose latest message was answered, and that hasn't entered."""
        known = self.known
        if known.active is not None:
            granted = known.granted[known.active]
            return self.new("cancel", id=known.active) if step > granted.start + granted.late else None
        if isinstance(known.answer, Reject) and known.answer.held is not None:
            return self.new("cancel", id=known.answer.held)
        if step >= self.first and step >= known.next:
            return self.new("request", arrive=step + self.lead())
        return None

    def lead(self):
        """By how many steps it asks ahead: the plan's lead, or less where a distance was told."""
        speed = self.plan.fields["speed"]
        leads = [min(FARTHEST, distance // speed) if speed else FARTHEST for distance in self.known.distances]
        return min([self.plan.lead] + [max(1, lead) for lead in leads])

    def new(self, kind, id=None, arrive=None):
        """A message with the next number."""
        seq = self.known.latest.seq + 1 if self.known.latest else 1
        return Message(kind, seq, id, None if arrive is None else self.plan.params(arrive))

    def acked(self):
        """The step at which it got the Ack that answers its DONE, or None."""
        if not self.known.is_done_sent or not isinstance(self.known.answer, Ack):
            return None
        return next(item.step for item in self.log if isinstance(item, Got) and item.seq == self.known.latest.seq)


class Link:
    """What is sent on it comes so many steps later, by its fates."""

    def __init__(self, lag, fates):
        self.lag, self.fates = lag, list(fates or [])
        self.count = 0
        self.due = {}

    def send(self, step, item):
        fate = self.fates[self.count] if self.count < len(self.fates) else "d"
        self.count += 1
        later = {"d": [0], "l": [], "r": [0, 1]}.get(fate, [fate])
        for more in later:
            self.due.setdefault(step + self.lag + more, []).append(item)

    def deliver(self, step):
        """What comes at that step, in order of sending."""
        return self.due.pop(step, [])


class Agent:
    """A driver with its links to a manager."""

    def __init__(self, plan, manager, first=None):
        self.vehicle, self.manager = plan.vehicle, manager
        self.driver = Driver(plan, plan.first if first is None else first)
        self.up, self.down = Link(0, plan.up), Link(1, plan.down)

    def turn(self, step):
        """One turn: it hears, enters, acts, and what comes up is served."""
        for seq, reply in self.down.deliver(step):
            self.driver.got(step, seq, reply)
        self.driver.enter(step)
        message = self.driver.act(step)
        if message is not None:
            self.up.send(step, message)
        for message in self.up.deliver(step):
            entry = self.manager.serve(self.vehicle, step, message)
            self.down.send(step, (message.seq, entry.reply))


def occupied(manager, log):
    """The cells that a vehicle was on by its log: pairs of a step and a set of tiles, without the static buffer."""
    entered = next((item for item in log if isinstance(item, Entered)), None)
    if entered is None or entered.id >= len(manager.entries):
        return []
    entry = manager.entries[entered.id]
    if not isinstance(entry.reply, Confirm) or not entry.act.asks:
        return []
    params = entry.act.params.at(entry.reply.start)
    return [(entered.step + step, foot)
            for step, foot in enumerate(manager.crossings.feet(params, entry.reply.accelerate, 0))]


def tile_runs(manager, log):
    """Each longest run of neighbouring steps of a tile: row, column, first and last step, in this order."""
    steps_of = {}
    for step, tiles in occupied(manager, log):
        while tiles:
            bit = (tiles & -tiles).bit_length() - 1
            steps_of.setdefault(bit, []).append(step)
            tiles &= tiles - 1
    for bit, steps in sorted(steps_of.items()):
        row, column = divmod(bit, manager.layout.rows)
        first = steps[0]
        for step, following in zip(steps, steps[1:] + [None]):
            if following != step + 1:
                yield row, column, first, step
                first = following
