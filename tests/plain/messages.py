"""Messages, orders, replies and entries, and the text of each."""
from dataclasses import dataclass, replace


@dataclass(frozen=True)
class Params:
    """What a message asks for: a crossing, by a vehicle of these numbers, that begins from `arrive` to `latest`."""

    lane: int
    turn: str
    arrive: int
    speed: int
    max_speed: int
    accel: int
    length: int
    width: int
    emergency: bool
    latest: int

    def at(self, start):
        """The same crossing, begun at that step and no other."""
        return replace(self, arrive=start, latest=start)


@dataclass(frozen=True)
class Message:
    """What a vehicle sends: `request`, `change`, `cancel` or `done`. A request names no id; the last two have no params."""

    kind: str
    seq: int
    id: int | None
    params: Params | None

    @property
    def asks(self):
        """Whether it asks for a crossing."""
        return self.params is not None


@dataclass(frozen=True)
class Switch:
    """The operator's order to switch to the policy of that number."""

    policy: int


@dataclass(frozen=True)
class Stop:
    """The operator's order to grant nothing more."""


@dataclass(frozen=True)
class Quiet:
    """The operator's word that nobody who isn't automated enters from that lane before step `until`."""

    lane: int
    until: int


@dataclass(frozen=True)
class Confirm:
    id: int
    start: int
    early: int
    late: int
    accelerate: bool
    last: int


@dataclass(frozen=True)
class Reject:
    """A refusal. The reason is its word with its numbers, as they are printed."""

    reason: tuple
    next: int
    held: int | None


@dataclass(frozen=True)
class Ack:
    id: int


@dataclass(frozen=True)
class EmergencyStop:
    pass


@dataclass(frozen=True)
class Stale:
    last: int


@dataclass(frozen=True)
class Switched:
    start: int


@dataclass(frozen=True)
class Stopped:
    pass


@dataclass(frozen=True)
class Quieted:
    pass


OPERATOR = "operator"


@dataclass(frozen=True)
class Entry:
    """What was asked and answered. `now` is the greatest moment up to and with it. `is_fresh` says that its number is above
    each of its vehicle's before it."""

    position: int
    caller: int | str
    moment: int
    act: Message | Switch | Stop | Quiet
    reply: object
    now: int
    is_fresh: bool


# ---- Texts.

def spaced(*words):
    """Words with one space between each two."""
    return " ".join(str(word) for word in words)


def message_text(message):
    """As an event has it. The latest arrival stands there only where it is above the arrival."""
    words = [message.kind, message.seq] + [message.id] * (message.id is not None)
    if message.asks:
        params = message.params
        words += [params.lane, params.turn, params.arrive, params.speed, params.max_speed, params.accel, params.length,
                  params.width, "emergency" if params.emergency else "car"]
        words += [params.latest] * (params.latest > params.arrive)
    return spaced(*words)


def act_text(act):
    """A message as `message_text` has it, or an order, a switch with the number of its policy."""
    match act:
        case Switch(policy):
            return f"switch {policy}"
        case Stop():
            return "stop"
        case Quiet(lane, until):
            return f"quiet {lane} {until}"
    return message_text(act)


def reply_text(reply):
    """The words of a reply."""
    match reply:
        case Confirm():
            trial = "fast" if reply.accelerate else "steady"
            return spaced("confirm", reply.id, reply.start, reply.early, reply.late, trial, reply.last)
        case Reject():
            return spaced("reject", *reply.reason, "next", reply.next, "held", "none" if reply.held is None else reply.held)
        case Ack(id):
            return f"ack {id}"
        case EmergencyStop():
            return "emergency-stop"
        case Stale(last):
            return f"stale {last}"
        case Switched(start):
            return f"switched {start}"
        case Stopped():
            return "stopped"
    return "quieted"


def entry_text(entry):
    """The line of an entry."""
    return f"{entry.position} {entry.caller} {entry.moment} {act_text(entry.act)} -> {reply_text(entry.reply)}"
