"""Lines and entries as JSON."""
import json

from plain.lines import MESSAGES, ORDERS, SHAPES, BadLine, Line, places_of, read_line
from plain.messages import (OPERATOR, Ack, Confirm, EmergencyStop, Quiet, Reject, Stale, Stop, Stopped, Switch, Switched)
from plain.scripts import ReplayScript

DEEPEST = 127
GREATEST_WHOLE = (1 << 64) - 1


class NoNumber:
    """A number that no line has: with a point, an exponent or a sign, or past 64 bits."""


def whole(text):
    """A whole number, as a text of JSON has it."""
    if text.startswith("-") or int(text) > GREATEST_WHOLE:
        return broken(text)
    return int(text)


def broken(text):
    """Another number. Past the range of a double it is no JSON here."""
    if float(text) in (float("inf"), float("-inf")):
        raise ValueError("a number past the range of a double")
    return NoNumber()


def no_constant(text):
    raise ValueError(f"{text} is no JSON")


class Members(dict):
    """An object. Of members of one name the last counts, and `pairs` has all of them."""

    def __init__(self, pairs):
        super().__init__(pairs)
        self.pairs = pairs


def read_json(line):
    """The value that these bytes are. Raises ValueError where they are none."""
    value = json.loads(line.decode("utf-8"), parse_int=whole, parse_float=broken, parse_constant=no_constant,
                       object_pairs_hook=Members)
    check(value, 0)
    return value


def check(value, depth):
    """Refuses what is nested too deep, and halves of surrogate pairs, also where it doesn't count."""
    if isinstance(value, str):
        value.encode("utf-8")
    if isinstance(value, (Members, list)):
        if depth == DEEPEST:
            raise ValueError("nested too deep")
        for item in [part for pair in value.pairs for part in pair] if isinstance(value, Members) else value:
            check(item, depth + 1)


def is_same(one, other):
    """Whether two values are the same, with no number for a truth value."""
    if isinstance(one, dict) and isinstance(other, dict):
        return one.keys() == other.keys() and all(is_same(value, other[name]) for name, value in one.items())
    if type(one) is not type(other):
        return False
    if isinstance(one, list):
        return len(one) == len(other) and all(map(is_same, one, other))
    return not isinstance(one, NoNumber) and one == other


def json_of(line):
    """The value of a line."""
    return {"form": line.form, **line.fields}


def read_json_line(text, version):
    """The line that these bytes say in this version. Raises BadLine with `json` or `form`."""
    try:
        value = read_json(text)
    except (ValueError, RecursionError):
        raise BadLine("json") from None
    try:
        line = read_line(" ".join(words_of(value, version)).encode(), version)
    except (BadLine, KeyError, TypeError, AttributeError, UnicodeError):
        raise BadLine("form") from None
    # The words were taken from where a line of this form has them. They say the value only where their line has this value.
    if not is_same(json_of(line), value):
        raise BadLine("form")
    return line


def words_of(value, version):
    """The words that the value's members are in a line of text, if the value is that of a line."""
    form = value["form"]
    if form == "event":
        message = value["message"]
        words = [value["vehicle"], value["moment"], message["kind"]] + named(message, MESSAGES[message["kind"]])
        return texts(words + [message[name] for name in ["latest"] if name in message])
    if form in ORDERS:
        return texts(["operator", value["moment"], form] + named(value, ORDERS[form]))
    if form == "move":
        words = ["move", value["lane"], value["turn"], value["shape"]]
        if value["shape"] == "path":
            return texts(words + [value["x0"], value["y0"], *value["legs"]])
        return texts(words + named(value, SHAPES[value["shape"]]))
    if form == "phase":
        return texts(["phase", value["red"], value["green"], *value["lanes"]])
    if form in ("up", "down"):
        return texts([form, value["v"], *value["fates"]])
    return texts([form] + named(value, places_of(form, version)))


def named(value, places):
    """The members that stand in these places."""
    return [value[name] for name, _ in places]


def texts(words):
    """Words and numbers as words."""
    return [word if isinstance(word, str) else str(word) for word in words]


# ---- What is printed.

def reply_json(reply):
    """The value of a reply."""
    match reply:
        case Confirm():
            return {"kind": "confirm", "id": reply.id, "start": reply.start, "early": reply.early, "late": reply.late,
                    "trial": "fast" if reply.accelerate else "steady", "last": reply.last}
        case Reject():
            return {"kind": "reject", "reason": reason_json(*reply.reason), "next": reply.next, "held": reply.held}
        case Ack(id):
            return {"kind": "ack", "id": id}
        case EmergencyStop():
            return {"kind": "emergency-stop"}
        case Stale(last):
            return {"kind": "stale", "last": last}
        case Switched(start):
            return {"kind": "switched", "from": start}
        case Stopped():
            return {"kind": "stopped"}
    return {"kind": "quieted"}


REASON_MEMBERS = {
    "holds": ["id"], "no-reservation": [], "begun": ["step"], "too-soon": ["next"], "bad": ["field"], "late": ["now"],
    "far": ["reach"], "distance": ["d"], "emergency": ["lane"], "green": ["row", "col", "step", "lane"],
    "taken": ["row", "col", "step", "by"], "reused": ["seq"],
}


def reason_json(kind, *numbers):
    """The value of a reason."""
    return {"kind": kind, **dict(zip(REASON_MEMBERS[kind], numbers, strict=True))}


def act_json(act):
    """The value of a message or an order."""
    match act:
        case Switch(policy):
            return {"kind": "switch", "policy": policy}
        case Stop():
            return {"kind": "stop"}
        case Quiet(lane, until):
            return {"kind": "quiet", "lane": lane, "until": until}
    return message_json(act)


def message_json(message):
    """The value of a message. The latest arrival is there only where it is above the arrival."""
    value = {"kind": message.kind, "seq": message.seq}
    if message.id is not None:
        value["id"] = message.id
    if message.asks:
        params = message.params
        value |= {"lane": params.lane, "turn": params.turn, "arrive": params.arrive, "speed": params.speed,
                  "max": params.max_speed, "accel": params.accel, "length": params.length, "width": params.width,
                  "class": "emergency" if params.emergency else "car"}
        if params.latest > params.arrive:
            value["latest"] = params.latest
    return value


def compact(value):
    """The text of a value: members by name, no white space."""
    return json.dumps(value, sort_keys=True, separators=(",", ":"))


class JsonScript(ReplayScript):
    """A script of JSON lines."""

    def read(self, line):
        return read_json_line(line, self.version)


class JsonTexts:
    """Lines and entries as JSON."""

    script = JsonScript

    def entry(self, entry):
        return compact({"position": entry.position, "caller": entry.caller, "moment": entry.moment, "act": act_json(entry.act),
                        "reply": reply_json(entry.reply)})

    def end(self, count):
        return compact({"end": count})

    def bad(self, number, kind):
        return compact({"bad": number, "kind": kind})

    def limit(self, which):
        return compact({"limit": which})
