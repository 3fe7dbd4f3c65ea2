"""Lines of scripts: which line bytes spell in a version, or of which kind their fault is.

A line is its form and its fields. The fields have the names of the pages' words in small letters, and these are the members of
the line's JSON value too.
"""
import re
from dataclasses import dataclass

from plain.messages import Message, Params

GREATEST_NUMBER = 4_294_967_295
VERSIONS = (1, 2, 3, 4)


class BadLine(Exception):
    """A line at fault, of this kind."""

    def __init__(self, kind):
        super().__init__(kind)
        self.kind = kind


@dataclass(frozen=True)
class Line:
    """A line of a script."""

    form: str
    fields: dict


# ---- Places of a line: each reads a word, or says of which kind its fault is.

def number(word, least=0, greatest=GREATEST_NUMBER):
    """Decimal digits without a sign and without a leading nought, but for `0` itself."""
    if not re.fullmatch(rb"0|[1-9][0-9]*", word):
        raise BadLine("number")
    value = int(word)
    if not least <= value <= greatest:
        raise BadLine("range")
    return value


def lane(word):
    return number(word, greatest=255)


def name(word):
    if not re.fullmatch(rb"[a-z0-9-]{1,16}", word):
        raise BadLine("words")
    return word.decode()


def fate(word):
    """`d`, `l`, `r`, or by how many steps a letter is late."""
    if word in (b"d", b"l", b"r"):
        return word.decode()
    if not word[:1].isdigit():
        raise BadLine("words")
    return number(word, least=1, greatest=255)


def one_of(*texts):
    """A place where one of these keywords stands."""

    def keyword(word):
        if word not in [text.encode() for text in texts]:
            raise BadLine("words")
        return word.decode()

    return keyword


TURN = one_of("left", "straight", "right")
CLASS = one_of("car", "emergency")

# ---- Forms: the places behind the first word, in their order.

VEHICLE = [("speed", number), ("max", number), ("accel", number), ("length", number), ("width", number), ("class", CLASS)]
CROSSING = [("lane", lane), ("turn", TURN), ("arrive", number), *VEHICLE]
MESSAGES = {
    "request": [("seq", number), *CROSSING],
    "change": [("seq", number), ("id", number), *CROSSING],
    "cancel": [("seq", number), ("id", number)],
    "done": [("seq", number), ("id", number)],
}
ORDERS = {"switch": [("name", name)], "stop": [], "quiet": [("lane", lane), ("until", number)]}
ENDS = [("x0", number), ("y0", number), ("x1", number), ("y1", number)]
SHAPES = {"line": [*ENDS, ("m", number)], "curve": [*ENDS, ("x2", number), ("y2", number), ("m", number)]}
PLAIN_FORMS = {
    "aim": [("n", number)],
    "grid": [(field, number) for field in ("side", "n", "spacing", "static", "half", "spans")],
    "lanes": [("n", number)],
    "vehicles": [("n", number)],
    "begin": [],
    "until": [("step", number)],
    "change": [("v", number), ("step", number), ("lead", number)],
    "cancel": [("v", number), ("step", number)],
    "end": [],
}
TIMES = {
    1: ("horizon", "longest", "clearance", "internal", "edge"),
    2: ("horizon", "longest", "clearance", "early", "late", "edge"),
    3: ("horizon", "longest", "clearance", "early", "late", "edge"),
    4: ("horizon", "longest", "clearance", "early", "late", "edge", "window"),
}
KEYWORDS = [*PLAIN_FORMS, "times", "move", "policy", "phase", "operator", "plan", "up", "down"]
GRID_KEYWORDS = [*KEYWORDS, "crossings", "leg"]


def plan_places(version):
    """What a `plan` line has in this version."""
    places = [("v", number), ("first", number), ("lead", number), ("resend", number), ("lane", lane), ("turn", TURN), *VEHICLE]
    if version >= 3:
        places.append(("window", one_of("early", "start")))
    if version >= 4:
        places.append(("wait", number))
    return places


def leg_places(version):
    """What a `leg` line has in this version."""
    places = [("v", number), ("crossing", number), ("first", number), ("lead", number), ("resend", number), ("lane", lane),
              ("turn", TURN), *VEHICLE]
    return places + [("wait", number)] * (version >= 4)


def places_of(form, version):
    """The places of a form whose words are one each, in a fixed number."""
    kinds = ("fcfs", "emerg", "light", "light-emerg") if version >= 3 else ("fcfs", "emerg", "light")
    more = {
        "times": [(field, number) for field in TIMES[version]],
        "policy": [("name", name), ("kind", one_of(*kinds))],
        "plan": plan_places(version),
        "leg": leg_places(version),
        "crossings": [("n", number)],
    }
    return {**PLAIN_FORMS, **more}[form]


def fields_of(places, words):
    """Reads the words from the left; the first wrong one decides."""
    return {field: reader(word) for (field, reader), word in zip(places, words, strict=True)}


def expect(is_so):
    """The number of words of a form, or the word that selects it."""
    if not is_so:
        raise BadLine("words")


def selected(words, place, choices):
    """The word at that place, which selects the form."""
    expect(len(words) > place and words[place] in [choice.encode() for choice in choices])
    return words[place].decode()


def read_line(line, version, keywords=KEYWORDS):
    """The line that these bytes spell in this version. Raises BadLine with `unknown`, `words`, `number` or `range`."""
    words = line.split(b" ")
    first = words[0]
    if first[:1].isdigit():
        return read_event(words, version)
    if first not in [keyword.encode() for keyword in keywords]:
        raise BadLine("unknown")
    form = first.decode()
    special = {"move": read_move, "phase": read_phase, "operator": read_order, "up": read_fates, "down": read_fates}
    if form in special:
        return special[form](words, version)
    places = places_of(form, version)
    expect(len(words) == 1 + len(places))
    return Line(form, fields_of(places, words[1:]))


def read_event(words, version):
    """An event. In version 4 a request and a change may have one word more, the latest arrival."""
    kind = selected(words, 2, MESSAGES)
    places = MESSAGES[kind]
    has_latest = version >= 4 and kind in ("request", "change") and len(words) == 4 + len(places)
    expect(len(words) == 3 + len(places) or has_latest)
    fields = {"vehicle": number(words[0]), "moment": number(words[1])}
    message = {"kind": kind, **fields_of(places, words[3 : 3 + len(places)])}
    if has_latest:
        message["latest"] = number(words[-1], least=message["arrive"] + 1)
    return Line("event", {**fields, "message": message})


def read_order(words, version):
    """An order of the operator."""
    kind = selected(words, 2, ORDERS if version >= 4 else ["switch", "stop"])
    expect(len(words) == 3 + len(ORDERS[kind]))
    return Line(kind, {"moment": number(words[1]), **fields_of(ORDERS[kind], words[3:])})


def read_move(words, version):
    """A move, straight, curved or, in version 4, of legs."""
    shape = selected(words, 3, [*SHAPES, "path"] if version >= 4 else SHAPES)
    if shape == "path":
        return read_path(words)
    places = SHAPES[shape]
    expect(len(words) == 4 + len(places))
    fields = {"lane": lane(words[1]), "turn": TURN(words[2]), "shape": shape}
    return Line("move", {**fields, **fields_of(places, words[4:])})


def read_path(words):
    """A move of 1 to 32 legs: where it begins, and for each leg where that ends and how many parts it has."""
    expect(len(words) in [6 + 3 * legs for legs in range(1, 33)])
    fields = {"lane": lane(words[1]), "turn": TURN(words[2]), "shape": "path", "x0": number(words[4]), "y0": number(words[5])}
    return Line("move", {**fields, "legs": [number(word) for word in words[6:]]})


def read_phase(words, version):
    """A phase: its lanes rise and lie below 16."""
    expect(4 <= len(words) <= 19)
    fields = {"red": number(words[1]), "green": number(words[2])}
    lanes = []
    for word in words[3:]:
        lanes.append(number(word, least=lanes[-1] + 1 if lanes else 0, greatest=15))
    return Line("phase", {**fields, "lanes": lanes})


def read_fates(words, version):
    """The fates of the first letters on a vehicle's way."""
    expect(3 <= len(words) <= 66)
    return Line(words[0].decode(), {"v": number(words[1]), "fates": [fate(word) for word in words[2:]]})


# ---- What lines say.

def message_of(fields):
    """The message whose fields these are. Without a latest arrival of its own that is the arrival."""
    if fields["kind"] in ("cancel", "done"):
        return Message(fields["kind"], fields["seq"], fields["id"], None)
    params = params_of(fields, fields["arrive"], fields.get("latest", fields["arrive"]))
    return Message(fields["kind"], fields["seq"], fields.get("id"), params)


def params_of(fields, arrive, latest):
    """The params of a message, a plan or a leg."""
    return Params(lane=fields["lane"], turn=fields["turn"], arrive=arrive, speed=fields["speed"], max_speed=fields["max"],
                  accel=fields["accel"], length=fields["length"], width=fields["width"],
                  emergency=fields["class"] == "emergency", latest=latest)
