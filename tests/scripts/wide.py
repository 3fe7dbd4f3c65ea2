"""Scripts of every version and for every command that takes one, each by a seed: layouts of any kind, vehicles that ask, change,
cancel and tell lies, drivers, routes, orders, and lines that are spoilt.

A vehicle learns by the plain manager what it was answered, so that it can go on from there; what a script then asks of the program
is told by its bytes alone.
"""
import json
import random
from types import SimpleNamespace

from plain.jsons import compact, json_of
from plain.layouts import Layout
from plain.lines import BadLine, message_of, read_line
from plain.manager import Manager
from plain.messages import Confirm, Quiet, Reject, Stop, Switch
from scripts.layouts import FOUR_PHASES, TWELVE_LANES

TURNS = ("left", "straight", "right")
KINDS = {1: ("fcfs", "emerg", "light"), 3: ("fcfs", "emerg", "light", "light-emerg")}


class Head:
    """A layout that is drawn: its lines, and the plain layout of them."""

    def __init__(self, lots, version):
        self.lots, self.version = lots, version
        self.layout = Layout(version)
        self.lines = [f"aim {version}"]
        self.take(self.grid_line())
        self.take(self.times_line())
        self.ways = []
        lanes = lots.choice([1, 2, 2, 3, 4])
        self.take(f"lanes {lanes}")
        for lane in range(lanes):
            for turn in lots.sample(TURNS, lots.choice([1, 1, 2, 3])):
                self.add_move(lane, turn)
        self.names = []
        for number in range(lots.choice([1, 2, 2, 3])):
            self.add_policy(f"p{number}")

    def take(self, text):
        """Takes a line, or doesn't where it's at fault. Answers whether it did."""
        line = read_line(text.encode(), self.version)
        try:
            getattr(self.layout, f"take_{line.form}")(**line.fields)
        except BadLine:
            return False
        self.lines.append(text)
        return True

    def grid_line(self):
        """A ground of up to eight rows of tiles."""
        lots = self.lots
        self.rows = lots.choice([1, 2, 3, 4, 4, 5, 8])
        self.side = self.rows * lots.choice([500, 700, 1000])
        self.spacing = lots.choice([100, 130, 200])
        spans = 4096 if lots.random() < 0.9 else lots.randint(20, 150)
        return f"grid {self.side} {self.rows} {self.spacing} {lots.choice([0, 0, 50])} {lots.choice([0, 200, 450])} {spans}"

    def times_line(self):
        """Short horizons, so that switches come to be in force."""
        lots = self.lots
        self.horizon, self.clearance = lots.choice([60, 120, 300]), lots.choice([0, 5, 20])
        edge = lots.choice([0, 0, 1, 4])
        early, late = lots.randint(0, edge), lots.randint(0, edge)
        buffers = f"{early} {edge}" if self.version == 1 else f"{early} {late} {edge}"
        self.window = lots.choice([0, 30, 30, 60, 60, self.horizon])
        more = f" {min(self.window, self.horizon)}" if self.version >= 4 else ""
        return f"times {self.horizon} {lots.choice([1, 10, 25])} {self.clearance} {buffers}{more}"

    def border(self):
        """A place on the border, on one of its four sides."""
        at = self.lots.randint(0, self.side)
        return self.lots.choice([(0, at), (self.side, at), (at, 0), (at, self.side)])

    def inside(self):
        return self.lots.randint(0, self.side), self.lots.randint(0, self.side)

    def parts(self, start, end, factor=1):
        far = max(abs(start[0] - end[0]), abs(start[1] - end[1]))
        return max(1, -(-factor * far // self.spacing))

    def add_move(self, lane, turn):
        """A straight move, a curved one or, in version 4, one of legs. In versions 1 to 3 it may begin or end inside."""
        lots = self.lots
        ends = [self.inside if self.version < 4 and lots.random() < 0.3 else self.border for _ in range(2)]
        start, end = ends[0](), ends[1]()
        shape = lots.choice(["line", "line", "curve"] + ["path"] * 2 * (self.version >= 4))
        if shape == "line":
            numbers = [*start, *end, self.parts(start, end)]
        elif shape == "curve":
            pull = self.inside()
            numbers = [*start, *pull, *end, max(self.parts(start, pull, 2), self.parts(pull, end, 2))]
        else:
            numbers, at = [*start], start
            for place in [self.inside() for _ in range(lots.randint(0, 3))] + [end]:
                numbers += [*place, self.parts(at, place)]
                at = place
        if self.take(f"move {lane} {turn} {shape} " + " ".join(map(str, numbers))):
            self.ways.append((lane, turn))

    def add_policy(self, name):
        """A policy with its phases, of lanes that share no tile."""
        lots = self.lots
        kind = lots.choice(KINDS[3 if self.version >= 3 else 1])
        self.names.append(name)
        self.take(f"policy {name} {kind}")
        count = lots.choice([1, 2, 3]) if kind in ("light", "light-emerg") else 0
        while count:
            lanes = sorted(lots.sample(range(len(self.layout.lanes)), lots.choice([1, 1, len(self.layout.lanes)])))
            red, green = self.clearance + lots.randint(0, 15), lots.randint(1, 60)
            count -= self.take(f"phase {red} {green} " + " ".join(map(str, lanes)))


class TwelveLanes(Head):
    """The realistic layout, under lights, with emergencies or plain."""

    def __init__(self, lots, version):
        self.lots, self.version, self.layout, self.lines = lots, version, Layout(version), [f"aim {version}"]
        self.horizon, self.clearance, self.window = lots.choice([600, 1200]), 100, 200
        times = f"{self.horizon} 100 100 2" + {1: " 5", 2: " 2 5", 3: " 2 5", 4: f" 2 5 {self.window}"}[version]
        lights = f"policy p1 {'light' if version < 3 else 'light-emerg'}\n{FOUR_PHASES}"
        kinds = ["policy p0 fcfs", lights, "policy p2 emerg"]
        lots.shuffle(kinds)
        head = TWELVE_LANES.format(version=version, times=times, policies="\n".join(kinds), vehicles=1)
        for line in head[: head.index("vehicles")].split("\n")[1:-1]:
            self.take(line)
        self.ways = [(lane, TURNS[lane % 3]) for lane in range(12)]
        self.names = [policy.name for policy in self.layout.policies]


def drawn_head(lots, version):
    """A layout of any kind; one in fifty is the realistic one, which takes the plain manager longest."""
    return (TwelveLanes if lots.random() < 0.02 else Head)(lots, version)


def drawn_way(lots, head):
    """A lane and a turn: now and then none that is there."""
    if not head.ways or lots.random() < 0.02:
        return lots.choice([0, 7, 255]), lots.choice(TURNS)
    return lots.choice(head.ways)


def drawn_vehicle(lots, head):
    """What stays of a vehicle from one message to the next."""
    speed = lots.choice([lots.randint(150, 600), lots.randint(60, 900)])
    gain = lots.choice([0, 0, 20, 250])
    return SimpleNamespace(
        way=drawn_way(lots, head), speed=speed, max_speed=speed + lots.choice([0, 0, 100, 600]), accel=gain,
        length=lots.randint(300, 2500), width=lots.randint(200, 1500), emergency=lots.random() < 0.2,
        seq=lots.choice([0, 1, 1, 7]), last=None, id=None)


def spoil_number(lots, value):
    """A number that is out of its range, or at its end."""
    return lots.choice([0, 1, value + 1, 4001, 30_001, 1_073_741_824, 1_073_741_825, 4_294_967_295])


def asked(lots, head, vehicle, now):
    """The words of a crossing that is asked for: way, arrival, numbers, class and, in version 4, the latest arrival."""
    reach = lots.choice([12, 12, 40, head.horizon])
    arrive = max(0, now + lots.randint(-1, reach))
    numbers = [vehicle.speed, vehicle.max_speed, vehicle.accel, vehicle.length, vehicle.width]
    if lots.random() < 0.05:
        at = lots.randrange(5)
        numbers[at] = spoil_number(lots, numbers[at])
    if lots.random() < 0.01:
        arrive = spoil_number(lots, arrive)
    words = [*vehicle.way, arrive, *numbers, "emergency" if vehicle.emergency else "car"]
    if head.version >= 4 and lots.random() < 0.75:
        more = lots.randint(1, max(1, head.window)) + (40 if lots.random() < 0.08 else 0)
        words += [arrive + more] if arrive + more <= 4_294_967_295 else []
    return " ".join(map(str, words))


def next_message(lots, head, vehicle, now):
    """The vehicle's next message: mostly one that makes sense where it stands."""
    if vehicle.last and lots.random() < 0.08:
        return vehicle.last
    lie = lots.random() < 0.06
    vehicle.seq += lots.choice([0, -1, 5]) if lie else 1
    seq, own = max(0, vehicle.seq), vehicle.id if vehicle.id is not None and lots.random() < 0.9 else lots.randrange(6)
    if vehicle.id is None and lots.random() < 0.93:
        kind = "request"
    else:
        kind = lots.choice(["change", "change", "cancel", "done", "request"])
    if kind == "request":
        vehicle.last = f"request {seq} {asked(lots, head, vehicle, now)}"
    elif kind == "change":
        vehicle.last = f"change {seq} {own} {asked(lots, head, vehicle, now)}"
    else:
        vehicle.last = f"{kind} {seq} {own}"
    return vehicle.last


def heard(vehicle, message, reply):
    """What the vehicle holds by this reply."""
    if isinstance(reply, Confirm):
        vehicle.id = reply.id
    elif isinstance(reply, Reject):
        vehicle.id = reply.held
    elif not message.asks and message.id == vehicle.id:
        vehicle.id = None


def drawn_order(lots, head, now):
    """An order of the operator: its words behind the moment, and the order."""
    if head.version >= 4 and lots.random() < 0.6:
        lane, until = lots.randrange(len(head.layout.lanes)), now + lots.choice([-3, 0, 10, 80, 400, 4_000_000_000])
        return f"quiet {lane} {max(0, until)}", Quiet(lane, max(0, until))
    if lots.random() < 0.04:
        return "stop", Stop()
    policy = lots.randrange(len(head.names))
    return f"switch {head.names[policy]}", Switch(policy)


def events(seed, version, with_orders=True):
    """A script of events, and of orders if these may come: its lines."""
    lots = random.Random(f"events {seed} {version}")
    head = drawn_head(lots, version)
    manager = Manager(head.layout)
    vehicles = [drawn_vehicle(lots, head) for _ in range(lots.choice([1, 2, 4, 8, 12]))]
    lines, now, steps = [], lots.choice([0, 0, 5, 1000]), lots.choice([[0, 0, 1], [0, 0, 1, 3, 10, 40]])
    for _ in range(lots.randint(1, 50)):
        now += lots.choice(steps)
        moment = max(0, now - lots.choice([0, 0, 0, 0, 9]))
        if with_orders and lots.random() < 0.12:
            text, order = drawn_order(lots, head, now)
            lines.append(f"operator {moment} {text}")
            manager.operate(moment, order)
            continue
        number = lots.randrange(len(vehicles))
        vehicle = vehicles[number]
        text = next_message(lots, head, vehicle, now)
        lines.append(f"{number} {moment} {text}")
        message = message_of(read_line(lines[-1].encode(), version).fields["message"])
        heard(vehicle, message, manager.serve(number, moment, message).reply)
    return [*head.lines, f"vehicles {len(vehicles)}", "begin", *lines, "end"]


def drawn_fates(lots):
    return " ".join(lots.choice(["d", "d", "l", "r", str(lots.choice([1, 2, 7, 30]))]) for _ in range(lots.randint(1, 9)))


def drawn_plan(lots, head, until):
    """The words of a plan from FIRST on, without WINDOW and WAIT."""
    vehicle = drawn_vehicle(lots, head)
    numbers = [vehicle.speed, vehicle.max_speed, vehicle.accel, vehicle.length, vehicle.width]
    if lots.random() < 0.02:
        at = lots.randrange(5)
        numbers[at] = spoil_number(lots, numbers[at])
    kind = "emergency" if vehicle.emergency else "car"
    lead = lots.randint(1, 70) if lots.random() < 0.2 else lots.randint(6, max(7, head.horizon // 3))
    times = [lots.randrange(max(1, lots.choice([until // 2, 30]))), lead, lots.randint(1, 20)]
    return " ".join(map(str, [*times, *vehicle.way, *numbers, kind]))


def drawn_wait(lots, head):
    """The word of a wait, where the version has it: now and then one beyond the longest window."""
    wait = head.window + 1 if lots.random() < 0.05 else lots.choice([0, lots.randint(0, head.window), head.window])
    return f" {wait}" if head.version >= 4 else ""


def drive(seed, version):
    """A script of a drive: its lines."""
    lots = random.Random(f"drive {seed} {version}")
    head, until = drawn_head(lots, version), lots.choice([40, 300, 600])
    count = lots.choice([1, 2, 4, 8])
    lines, moment = [f"until {until}"], 0
    for number in lots.sample(range(count), lots.randint(1, count)):
        window = lots.choice([" early", " start"]) if version >= 3 else ""
        lines.append(f"plan {number} {drawn_plan(lots, head, until)}{window}{drawn_wait(lots, head)}")
        lines += [f"{way} {number} {drawn_fates(lots)}" for way in ("up", "down") if lots.random() < 0.4]
        if lots.random() < 0.2:
            lines.append(f"cancel {number} {lots.randrange(until)}")
        step = lots.randrange(until // 2)
        for _ in range(lots.choice([0, 0, 0, 1, 4])):
            lines.append(f"change {number} {step} {lots.randint(1, 70)}")
            step += lots.randint(1, 9)
        if lots.random() < 0.5 and moment < until:
            lines.append(f"operator {moment} {drawn_order(lots, head, moment)[0]}")
            moment += lots.choice([0, 20, 90])
    return [*head.lines, f"vehicles {count}", "begin", *lines, "end"]


def grid(seed, version):
    """A script of routes: its lines."""
    lots = random.Random(f"grid {seed} {version}")
    heads = [drawn_head(lots, version) for _ in range(lots.choice([1, 2, 3]))]
    count, until = lots.choice([1, 2, 5]), lots.choice([200, 500])
    legs = []
    for number in range(count):
        for at in lots.sample(range(len(heads)), lots.randint(0, len(heads))):
            first, rest = drawn_plan(lots, heads[at], until).split(" ", 1)
            legs.append((lots.random(), f"leg {number} {at} {1 + int(first) // 4} {rest}{drawn_wait(lots, heads[at])}"))
    legs = [text for _, text in sorted(legs)]
    blocks = [line for head in heads for line in head.lines]
    return [f"crossings {len(heads)}", *blocks, f"vehicles {count}", "begin", f"until {until}", *legs, "end"]


# ---- Lines that are spoilt.

NUMBERS = ("0", "1", "2", "16", "64", "65", "255", "256", "257", "65536", "65537", "1073741825", "4294967295", "4294967296",
           "007", "+1", "-1", "1.0", "", "x", "99999999999999999999")
WORDS = ("left", "car", "emergency", "early", "start", "line", "curve", "path", "quiet", "switch", "stop", "request", "change",
         "done", "end", "begin", "operator", "fcfs", "light", "light-emerg", "d", "l", "until", "plan", "leg", "aim", "vehicles",
         "phase")


STRAYS = ("end", "begin", "aim 1", "aim 0", "until 9", "vehicles 2", "vehicles 0", "vehicles 300", "vehicles 70000",
          "policy p0 fcfs", "policy q light", "phase 30 9 0", "operator 3 stop", "operator 0 switch nobody",
          "operator 0 switch p0",
          "operator 1073741825 switch p0", "operator 5 quiet 0 40", "operator 5 quiet 200 40", "0 0 cancel 1 0", "9 0 cancel 1 0",
          "cancel 0 3", "change 0 3 9", "up 0 l", "down 0 d 300", "lanes 17", "crossings 9",
          "plan 0 0 9 9 0 straight 500 500 0 900 700 car", "leg 0 0 1 9 9 0 straight 500 500 0 900 700 car",
          "leg 0 0 1 9 9 0 straight 500 500 0 900 700 car 3")


def spoil_line(lots, line):
    """The line with a word or a character that is another, too many or too few."""
    words = line.split(" ")
    at = lots.randrange(len(words))
    way = lots.randrange(8)
    if way <= 2:
        near = [str(int(words[at]) + 1), str(max(0, int(words[at]) - 1))] if words[at].isdigit() else []
        words[at] = lots.choice(near or NUMBERS) if lots.random() < 0.3 else lots.choice(NUMBERS)
    elif way == 3:
        words[at] = lots.choice(WORDS)
    elif way == 4:
        words.insert(at, lots.choice(NUMBERS + WORDS))
    elif way == 5:
        del words[at]
    elif way == 6:
        place = lots.randrange(len(line) + 1)
        return line[:place] + lots.choice([" ", "\t", "0", "9", "a", "Z", "-", "\n"]) + line[place + 1 :]
    else:
        return line + " 0" * lots.choice([1, 3, 200])
    return " ".join(words)


def spoilt(lots, lines):
    """The lines with one of them spoilt, left out, doubled, or elsewhere."""
    lines, at = list(lines), lots.randrange(len(lines))
    way = lots.randrange(8)
    if way <= 4:
        lines[at] = spoil_line(lots, lines[at])
    elif way == 5:
        del lines[at]
    elif way == 6:
        lines.insert(lots.randrange(len(lines) + 1), lines[at])
    else:
        other = lots.randrange(len(lines))
        lines[at], lines[other] = lines[other], lines[at]
    if lots.random() < 0.1:
        lines.insert(lots.randrange(len(lines) + 1), lots.choice(STRAYS))
    return lines


def json_lines(lots, lines, version):
    """The lines as JSON, as far as they are lines; the members in any order."""
    texts, read_in = [], 1
    for line in lines:
        try:
            value = json_of(read_line(line.encode(), read_in))
        except BadLine:
            texts.append(line)
            continue
        members = list(value.items())
        lots.shuffle(members)
        texts.append(json.dumps(dict(members)) if lots.random() < 0.3 else compact(value))
        read_in = version
    return texts


JSON_PIECES = ('"', "{", "}", "[", "]", ",", ":", "1", "0", "-", ".5", "e3", "true", "null", "\\u0041", "\\ud800", " ", "é",
               "1e999")


JSON_VALUES = ("1.0", "1e0", "-0", "-1", "0", "18446744073709551615", "18446744073709551616", "1e308", "1e309", "1e-400", "0e999",
               "01", "true", "null", '"x"', "[]", "{}", '{"a":1}', '"\\ud800"', '"\\ud83d\\ude00"', "NaN", "4294967296", '"l\\u0065ft"',
               "[" * 127 + "]" * 127, "[" * 128 + "]" * 128, "9" * 309, '"\\x"', "[1,]")


def spoil_json(lots, line):
    """The line with other characters, or with a member that is another, too many or too few, at any depth."""
    try:
        value = json.loads(line)
    except ValueError:
        value = None
    if not isinstance(value, dict) or lots.random() < 0.3:
        place = lots.randrange(len(line) + 1)
        return line[:place] + lots.choice(JSON_PIECES) + line[place + lots.choice([0, 1, 1, 4]) :]
    inner = [part for part in value.values() if isinstance(part, dict)] + [value]
    of = lots.choice(inner)
    name = lots.choice([*of, *of, "latest", "window", "wait", "form"])
    if lots.random() < 0.2:
        of.pop(name, None)
        return json.dumps(value)
    twice = lots.random() < 0.3
    of[name + "@" * twice] = "@"
    return json.dumps(value).replace('"@"', lots.choice(JSON_VALUES)).replace("@", "")


COMMANDS = ("replay", "chart", "mail", "drive", "grid", "replay-json")


def made(command, seed, version, spoilt_share=0.25):
    """The words and the bytes of the script of a seed. So many of the scripts are spoilt, and some cut."""
    lots = random.Random(f"{command} {seed} {version}")
    lines = {"drive": drive, "grid": grid}.get(command, events)(seed, version, *[False] * (command == "mail"))
    words = {"chart": f"chart {lots.choice([0, lots.randint(0, 150), lots.randint(900, 1200), lots.randint(0, 400)])}",
             "replay": "replay", "replay-json": "replay-json"}.get(command, f"{command} 1")
    if lots.random() < spoilt_share:
        for _ in range(lots.choice([1, 1, 2])):
            lines = spoilt(lots, lines)
    if version < 4:
        # A program of three versions answers these too.
        lines = ["aim 5" if line == "aim 4" else line for line in lines]
    if command == "replay-json":
        lines = json_lines(lots, lines, version)
        if lots.random() < 0.3:
            at = lots.randrange(len(lines))
            lines[at] = spoil_json(lots, lines[at])
    text = "\n".join(lines) + lots.choice(["\n", "\n", "\n", ""])
    if lots.random() < 0.05:
        text = text[: lots.randrange(len(text) + 1)]
    return words.split(" "), text.encode()
