"""The rules of drives, and a judge that holds what `drive WORKERS` printed against them. Nothing here is the program's:
drivers, links, turns, stations, tiles and greens are made anew from the rules that the pages of docs/ say in words
(DRIVERS, AGENTS, CROSSINGS, POLICIES, SCRIPTS). Only the answers of the manager are asked of the program: by a replay, on
one thread, of the calls that were printed.

Of what is printed, the journal has to be what one thread answers to the same calls; each vehicle's calls and log what its
driver does by its plan, the fates of its messages and these answers; the operator's entries the orders; moments may not
fall, orders come first, and runs of neighbours keep their order. The tiles have to be those of the crossings that were
granted, and no tile is two vehicles' in one step, or claimed by another lane's green."""
import re
from collections import namedtuple
from functools import cache

from judges.texts import difference

# ---- Scripts: of whole drives alone.

Plan = namedtuple("Plan", "first lead resend lane turn speed most accel length width kind ahead")


class Script:
    """What a whole drive script says."""

    def __init__(self, text):
        lines = text.rstrip("\n").split("\n")
        self.head = lines[: lines.index("begin")]
        self.moves, self.policies, self.plans = {}, [], {}
        self.changes, self.cancels, self.fates, self.orders = {}, {}, {"up": {}, "down": {}}, []
        for line in lines:
            words = line.split(" ")
            numbers = [int(word) for word in words if word.isdigit()]
            getattr(self, "take_" + words[0], lambda *_: None)(words, numbers)

    def take_grid(self, _, numbers):
        self.side, self.rows, self.spacing, _, self.half, _ = numbers
        self.tile = self.side // self.rows

    def take_times(self, _, numbers):
        self.clearance = numbers[2]

    def take_move(self, words, numbers):
        way = stations_of_line if words[3] == "line" else stations_of_curve
        self.moves[numbers[0], words[2]] = way(*numbers[1:])

    def take_policy(self, words, _):
        self.policies.append((words[1], words[2], []))

    def take_phase(self, _, numbers):
        self.policies[-1][2].append((numbers[0], numbers[1], sum(1 << lane for lane in numbers[2:])))

    def take_vehicles(self, _, numbers):
        self.vehicles = numbers[0]

    def take_until(self, _, numbers):
        self.until = numbers[0]

    def take_plan(self, words, _):
        numbers = [int(word) for word in words[1:6] + words[7:12]]
        self.plans[numbers[0]] = Plan(*numbers[1:5], words[6], *numbers[5:], words[12], words[13:] == ["early"])

    def take_change(self, _, numbers):
        self.changes.setdefault(numbers[0], []).append((numbers[1], numbers[2]))

    def take_cancel(self, _, numbers):
        self.cancels[numbers[0]] = numbers[1]

    def take_up(self, words, numbers):
        self.fates[words[0]][numbers[0]] = words[2:]

    take_down = take_up

    def take_operator(self, words, numbers):
        self.orders.append((numbers[0], " ".join(words[2:])))

    def policy_numbers(self):
        return {name: number for number, (name, _, _) in enumerate(self.policies)}


# ---- Printed texts.

NUMBER = "(?:0|[1-9][0-9]*)"
PARAMS = f"{NUMBER} (?:left|straight|right)(?: {NUMBER}){{6}} (?:car|emergency)"
MESSAGE = f"(?:request {NUMBER} {PARAMS}|change {NUMBER} {NUMBER} {PARAMS}|(?:cancel|done) {NUMBER} {NUMBER})"
REASON = (f"(?:(?:holds|begun|too-soon|late|far|distance|emergency|reused) {NUMBER}|no-reservation"
          f"|bad (?:lane|turn|arrive|max|speed|accel|length|width|steps|spans)|(?:green|taken)(?: {NUMBER}){{4}})")
REPLY = (f"(?:confirm(?: {NUMBER}){{4}} (?:fast|steady) {NUMBER}|reject {REASON} next {NUMBER} held (?:none|{NUMBER})"
         f"|ack {NUMBER}|emergency-stop|stale {NUMBER}|switched {NUMBER}|stopped)")
CALLED = re.compile(f"({NUMBER}) ({NUMBER}) ({NUMBER}) ({MESSAGE}) -> ({REPLY})")
ORDERED = re.compile(f"({NUMBER}) (operator) ({NUMBER}) (switch {NUMBER}|stop) -> ({REPLY})")

Entry = namedtuple("Entry", "caller moment act reply")


def entry_of(line, place):
    """The entry of a line that has that place, or None."""
    found = CALLED.fullmatch(line) or ORDERED.fullmatch(line)
    if not found or found[1] != str(place):
        return None
    return Entry(found[2] if found[2] == "operator" else int(found[2]), int(found[3]), found[4], found[5])


# ---- Links and drivers.

class Link:
    """Items that go one way, each with its fate."""

    def __init__(self, lag, fates):
        self.lag, self.fates, self.sent, self.due = lag, fates, 0, []

    def send(self, step, item):
        fate = self.fates[self.sent] if self.sent < len(self.fates) else "d"
        late = {"d": [0], "l": [], "r": [0, 1]}.get(fate)
        for steps in [int(fate)] if late is None else late:
            self.due.append((step + self.lag + steps, self.sent, item))
        self.sent += 1

    def coming(self, step):
        """The items that come in this step, those of one step in the order of their sending."""
        if not self.due:
            return []
        now = sorted(item for item in self.due if item[0] <= step)
        self.due = [item for item in self.due if item[0] > step]
        return [item[2] for item in now]


Window = namedtuple("Window", "start early late last")
Message = namedtuple("Message", "act seq id text")


class Driver:
    """A driver: its plan, its log as text, and what the log tells."""

    def __init__(self, plan, changes, cancel):
        self.plan, self.changes, self.cancel = plan, list(changes), cancel
        self.log, self.sendings, self.latest, self.sent_at, self.answer = [], 0, None, None, None
        self.active, self.windows, self.entered, self.is_stopped = None, {}, None, False
        self.next, self.lead = 0, plan.lead

    def got(self, step, seq, reply):
        self.log.append(f"got {step} {seq} {reply}")
        words = reply.split(" ")
        self.is_stopped |= reply == "emergency-stop"
        if self.latest is None or seq != self.latest.seq or self.answer is not None:
            return
        self.answer = words
        if words[0] == "confirm":
            self.active, (start, early, late), last = int(words[1]), map(int, words[2:5]), int(words[6])
            self.windows[self.active] = Window(start, early, late, last)
        if words[0] == "reject":
            self.next = int(words[-3])
            if self.latest.act == "change" and words[-1] == str(self.latest.id):
                self.active = self.latest.id
            if words[1] == "distance":
                speed = self.plan.speed
                lead = min(65_536, int(words[2]) // speed) if speed else 65_536
                self.lead = min(self.lead, max(1, lead))

    def enter(self, step):
        if self.active is None or self.entered is not None or self.is_stopped:
            return
        window = self.windows[self.active]
        first = window.start - window.early if self.plan.ahead else window.start
        if first <= step <= window.start + window.late:
            self.entered = step, self.active
            self.log.append(f"entered {step} {self.active}")

    def send(self, step, message):
        self.log.append(f"sent {step} {message.text}")
        self.sendings += 1
        self.sent_at = step
        if message != self.latest:
            self.latest, self.answer = message, None
            if message.act != "request":
                self.active = None
        return message

    def new(self, step, act, reservation=None, lead=0):
        plan, seq = self.plan, 1 if self.latest is None else self.latest.seq + 1
        words = [act, seq] + ([] if act == "request" else [reservation])
        if act in ("request", "change"):
            words += [plan.lane, plan.turn, step + lead, *plan[5:11]]
        return self.send(step, Message(act, seq, reservation, " ".join(map(str, words))))

    def act(self, step):
        """What it sends in this step: the message, or None."""
        waits = self.latest is not None and self.answer is None
        is_done = self.latest is not None and self.latest.act == "done"
        if self.sendings == 64 or (self.is_stopped and self.entered is None):
            return None
        if self.entered is not None and not is_done:
            window = self.windows[self.entered[1]]
            is_across = step > self.entered[0] + window.last - window.start
            return self.new(step, "done", self.entered[1]) if is_across else None
        if self.entered is None:
            own = self.latest.id if waits and self.latest.act == "change" else self.active
            if own is not None and self.cancel is not None and self.cancel <= step:
                self.cancel = None
                return self.new(step, "cancel", own)
            if own is not None and self.changes and self.changes[0][0] <= step:
                return self.new(step, "change", own, self.changes.pop(0)[1])
        if waits:
            return self.send(step, self.latest) if step - self.sent_at >= self.plan.resend else None
        if is_done:
            return None
        if self.active is not None:
            window = self.windows[self.active]
            return self.new(step, "cancel", self.active) if step > window.start + window.late else None
        if self.answer is not None and self.answer[0] == "reject" and self.answer[-1] != "none":
            return self.new(step, "cancel", int(self.answer[-1]))
        if step >= self.plan.first and step >= self.next:
            return self.new(step, "request", None, self.lead)
        return None

    def is_through(self):
        """Nothing comes of it any more, but what still comes on its links."""
        return self.answer is not None and self.latest.act == "done"


def followed(script, vehicle, replies):
    """A vehicle's driver at the end, and its calls, each a moment and a message, where they get these replies."""
    driver = Driver(script.plans[vehicle], script.changes.get(vehicle, []), script.cancels.get(vehicle))
    up, down = (Link(lag, script.fates[way].get(vehicle, [])) for way, lag in (("up", 0), ("down", 1)))
    calls = []
    for step in range(driver.plan.first, script.until):
        for seq, reply in down.coming(step):
            driver.got(step, seq, reply)
        driver.enter(step)
        message = driver.act(step)
        if message is not None:
            up.send(step, message)
        for message in up.coming(step):
            calls.append((step, message.text))
            if len(calls) > len(replies):
                return driver, calls
            down.send(step, (message.seq, replies[len(calls) - 1]))
        if driver.is_through() and not up.due and not down.due:
            break
    return driver, calls


# ---- The ground.

def stations_of_line(x0, y0, x1, y1, parts):
    return [(x0 + j * (x1 - x0) // parts, y0 + j * (y1 - y0) // parts) for j in range(parts + 1)]


def stations_of_curve(x0, y0, x1, y1, x2, y2, parts):
    def along(a, b, c, j):
        return ((parts - j) ** 2 * a + 2 * j * (parts - j) * b + j * j * c) // parts**2

    return [(along(x0, x1, x2, j), along(y0, y1, y2, j)) for j in range(parts + 1)]


def tiles_at(script, station, half):
    """The tiles that the square of that half side round a station meets: touching is meeting."""
    return tiles_met(script.tile, script.rows, station, half)


@cache
def tiles_met(tile, rows, station, half):
    def meets(at):
        return range(max(0, -(-(at - half) // tile) - 1), min(rows - 1, (at + half) // tile) + 1)

    x, y = station
    return [(row, col) for row in meets(y) for col in meets(x)]


def runs_of(steps):
    """The longest runs of neighbouring steps among some ranges, each a first and a last one."""
    runs = []
    for first, last in sorted(steps):
        if runs and first <= runs[-1][1] + 1:
            runs[-1][1] = max(runs[-1][1], last)
        else:
            runs.append([first, last])
    return runs


SHAPES = {}


def crossing(script, plan, is_fast):
    """The tiles under a vehicle, counted from the step in which it enters: row, column, first and last step."""
    gain = plan.accel if is_fast else 0
    key = (*script.head, plan.lane, plan.turn, plan.speed, plan.most, gain, plan.length, plan.width)
    if key not in SHAPES:
        SHAPES[key] = crossed(script, plan, gain)
    return SHAPES[key]


def crossed(script, plan, gain):
    stations, spacing = script.moves[plan.lane, plan.turn], script.spacing
    last = len(stations) - 1
    since, covered, left = 0, {}, 0
    front, speed, step = 0, plan.speed, 0
    while front - plan.length <= last * spacing:
        rear, further = (front - plan.length) // spacing, front + speed
        while since <= min(last, -(-further // spacing)):
            covered[since] = [step, None]
            since += 1
        while left < rear and left < since:
            covered[left][1] = step - 1
            left += 1
        front, speed, step = further, min(speed + gain, plan.most), step + 1
    for station in range(left, since):
        covered[station][1] = step - 1
    tiles, half = {}, -(-plan.width // 2) + spacing
    for station, steps in covered.items():
        for tile in tiles_at(script, stations[station], half):
            tiles.setdefault(tile, []).append(steps)
    return [(*tile, *run) for tile in sorted(tiles) for run in runs_of(tiles[tile])]


def occupied(script, vehicle, driver, entries):
    """The tiles that a driver's vehicle is on: row, column, first and last step."""
    if driver.entered is None:
        return []
    step, reservation = driver.entered
    granted = entries[reservation]
    words, said = granted.act.split(" "), granted.reply.split(" ")
    if granted.caller != vehicle or words[0] not in ("request", "change") or said[0] != "confirm":
        return []
    return [(row, col, step + first, step + last)
            for row, col, first, last in crossing(script, script.plans[vehicle], said[5] == "fast")]


# ---- Greens.

def lanes_over(script):
    """For each tile the lanes that have it in their tile sets, as bits."""
    lanes = {}
    for (lane, _), stations in script.moves.items():
        for tile in {tile for station in stations for tile in tiles_at(script, station, script.half)}:
            lanes[tile] = lanes.get(tile, 0) | 1 << lane
    return lanes


def greens(script, entries, steps):
    """For each of so many steps the lanes that claim their tiles then, as bits: green now, or within the clearance."""
    changes = [(0, 0)]
    for entry in entries:
        if entry.act.startswith("switch "):
            changes.append((int(entry.reply.split(" ")[1]), int(entry.act.split(" ")[1])))
    now, claimed = [], []
    for step in range(steps):
        since, policy = [change for change in changes if change[0] <= step][-1]
        _, kind, phases = script.policies[policy]
        now.append(lit(phases, step - since) if kind.startswith("light") else 0)
        latest = 0
        for lanes in set(now[max(0, step - script.clearance) :]):
            latest |= lanes
        claimed.append(latest)
    return claimed


def lit(phases, offset):
    """The lanes that are green at that offset of a policy's phases, as bits."""
    offset %= sum(red + green for red, green, _ in phases)
    for red, green, lanes in phases:
        if offset < red + green:
            return lanes if offset >= red else 0
        offset -= red + green
    return 0


# ---- The judge.

def replayed(program, script, entries):
    """What the program prints where the calls of the entries are a replay: one thread, in this order."""
    names = [name for name, _, _ in script.policies]
    lines = script.head + ["begin"]
    for entry in entries:
        words = entry.act.split(" ")
        if words[0] == "switch":
            words = ["switch", names[int(words[1])] if int(words[1]) < len(names) else "-"]
        lines.append(" ".join([str(entry.caller), str(entry.moment), *words]))
    return program.run("replay", script="\n".join([*lines, "end", ""])).text


def disorder(script, workers, entries):
    """What is wrong with the order of the entries, and with the operator's and the callers', or None."""
    numbers = script.policy_numbers()
    orders = [(moment, act if act == "stop" else f"switch {numbers[act[7:]]}") for moment, act in script.orders]
    if [(entry.moment, entry.act) for entry in entries if entry.caller == "operator"] != orders:
        return "the operator's entries aren't the orders of the script"
    agents = {vehicle: place for place, vehicle in enumerate(script.plans)}
    size = max(1, -(-len(agents) // workers))
    moment, latest = 0, {}
    for place, entry in enumerate(entries):
        if entry.moment < moment:
            return f"entry {place}: the moment falls"
        if entry.moment > moment:
            moment, latest = entry.moment, {}
        if entry.caller == "operator":
            if latest:
                return f"entry {place}: an order behind a call of its moment"
            continue
        if entry.caller not in agents:
            return f"entry {place}: a vehicle without a plan"
        agent = agents[entry.caller]
        if agent < latest.get(agent // size, 0):
            return f"entry {place}: before it came a call of an agent behind its own in their run"
        latest[agent // size] = agent
    return None


def collision(script, entries, tiles):
    """A tile that two vehicles are on in one step, or that the green of another lane claims, or None."""
    by_tile = {}
    for vehicle, runs in tiles.items():
        for row, col, first, last in runs:
            by_tile.setdefault((row, col), []).append((first, last, vehicle))
    for tile, visits in by_tile.items():
        visits.sort()
        for one, other in zip(visits, visits[1:]):
            if other[0] <= one[1]:
                return f"vehicles {one[2]} and {other[2]} are on tile {tile} in step {other[0]}"
    if not any(kind.startswith("light") for _, kind, _ in script.policies):
        return None
    lanes = lanes_over(script)
    claimed = greens(script, entries, 1 + max((visit[1] for visits in by_tile.values() for visit in visits), default=0))
    for tile, visits in by_tile.items():
        for first, last, vehicle in visits:
            others = lanes.get(tile, 0) & ~(1 << script.plans[vehicle].lane)
            if any(others & claimed[step] for step in range(first, last + 1)):
                return f"vehicle {vehicle} is on tile {tile} in a green of another lane"
    return None


def fault_of(program, text, workers, printed):
    """What is wrong with the printed text of a whole drive script, or None."""
    script, lines, entries = Script(text), printed.split("\n"), []
    while len(entries) < len(lines) and " -> " in lines[len(entries)]:
        entries.append(entry_of(lines[len(entries)], len(entries)))
        if entries[-1] is None:
            return f"{lines[len(entries) - 1]!r} is no entry of place {len(entries) - 1}"
    journal, others = lines[: len(entries)], lines[len(entries) :]
    end = [f"end {len(entries)}", ""]
    fault = disorder(script, workers, entries)
    fault = fault or difference(journal + end, replayed(program, script, entries).split("\n"), "on one thread")
    if fault:
        return fault
    drivers, tiles = {}, {}
    for vehicle in sorted(script.plans):
        own = [entry for entry in entries if entry.caller == vehicle]
        drivers[vehicle], calls = followed(script, vehicle, [entry.reply for entry in own])
        if calls != [(entry.moment, entry.act) for entry in own]:
            return f"the calls of vehicle {vehicle} aren't those that its driver follows"
        tiles[vehicle] = occupied(script, vehicle, drivers[vehicle], entries)
    wanted = [f"log {vehicle} {item}" for vehicle, driver in drivers.items() for item in driver.log]
    wanted += [f"tiles {vehicle} {' '.join(map(str, run))}" for vehicle, runs in tiles.items() for run in runs]
    return difference(others, wanted + end, "wanted") or collision(script, entries, tiles)
