"""Scripts of events, as `replay` and `mail` take them: vehicles that ask, ask again and cancel, each with its own numbers."""
import random
from typing import NamedTuple

from hypothesis import strategies

from scripts.layouts import CROSSING, FOUR_PHASES, TURNS, TWELVE_LANES, VERSIONS


class Events(NamedTuple):
    """A script: its header, how many vehicles it has, and its events, each a vehicle, a moment and a message."""

    head: str
    vehicles: int
    events: list

    @property
    def text(self):
        return script_of(self.head, self.events)

    def __repr__(self):
        return f"\n{self.text}"


def script_of(head, events):
    """The script of such events, in this order."""
    return head + "".join(" ".join(map(str, event)) + "\n" for event in events) + "end\n"


def rounds_of(events, vehicles):
    """The events of these vehicles, one of each a round, until none has any left."""
    queues = [[event for event in events if event[0] == vehicle] for vehicle in vehicles]
    longest = max(map(len, queues), default=0)
    return [queue[place] for place in range(longest) for queue in queues if place < len(queue)]


class Vehicle:
    """A vehicle of a way, a speed and a class, which asks for arrivals within some reach of steps."""

    def __init__(self, lots, number, way, speed, reach, kind):
        self.lots, self.number, self.way, self.speed, self.reach, self.kind = lots, number, way, speed, reach, kind

    def params(self, moment):
        lane, turn = self.way
        arrive, speed = moment + self.lots.randint(1, self.reach), self.lots.randint(self.speed // 2, self.speed)
        gain, length = self.lots.choice([0, 2]), self.lots.randint(600, 4500)
        return f"{lane} {turn} {arrive} {speed} {speed + 50} {gain} {length} 700 {self.kind}"

    def asks_first(self):
        """Requests with rising numbers, and among them old and repeated numbers."""
        moment, number, events = self.lots.randint(0, 40), self.lots.randint(1, 3), []
        for _ in range(self.lots.randint(1, 5)):
            events.append((self.number, moment, f"request {number} {self.params(moment)}"))
            if self.lots.random() < 0.3:
                again = [events[-1][2], f"cancel {number} 0", f"cancel {number - 1} 0"]
                events.append((self.number, moment + 1, self.lots.choice(again)))
            moment, number = max(0, moment + self.lots.randint(-2, 60)), number + self.lots.randint(1, 2)
        return events

    def does_then(self, ids):
        """What it does with reservations of these ids, whether they are its own or not."""
        moment, events = self.lots.randint(100, 200), []
        for number, of in enumerate(ids, 20):
            message = self.lots.choice(["change", "change", "cancel", "done"])
            rest = f" {self.params(moment)}" if message == "change" else ""
            events.append((self.number, moment, f"{message} {number} {of}{rest}"))
            moment += self.lots.randint(0, 30)
        return events


def confirmed(program, head, events):
    """The ids that each vehicle gets where these events come in this order."""
    ids = {}
    for line in program.run("replay", script=script_of(head, events)).text.split("\n"):
        if " -> confirm " in line:
            ids.setdefault(int(line.split(" ")[1]), []).append(line.split(" -> confirm ")[1].split(" ")[0])
    return ids


def mixed(program, lots, head, vehicles):
    """Events of all vehicles, mixed: what they ask first, and then what they do with what they get for it."""
    queues = [vehicle.asks_first() for vehicle in vehicles]
    first = rounds_of([event for queue in queues for event in queue], range(len(vehicles)))
    ids = confirmed(program, head, first)
    for vehicle, queue in zip(vehicles, queues):
        queue += vehicle.does_then([*ids.get(vehicle.number, [])[-2:], lots.randrange(9)])
    order = [number for number, queue in enumerate(queues) for _ in queue]
    lots.shuffle(order)
    return Events(head, len(vehicles), [queues[number].pop(0) for number in order])


def vehicles_of(lots, count, ways, speed, reach):
    """So many vehicles, of which few are emergencies."""
    kinds = ["emergency" if lots.random() < 8 / (count + 40) else "car" for _ in range(count)]
    return [Vehicle(lots, number, lots.choice(ways), speed, reach, kind) for number, kind in enumerate(kinds)]


def made(program, lots, version, policies):
    """Up to nine vehicles on the small crossing."""
    count = lots.randint(1, 9)
    buffers = "1 2" if version == 1 else "1 3 4"
    head = CROSSING.format(version=version, times=f"1500 25 20 {buffers}", policies=policies, vehicles=count)
    ways = [(0, "straight"), (1, "straight")]
    return mixed(program, lots, head, vehicles_of(lots, count, ways, 500, 300))


def small(program):
    """Such scripts, as hypothesis makes and shrinks them."""
    lots, versions = strategies.randoms(use_true_random=False), strategies.sampled_from(VERSIONS)
    return strategies.builds(lambda version, lots: made(program, lots, *version), versions, lots)


def small_by(program, seed):
    """The one of a seed, whose version and first policy go by it too."""
    return made(program, random.Random(seed), *VERSIONS[seed % len(VERSIONS)])


def great(program, seed):
    """256 vehicles on twelve lanes."""
    lots = random.Random(seed)
    policies = ("policy plain fcfs", f"policy lights light-emerg\n{FOUR_PHASES}", "policy siren emerg")[seed % 3]
    head = TWELVE_LANES.format(version=3, times="3000 100 100 2 2 5", policies=policies, vehicles=256)
    ways = [(lane, TURNS[lane % 3]) for lane in range(12)]
    return mixed(program, lots, head, vehicles_of(lots, 256, ways, 260, 2500))
