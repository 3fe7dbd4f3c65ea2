"""Scripts of several crossings, as `grid` takes them: routes of vehicles, leg by leg."""
import random

from hypothesis import strategies

from scripts.drives import Text
from scripts.layouts import CROSSING, TURNS, TWELVE_LANES, VERSIONS


def block(head):
    """A crossing's block: a header up to its last policy or phase."""
    return head[: head.index("vehicles ")]


def made(lots, version, policies):
    """Vehicles on up to eight small crossings, some with lights, on routes that meet."""
    crossings, vehicles, until = lots.randint(1, 8), lots.randint(1, 12), 900
    blocks, legs = [], []
    for _ in range(crossings):
        early, late = lots.randint(0, 3), lots.randint(0, 3)
        buffers = f"{early} {max(early, late)}" if version == 1 else f"{early} {late} {max(early, late) + 1}"
        kinds = lots.choice([policies, "policy plain fcfs"])
        times = f"{lots.randint(120, 300)} 25 20 {buffers}"
        blocks.append(block(CROSSING.format(version=version, times=times, policies=kinds, vehicles=1)))
    for vehicle in lots.sample(range(vehicles), lots.randint(1, vehicles)):
        for crossing in lots.sample(range(crossings), lots.randint(1, crossings)):
            speed = lots.randint(150, 500)
            legs.append(f"leg {vehicle} {crossing} {lots.choice([1, lots.randint(1, 60)])} {lots.randint(8, 60)} "
                        f"{lots.randint(1, 20)} {lots.randrange(2)} straight {speed} {speed + lots.choice([0, 300])} "
                        f"{lots.choice([0, 40])} {lots.randint(600, 2000)} {lots.randint(500, 900)} "
                        f"{'emergency' if lots.random() < 0.15 else 'car'}")
    legs = mixed(lots, legs)
    return "\n".join([f"crossings {crossings}", *"".join(blocks).split("\n")[:-1], f"vehicles {vehicles}", "begin",
                      f"until {until}", *legs, "end", ""])


def small():
    """Such scripts, as hypothesis makes and shrinks them."""
    lots, versions = strategies.randoms(use_true_random=False), strategies.sampled_from(VERSIONS)
    return strategies.builds(lambda version, lots: Text(made(lots, *version)), versions, lots)


def small_by(seed):
    """The one of a seed, whose version and first policy go by it too."""
    return made(random.Random(seed), *VERSIONS[seed % len(VERSIONS)])


def mixed(lots, legs):
    """The legs of all vehicles in another order, each vehicle's in their own."""
    routes = {}
    for leg in legs:
        routes.setdefault(leg.split(" ")[1], []).append(leg)
    turns = [vehicle for vehicle, route in routes.items() for _ in route]
    lots.shuffle(turns)
    return [routes[vehicle].pop(0) for vehicle in turns]


def day(seed):
    """256 vehicles over eight crossings of twelve lanes, one after the other all through a day."""
    lots = random.Random(seed)
    head = block(TWELVE_LANES.format(version=1, times="3000 100 100 2 5", policies="policy plain fcfs", vehicles=1))
    legs = []
    for vehicle in range(256):
        first = 1 + 45 * vehicle
        for crossing in lots.sample(range(8), lots.randint(1, 8)):
            lane = lots.randrange(12)
            legs.append(f"leg {vehicle} {crossing} {first} {lots.randint(100, 199)} 50 {lane} {TURNS[lane % 3]} "
                        f"{lots.randint(200, 260)} 300 2 4500 1900 car")
            first = lots.randint(1, 600)
    return "\n".join(["crossings 8", *(8 * head).split("\n")[:-1], "vehicles 256", "begin", "until 30000",
                      *mixed(lots, legs), "end", ""])
