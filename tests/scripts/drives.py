"""Scripts of drives, as `drive` takes them: plans of vehicles, fates of their letters, and orders of the operator."""
import random

from hypothesis import strategies

from scripts.layouts import CROSSING, FOUR_PHASES, TURNS, TWELVE_LANES, VERSIONS


class Text(str):
    """A script that is shown line by line."""

    def __repr__(self):
        return f"\n{self}"


def some_fates(lots):
    number = str(lots.choice([1, 2, 3, 7, 30, 255]))
    return " ".join(lots.choice(["d", "d", "l", "l", "r", number]) for _ in range(lots.randint(1, 12)))


def some_lines_of(lots, vehicle, until):
    """Fates, a cancel and changes of a vehicle, or none of them."""
    lines = [f"{way} {vehicle} {some_fates(lots)}" for way in ("up", "down") if lots.random() < 0.4]
    if lots.random() < 0.2:
        lines.append(f"cancel {vehicle} {lots.randrange(until)}")
    step = lots.randrange(until // 2)
    for _ in range(lots.choice([0, 0, 1, 2, 4])):
        step += lots.randint(1, 9)
        lines.append(f"change {vehicle} {step} {lots.randint(10, 60)}")
    return lines


def some_orders(lots, until, names, is_stopped):
    """Switches between these policies, and a stop behind them."""
    moments = sorted(lots.randrange(until * 3 // 4) for _ in range(lots.randint(1, 6)))
    lines = [f"operator {moment} switch {lots.choice(names)}" for moment in moments]
    return lines + [f"operator {until * 4 // 5} stop"] * is_stopped


def made(lots, version, policies, is_stopped):
    """Eight vehicles on the small crossing, with short horizons, so that switches come to be in force."""
    early, late = lots.randint(0, 3), lots.randint(0, 3)
    buffers = f"{early} {max(early, late)}" if version == 1 else f"{early} {late} {max(early, late) + 1}"
    until, names = 900, [line.split(" ")[1] for line in policies.split("\n") if line.startswith("policy")]
    lines, orders = [f"until {until}"], some_orders(lots, until, names, is_stopped)
    for vehicle in lots.sample(range(10), 8):
        kind = "emergency" if lots.random() < 0.15 else "car"
        speed = lots.randint(150, 500)
        lines.append(f"plan {vehicle} {lots.randrange(until // 2)} {lots.randint(8, 60)} {lots.randint(1, 20)} "
                     f"{vehicle % 2} straight {speed} {speed + lots.choice([0, 300])} {lots.choice([0, 40])} "
                     f"{lots.randint(600, 2000)} {lots.randint(500, 900)} {kind}"
                     + lots.choice([" early", " start"]) * (version == 3))
        lines += some_lines_of(lots, vehicle, until) + orders[:1]
        del orders[:1]
    times = f"{lots.randint(120, 300)} 25 20 {buffers}"
    head = CROSSING.format(version=version, times=times, policies=policies, vehicles=10)
    return head + "\n".join([*lines, *orders, "end", ""])


def small():
    """Such drives, as hypothesis makes and shrinks them."""
    lots, versions = strategies.randoms(use_true_random=False), strategies.sampled_from(VERSIONS)
    return strategies.builds(lambda version, stops, lots: Text(made(lots, *version, stops)), versions, strategies.booleans(), lots)


def small_by(seed):
    """The one of a seed, whose version and first policy go by it too."""
    return made(random.Random(seed), *VERSIONS[seed % len(VERSIONS)], seed % 3 == 2)


def busy(seed):
    """64 vehicles on twelve lanes, most of them at once, with faulty links and switches."""
    lots = random.Random(seed)
    kinds = ["policy plain fcfs", f"policy lights light-emerg\n{FOUR_PHASES}", "policy siren emerg"]
    lots.shuffle(kinds)
    policies, until = "\n".join(kinds), 1500
    lines, orders = [f"until {until}"], some_orders(lots, until, ["plain", "lights", "siren"], False)
    for vehicle in lots.sample(range(64), 64):
        lane = lots.randrange(12)
        kind = "emergency" if vehicle == 0 else "car"
        lines.append(f"plan {vehicle} {lots.randrange(300)} {lots.randint(60, 250)} {lots.randint(3, 50)} {lane} "
                     f"{TURNS[lane % 3]} {lots.randint(200, 260)} 300 {lots.choice([0, 2])} "
                     f"{lots.choice([4500, 12000])} 1900 {kind} {lots.choice(['early', 'start'])}")
        lines += some_lines_of(lots, vehicle, until)
    head = TWELVE_LANES.format(version=3, times="1200 100 100 2 4 6", policies=policies, vehicles=64)
    return head + "\n".join([*lines, *orders, "end", ""])


class Pcg32:
    """The generator Pcg32 of rand_pcg, made from a number as rand_core makes one."""
    TIMES, MASK = 6364136223846793005, (1 << 64) - 1

    def __init__(self, number):
        words = []
        for _ in range(4):
            number = (number * self.TIMES + 11634580027462260723) & self.MASK
            words.append(self.word_of(number))
        self.step = (words[2] | words[3] << 32) | 1
        self.state = ((words[0] | words[1] << 32) + self.step) * self.TIMES + self.step & self.MASK

    @staticmethod
    def word_of(state):
        word, turned = ((state >> 18 ^ state) >> 27) & 0xFFFF_FFFF, state >> 59
        return (word >> turned | word << 32 - turned) & 0xFFFF_FFFF

    def next(self):
        state, self.state = self.state, (self.state * self.TIMES + self.step) & self.MASK
        return self.word_of(state)


def generated(number, count):
    """The script that `generate` runs."""
    words, lines = Pcg32(number), [f"until {33 * count + 4000}"]
    for vehicle in range(count):
        a, b, c = words.next(), words.next(), words.next()
        lane = a % 12
        lines.append(f"plan {vehicle} {33 * vehicle} {100 + b % 100} 50 {lane} {TURNS[lane % 3]} {200 + c % 61} "
                     "300 2 4500 1900 car")
    head = TWELVE_LANES.format(version=1, times="3000 100 100 2 5", policies="policy plain fcfs", vehicles=count)
    return head + "\n".join([*lines, "end", ""])
