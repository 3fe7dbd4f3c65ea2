"""The commands: `replay`, `chart STEP`, `replay-json`, `drive W`, `mail W` and `grid W`. The last three go as with one worker."""
import re

from plain import jsons
from plain.drivers import Agent, tile_runs
from plain.layouts import expect
from plain.lines import BadLine
from plain.manager import Manager
from plain.messages import entry_text
from plain.scripts import LATEST_MOMENT, DriveScript, GridScript, Limit, Lines, MailScript, ReplayScript, read_whole

MOST_WORKERS = 64


class WordTexts:
    """Lines and entries as words."""

    script = ReplayScript

    def entry(self, entry):
        return entry_text(entry)

    def end(self, count):
        return f"end {count}"

    def bad(self, number, kind):
        return f"bad line {number} {kind}"

    def limit(self, which):
        return f"limit {which}"


def run(words, source, sink):
    """Runs the command of these words. Answers the status."""
    for pattern, command in COMMANDS:
        found = re.fullmatch(pattern, " ".join(words))
        if found and all(is_in_range(word, command) for word in found.groups()):
            return command(source, Printer(sink), *map(int, found.groups()))
    Printer(sink)("usage")
    return 2


NUMBER = "(0|[1-9][0-9]*)"


def is_in_range(word, command):
    """Whether that is a step of a chart, or a number of workers."""
    least, greatest = (0, LATEST_MOMENT) if command is chart else (1, MOST_WORKERS)
    return least <= int(word) <= greatest


class Printer:
    """Writes lines, each at once."""

    def __init__(self, sink):
        self.sink = sink

    def __call__(self, text):
        self.sink.write(text.encode() + b"\n")
        self.sink.flush()


def replay(source, show, step=None, texts=WordTexts()):
    """Answers each event and order before the next line is read."""
    lines, script, manager = Lines(source), texts.script(), None
    try:
        while (line := lines.next()) is not None:
            script.take(script.read(line))
            manager = manager or (Manager(script.layout) if script.last == "begin" else None)
            if script.call:
                show(texts.entry(serve(manager, *script.call)))
        expect(script.last == "end", "end")
    except BadLine as bad:
        show(texts.bad(lines.number, bad.kind))
        return 3
    except Limit as limit:
        show(texts.limit(limit.which))
        return 6
    if step is not None:
        show("\n".join(manager.chart(step)))
    show(texts.end(len(manager.entries)))
    return 0


def serve(manager, vehicle, moment, act):
    """Serves a call of a vehicle, or of the operator where there is none."""
    return manager.operate(moment, act) if vehicle is None else manager.serve(vehicle, moment, act)


def chart(source, show, step):
    """A replay, with the chart of that step behind a whole script."""
    return replay(source, show, step)


def replay_json(source, show):
    """A replay of JSON lines."""
    return replay(source, show, texts=jsons.JsonTexts())


def mail(source, show, workers):
    """Clients call in turn, in order of their numbers, one event each, until all are through."""
    script = MailEvents()
    decided = read_whole(script, source)
    if decided:
        return tell(show, decided)
    manager = Manager(script.layout)
    queues = [script.calls[vehicle] for vehicle in sorted(script.calls)]
    while any(queues):
        for queue in queues:
            if queue:
                show(entry_text(manager.serve(*queue.pop(0))))
    show(f"end {len(manager.entries)}")
    return 0


class MailEvents(MailScript):
    """The calls of each vehicle's client."""

    def __init__(self):
        super().__init__()
        self.calls = {}

    def take(self, line):
        super().take(line)
        if self.call:
            self.calls.setdefault(self.call[0], []).append(self.call)


def tell(show, decided):
    """Shows what decided a script that isn't whole."""
    text, status = decided
    show(text)
    return status


def drive(source, show, workers):
    """Drivers take their turns in the order of their plans; a step's orders come before its turns."""
    script = DriveScript()
    decided = read_whole(script, source)
    if decided:
        return tell(show, decided)
    manager, orders = Manager(script.layout), list(script.orders)
    agents = [Agent(plan, manager) for plan in script.plans.values()]
    for step in range(script.until):
        while orders and orders[0][0] == step:
            manager.operate(*orders.pop(0))
        for agent in agents:
            agent.turn(step)
    report(manager, {agent.vehicle: agent.driver.log for agent in agents}, show)
    show(f"end {len(manager.entries)}")
    return 0


def report(manager, logs, show):
    """The entries, the logs and the tiles."""
    for entry in manager.entries:
        show(entry_text(entry))
    for vehicle, log in sorted(logs.items()):
        for item in log:
            show(f"log {vehicle} {item.text}")
    for vehicle, log in sorted(logs.items()):
        for row, column, first, last in tile_runs(manager, log):
            show(f"tiles {vehicle} {row} {column} {first} {last}")


class Traveller:
    """A vehicle on its route: the agent of the leg that began last, and the legs that wait."""

    def __init__(self, legs, managers):
        self.managers, self.waiting = managers, list(legs)
        self.agents = []
        self.begin(self.waiting[0].first)

    def begin(self, first):
        leg = self.waiting.pop(0)
        self.agents.append((leg.crossing, Agent(leg, self.managers[leg.crossing], first)))

    def turn(self, step):
        """Takes the agent's turn. Where that gets the Ack of its DONE, the next leg begins with the next step."""
        driver = self.agents[-1][1].driver
        self.agents[-1][1].turn(step)
        if self.waiting and driver.acked() is not None:
            self.begin(driver.acked() + self.waiting[0].first)


def grid(source, show, workers):
    """Travellers take their turns in the order in which the script first names them."""
    script = GridScript()
    decided = read_whole(script, source)
    if decided:
        return tell(show, decided)
    managers, routes = [Manager(layout) for layout in script.layouts], {}
    for leg in script.legs:
        routes.setdefault(leg.vehicle, []).append(leg)
    travellers = [Traveller(legs, managers) for legs in routes.values()]
    for step in range(script.until):
        for traveller in travellers:
            traveller.turn(step)
    for crossing, manager in enumerate(managers):
        show(f"crossing {crossing}")
        logs = {agent.vehicle: agent.driver.log for traveller in travellers for at, agent in traveller.agents if at == crossing}
        report(manager, logs, show)
    show(f"end {sum(len(manager.entries) for manager in managers)}")
    return 0


COMMANDS = [
    ("replay", replay),
    (f"chart {NUMBER}", chart),
    ("replay-json", replay_json),
    (f"mail {NUMBER}", mail),
    (f"drive {NUMBER}", drive),
    (f"grid {NUMBER}", grid),
]
