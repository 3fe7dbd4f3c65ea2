"""The rules of drives over several crossings, and a judge that holds what `grid WORKERS` printed against them. At each
crossing the rules are those of a drive (judges/drives.py), but for the order of the entries, which each run is free in.
Between crossings a vehicle's legs follow one another: a later one begins where the one before got the answer to its DONE."""
from collections import namedtuple
from functools import cached_property

from judges import drives
from judges.texts import difference

# ---- Scripts: of whole ones alone.

Leg = namedtuple("Leg", "vehicle crossing numbers")
PARTS = ("aim", "grid", "times", "lanes", "move", "policy", "phase")


class Grid:
    """What a whole script of several crossings says."""

    def __init__(self, text):
        self.blocks, self.legs = [], []
        for line in text.rstrip("\n").split("\n"):
            words = line.split(" ")
            if words[0] == "aim":
                self.blocks.append([])
            if words[0] in PARTS:
                self.blocks[-1].append(line)
            if words[0] in ("vehicles", "until"):
                setattr(self, words[0], int(words[1]))
            if words[0] == "leg":
                self.legs.append(Leg(int(words[1]), int(words[2]), " ".join(words[3:])))

    def crossing(self, number):
        """The script of a drive of the legs at one crossing."""
        plans = [f"plan {leg.vehicle} {leg.numbers}" for leg in self.legs if leg.crossing == number]
        lines = [*self.blocks[number], f"vehicles {self.vehicles}", "begin", f"until {self.until}", *plans, "end", ""]
        return drives.Script("\n".join(lines))

    def routes(self):
        """The crossings of each vehicle that has legs, in their order."""
        routes = {}
        for leg in self.legs:
            routes.setdefault(leg.vehicle, []).append(leg.crossing)
        return routes


# ---- Printed texts.

class Part:
    """The lines that are printed of a crossing."""

    def __init__(self, entries, logs, tiles):
        self.entries, self.logs, self.tiles = entries, logs, tiles

    @cached_property
    def items(self):
        """The items of each vehicle's log, each as its words."""
        items = {}
        for line in self.logs:
            words = line.split(" ")
            items.setdefault(" ".join(words[1:2]), []).append(words[2:])
        return items


def parts_of(lines, crossings):
    """The entries, logs and tiles that are printed of each crossing, and what is wrong with the lines, or None."""
    parts, place = [], 0
    for number in range(crossings):
        if lines[place : place + 1] != [f"crossing {number}"]:
            return parts, f"{' '.join(lines[place : place + 1])!r} in the place of crossing {number}"
        end = place + 1
        while end < len(lines) and not lines[end].startswith(("crossing ", "end ")):
            end += 1
        kinds = [("log", "tiles").index(word) + 1 if word in ("log", "tiles") else 0
                 for word in (line.split(" ")[0] for line in lines[place + 1 : end])]
        if kinds != sorted(kinds):
            return parts, f"the lines of crossing {number} are out of their order"
        parts.append(Part(*([line for line, kind in zip(lines[place + 1 : end], kinds) if kind == which]
                            for which in range(3))))
        place = end
    count = sum(len(part.entries) for part in parts)
    return parts, difference(lines[place:], [f"end {count}", ""], "wanted")


def log_of(part, vehicle):
    """The items of a vehicle's log at a crossing, each as its words."""
    return part.items.get(str(vehicle), [])


def through_at(log):
    """The step in which a log gets the answer to its DONE, or None."""
    done = next((item[3] for item in log if item[0] == "sent" and item[2] == "done"), None)
    got = (int(item[1]) for item in log if item[0] == "got" and item[2] == done and item[3] == "ack")
    return next(got, None)


# ---- The judge.

def journal_fault(program, script, lines):
    """The entries of one crossing, and what is wrong with them, or None."""
    entries = []
    for place, line in enumerate(lines):
        entry = drives.entry_of(line, place)
        if entry is None or entry.caller not in script.plans:
            return entries, f"{line!r} is no entry of place {place} of a vehicle that has a leg there"
        entries.append(entry)
    replayed = drives.replayed(program, script, entries).split("\n")
    return entries, difference([*lines, f"end {len(lines)}", ""], replayed, "on one thread")


def legs_fault(grid, scripts, journals):
    """The drivers of all legs that have begun, by crossing and vehicle, and what is wrong with their calls, or None."""
    drivers = {}
    for vehicle, route in grid.routes().items():
        since = 0
        for crossing in route:
            script, own = scripts[crossing], [entry for entry in journals[crossing] if entry.caller == vehicle]
            if since is None:
                if own:
                    return drivers, f"vehicle {vehicle} calls at crossing {crossing}, where its leg hasn't begun"
                continue
            plan = script.plans[vehicle]
            script.plans[vehicle] = plan._replace(first=since + plan.first)
            driver, calls = drives.followed(script, vehicle, [entry.reply for entry in own])
            if calls != [(entry.moment, entry.act) for entry in own]:
                return drivers, f"the calls of vehicle {vehicle} at crossing {crossing} aren't those that its driver follows"
            drivers[crossing, vehicle] = driver
            since = through_at([item.split(" ") for item in driver.log])
    return drivers, None


def route_fault(grid, parts):
    """A leg that has a log before the one before it has got the answer to its DONE, or None."""
    for vehicle, route in grid.routes().items():
        for before, after in zip(route, route[1:]):
            log = log_of(parts[after], vehicle)
            through = through_at(log_of(parts[before], vehicle))
            if log and (through is None or any(int(item[1]) <= through for item in log)):
                return f"vehicle {vehicle} is at crossing {after} before it is through crossing {before}"
    return None


def crossing_fault(script, entries, part, drivers):
    """What is wrong with the logs and tiles of one crossing, whose drivers these are, or None."""
    tiles = {vehicle: drives.occupied(script, vehicle, driver, entries) for vehicle, driver in drivers.items()}
    logs = [f"log {vehicle} {item}" for vehicle, driver in drivers.items() for item in driver.log]
    runs = [f"tiles {vehicle} {' '.join(map(str, run))}" for vehicle in tiles for run in tiles[vehicle]]
    fault = difference(part.logs + part.tiles, logs + runs, "wanted")
    return fault or drives.collision(script, entries, tiles)


def fault_of(program, text, printed):
    """What is wrong with the printed text of a whole script of several crossings, or None."""
    grid = Grid(text)
    parts, fault = parts_of(printed.split("\n"), len(grid.blocks))
    if fault:
        return fault
    scripts, journals = [grid.crossing(number) for number in range(len(parts))], []
    for number, part in enumerate(parts):
        entries, fault = journal_fault(program, scripts[number], part.entries)
        if fault:
            return f"crossing {number}: {fault}"
        journals.append(entries)
    drivers, fault = legs_fault(grid, scripts, journals)
    fault = fault or route_fault(grid, parts)
    if fault:
        return fault
    for number, part in enumerate(parts):
        here = {vehicle: drivers[crossing, vehicle] for crossing, vehicle in sorted(drivers) if crossing == number}
        fault = crossing_fault(scripts[number], journals[number], part, here)
        if fault:
            return f"crossing {number}: {fault}"
    return None
