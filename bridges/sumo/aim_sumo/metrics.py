"""What a run tells: throughput, delay, stops, messages, answers by reason, misses, collisions.

Times are seconds. All delays are of SUMO's own trip output.
"""

import statistics
import xml.etree.ElementTree as ET
from collections import Counter
from dataclasses import dataclass

COLUMNS = (
    ("flow", "veh/h"), ("control", "control"), ("demand", "demand"), ("through", "through"), ("left", "left"),
    ("delay", "delay s"), ("p95", "95 % s"), ("stops", "stops"), ("messages", "messages"), ("misses", "misses"),
    ("by_sumo", "coll. SUMO"), ("by_rectangles", "coll. own"), ("teleports", "teleports"), ("replays", "replays"),
)


@dataclass(frozen=True)
class Trip:
    """A vehicle's way through: seconds from when it was to come until it had arrived, and how often it stopped.

    Where it hasn't arrived, `arrival` is None and the seconds are those up to the end of the run. `lost` is what SUMO
    says that it lost, its wait before it could come included.
    """

    seconds: float
    arrival: float
    stops: int
    lost: float = 0.0


def read_trips(path, end):
    """The trips that SUMO wrote, by the vehicle's name; those that hadn't arrived last until the end of the run."""
    found = {}
    for trip in ET.parse(path).getroot().iter("tripinfo"):
        depart, waited, arrival, lost = (
            float(trip.get(key)) for key in ("depart", "departDelay", "arrival", "timeLoss"))
        is_there = depart >= 0
        wanted = depart - waited if is_there else end - waited
        has_arrived = arrival >= 0
        found[trip.get("id")] = Trip(
            (arrival if has_arrived else end) - wanted, arrival if has_arrived else None,
            int(float(trip.get("waitingCount"))) if is_there else 0, lost + waited if is_there else waited)
    return found


def delays(trips, arrivals, free):
    """Each vehicle's delay beside a lone vehicle of its type on that path, by the vehicle's name.

    That of one that hasn't arrived is its delay so far: at least so much, and nothing where it isn't late yet.
    """
    found = {}
    for arrival in arrivals:
        trip = trips.get(arrival.id)
        if trip is not None:
            late = trip.seconds - free[free_key(arrival)]
            found[arrival.id] = late if trip.arrival is not None else max(0.0, late)
    return found


def free_key(arrival):
    """By what the time of a lone vehicle is kept: its move, and its type where it isn't the usual car."""
    return arrival.move if arrival.vehicle.name == "car" else f"{arrival.move} {arrival.vehicle.name}"


def percentile(values, share):
    """The value below which a share of the values lies."""
    return sorted(values)[min(len(values) - 1, int(share * len(values)))] if values else 0.0


def summary(trips, late, seconds, kinds=None):
    """The numbers that all controls have; `late` are the delays by name, `kinds` who drives."""
    done = {name: trip for name, trip in trips.items() if trip.arrival is not None}
    found = {
        "demand": len(trips),
        "through": sum(1 for trip in done.values() if trip.arrival <= seconds),
        "left": len(trips) - len(done),
        "delay": statistics.fmean(late.values()) if late else 0.0,
        "p95": percentile(late.values(), 0.95),
        "longest": max(late.values(), default=0.0),
        "stops": statistics.fmean(trip.stops for trip in trips.values()) if trips else 0.0,
        "teleports": 0,
    }
    for kind in ("human", "emergency"):
        own = [delay for name, delay in late.items() if kinds and kinds[name] == kind]
        if own:
            found[f"delay_{kind}"] = statistics.fmean(own)
    return found


def answers(drivers):
    """How often the manager gave each answer, a refusal by its reason and a confirm by its trial."""
    counts = Counter()
    for driver in drivers:
        for reply in driver.replies:
            word = reply.kind
            if word == "reject":
                word = f"reject {reply.reason[0]}"
            elif word == "confirm":
                word = f"confirm {'fast' if reply.is_fast else 'steady'}"
            counts[word] += 1
    return dict(sorted(counts.items()))


def header():
    """The head of the table."""
    return " | ".join(title for _, title in COLUMNS)


def row(result):
    """One row of the table."""
    return " | ".join(_cell(result.get(key, "")).rjust(len(title)) for key, title in COLUMNS)


def _cell(value):
    if isinstance(value, bool):
        return "yes" if value else "NO"
    if value is None:
        return "own"
    return f"{value:.1f}" if isinstance(value, float) else str(value)
