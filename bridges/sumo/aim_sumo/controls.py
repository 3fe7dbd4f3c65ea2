"""SUMO's own controls on the same demand: lights with fixed times, lights with detectors, and the priority rule.

The lights are tuned for the flow. `tlsCycleAdaptation.py` of SUMO's tools makes a cycle and greens after Webster for a
demand of another seed; the lights with detectors may end a green early and hold it longer than that, and how much
longer is tried out on that demand too, as is SUMO's default. The one with the least mean delay is taken.
"""

import fcntl
import json
import os
import sys
import xml.etree.ElementTree as ET
from dataclasses import replace

from . import demand, metrics, simulator
from .faults import NoSumo
from .judge import Judge
from .vehicles import NAMED, mark

TUNING_SEED = 1000
TUNING_SECONDS = 600
TUNING_STEP = 0.1
LONE_EVERY = 60.0
"""Seconds between vehicles that are to be alone."""


def run(site, control, files, seed, end, extra=(), progress=lambda now, arrived: None):
    """One run of SUMO under one of its own controls, looked at by both judges; gives these, and the teleports."""
    words = [*simulator.options(site.net(control), files, site.step, seed), "--no-warnings", "true", *extra]
    teleports = arrived = step = 0
    each_second = max(1, round(1 / site.step))
    with simulator.running(words) as sumo:
        judge = Judge(sumo, site.junctions)
        while sumo.simulation.getMinExpectedNumber() and step * site.step < end:
            simulator.step(sumo, step * site.step)
            step += 1
            teleports += sumo.simulation.getStartingTeleportNumber()
            arrived += sumo.simulation.getArrivedNumber()
            judge.look()
            if step % each_second == 0:
                progress(step * site.step, arrived)
    return judge, teleports


def _tuning_trips(site, control, files, extra):
    """The trips of a run without judges, by SUMO's own program."""
    command = ["sumo", *simulator.options(site.net(control), files, TUNING_STEP, TUNING_SEED),
               "-r", str(files["routes"]), "--end", str(3 * TUNING_SECONDS), "--no-warnings", "true",
               *(["-a", str(extra)] if extra else [])]
    done = simulator.call(command)
    if done.returncode != 0:
        raise NoSumo(f"sumo ended with {done.returncode}: {' '.join(done.stderr.split())[-300:]}")
    return metrics.read_trips(files["trips"], 3 * TUNING_SECONDS)


def tuned(site, control, wanted, free, folder):
    """The file of the tuned lights of a control for a demand, or None where SUMO's defaults are better."""
    name = tuning_name(control, wanted)
    kept = folder / f"{name}.json"
    folder.mkdir(parents=True, exist_ok=True)
    with open(folder / f"{name}.lock", "w", encoding="ascii") as lock:
        fcntl.flock(lock, fcntl.LOCK_EX)
        _keep_tuned(kept, site, control, wanted, free, folder, name)
    best = json.loads(kept.read_text(encoding="ascii"))["best"]
    return folder / best if best else None


def _keep_tuned(kept, site, control, wanted, free, folder, name):
    """Tunes lights where nobody has, and keeps what is found."""
    if not kept.is_file():
        found = json.dumps(_tune(site, control, wanted, free, folder, name), indent=1) + "\n"
        whole = folder / f"{name}.{os.getpid()}.part"
        whole.write_text(found, encoding="ascii")
        whole.replace(kept)


def tuning_name(control, wanted):
    """A name that tells what lights are tuned for."""
    car = wanted.types["car"]
    parts = [control, f"{wanted.flow:g}", f"{car.headway}"]
    for what, usual in ((wanted.turns, demand.SHARES), (wanted.sides, {}), (wanted.mix, {"car": 1.0})):
        if what != usual:
            parts.append("_".join(f"{key}{share:.3g}" for key, share in what.items()))
    parts += filter(None, [mark(_known_but_for_its_body(wanted.types[name]) for name in wanted.mix)])
    parts += [f"gap{car.gap}"] * (car.gap != 2.5) + [f"sigma{car.sigma}"] * (car.sigma != 0)
    return "-".join(parts)


def _known_but_for_its_body(vehicle):
    """The type that the bridge knows by that name, with the measures on which lights depend from another one."""
    return replace(NAMED.get(vehicle.name, vehicle), length=vehicle.length, accel=vehicle.accel,
                   hardest_brake=vehicle.hardest_brake)


def _tune(site, control, wanted, free, folder, name):
    """Tries SUMO's defaults and each program made by its tool; gives the delays and the best file's name."""
    wanted = replace(wanted, seed=TUNING_SEED, seconds=TUNING_SECONDS, human=0.0, emergency=0.0)
    arrivals = demand.arrivals(site.layout, wanted)
    files = {key: folder / f"{name}.{os.getpid()}.{key}.xml" for key in ("routes", "trips", "log")}
    demand.write_routes(files["routes"], site, arrivals)
    tried = {}
    try:
        for candidate in ["", *_programs(site, control, files["routes"], wanted.types["car"], folder, name)]:
            trips = _tuning_trips(site, control, files, folder / candidate if candidate else None)
            tried[candidate] = metrics.summary(trips, metrics.delays(trips, arrivals, free), TUNING_SECONDS)["delay"]
    finally:
        _take_away(files)
    return {"delays": tried, "best": min(tried, key=tried.get)}


def _take_away(files):
    """Removes the files that SUMO read and wrote for a purpose of ours."""
    for path in files.values():
        path.unlink(missing_ok=True)


def _programs(site, control, routes, vehicle, folder, name):
    """The names of the programs to try: the tool's own one, or for lights with detectors some made from it."""
    found = []
    for saturation in (2.0, round(vehicle.headway + (vehicle.gap + vehicle.length) / vehicle.road_speed, 2)):
        path = folder / f"{name}-webster-{saturation}.add.xml"
        tool = [sys.executable, f"{simulator.TOOLS}/tlsCycleAdaptation.py", "-n", str(site.net("static")),
                "-r", str(routes), "-o", str(path), "-b", "0", "-H", str(saturation), "-y", "3", "-a", "0"]
        environment = {**os.environ, "SUMO_HOME": "/usr/share/sumo", "PYTHONPATH": ""}
        done = simulator.call(tool, env=environment)
        if done.returncode != 0 or not path.is_file():
            raise NoSumo(f"SUMO's tlsCycleAdaptation.py failed: {' '.join(done.stderr.split())[-300:]}")
        if control == "static":
            found.append(path.name)
        else:
            found += [_with_detectors(path, share) for share in (1.0, 1.5, 2.5)]
    return found


def _with_detectors(path, share):
    """Makes a program with detectors of one with fixed times: a green lasts 5 seconds to a share of the fixed one."""
    tree = ET.parse(path)
    for logic in tree.getroot().iter("tlLogic"):
        logic.set("type", "actuated")
        for phase in logic.iter("phase"):
            green = float(phase.get("duration"))
            if "y" not in phase.get("state") and green > 5:
                phase.set("minDur", "5")
                phase.set("maxDur", str(round(max(6.0, green * share))))
    made = path.with_name(path.name.replace(".add.xml", f"-actuated-{share}.add.xml"))
    tree.write(made)
    return made.name


def free_times(site, types, folder):
    """The seconds of a lone vehicle of each type on each path, right of way switched off; kept in the folder.

    They have the keys of `metrics.free_key`.
    """
    found = {}
    for vehicle in types:
        kept = folder / f"free-{_measures(vehicle)}.json"
        if not kept.is_file():
            whole = folder / f"{kept.name}.{os.getpid()}.part"
            whole.write_text(json.dumps(_free_times(site, vehicle, folder), indent=1) + "\n", encoding="ascii")
            whole.replace(kept)
        found.update(json.loads(kept.read_text(encoding="ascii")))
    return found


def _measures(vehicle):
    """A type's name and what its lone way depends on."""
    measures = (vehicle.length, vehicle.accel, vehicle.hardest_brake, vehicle.headway, vehicle.gap, vehicle.sigma)
    return "-".join(map(str, (vehicle.name, *measures)))


def _free_times(site, vehicle, folder):
    lone = [demand.Arrival(number, LONE_EVERY * number, name, "car", vehicle) for number, name in enumerate(site.links)]
    files = {key: folder / f"free-{os.getpid()}.{key}" for key in ("routes", "trips", "log")}
    demand.write_routes(files["routes"], site, lone)
    words = [*simulator.options(site.net("aim"), files, site.step, 1), "-r", str(files["routes"])]
    try:
        with simulator.running(words) as sumo:
            while sumo.simulation.getMinExpectedNumber():
                simulator.step(sumo, sumo.simulation.getTime())
                for name in sumo.simulation.getDepartedIDList():
                    sumo.vehicle.setSpeedMode(name, simulator.SAFE_BUT_NO_WAY)
        found = metrics.read_trips(files["trips"], 0.0)
    finally:
        _take_away(files)
    return {metrics.free_key(arrival): found[arrival.id].seconds for arrival in lone}
