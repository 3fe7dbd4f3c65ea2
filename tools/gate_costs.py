#!/usr/bin/env python3
"""What the gate costs, crate by crate, in processor minutes.

  tools/gate_costs.py -- bash .ci/run     runs the command, watches the prover's processes below it, keeps and prints what they took
  tools/gate_costs.py                     prints what the last such run took

A crate may take 12 minutes (docs/GATE.md); one that takes more is marked. A crate of which the run did nothing anew is shown as
kept. A process is looked at twice a second, so its last half second may be missing. Needs Linux's /proc.
"""
import json
import os
import subprocess
import sys
import time

ROOT = os.path.dirname(os.path.dirname(os.path.realpath(__file__)))
KEPT = f"{ROOT}/.build/gate_costs.json"
TICKS = os.sysconf("SC_CLK_TCK")
MOST = 12.0


def processes():
    """Yields of each process its number, its parent's, when it began, and its processor seconds."""
    for name in os.listdir("/proc"):
        if name.isdigit():
            try:
                with open(f"/proc/{name}/stat", encoding="utf-8", errors="replace") as it:
                    fields = it.read().rpartition(")")[2].split()
            except OSError:
                continue
            yield int(name), int(fields[1]), fields[19], (int(fields[11]) + int(fields[12])) / TICKS


def is_below(process, top, parents):
    while process in parents and process != top:
        process = parents[process]
    return process == top


def kind_of(process):
    """Says for which crate a process of the prover works, and at what: its proof, its tests or its edits."""
    try:
        with open(f"/proc/{process}/cmdline", "rb") as it:
            words = it.read().decode(errors="replace").split("\0")
    except OSError:
        return None
    if os.path.basename(words[0]) != "rattle" or "--crate-name" not in words:
        return None
    crate = words[words.index("--crate-name") + 1]
    if any("/rt-edit" in word for word in [*words, os.path.realpath(f"/proc/{process}/cwd")]):
        return crate, "edits"
    return crate, "tests" if "--test" in words else "proof"


def watch(command):
    """Runs the command and says its status and, of each crate and kind, the processor seconds."""
    child = subprocess.Popen(command)
    seconds, kinds = {}, {}
    while child.poll() is None:
        found = list(processes())
        parents = {process: parent for process, parent, _, _ in found}
        for process, _, begun, took in found:
            key = process, begun
            if is_below(process, child.pid, parents):
                if kinds.get(key) is None:
                    kinds[key] = kind_of(process)
                if kinds[key] is not None:
                    seconds[key] = took
        time.sleep(0.5)
    sums = {}
    for key, took in seconds.items():
        crate, kind = kinds[key]
        sums.setdefault(crate, {}).setdefault(kind, 0.0)
        sums[crate][kind] += took
    return child.returncode, sums


def crates():
    """Gives the repository's crates in the order of crates.txt."""
    with open(f"{ROOT}/crates.txt", encoding="utf-8") as it:
        lines = [line.partition("#")[0] for line in it]
    return [line.split(":")[0].split()[0] for line in lines if ":" in line]


def edits_of(crate):
    try:
        return sum(name.endswith(".edit") for name in os.listdir(f"{ROOT}/crates/{crate}/must-fail"))
    except OSError:
        return 0


def show(sums):
    print("| crate | proof | tests | edits | all | number of edits |")
    print("|---|---|---|---|---|---|")
    whole = 0.0
    for crate in crates():
        parts = [sums.get(crate, {}).get(kind, 0.0) / 60 for kind in ("proof", "tests", "edits")]
        took = sum(parts)
        whole += took
        if not took:
            print(f"| `{crate}` | kept | | | | {edits_of(crate)} |")
            continue
        over = " over" if took > MOST else ""
        print(f"| `{crate}` | {parts[0]:.1f} | {parts[1]:.1f} | {parts[2]:.1f} | {took:.1f}{over} | {edits_of(crate)} |")
    print(f"\nAll crates took {whole:.1f} processor minutes.")


def main():
    words = sys.argv[1:]
    status = 0
    if words[:1] == ["--"] and len(words) > 1:
        begun = time.monotonic()
        status, sums = watch(words[1:])
        os.makedirs(os.path.dirname(KEPT), exist_ok=True)
        with open(KEPT, "w", encoding="utf-8") as it:
            json.dump({"minutes": (time.monotonic() - begun) / 60, "seconds": sums}, it, indent=1)
    elif words:
        sys.exit(__doc__)
    try:
        with open(KEPT, encoding="utf-8") as it:
            kept = json.load(it)
    except OSError:
        sys.exit(f"no run was watched yet\n\n{__doc__}")
    show(kept["seconds"])
    print(f"The run lasted {kept['minutes']:.1f} minutes.")
    sys.exit(status)


main()
