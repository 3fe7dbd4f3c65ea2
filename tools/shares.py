#!/usr/bin/env python3
"""Which functions are dear: the share of each in the time of its crate's check.

  tools/shares.py aim_turnstile aim_book    prints the dearest ten functions of each of these crates
  tools/shares.py                      prints each function above a twelfth, of all crates of the program
  tools/shares.py --jobs 4 ..          checks so many crates side by side

It checks each crate from nothing, as `rt ci` does, over the libraries that stand in crates/*/out: so run `rt ci` before it,
which leaves there what its own checks read, in a clone in which it had not run before: of a later run it may leave what an
earlier one had left. A check has one job. A share is of all the processor's time that the check took. A
check writes the parts of each function's proof as they come: a part took what the check's clock of that time went on since the
part before it was written, so other work on the machine counts for nothing. Behind each function stand the parts that took most
of it: Lts is the borrow checker's, Proof the search for the answers that nobody wrote, Answers those that somebody did. Needs
Linux's /proc.

What a library has is read once, in the first function that needs it, most often in Kinds, Tie, Given, Code or Reads, and no cut
of that function makes it less. So where a function's parts come to more than a twelfth, the crate is checked once more, from
nothing but these parts. What the same sorts of parts of the other functions take then beyond what they had taken is their
reading, which had fallen to this function by chance: it isn't counted, and told behind the share.
"""
import bisect
import collections
import concurrent.futures
import os
import re
import shutil
import subprocess
import sys
import tempfile
import time

ROOT = os.path.dirname(os.path.dirname(os.path.realpath(__file__)))
READING = ("Kinds", "Tie", "Given", "Code", "Reads")
TWELFTH = 1 / 12
TICKS = os.sysconf("SC_CLK_TCK")


def part_of(name, crate):
    """Gives the function to whose proof a kept file belongs and its part in it, or None where it belongs to none."""
    found = re.match(rf"Rattle-{crate}-proofs\.(.*)\.oantt$", name)
    if not found:
        return None
    words = found.group(1).split(".")
    lower = [place for place, word in enumerate(words) if word[:1].islower()]
    whole = words[: lower[-1] + 1] if lower else []
    if len(whole) < 2 and whole != ["main"]:
        return None
    return ".".join(whole), words[-1]


def uses():
    """Gives of each crate what it stands on, as crates.txt says."""
    found = {}
    with open(f"{ROOT}/crates.txt", encoding="utf-8") as lines:
        for line in lines:
            head, colon, rest = line.partition("#")[0].partition(":")
            if colon:
                found[head.split()[0]] = rest.split()
    return found


def words(crate):
    """Gives the words of a check of the crate over the libraries that were built."""
    kit = os.path.dirname(os.path.dirname(os.path.realpath(shutil.which("rt"))))
    known, below = uses(), []

    def visit(name):
        for use in known[name]:
            if use in known and use not in below:
                visit(use)
                below.append(use)

    visit(crate)
    root = "src/main.rt" if os.path.exists(f"{ROOT}/crates/{crate}/src/main.rt") else "src/lib.rt"
    said = [f"{kit}/bin/rattle", "check", "--crate-name", crate, root]
    for use in ["std", *[use for use in known[crate] if use not in known]]:
        said += ["--extern", f"{use}={kit}/rlibs/{use}.rlib"]
    said += ["-L", f"dependency={kit}/rlibs"]
    for use in [use for use in known[crate] if use in known]:
        said += ["--extern", f"{use}={ROOT}/crates/{use}/out/rlib/{use}.rlib"]
    for use in below:
        said += ["-L", f"dependency={ROOT}/crates/{use}/out/rlib"]
    said += ["--antt-project", f"{kit}/rattle/logic/antt-project.json", "--logic-built", f"{kit}/logic_built"]
    return [*said, "--links", f"{crate}=", "--jobs", "1"]


def newest(room):
    """Gives the folder of what the newest check keeps there."""
    return max((entry.path for entry in os.scandir(room) if entry.is_dir()), key=os.path.getmtime)


def watched(command, folder):
    """Runs the command and says whether it ended well, what it printed, and at which moments it was looked at, each with the
    processor's seconds that it had taken by then."""
    looks = []
    with tempfile.TemporaryFile("w+") as said:
        with subprocess.Popen(command, cwd=folder, stdout=said, stderr=subprocess.STDOUT) as child:
            while child.poll() is None:
                with open(f"/proc/{child.pid}/stat", encoding="utf-8", errors="replace") as it:
                    fields = it.read().rpartition(")")[2].split()
                looks.append((time.time(), (int(fields[11]) + int(fields[12])) / TICKS))
                time.sleep(0.02)
        said.seek(0)
        return child.returncode == 0, said.read(), looks


def taken(looks, when):
    """Gives how many of the processor's seconds were taken by that moment."""
    place = bisect.bisect_left(looks, (when,))
    if place in (0, len(looks)):
        return looks[min(place, len(looks) - 1)][1]
    (before, less), (after, more) = looks[place - 1], looks[place]
    return less + (more - less) * (when - before) / (after - before)


def check(crate, room, function=None):
    """Checks the crate with one job, from nothing, or from nothing but the parts of this function that the check before kept in
    the room, and gives how many of the processor's seconds it took, and the files that it wrote in this order, each with those
    that it had taken by then."""
    if function is not None:
        for entry in list(os.scandir(newest(room))):
            if entry.name.startswith("Rattle") and (part_of(entry.name, crate) or ("",))[0] != function:
                os.remove(entry.path)
    start = time.time()
    is_proved, said, looks = watched([*words(crate), "--incremental", room], f"{ROOT}/crates/{crate}")
    if not is_proved:
        sys.exit(f"{crate} isn't proved, or a library below it isn't built:\n{said[-2000:]}")
    files = sorted((entry.stat().st_mtime, entry.name) for entry in os.scandir(newest(room)) if entry.name.startswith("Rattle"))
    return looks[-1][1], [(taken(looks, when), name) for when, name in files if when >= start]


def times(crate, files):
    """Gives how many seconds each function took, part by part."""
    functions = collections.defaultdict(collections.Counter)
    for (before, _), (after, name) in zip(files, files[1:]):
        part = part_of(name, crate)
        if part:
            functions[part[0]][part[1]] += after - before
    return functions


def reading(parts):
    """Gives how many of a function's seconds went into parts in which libraries are read."""
    return sum(took for part, took in parts.items() if part.split("-")[0] in READING)


def fallen(crate, room, function, functions):
    """Gives how many seconds of this function were the reading of what the others need too, or None where it can't be told."""
    # (what a check keeps is taken apart, so each is asked over a copy)
    with tempfile.TemporaryDirectory() as copy:
        shutil.copytree(room, copy, dirs_exist_ok=True)
        without = times(crate, check(crate, copy, function)[1])
    if function in without:
        return None
    return sum(max(0, reading(without[other]) - reading(functions[other])) for other in functions if other != function)


def shown(crate, least, most):
    """Gives the lines of the crate's dearest functions, at most so many and none below the least share."""
    lines = []
    with tempfile.TemporaryDirectory() as room:
        whole, files = check(crate, room)
        functions = times(crate, files)
        shares = []
        for function, parts in functions.items():
            took = sum(parts.values())
            others = fallen(crate, room, function, functions) if took > TWELFTH * whole and reading(parts) > 0 else 0
            if others is None:
                lines.append(f"{crate}: what {function} read for others can't be told")
            shares.append((took - (others or 0), others or 0, function))
    for seconds, others, function in sorted(shares, reverse=True)[:most]:
        if seconds > least * whole:
            of_it = ", ".join(f"{part} {took:.1f}" for part, took in functions[function].most_common(3))
            lines.append(f"{crate:16} {whole:6.1f} s {100 * seconds / whole:5.1f} % +{100 * others / whole:4.1f} %"
                         f"  {function} ({of_it})")
    return lines


def main():
    names, jobs = sys.argv[1:], 1
    if names[:1] == ["--jobs"]:
        names, jobs = names[2:], int(names[1])
    least, most = (0, 10) if names else (TWELFTH, 100)
    names = names or [name for name in uses() if name.startswith("aim")]
    with concurrent.futures.ThreadPoolExecutor(jobs) as pool:
        for lines in pool.map(lambda crate: shown(crate, least, most), names):
            print(*lines, sep="\n" if lines else "", end="\n" if lines else "", flush=True)


if __name__ == "__main__":
    main()
