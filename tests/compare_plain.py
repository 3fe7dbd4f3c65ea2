"""Compares a program with the plain manager over scripts by seeds, and shows each that they answer otherwise.

    python3 tests/compare_plain.py --program PATH [--versions 1,2,3,4] [--commands replay,chart,..] [--seeds FROM TO]
                                   [--spoilt SHARE] [--keep FOLDER] [--jobs N]

The seeds are those from FROM to TO - 1; SHARE of the scripts have spoilt lines. Each script that is answered otherwise is kept in
the folder, with what both answered. The status is 1 where there is one.
"""
import argparse
import collections
import io
import json
import multiprocessing
import pathlib
import sys

from judges import texts
from plain import commands
from program import Program, Ran
from scripts import wide


def plainly(words, script):
    """What the plain manager answers."""
    sink = io.BytesIO()
    status = commands.run(words, io.BytesIO(script), sink)
    return Ran(status, sink.getvalue())


def compare(job):
    """What differs between the two, or None, with what was compared and how it ended."""
    path, *of = job
    words, script = wide.made(*of)
    wanted, got = plainly(words, script), Program(path).run(*words, script=script)
    return job, texts.ran_otherwise(got, *wanted), kinds_in(wanted.text)


def kinds_in(text):
    """The kinds of answers in a text of words, and how it ends."""
    lines = text.split("\n")[:-1]
    replies = [line.split(" -> ")[1].split(" ")[:2] for line in lines if " -> " in line]
    told = collections.Counter(" ".join(reply) if reply[0] == "reject" else reply[0] for reply in replies)
    last = json.loads(lines[-1]) if lines[-1].startswith("{") else None
    end = lines[-1].split(" ") if last is None else ["bad", last.get("kind", last.get("limit", "end"))]
    return told + collections.Counter({"end" if "end" in end[:2] else f"{end[0]} {end[-1]}": 1})


def keep(folder, job, fault):
    """Keeps the script and both answers."""
    path, *of = job
    words, script = wide.made(*of)
    place = pathlib.Path(folder) / "-".join(map(str, of))
    place.mkdir(parents=True, exist_ok=True)
    (place / "words").write_text("\n".join(words) + "\n")
    (place / "input").write_bytes(script)
    (place / "plain").write_bytes(plainly(words, script).output)
    (place / "program").write_bytes(Program(path).run(*words, script=script).output)
    print(f"{place.name}: {fault}", flush=True)


def main():
    parser = argparse.ArgumentParser(description=__doc__, formatter_class=argparse.RawDescriptionHelpFormatter)
    parser.add_argument("--program", required=True)
    parser.add_argument("--versions", default="1,2,3,4")
    parser.add_argument("--commands", default=",".join(wide.COMMANDS))
    parser.add_argument("--seeds", nargs=2, type=int, default=[0, 100], metavar=("FROM", "TO"))
    parser.add_argument("--spoilt", type=float, default=0.25, metavar="SHARE")
    parser.add_argument("--keep", default=".build/otherwise")
    parser.add_argument("--jobs", type=int, default=2)
    given = parser.parse_args()
    jobs = [(given.program, command, seed, int(version), given.spoilt) for command in given.commands.split(",")
            for version in given.versions.split(",") for seed in range(*given.seeds)]
    told, faults = collections.Counter(), 0
    with multiprocessing.Pool(given.jobs) as pool:
        for job, fault, kinds in pool.imap_unordered(compare, jobs, chunksize=16):
            told += kinds
            if fault:
                faults += 1
                keep(given.keep, job, fault)
    print(" ".join(f"{kind} {count}" for kind, count in told.most_common()))
    print(f"{len(jobs)} scripts, {faults} answered otherwise")
    return int(faults > 0)


if __name__ == "__main__":
    sys.exit(main())
