#!/usr/bin/env python3
"""What a call costs by each way to embed the manager: the library for C, the package for Python, and a pipe.

    python3 bench/embedding.py PROGRAM LIBRARY [--calls N] [--repeats N]

LIBRARY is the folder that tools/library.sh made. The calls are those of a day: 256 cars that ask for crossings over twelve lanes,
again and again. For each way it prints the calls a second of processor time, of both sides of the pipe where there is one, and the
median and the 99th percentile of the time that one call takes on the clock. The runs are made in turn, and the best of each counts.
"""
import argparse
import os
import pathlib
import resource
import subprocess
import sys
import tempfile
import time

import speed

TOP = pathlib.Path(__file__).resolve().parent.parent


def by_c(program, path, _):
    """By the library for C."""
    calls, seconds, middle, most = subprocess.run([program, path], check=True, capture_output=True).stdout.split()
    return int(calls) / float(seconds), int(middle) / 1000, int(most) / 1000


def by_python(_, path, library):
    """By the package for Python, in a process of its own."""
    words = [sys.executable, __file__, "--python", str(path)]
    told = subprocess.run(words, check=True, capture_output=True, env={
        **os.environ, "AIM_LIBRARY": str(library / "lib/libaim.so.1"), "PYTHONPATH": str(TOP / "python")}).stdout.split()
    return float(told[0]), float(told[1]), float(told[2])


def python_calls(path):
    """The calls of a script by the package, each timed."""
    import aim

    times, began = [], None
    with aim.Session() as session:
        for line in pathlib.Path(path).read_text(encoding="ascii").splitlines():
            if began is None and session.stage == aim.Stage.BODY:
                began = time.process_time()
            start = time.perf_counter_ns()
            entry = session.take(line)
            took = time.perf_counter_ns() - start
            if entry is not None:
                times.append(took)
        seconds = time.process_time() - began
    print(len(times) / seconds, *percentiles(times))


def percentiles(times):
    """The median and the 99th percentile, in microseconds."""
    times = sorted(times)
    return times[len(times) // 2] / 1000, times[len(times) * 99 // 100] / 1000


def used():
    """Processor seconds of this process and of those that ended below it."""
    spent = [resource.getrusage(who) for who in (resource.RUSAGE_SELF, resource.RUSAGE_CHILDREN)]
    return sum(each.ru_utime + each.ru_stime for each in spent)


def by_pipe(program, path, _):
    """By a pipe: a line is written, and its answer read before the next."""
    lines = pathlib.Path(path).read_bytes().splitlines(keepends=True)
    began, times, body = used(), [], False
    with subprocess.Popen([program, "replay"], stdin=subprocess.PIPE, stdout=subprocess.PIPE) as process:
        for line in lines:
            start = time.perf_counter_ns()
            process.stdin.write(line)
            process.stdin.flush()
            if body and line != b"end\n":
                process.stdout.readline()
                times.append(time.perf_counter_ns() - start)
            body = body or line == b"begin\n"
        process.stdin.close()
        process.stdout.read()
    return len(times) / (used() - began), *percentiles(times)


def main():
    """What the words ask for."""
    if sys.argv[1:2] == ["--python"]:
        python_calls(sys.argv[2])
        return
    words = argparse.ArgumentParser(description=__doc__, formatter_class=argparse.RawDescriptionHelpFormatter)
    words.add_argument("program", type=pathlib.Path)
    words.add_argument("library", type=pathlib.Path)
    words.add_argument("--calls", type=int, default=100_000)
    words.add_argument("--repeats", type=int, default=5)
    said = words.parse_args()
    with tempfile.TemporaryDirectory() as folder:
        script, timer = pathlib.Path(folder) / "day.aim", pathlib.Path(folder) / "embedding"
        day = speed.large(said.calls, speed.twelve_lanes(), speed.cars(said.calls))
        script.write_text(day.head + "\n".join(day.calls) + "\nend\n", encoding="ascii")
        lib = said.library / "lib"
        subprocess.run(["cc", "-O2", TOP / "bench/embedding.c", f"-I{said.library / 'include'}", lib / "libaim.a",
                        "-o", timer], check=True)
        ways = [("C", by_c, timer), ("Python", by_python, None), ("a pipe", by_pipe, said.program.resolve())]
        best = {}
        for _ in range(said.repeats):
            for name, way, program in ways:
                new = way(program, script, said.library.resolve())
                old = best.get(name, (0, float("inf"), float("inf")))
                best[name] = max(new[0], old[0]), min(new[1], old[1]), min(new[2], old[2])
    print("| way | calls a second of processor time | median, microseconds | 99th percentile |\n|---|---|---|---|")
    for name, (rate, middle, most) in best.items():
        print(f"| {name} | {rate:,.0f} | {middle:.1f} | {most:.1f} |")


if __name__ == "__main__":
    main()
