"""How ./aim builds: over a copy of the script with folders that are empty, and a toolchain that only takes note."""
import os
import pathlib
import re
import shutil
import signal
import subprocess

import pytest

from conftest import TOP
from program import PATIENCE

# The toolchain of the tests: a build takes RT_SLEEP seconds, that of RT_FAILS fails, and each is noted as it begins and ends,
# also where a library below it isn't beside it. What it makes of a library is out/rlib/made.
RT = r"""#!/usr/bin/env bash
name=${PWD##*/}
printf 'begin %s\n' "$name" >> "$RT_NOTES"
printf '%s %s\n' "$name" "$3" >> "$RT_NOTES.jobs"
sleep "${RT_SLEEP-0.2}" &
echo $! >> "$RT_NOTES.sleeps"
wait $!
[ "$name" != "${RT_FAILS-}" ] || { printf 'a goal is open\n'; exit 1; }
for use in $(sed -n "s/^$name[ :].*: *//p; s/^$name: *//p" ../../crates.txt | sort -u); do
  [ ! -d "../../crates/$use/src" ] || [ -f "../$use/out/rlib/made" ] || printf 'lacks %s of %s\n' "$use" "$name" >> "$RT_NOTES"
done
[ "$1" != lib ] || { mkdir -p out/rlib && touch out/rlib/made; }
printf 'end %s\n' "$name" >> "$RT_NOTES"
[ "$1" != run ] || { mkdir -p out; printf '#!/bin/sh\necho "ran $*"; cat; exit 3\n' > out/aim; chmod +x out/aim; exit 2; }
"""


def crates():
    """What each crate of the repository uses there, by its name."""
    uses = {}
    for line in (TOP / "crates.txt").read_text().splitlines():
        name, colon, below = line.split("#")[0].partition(":")
        if colon:
            uses[name.split()[0]] = below.split()
    return {name: [use for use in below if use in uses] for name, below in uses.items()}


def crates_below(name):
    """A crate and all that it stands on."""
    uses, found, ahead = crates(), set(), [name]
    while ahead:
        found.add(name := ahead.pop())
        ahead += [use for use in uses[name] if use not in found]
    return found


class Copy:
    """A copy of what builds, and the notes that the toolchain takes there."""

    def __init__(self, folder):
        self.folder, self.repository = folder, folder / "repository"
        for name in ("tools", "repository", "elsewhere", "temporary"):
            (folder / name).mkdir()
        for name in ("aim", "crates.txt", "HANDLES"):
            shutil.copy(TOP / name, self.repository)
        shutil.copytree(TOP / "packaging", self.repository / "packaging")
        for name in crates():
            (self.repository / "crates" / name / "src").mkdir(parents=True)
        (folder / "elsewhere/link").symlink_to("../repository/aim")
        (folder / "tools/rt").write_text(RT)
        (folder / "tools/rt").chmod(0o755)
        self.environment = {**os.environ, "RT_NOTES": str(folder / "notes"), "TMPDIR": str(folder / "temporary"),
                            "PATH": f"{folder / 'tools'}:{os.environ['PATH']}"}

    def run(self, *words, path="./aim", folder="repository", script="", **environment):
        """What ./aim ends with, prints and tells."""
        return subprocess.run(
            [path, *words], cwd=self.folder / folder, input=script, capture_output=True, text=True, timeout=PATIENCE, check=False,
            env={**self.environment, **environment})

    def notes(self, ending=""):
        """The lines of the notes, each as its words, or None where none were taken."""
        path = self.folder / f"notes{ending}"
        return [line.split() for line in path.read_text().splitlines()] if path.exists() else None

    def forget(self):
        for ending in ("", ".jobs", ".sleeps"):
            (self.folder / f"notes{ending}").unlink(missing_ok=True)

    def left(self):
        """What stands in the folders for what is temporary."""
        return sorted(os.listdir(self.folder / "temporary")) + sorted(os.listdir(self.repository / ".build"))


@pytest.fixture
def copy(tmp_path):
    """A copy in which nothing is built."""
    return Copy(tmp_path)


def order_fault(notes):
    """A crate that begins before one that it uses has ended, or that lacks one, or None."""
    uses, ended = crates(), set()
    for what, name, *_ in notes:
        if what == "lacks" or (what == "begin" and not set(uses[name]) <= ended):
            return f"{name} too early: {what}"
        ended |= {name} if what == "end" else set()
    return None


def told_fault(told, count):
    """What is wrong with what a build tells, or None."""
    if not all(line.startswith("aim: ") for line in told) or not told[-1].startswith("aim: built in"):
        return told
    now = sum(f" of {count} proved; now proving " in line for line in told)
    return None if now == count else f"{now} of {count} crates are told"


def test_a_first_build(copy, checks):
    """From another folder and through a link: words, input, output and status pass through. Then nothing is built again."""
    ran = copy.run("replay", "a b", path="./link", folder="elsewhere", script="script\n")
    checks.same("output and status", ("ran replay a b\nscript\n", 3), (ran.stdout, ran.returncode))
    checks.same("what is left", ["lock"], copy.left())
    notes, jobs = copy.notes(), copy.notes(".jobs")
    count = sum(what == "end" for what, *_ in notes)
    checks.same("the libraries", count - 1, len(list(copy.repository.glob("crates/*/out/rlib/made"))))
    checks.same("the crates", len(crates_below("aim")), count)
    checks("what it tells", told_fault(ran.stderr.splitlines(), count))
    checks("the order of the crates", order_fault(notes))
    checks.same("the program last", ["end", "aim"], notes[-1])
    most = int(subprocess.run(["nproc"], stdout=subprocess.PIPE, check=True).stdout)
    checks("jobs", None if all(1 <= int(jobs) <= most for _, jobs in jobs) else f"too few or too many: {jobs}")
    checks.same("the jobs of the program, which is alone", ["aim", str(most)], jobs[-1])
    copy.forget()
    checks.same("a second run", 3, copy.run().returncode)
    checks.same("what it builds", None, copy.notes())
    (copy.repository / "crates/aim_io/src/lib.rt").touch()
    copy.run(RT_SLEEP="0")
    checks("after a change", None if copy.notes() else "nothing is built")


def test_a_crate_that_fails(copy):
    """Its log is named and kept, and nothing above it begins."""
    ran = copy.run(RT_FAILS="aim_io")
    assert ran.returncode == 1
    log = re.search(r" aim_io failed .* what it said is in (.*)", ran.stderr)[1]
    assert pathlib.Path(log).read_text() == "a goal is open\n"
    assert ["begin", "aim"] not in copy.notes()
    assert copy.left() == [pathlib.Path(log).name, "lock"]


def is_running(process):
    try:
        os.kill(process, 0)
    except ProcessLookupError:
        return False
    # One that has ended, and that nobody has waited for, is there by its number alone.
    return pathlib.Path(f"/proc/{process}/stat").read_text().rpartition(")")[2].split()[0] != "Z"


def test_an_interrupt(copy):
    """It is heeded while builds go on that would take a day, and no process and no file is left."""
    builder = subprocess.Popen(["./aim"], cwd=copy.repository, stdin=subprocess.DEVNULL, stdout=subprocess.DEVNULL,
                               stderr=subprocess.DEVNULL, env={**copy.environment, "RT_SLEEP": "86400"})
    while not copy.notes(".sleeps"):
        assert builder.poll() is None
    builder.send_signal(signal.SIGTERM)
    assert builder.wait(timeout=PATIENCE) == 143
    assert copy.left() == ["lock"]
    for (sleep,) in copy.notes(".sleeps"):
        assert not is_running(int(sleep))
