#!/usr/bin/env python3
"""Which goals are dear: how many steps the search for each answer took, in a crate's last check.

  tools/goals.py aim_turnstile              prints the forty dearest goals of the crate
  tools/goals.py aim_turnstile enter open   prints those of the functions whose names have one of these words

It reads what `rt check` kept in the crate's out/, and checks nothing. Steps don't depend on what else runs on the machine: a
thousand thousand take some half of a second. Behind the steps stand the function, the goal, and `written` where its answer stands in
an Answers.antt. The last line has the sums of all goals of the crate.
"""
import glob
import json
import os
import re
import sys

ROOT = os.path.dirname(os.path.dirname(os.path.realpath(__file__)))
MOST = 40
PARTS = {"Proof": "", "Answers": "written"}


def records(crate):
    """Gives the files of what the searches of the crate's newest check took."""
    folders = glob.glob(f"{ROOT}/crates/{crate}/out/incremental/*/records")
    if not folders:
        sys.exit(f"goals.py: nothing is kept of a check of {crate}: rt check in its folder first")
    return glob.glob(f"{max(folders, key=os.path.getmtime)}/*.decls.oantt")


def declarations(path):
    """Yields the name of each declaration of a kept file and the steps that it took."""
    with open(path, encoding="utf-8", errors="replace") as it:
        text = it.read()
    for found in re.finditer(r'\[\{"aux":', text):
        try:
            told, _ = json.JSONDecoder().raw_decode(text[found.start():])
        except ValueError:
            continue
        for each in told:
            yield each["name"], sum(each["phases"])


def goals(crate):
    """Yields of each goal its steps, its function, its name, and whether its answer is written or was searched for."""
    for path in records(crate):
        name = re.match(rf"Rattle-{crate}-proofs\.(.*)\.(Proof|Answers)\.decls\.oantt$", os.path.basename(path))
        if name:
            for goal, steps in declarations(path):
                yield steps, name[1], goal, PARTS[name[2]]


def main():
    if len(sys.argv) < 2:
        sys.exit(__doc__)
    crate, words = sys.argv[1], sys.argv[2:]
    found = sorted(goals(crate), reverse=True)
    shown = [it for it in found if not words or any(word in it[1] for word in words)]
    for steps, function, goal, how in shown[:MOST]:
        print(f"{steps // 1000:8}  {function}  {goal}  {how}".rstrip())
    sums = {how: sum(it[0] for it in found if it[3] == how) // 1000 for how in PARTS.values()}
    print(f"{sum(sums.values()):8}  thousand steps in all, {sums['written']} of them of written answers")


if __name__ == "__main__":
    main()
