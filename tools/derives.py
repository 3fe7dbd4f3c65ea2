#!/usr/bin/env python3
"""Which derives nothing uses: takes them out, and gives back those without which a program or a test is refused.

  tools/derives.py                    tries Drop, then Clone and Copy, PartialEq and Eq, Debug, and Hash
  tools/derives.py Drop Clone,Copy    tries these alone, of which those with a comma go together

It works on a copy of crates/, which it compiles by `rt try`, and proves nothing. A derive is given back as soon as an error names
its type, and so on until every program and every test compiles: some ten minutes for Drop or Copy, less for the others. Each derive
that is still away then is printed: its crate, its type and the traits. The status is 0 where there is none.
"""
import os
import re
import shutil
import subprocess
import sys
import tempfile

ROOT = os.path.dirname(os.path.dirname(os.path.realpath(__file__)))
GROUPS = ["Drop", "Clone,Copy", "PartialEq,Eq", "Debug", "Hash"]
DERIVE = re.compile(
    r"#\[derive\(([\w, ]+)\)\]((?:\s*(?:#\[.*\]|//.*)\n|\s)*)((?:pub(?:\([^)]*\))? )?(?:struct|enum) (\w+))"
)


class Trial:
    """A copy of the crates without the derives of some traits, but for those that were given back."""

    def __init__(self, root, traits):
        self.root, self.traits = root, traits
        self.texts = dict(texts_below(f"{root}/crates"))
        self.away = {}
        for path, (crate, text) in self.texts.items():
            self.away |= {(crate, it[4]): path for it in DERIVE.finditer(text) if self.is_meant(it)}
            self.write(path)

    def is_meant(self, found):
        return not self.traits.isdisjoint(found[1].split(", "))

    def write(self, path):
        """Writes the file without those of its derives that are away."""
        crate, text = self.texts[path]

        def without(found):
            kept = found[1].split(", ")
            if (crate, found[4]) in self.away:
                kept = [it for it in kept if it not in self.traits]
            return (f"#[derive({', '.join(kept)})]" if kept else "") + found[2] + found[3]

        with open(path, "w", encoding="utf-8") as it:
            it.write(DERIVE.sub(without, text))

    def give_back(self, keys):
        for path in {self.away.pop(it) for it in keys}:
            self.write(path)

    def field_at(self, crate, error):
        """Gives the line of the field whose type can't have the derive, where the error tells of one: it names no type."""
        at = re.match(r"(.*?):(\d+):\d+: error\[.*this field's type", error)
        if not at:
            return ""
        with open(os.path.join(f"{self.root}/crates/{crate}", at[1]), encoding="utf-8") as it:
            return it.read().splitlines()[int(at[2]) - 1]

    def named_by(self, crate, error):
        """Gives the types without their derive that the error names: with their crate, or as those of the crate where it is."""
        within = re.match(r"\S*/crates/(\w+)/", error)
        here = within[1] if within else crate
        quoted = " ".join(re.findall(r"`([^`]*)`", error.split(": error", 1)[1]))
        paths = [it.split("::") for it in re.findall(r"\w+(?:::\w+)*", f"{quoted} {self.field_at(crate, error)}")]
        found = {(it[0], it[-1]) for it in paths} & self.away.keys()
        for name in {it[-1] for it in paths} - {it[1] for it in found}:
            own = (here, name)
            found.update([own] if own in self.away else [it for it in self.away if it[1] == name])
        return found


def texts_below(top):
    """Yields each source's path with its crate and its text."""
    for folder, _, names in os.walk(top):
        for name in names:
            if name.endswith(".rt"):
                path = os.path.join(folder, name)
                with open(path, encoding="utf-8") as it:
                    yield path, (os.path.relpath(path, top).split(os.sep)[0], it.read())


def tops():
    """Gives the crates to compile, and how: programs, and the crates with tests that stand on the others."""
    for crate in sorted(os.listdir(f"{ROOT}/crates")):
        if os.path.isfile(f"{ROOT}/crates/{crate}/src/main.rt"):
            yield crate, []
        elif crate.startswith("tests_") and crate != "tests_samples":
            yield crate, ["--test"]


def errors(root, crate, flags):
    place = {"cwd": f"{root}/crates/{crate}", "stdin": subprocess.DEVNULL}
    ran = subprocess.run(["rt", "try", *flags], capture_output=True, text=True, errors="replace", check=False, **place)
    told = ran.stdout + ran.stderr
    found = re.findall(r"^.*: error\[.*$", told, re.M)
    if not found and "run=none" in told:
        sys.exit(f"derives.py: {crate} was not run\n{told}")
    return found


def unused(root, traits):
    trial = Trial(root, traits)
    print(f"{' and '.join(sorted(traits))}: {len(trial.away)} derives", file=sys.stderr)
    for crate, flags in tops():
        while told := errors(root, crate, flags):
            named = set().union(*(trial.named_by(crate, it) for it in told))
            if not named:
                sys.exit("derives.py: no derive is named by\n" + "\n".join(told))
            trial.give_back(named)
            print(f"{crate}: {len(named)} given back, {len(trial.away)} away", file=sys.stderr)
    return sorted(trial.away)


def main():
    found = 0
    for group in sys.argv[1:] or GROUPS:
        with tempfile.TemporaryDirectory() as root:
            shutil.copytree(f"{ROOT}/crates", f"{root}/crates", ignore=shutil.ignore_patterns("out"))
            shutil.copy(f"{ROOT}/crates.txt", root)
            shutil.copy(f"{ROOT}/HANDLES", root)
            for crate, name in unused(root, set(group.split(","))):
                found += 1
                print(f"{crate}  {name}  {group}")
    return 1 if found else 0


if __name__ == "__main__":
    sys.exit(main())
