#!/usr/bin/env python3
"""Counts the definitions that a reader of a promise has to trust: those that its words reach, in crates/*/specs.

    tools/trusted.py CRATE FILE NAME ..    of these definitions, by crate
    tools/trusted.py --table               the table of docs/PROMISES.md
    tools/trusted.py --check               tells whether the page has that table
"""

import pathlib
import re
import sys

ROOT = pathlib.Path(__file__).resolve().parent.parent
PAGE = ROOT / "docs" / "PROMISES.md"
HEAD = re.compile(r"^\s*(?:(?:abbrev|unfoldable)\s+)?(?:pub\s+)?(?:(record|data)\s+)?([^\s:({=|]+)(?=[\s({]*.*(?::|where))")
USE = re.compile(r"^use Rattle\.(\w+)\.specs\.([\w.]+?)(?:\.\{([^}]*)\})?(?: as (\w+))?$")
WORD = re.compile(r"[^\s(){}\[\];,λ→×⊎]+")
PROMISES = [
    ("`replay`, `replay-json`, `chart`", [("aim", "Runs", "Replays"), ("aim_replay_command", "Spelling", "by_json")]),
    ("`drive`", [("aim_script_reading", "Commands", "Reports"), ("aim_drive_script", "Verdicts", "drive_rules"),
                 ("aim_drive_command", "Commands", "IsText"), ("aim_drive_command", "Commands", "status_for")]),
    ("the printed tiles of `drive`", [("aim_report", "Apart", "TilesAreApart"), ("aim_report", "Apart", "TilesAreOwn")]),
    ("`Headline`", [("aim_drive", "Headline", "Headline")]),
    ("all of `run`", [("aim", "Runs", "Answers"), ("aim", "Commands", "command_of")]),
]


class File:
    """A file of definitions: `own` has of each name the lines of its definition, `named` what other files' names mean."""

    def __init__(self, path):
        self.own, self.named, self.whole = {}, {}, {}
        lines = path.read_text(encoding="utf-8").split("\n")
        heads = []
        for number, line in enumerate(lines):
            use = USE.match(line)
            if use:
                self._take(use)
            elif line and not line[0].isspace() and not line.startswith("--"):
                head = HEAD.match(line)
                if head and head[2] not in ("use", "pub", "module", "mod", "where"):
                    heads.append((number, head[2], head[1] == "data"))
        for (start, name, is_data), end in zip(heads, [h[0] for h in heads[1:]] + [len(lines)]):
            body = [x for x in lines[start:end] if x.strip() and not x.strip().startswith("--")]
            self.own.setdefault(name, (start, body))
            if is_data:
                for line in body[1:]:
                    self.own.setdefault(line.split()[0], (start, body))

    def _take(self, use):
        crate, place, names, alias = use.groups()
        if not crate.startswith("aim") or place.startswith("declared"):
            return
        for name in (names or "").split(","):
            words = name.split()
            if words:
                self.named[words[-1]] = (crate, place, words[0])
        if names is None:
            self.whole[alias or place.split(".")[-1]] = (crate, place)


FILES = {(path.parts[-3], path.stem): File(path) for path in ROOT.glob("crates/aim*/specs/*.antt")}


def reached(roots):
    """The definitions that these reach, themselves included: of each crate the lines of each."""
    found, todo = {}, list(roots)
    while todo:
        crate, place, name = todo.pop()
        file = FILES.get((crate, place))
        if file is None or name not in file.own:
            continue
        start, body = file.own[name]
        if (crate, place, start) in found:
            continue
        found[crate, place, start] = body
        for word in WORD.findall("\n".join(body)):
            front, _, back = word.partition(".")
            if word in file.own:
                todo.append((crate, place, word))
            elif word in file.named:
                todo.append(file.named[word])
            elif front in file.whole and back:
                todo.append((*file.whole[front], back))
    return found


def table():
    """The table of the page."""
    rows = ["| promise | definitions | lines |", "|---|---|---|"]
    for what, roots in PROMISES:
        for crate, place, name in roots:
            if name not in FILES[crate, place].own:
                sys.exit(f"trusted: there is no {name} in {place} of {crate}")
        found = reached(roots)
        rows.append(f"| {what} | {len(found)} | {sum(map(len, found.values())):,} |")
    return "\n".join(rows)


def main(words):
    """What the words ask for."""
    if words == ["--table"]:
        print(table())
        return 0
    if words == ["--check"]:
        same = table() in PAGE.read_text(encoding="utf-8")
        print(f"trusted: {int(same)} passed, {int(not same)} failed")
        return 0 if same else 1
    if len(words) < 3:
        print(__doc__, file=sys.stderr)
        return 2
    found = reached([(words[0], words[1], name) for name in words[2:]])
    crates = {}
    for (crate, _, _), body in found.items():
        count = crates.setdefault(crate, [0, 0])
        count[0] += 1
        count[1] += len(body)
    for crate, (definitions, lines) in sorted(crates.items(), key=lambda item: -item[1][1]):
        print(f"{crate}: {definitions} definitions, {lines} lines")
    print(f"{len(found)} definitions, {sum(map(len, found.values()))} lines")
    return 0


if __name__ == "__main__":
    sys.exit(main(sys.argv[1:]))
