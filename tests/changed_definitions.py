#!/usr/bin/env python3
"""Tries again whether a definition that says the wrong thing is refused.

    python3 tests/changed_definitions.py [--list] [--output] [WORD ..]

Each row of changed-definitions.tsv beside this file changes one definition. The script makes the change in a copy of
the crates outside the repository, runs `rt check` there in the crate that the row names, and wants it to fail. Before
the first change that crate has to check as it stands. Nothing is changed in the repository. With words it tries only
the rows of which the definition, the change or the crate has one of them; --list only prints the rows; --output prints
what each check said to the standard error. A check takes 10 to 200 seconds.

Its answers: `refused` with what failed (worked rows, and functions by their contracts, laws among them); LET THROUGH;
STALE where an old text doesn't stand in the file exactly once; NO DEFINITION where a file of definitions itself is at
fault, so that the change has to be written anew. Status 0 where each row that was tried was refused, and else 1.
"""

import pathlib
import re
import shutil
import subprocess
import sys
import tempfile

TOP = pathlib.Path(__file__).resolve().parent.parent
DATA = TOP / "tests" / "changed-definitions.tsv"
COLUMNS = ["definition", "change", "check", "file", "old", "new", "refused by"]
SECONDS = 900


def read_rows():
    rows = []
    for line in DATA.read_text(encoding="utf-8").splitlines():
        if line and not line.startswith("#"):
            cells = line.split("\t")
            if cells != COLUMNS:
                rows.append(dict(zip(COLUMNS, cells, strict=True)))
    return rows


def texts(cell):
    """The texts of a cell: ` ¦ ` stands between two, and `\\n` for the end of a line."""
    return [text.replace("\\n", "\n") for text in cell.split(" ¦ ")]


def changed(text, row):
    """The file's text with the change, or None where an old text doesn't stand there exactly once."""
    for old, new in zip(texts(row["old"]), texts(row["new"]), strict=True):
        if text.count(old) != 1:
            return None
        text = text.replace(old, new)
    return text


def copy_crates(place):
    shutil.copy(TOP / "crates.txt", place)
    shutil.copy(TOP / "HANDLES", place)
    shutil.copytree(TOP / "crates", place / "crates", ignore=shutil.ignore_patterns("out"))
    subprocess.run(["git", "init", "-q", str(place)], check=True)


def answer(status, output):
    """What the check of a row came to, and what failed: worked rows, then functions with their contracts."""
    if status == 0:
        return "LET THROUGH", ""
    errors = re.findall(r"^(?:\./)?(\S+\.(?:antt|rt)):\d+:\d+: error:(?: `([^`]+)`)?", output, re.M)
    if any("specs/" in file for file, _ in errors):
        return "NO DEFINITION", ", ".join(sorted({file for file, _ in errors if "specs/" in file}))
    rows = [name for file, name in errors if name and ("/Rows" in file or "Examples" in file)]
    functions = re.findall(r"^fn ([\w:]+): (?:not proved|no proof: (?!it calls))", output, re.M)
    failed = [f"row {name}" for name in dict.fromkeys(rows)] + functions
    return "refused", ", ".join(failed) or "; ".join(f"{file} {name}" for file, name in errors[:3]) or "see the output"


def check(place, crate):
    run = subprocess.run(
        ["rt", "check"], cwd=place / "crates" / crate, text=True, timeout=SECONDS,
        stdout=subprocess.PIPE, stderr=subprocess.STDOUT, check=False)
    return run.returncode, run.stdout


def try_row(place, row):
    file = place / row["file"]
    before = file.read_text(encoding="utf-8")
    after = changed(before, row)
    if after is None:
        return "STALE", "", ""
    file.write_text(after, encoding="utf-8")
    try:
        status, output = check(place, row["check"])
    finally:
        file.write_text(before, encoding="utf-8")
    return *answer(status, output), output


def main():
    words = [word for word in sys.argv[1:] if not word.startswith("--")]
    rows = [row for row in read_rows()
            if not words or any(word in row[c] for word in words for c in ("definition", "change", "check"))]
    if "--list" in sys.argv:
        for row in rows:
            print(f"{row['check']}: {row['definition']}, {row['change']}: {row['refused by']}")
        return 0
    refused = 0
    with tempfile.TemporaryDirectory(prefix="changed-definitions-") as folder:
        place = pathlib.Path(folder)
        copy_crates(place)
        for crate in dict.fromkeys(row["check"] for row in rows):
            status, output = check(place, crate)
            if status != 0:
                print(output, file=sys.stderr)
                print(f"{crate} doesn't check as it stands: no change can be tried there")
                return 1
        for row in rows:
            verdict, what, output = try_row(place, row)
            if verdict != "refused" or "--output" in sys.argv:
                print(output, file=sys.stderr)
            refused += verdict == "refused"
            print(f"{verdict}: {row['definition']}, {row['change']}: {what}", flush=True)
    print(f"{refused} of {len(rows)} refused")
    return 0 if refused == len(rows) else 1


if __name__ == "__main__":
    sys.exit(main())
