"""Whether what the pages name is there: links, crates, files, and names of code, definitions, laws, edits and cases. Ends
with a status other than 0 where anything lacks.

A name is a text in backquotes. A word with a point or a slash is a file, or a module and what stands in it; a word of letters,
digits and underscores that isn't plain English has to stand somewhere in the sources or the tests. Of each row of docs/SPEC.md
the files of definitions and the functions have to stand in the crates that it names, and a contract there has to cite them.
Each row of changed-definitions.tsv has to find the text that it changes.
"""
import pathlib
import re
import subprocess
import sys

import changed_definitions

TOP = pathlib.Path(__file__).resolve().parent.parent
SOURCES = {".rt", ".antt", ".c", ".h", ".py", ".sh", ".txt", ".edit", ".js", ".html", ".aim", ".out", ".tsv", ""}
LINK = re.compile(r"(?:\]\(|^\[[\w-]+\]: )([^)#\s]+)", re.M)
QUOTED = re.compile(r"(?<!`)`([^`\n]+)`(?!`)")
CODE = re.compile(r"^```.*?^```", re.M | re.S)
CRATE = re.compile(r"(?:aim|bench|tests)_[a-z0-9_]+")
WORD = re.compile(r"\w+")
NAME = re.compile(r"[A-Za-z]\w*(?:::\w+|\.\w+)*")
# What commands make, and names of the toolchain's libraries that no source here has.
ELSEWHERE = re.compile(r"dist/|crossing/.*|map_vec|LruCache")


def committed():
    """The files of the repository, as paths from its top."""
    told = subprocess.run(["git", "ls-files", "-co", "--exclude-standard"], cwd=TOP, stdout=subprocess.PIPE, text=True, check=True)
    return [name for name in told.stdout.splitlines() if (TOP / name).is_file()]


def words_in(files):
    """All words of the sources, and of the names of files."""
    words = set()
    for name in files:
        words.update(WORD.findall(name))
        path = TOP / name
        if path.suffix in SOURCES:
            words.update(WORD.findall(path.read_text(errors="replace")))
    return words


class Judge:
    """What is there, and what was found to lack."""

    def __init__(self):
        self.files = committed()
        self.paths = set(self.files) | {str(parent) for name in self.files for parent in pathlib.PurePath(name).parents}
        self.names = {pathlib.PurePath(name).name for name in self.files}
        self.words = words_in(self.files)
        self.crates = {name.split("/")[1] for name in self.files if name.startswith("crates/")}
        self.asked = 0
        self.lacking = []

    def ask(self, page, what, is_there):
        self.asked += 1
        if not is_there:
            self.lacking.append(f"{page}: {what}")

    def has_path(self, page, text):
        """Whether a path stands at the top, beside the page, or further below; a module is named without what ends its file."""
        text = text.rstrip("/").removeprefix("./")
        choices = re.sub(r"\\\{([^}]*)\\\}", lambda group: f"({group.group(1).replace(',', '|')})", re.escape(text))
        pattern = re.compile(rf"(^|/){choices.replace(chr(92) + '*', '[^/]*')}(\.antt|\.rt)?$")
        return (TOP / page).parent.joinpath(text).exists() or any(pattern.search(name) for name in self.paths)

    def links(self, page, text):
        for link in LINK.findall(text):
            if not re.match(r"[a-z]+:", link):
                there = (TOP / page).parent / link
                self.ask(page, f"the link {link}", there.exists())

    def names_in(self, page, text):
        for quoted in QUOTED.findall(text):
            for crate in CRATE.findall(quoted):
                if re.fullmatch(r"[\w:]+", quoted) and crate not in self.words:
                    self.ask(page, f"the crate {crate}", crate in self.crates)
            if re.search(r"\b[A-Z]{3,}\b", quoted) or ELSEWHERE.fullmatch(quoted):
                continue  # capitals stand for other words, as NAME
            if re.fullmatch(r"[\w.*{},/-]+/[\w.*{},/-]*", quoted) and not re.match(r"\d", quoted):
                self.ask(page, f"the file {quoted}", self.has_path(page, quoted))
            elif NAME.fullmatch(quoted) and re.search(r"[_:.]|[a-z][A-Z]", quoted):
                lacking = [word for word in WORD.findall(quoted) if word not in self.words and not word.isdigit()]
                self.ask(page, f"the name {quoted}", not lacking)


    def spec(self, page, text):
        """Whether each row of SPEC names files of definitions and functions that are there, and contracts that cite them."""
        for row in re.findall(r"^\| ([^|]+) \| \[\w+\]\([^)]*\) \| ([^|]+) \| ([^|]+) \|$", text, re.M):
            carriers = list(self.parts(row[2]))
            cited = self.cited("".join(self.source(crate, "*") for crate, _ in carriers))
            for crate, name in self.parts(row[1]):
                self.ask(page, f"{row[0]}: {crate}/specs/{name}.antt", f"crates/{crate}/specs/{name}.antt" in self.paths)
                self.ask(page, f"{row[0]}: a contract that cites {name}", not carriers or (crate, name) in cited)
            for crate, path in carriers:
                module, *names = path.split("::")
                source = self.source(crate, module)
                for name in names:
                    kind = "struct|enum|trait|type|impl.* for" if name[0].isupper() else "fn"
                    where = self.source(crate, "*") if name[0].isupper() else source
                    self.ask(page, f"{row[0]}: {name} of {crate}/src/{module}.rt", re.search(rf"\b({kind}) {name}\b", where) and source)

    def cited(self, text):
        """The files of definitions that a text cites, also by other definitions, each with the crate in which it stands."""
        met, left = set(), re.findall(r"Rattle\.(\w+)\.specs\.([A-Z]\w*)", text)
        while left:
            crate, name = left.pop()
            passed = re.search(rf"pub use Rattle\.(\w+)\.specs\.{name}$", self.spec_text(crate, "Lib"), re.M)
            at = (passed.group(1) if passed else crate, name)
            if at not in met:
                met.add(at)
                left += [at] if passed else re.findall(r"Rattle\.(\w+)\.specs\.([A-Z]\w*)", self.spec_text(crate, name))
        return met

    def spec_text(self, crate, name):
        path = TOP / "crates" / crate / "specs" / f"{name}.antt"
        return path.read_text() if path.is_file() else ""

    @staticmethod
    def parts(cell):
        """Each name of a cell like `crate`: `a::{b, c}`, `d`; `other`: `e`, with its crate and with one end alone."""
        for part in cell.split("; "):
            crate, *paths = re.findall(r"`([^`]+)`", part) or [None]
            for path in paths:
                start, _, ends = path.partition("{")
                for end in ends.rstrip("}").split(", "):
                    yield crate, start + end

    def source(self, crate, module):
        """The text of a module of a crate, or of all of them."""
        return "".join(path.read_text() for path in (TOP / "crates" / crate / "src").glob(f"{module}.rt"))


def main():
    judge = Judge()
    pages = [name for name in judge.files if name.endswith(".md") and not name.startswith("tests/")]
    for page in pages:
        text = CODE.sub("", (TOP / page).read_text())
        judge.links(page, text)
        judge.names_in(page, text)
        if page == "docs/SPEC.md":
            judge.spec(page, text)
    for row in changed_definitions.read_rows():
        file = TOP / row["file"]
        stands = file.is_file() and changed_definitions.changed(file.read_text(encoding="utf-8"), row) is not None
        judge.ask("tests/changed-definitions.tsv", f"{row['definition']}, {row['change']}", stands)
    for line in judge.lacking:
        print(f"docs: {line} is not there", file=sys.stderr)
    print(f"docs: {judge.asked - len(judge.lacking)} passed, {len(judge.lacking)} failed")
    return 1 if judge.lacking or not judge.asked else 0


sys.exit(main())
