"""The page in a browser, as the tests lead it, and what they count."""

import json
import pathlib
import subprocess
import sys
import time

import runs

TOOLS = runs.ROOT / "tools" / "view"
PROBES = pathlib.Path(__file__).with_name("probes.js").read_text(encoding="utf-8")
DONE = "state.run !== null || document.querySelector('#told').childElementCount > 0"
COUNTS = {"passed": 0, "failed": 0}


def judge(what, wanted, got):
    if wanted == got:
        COUNTS["passed"] += 1
        return
    COUNTS["failed"] += 1
    print(f"view: {what}\n  wanted: {str(wanted)[:600]}\n  got:    {str(got)[:600]}", file=sys.stderr)


class Page:
    """The page in a browser, opened with texts inside or with files chosen."""

    def __init__(self, chromium, folder):
        self.browser, self.folder, self.run = chromium, pathlib.Path(folder), chromium.run

    def open(self, *paths, after=""):
        """Opens a copy of the page that has these files inside."""
        copy = self.folder / "copy.html"
        copy.write_bytes(subprocess.run([TOOLS / "fill.py", *paths], capture_output=True, check=True).stdout)
        self.browser.open(copy, after)
        self.run(PROBES)

    def empty(self):
        """Opens the page itself."""
        self.browser.open(TOOLS / "view.html")
        self.run(PROBES)

    def choose(self, *paths):
        """Chooses files by the picker of an empty page, and waits until they are shown."""
        self.empty()
        self.browser.choose_files([str(path) for path in paths])
        self.wait(DONE)
        self.browser.settle()

    def ask(self, name, *words):
        """What a function of the page answers."""
        return self.run(f"{name}({', '.join(map(json.dumps, words))})")

    def wait(self, test, seconds=600):
        """True once a test holds in the page; false where it never does, as far as even a busy machine tells."""
        until = time.monotonic() + seconds
        while time.monotonic() < until:
            if self.run(test):
                return True
            time.sleep(0.05)
        return False

    def text(self, selector):
        return self.run(f"document.querySelector({json.dumps(selector)})?.textContent ?? null")

    def told(self):
        return self.text("#told")

    def title(self):
        """The name of what is chosen."""
        return self.text("#details h2")
