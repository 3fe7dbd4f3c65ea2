"""What a user meets first: wrong words, a run that fails or is interrupted. Needs SUMO; the manager is a stub."""

import contextlib
import io
import json
import os
import pathlib
import signal
import subprocess
import sys
import tempfile
import unittest

from aim_sumo import commands

from . import signals
from .places import EXAMPLES, HERE, has_sumo

PROGRAM = HERE.parent / "aim-sumo"
DEAF = f"{sys.executable} -c pass"
"""A manager that ends at once."""
SLOW = """
import pathlib, sys, time
folder = pathlib.Path(sys.argv[1])
(folder / "begun").touch()
entries = 0
for line in sys.stdin:
    line = line.rstrip()
    if line[0].isdigit():
        (folder / "asked").touch()
        time.sleep(0.5)
        print(f"{entries} {line} -> ack 7", flush=True)
        entries += 1
"""
"""A manager that thinks for long, and leaves a sign in a folder when it has begun and when it was asked."""


def told(*words):
    """Runs a command; gives its status and what it said of faults."""
    out, err = io.StringIO(), io.StringIO()
    with contextlib.redirect_stdout(out), contextlib.redirect_stderr(err):
        try:
            status = commands.main(list(words))
        except SystemExit as end:
            status = end.code
    return status, err.getvalue()


@unittest.skipUnless(has_sumo(), "SUMO isn't there")
class Words(unittest.TestCase):
    """Each mistake is one line that says what to do, with status 2."""

    @classmethod
    def setUpClass(cls):
        folder = tempfile.TemporaryDirectory()
        cls.addClassCleanup(folder.cleanup)
        cls.folder = pathlib.Path(folder.name)
        with contextlib.redirect_stdout(io.StringIO()):
            commands.main(["net", str(EXAMPLES / "tee.aim"), str(cls.folder / "tee")])

    def test_mistakes(self):
        site = str(self.folder / "tee")
        bad = self.folder / "bad.aim"
        bad.write_text((EXAMPLES / "tee.aim").read_text().replace("times 3000 100 300 2 2 5", "times 3000 x"))
        others = self.folder / "others"
        others.write_text('{"control": "police", "delay": 3}\n')
        for name, part, words in (
            ("no manager", "no manager 'nowhere/aim'", ("run", site, "--manager", "nowhere/aim", "--control", "aim")),
            ("a flow with a letter", "'18OO' isn't a number", ("run", site, "--flow", "18OO")),
            ("no flow", "'0' isn't a number above 0", ("run", site, "--flow", "0")),
            ("no results", "no file nofile", ("report", "nofile")),
            ("results of others", "a result has no flow", ("report", str(others))),
            ("a quote without an end", "can't be read as options", ("run", site, "--sumo", "'a")),
            ("an unknown control", "'police' isn't one of the controls", ("run", site, "--control", "police")),
            ("an unknown policy", "no policy nights", ("run", site, "--control", "aim", "--policy", "nights",
                                                       "--manager", DEAF)),
            ("an unknown column", "no column 'beauty'", ("report", str(self.folder), "--columns", "beauty")),
            ("a bad line of times", "'times 3000 x'", ("net", str(bad), str(self.folder / "bad"))),
            ("no head", "no head nohead", ("net", "nohead", str(self.folder / "none"))),
            ("no net", "has no net", ("run", str(self.folder / "none"))),
            ("an unknown type", "'tank' isn't one of the types", ("run", site, "--mix", "car=1,tank=1")),
            ("a share above 1", "'2' isn't a number", ("run", site, "--human", "2")),
            ("no run to check", "has no run", ("check", site, "--manager", DEAF)),
            ("no word at all", "required", ("run",)),
            ("a file that can't be written", "/nowhere/results", (
                "run", site, "--control", "priority", "--seconds", "5", "--results", "/nowhere/results")),
            ("an option that SUMO hasn't", "SUMO didn't start", (
                "run", site, "--control", "priority", "--seconds", "5", "--sumo=--no-such-option")),
            ("no experiment", "no experiment nofile", ("experiment", "nofile", str(self.folder / "none"))),
            ("no types", "no file nofile", ("run", site, "--types", "nofile")),
            ("a word that is cut short", "unrecognized arguments: --flo", ("run", site, "--flo", "1800")),
        ):
            with self.subTest(name):
                status, said = told(*words)
                self.assertEqual(status, 2)
                self.assertIn(part, said)
                self.assertEqual(len(said.splitlines()), 1, said)

    def test_mistakes_of_experiments(self):
        path = self.folder / "mistaken.toml"
        layout = f'[layout.a]\nsource = "{EXAMPLES / "tee.aim"}"\n'
        for name, part, text in (
            ("no TOML", "can't be read", "a b"),
            ("no tables", "needs a table", "layout = 3\npart = 4\n"),
            ("no source", "layout.a needs source", "[layout.a]\nstep = 0.1\n[[part]]\nname = 'x'\n"),
            ("an unknown key", "has no 'height'", f"{layout}height = 3\n[[part]]\nname = 'x'\n"),
            ("no name", "has no name", f"{layout}[[part]]\nseeds = [1]\n"),
            ("a name that leads elsewhere", "can't be a folder's", f"{layout}[[part]]\nname = '../x'\n"),
            ("no list", "flows of the part x must be a list", f"{layout}[[part]]\nname = 'x'\nflows = 7\n"),
            ("no list for all", "seeds of the part x", f"seeds = 7\n{layout}[[part]]\nname = 'x'\n"),
            ("no variants", "must be tables", f"{layout}[[part]]\nname = 'x'\nvariant = 3\n"),
            ("an unknown layout", "the layout 'b'", f"{layout}[[part]]\nname = 'x'\nlayouts = ['b']\n"),
            ("an unknown column", "no column 'beauty'", f"{layout}[[part]]\nname = 'x'\ncolumns = 'beauty'\n"),
            ("an option cut short", "the part x can't be run", f"{layout}[[part]]\nname = 'x'\nflo = [1]\n"),
        ):
            with self.subTest(name):
                path.write_text(text, encoding="utf-8")
                status, said = told("experiment", str(path), str(self.folder / "none"), "--manager", DEAF)
                self.assertEqual(status, 2)
                self.assertIn(part, said)
                self.assertNotIn("Traceback", said)

    def test_a_line_that_the_manager_refuses_is_told_with_its_words(self):
        head = self.folder / "edge.aim"
        head.write_text((EXAMPLES / "tee.aim").read_text())
        refusing = self.folder / "refusing.py"
        refusing.write_text("import sys\nfor line in sys.stdin:\n    pass_ = line.startswith('times') and "
                            "print('bad line 3 times', flush=True)\n")
        status, said = told("run", str(self.folder / "tee"), "--manager", f"{sys.executable} {refusing}",
                            "--control", "aim", "--seconds", "30")
        self.assertEqual(status, 2)
        self.assertIn("'times 3000 100 300 2 2 5'", said)

    def test_a_run_that_fails_leaves_the_good_one_and_nothing_else(self):
        site = self.folder / "tee"
        run = site / "runs" / "aim-1800-1_seconds-30"
        run.mkdir(parents=True, exist_ok=True)
        (run / "run.json").write_text("{}")
        status, _ = told("run", str(site), "--manager", DEAF, "--control", "aim", "--seconds", "30")
        self.assertEqual(status, 2)
        self.assertEqual((run / "run.json").read_text(), "{}")
        self.assertEqual([path.name for path in (site / "runs").iterdir() if path.name.startswith(".")], [])

    def test_runs_with_other_options_have_other_folders(self):
        results = self.folder / "results"
        for options in ((), ("--sigma", "0.5"), ("--turns", "left=1,straight=1,right=1"), ("--gap", "3")):
            status, _ = told("run", str(self.folder / "tee"), "--control", "priority", "--seconds", "20", "--flow",
                             "600", "--results", str(results), *options)
            self.assertEqual(status, 0)
        folders = {json.loads(line)["folder"] for line in results.read_text().splitlines()}
        self.assertEqual(len(folders), 4)
        for folder in folders:
            self.assertTrue((self.folder / "tee" / "runs" / folder / "run.json").is_file())

    def test_a_path_with_sumo_s_tools_does_no_harm(self):
        done = subprocess.run(
            [str(PROGRAM), "run", str(self.folder / "tee"), "--control", "priority", "--seconds", "20"],
            capture_output=True, text=True, env={**os.environ, "PYTHONPATH": "/usr/share/sumo/tools"}, check=False)
        self.assertEqual((done.returncode, done.stderr), (0, ""))

    def test_an_interrupt_ends_all_that_it_began(self):
        """A signal comes when the manager has begun, while SUMO is loaded and starts, and when vehicles are asking."""
        slow = self.folder / "slow.py"
        slow.write_text(SLOW, encoding="ascii")
        for sign in ("begun", "asked"):
            for number in (signal.SIGINT, signal.SIGTERM):
                with self.subTest(sign=sign, number=number):
                    folder = self.folder / f"{sign}-{number}"
                    folder.mkdir()
                    process = signals.start(
                        PROGRAM, "run", self.folder / "tee", "--control", "aim", "--seconds", "300", "--keep",
                        folder / "runs", "--manager", f"{sys.executable} {slow} {folder}")
                    self.addCleanup(signals.kill, process)
                    self.assertTrue(signals.wait(lambda: (folder / sign).exists() or process.poll() is not None))
                    process.send_signal(number)
                    said = process.communicate(timeout=signals.LONG)[1]
                    self.assertEqual(process.returncode, 130, said)
                    self.assertIn("interrupted", said)
                    self.assertNotIn("Traceback", said)
                    self.assertTrue(signals.wait(lambda: not signals.processes_with(str(folder))))
                    self.assertEqual(list((folder / "runs").iterdir()), [])

    def test_an_interrupt_ends_all_runs_of_an_experiment(self):
        slow = self.folder / "slow.py"
        slow.write_text(SLOW, encoding="ascii")
        folder = self.folder / "interrupted"
        folder.mkdir()
        process = signals.start(
            PROGRAM, "experiment", HERE.parent / "experiments" / "short.toml", folder, "--part", "faults",
            "--jobs", "2", "--manager", f"{sys.executable} {slow} {folder}")
        self.addCleanup(signals.kill, process)
        self.assertTrue(signals.wait(lambda: (folder / "asked").exists() or process.poll() is not None))
        process.send_signal(signal.SIGINT)
        said = process.communicate(timeout=signals.LONG)[1]
        self.assertEqual(process.returncode, 130, said)
        self.assertNotIn("Traceback", said)
        self.assertTrue(signals.wait(lambda: not signals.processes_with(str(folder))))
        self.assertEqual([path for path in folder.glob("runs/*/*/*") if path.is_dir()], [])


if __name__ == "__main__":
    unittest.main()
