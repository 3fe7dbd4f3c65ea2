"""A signal ends a command whenever it comes, and all that it began. Needs neither SUMO nor a manager."""

import pathlib
import signal
import sys
import tempfile
import unittest

from . import signals
from .places import HERE

BEGIN = f"""
import os, pathlib, signal, subprocess, sys, time
sys.path.insert(0, {str(HERE.parent)!r})
from aim_sumo import children, interrupts
folder = pathlib.Path(sys.argv[1])
sleep = [sys.executable, "-c", "import time; time.sleep(100000)", str(folder)]
"""
CASES = {
    "plain work": """
def main():
    (folder / "sign").touch()
    while True:
        pass
""",
    "a process that is waited for": """
def main():
    process = children.begin(sleep)
    (folder / "sign").touch()
    process.wait()
""",
    "a process that is called, which doesn't end by itself": """
children.PATIENCE = 0.5
def main():
    deaf = "import pathlib, signal, sys, time; signal.signal(15, signal.SIG_IGN); "
    deaf += "pathlib.Path(sys.argv[1], 'sign').touch(); time.sleep(100000)"
    children.call([sys.executable, "-c", deaf, str(folder)])
""",
    "a fault that swallows the signal": """
def main():
    try:
        (folder / "sign").touch()
        while True:
            pass
    except KeyboardInterrupt:
        pass
    while True:
        pass
""",
    "modules that are loaded": """
def main():
    with interrupts.held():
        (folder / "sign").touch()
        while not interrupts._State.has_come:
            pass
        try:
            time.sleep(0.1)
        except KeyboardInterrupt:
            os._exit(3)
    os._exit(4)
""",
    "a process that begins": """
begin = subprocess.Popen
def slowly(words, **how):
    process = begin(words, **how)
    (folder / "sign").touch()
    while not interrupts._State.has_come:
        pass
    return process
subprocess.Popen = slowly
def main():
    children.begin(sleep)
    os._exit(4)
""",
    "processes of other threads": """
from concurrent.futures import ThreadPoolExecutor
def work():
    children.begin(sleep).wait()
    while True:
        children.begin(sleep)
def main():
    with ThreadPoolExecutor(4) as pool:
        for _ in range(4):
            pool.submit(work)
        (folder / "sign").touch()
""",
}


class Interrupts(unittest.TestCase):
    def setUp(self):
        folder = tempfile.TemporaryDirectory()
        self.addCleanup(folder.cleanup)
        self.folder = pathlib.Path(folder.name)

    def ended(self, name, code, number):
        """Runs a program, and sends it a signal when its sign is there; gives its status and what it said."""
        folder = self.folder / f"{name}-{number}".replace(" ", "-")
        folder.mkdir()
        program = folder / "program.py"
        program.write_text(f"{BEGIN}{code}\nsys.exit(interrupts.guarded(lambda: main))\n", encoding="ascii")
        process = signals.start(sys.executable, program, folder)
        self.addCleanup(signals.kill, process)
        self.assertTrue(signals.wait(lambda: (folder / "sign").exists() or process.poll() is not None))
        process.send_signal(number)
        said = process.communicate(timeout=signals.LONG)[1]
        self.assertTrue(signals.wait(lambda: not signals.processes_with(str(folder))))
        return process.returncode, said

    def test_a_signal_ends_the_command_and_all_that_it_began(self):
        for name, code in CASES.items():
            for number in (signal.SIGINT, signal.SIGTERM, signal.SIGHUP):
                with self.subTest(name, number=number):
                    status, said = self.ended(name, code, number)
                    self.assertEqual((status, said), (130, "aim-sumo: interrupted; what it had begun was ended\n"))

    def test_a_signal_that_is_ignored_stays_ignored(self):
        code = """
def main():
    (folder / "sign").touch()
    while not (folder / "end").exists():
        time.sleep(0.01)
    return 5
"""
        folder = self.folder / "ignored"
        folder.mkdir()
        program = folder / "program.py"
        begin = f"{BEGIN}signal.signal(signal.SIGINT, signal.SIG_IGN)\n"
        program.write_text(f"{begin}{code}\nsys.exit(interrupts.guarded(lambda: main))\n", encoding="ascii")
        process = signals.start(sys.executable, program, folder)
        self.addCleanup(signals.kill, process)
        self.assertTrue(signals.wait(lambda: (folder / "sign").exists() or process.poll() is not None))
        process.send_signal(signal.SIGINT)
        (folder / "end").touch()
        self.assertEqual(process.communicate(timeout=signals.LONG), (None, ""))
        self.assertEqual(process.returncode, 5)


if __name__ == "__main__":
    unittest.main()
