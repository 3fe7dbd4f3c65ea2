"""What the tests share: the program, the checks that one test counts, and the sum of all behind the run.

    python3 -m pytest tests [--program PATH] [-n auto] [--hypothesis-profile search]
"""
import os
import pathlib

import pytest
from hypothesis import HealthCheck, settings

from program import Program

TOP = pathlib.Path(__file__).resolve().parent.parent
BUILT = TOP / "crates/aim/out/aim"

# The gate tries the same scripts each time. A clock decides nothing: the machine may be a slow one.
settings.register_profile(
    "gate", derandomize=True, database=None, deadline=None, max_examples=20, print_blob=True,
    suppress_health_check=[HealthCheck.too_slow, HealthCheck.data_too_large, HealthCheck.filter_too_much])
settings.register_profile("search", settings.get_profile("gate"), derandomize=False, max_examples=1000)
settings.load_profile("gate")


def pytest_addoption(parser):
    parser.addoption("--program", default=os.environ.get("AIM"), metavar="PATH",
                     help="the program to test, in the place of the one that ./aim built (or AIM in the environment)")


def program_of(config):
    """The path of the program that is to be tested."""
    return pathlib.Path(config.getoption("program") or BUILT).resolve()


def pytest_collection_modifyitems(config, items):
    if any("program" in item.fixturenames for item in items) and not os.access(program_of(config), os.X_OK):
        raise pytest.UsageError(f"there is no program at {program_of(config)}: ./aim builds it, --program names another")


@pytest.fixture(scope="session")
def program(pytestconfig):
    """The program itself, without what starts it."""
    return Program(program_of(pytestconfig))


@pytest.fixture(scope="session")
def command(program):
    """What a user runs: ./aim where it built the program, else the program."""
    return Program(TOP / "aim") if program.path == str(BUILT) else program


class Checks:
    """Many checks of one test. Each that fails is named, and those behind it are made all the same."""

    def __init__(self):
        self.count, self.faults = 0, []

    def __call__(self, what, fault):
        """Notes what is wrong, or that nothing is: None, an empty text or False."""
        self.count += 1
        if fault:
            self.faults.append(f"{what}: {fault}")

    def same(self, what, wanted, got):
        """Notes whether that is as wanted."""
        self(what, None if wanted == got else f"{str(got)[:200]}, wanted {str(wanted)[:200]}")


@pytest.fixture
def checks():
    """Counts the checks of a test that makes many."""
    return Checks()


@pytest.hookimpl(hookwrapper=True)
def pytest_pyfunc_call(pyfuncitem):
    """Fails a test whose checks found faults, and one that counts checks and made none."""
    outcome = yield
    made = pyfuncitem.funcargs.get("checks")
    if made is None:
        return
    pyfuncitem.user_properties += [("checks", made.count), ("faults", len(made.faults))]
    if outcome.excinfo is None and made.faults:
        pytest.fail("\n".join(made.faults), pytrace=False)
    if outcome.excinfo is None and not made.count:
        pytest.fail("no check was made", pytrace=False)


def counted(stats):
    """How many checks passed and failed. A test that doesn't count its own is one."""
    passed = failed = 0
    for outcome in ("passed", "failed", "error"):
        for report in stats.get(outcome, []):
            own = dict(report.user_properties)
            faults = own.get("faults", 0)
            passed += own.get("checks", int(outcome == "passed")) - faults
            # A test that ended before its checks were through is a fault itself.
            failed += faults or int(outcome != "passed")
    return passed, failed


def pytest_terminal_summary(terminalreporter, exitstatus):
    for report in terminalreporter.stats.get("skipped", []):
        terminalreporter.write_line(f"NOT TESTED: {report.nodeid}: {report.longrepr[2]}")
    passed, failed = counted(terminalreporter.stats)
    terminalreporter.write_line(f"tests: {passed} passed, {failed or int(exitstatus != 0)} failed")
