"""The cases of tests/cases, as a user runs them. A case is a folder with `words` (one a line), `input`, `output` and
`status`; its name says what it shows."""
import pytest

from conftest import TOP
from judges import texts

CASES = sorted(case for case in (TOP / "tests/cases").iterdir() if case.is_dir())


def test_there_are_cases():
    assert CASES


@pytest.mark.parametrize("case", CASES, ids=lambda case: case.name)
def test_case(program, case):
    words = (case / "words").read_text().splitlines()
    with open(case / "input", "rb") as script:
        ran = program.run(*words, stdin=script)
    fault = texts.ran_otherwise(ran, int((case / "status").read_text()), (case / "output").read_bytes())
    assert not fault, fault
