"""Runs the plain manager as a user runs the program: its words behind the name, the script from standard input."""
import pathlib
import sys

sys.path.insert(0, str(pathlib.Path(__file__).resolve().parent.parent))

from plain import commands  # noqa: E402

sys.exit(commands.run(sys.argv[1:], sys.stdin.buffer, sys.stdout.buffer))
