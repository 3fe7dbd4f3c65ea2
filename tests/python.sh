#!/usr/bin/env bash
# The package for Python, over the built library: its tests, its example, and its wheel in a folder of its own.
#   tests/python.sh LIBRARY      the file of the library; `aim replay` beside it where AIM names the program
# Ends with a status other than 0 where anything fails.
set -uo pipefail
cd "$(dirname "${BASH_SOURCE[0]}")/.." || exit 1
source tests/judge.sh
[ $# -eq 1 ] || { echo 'python: one word: the library' >&2; exit 2; }
export AIM_LIBRARY=$1

work=$(mktemp -d) && trap 'rm -rf "$work"' EXIT
python=/usr/bin/python3
command -v "$python" > /dev/null || python=python3
command -v "$python" > /dev/null || { echo 'python: skipped: all of it, since there is no python3'; exit 0; }

PYTHONPATH=python "$python" -B -W error -m unittest discover -s python/tests 2>&1
judge 'the tests' 0 $?
wanted=$(cat tests/c/chart.out)
judge 'the example' "$wanted" "$(PYTHONPATH=python "$python" -B python/examples/chart.py 2>&1)"

# The wheel, made from a copy so that nothing is left here, and used from where it is put.
if "$python" -c 'import setuptools, wheel' 2> /dev/null; then
  cp -r python "$work/source"
  make='import sys; from setuptools import build_meta; build_meta.build_wheel(sys.argv[1])'
  if (cd "$work/source" && "$python" -c "$make" "$work") > "$work/told" 2>&1; then
    judge 'the name of the wheel' aim-1.0.0-py3-none-any.whl "$(cd "$work" && echo *.whl)"
    "$python" -m zipfile -e "$work"/*.whl "$work/put"
    judge 'the example by the wheel' "$wanted" \
      "$(cd / && PYTHONPATH=$work/put "$python" -B "$work/source/examples/chart.py" 2>&1)"
    judge 'that it is typed' yes "$([ -f "$work/put/aim/py.typed" ] && echo yes)"
  else
    judge 'the wheel' '' "$(tail -5 "$work/told")"
  fi
else
  echo 'python: skipped: the wheel, since python3 has no setuptools or no wheel'
fi
printf 'python: %s passed, %s failed\n' "$passed" "$failed"
[ "$failed" -eq 0 ]
