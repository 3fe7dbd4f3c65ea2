#!/usr/bin/env bash
# Runs the pytest suite of this folder, all of it, with options of pytest that are given. pytest and hypothesis are installed from
# Debian's packages where they aren't there and that is allowed; where they can't be had it says so, and fails.
set -uo pipefail
cd "$(dirname "${BASH_SOURCE[0]}")/.." || exit 1
source tests/installing.sh
python=/usr/bin/python3
command -v "$python" > /dev/null || python=python3

has() { "$python" -c "import $1" 2> /dev/null; } # has MODULE

install() { # install PACKAGE ..: by root, or by one who may be root without being asked
  local root=()
  [ "$(id -u)" -eq 0 ] || root=(sudo -n)
  command -v apt-get > /dev/null || return 1
  local words=(env DEBIAN_FRONTEND=noninteractive apt-get -qq -o DPkg::Lock::Timeout=1800 install -y --no-install-recommends "$@")
  timeout 1800 "${root[@]}" "${words[@]}" || { timeout 1800 "${root[@]}" apt-get -qq update && timeout 1800 "${root[@]}" "${words[@]}"; }
}

if ! has pytest || ! has hypothesis || ! has xdist; then
  echo 'tests: installing python3-pytest, python3-hypothesis and python3-pytest-xdist ..'
  one_by_one install python3-pytest python3-hypothesis python3-pytest-xdist > /dev/null 2>&1
fi
for module in pytest hypothesis; do
  if ! has "$module"; then
    echo "tests: NOT TESTED at all: there is no python3-$module, and it could not be installed"
    exit 1
  fi
done
# On all processors, where that can be had.
words=()
! has xdist || words=(-n auto)
exec "$python" -m pytest tests "${words[@]}" "$@"
