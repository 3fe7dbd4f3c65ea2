#!/usr/bin/env bash
# Tests of the page tools/view/view.html, in a Chromium without a window. It is installed from Debian's packages where
# that can be done. What isn't tested is said. Ends with a status other than 0 where anything differs.
set -uo pipefail
cd "$(dirname "${BASH_SOURCE[0]}")/.."
source tests/installing.sh

tell() { printf 'view: %s\n' "$*"; }

has_browser() {
  local name
  for name in chromium-headless-shell chromium chromium-browser google-chrome; do
    ! command -v "$name" > /dev/null || return 0
  done
  return 1
}

# As root, or by a sudo that asks for nothing. Lists of packages are read anew only where they don't know the package. The
# time is ample: an installation that is cut short leaves work for `dpkg --configure -a`.
install_browser() {
  command -v apt-get > /dev/null || return 1
  local as=()
  [ "$(id -u)" -eq 0 ] || as=(sudo -n)
  [ "$(id -u)" -eq 0 ] || sudo -n true 2> /dev/null || return 1
  tell 'installing chromium-headless-shell from the packages of this system'
  local install=(timeout 1800 "${as[@]}" env DEBIAN_FRONTEND=noninteractive
    apt-get install -y -q --no-install-recommends chromium-headless-shell)
  "${install[@]}" > /dev/null 2>&1 && return 0
  timeout 600 "${as[@]}" apt-get update -q > /dev/null 2>&1 && "${install[@]}" > /dev/null 2>&1
}

if ! command -v python3 > /dev/null; then
  tell 'not tested: the page and the stored outputs, since there is no Python 3'
  exit 0
fi
if ! has_browser; then
  one_by_one install_browser
fi
if has_browser; then
  timeout 5400 python3 tests/view/check.py
  status=$?
  [ "$status" -ne 124 ] || tell 'not all is tested: stopped after 5,400 seconds'
  exit "$status"
fi
tell 'not tested: the page, since no Chromium is here and none could be installed; only the stored outputs are'
exec python3 tests/view/check.py --outputs
