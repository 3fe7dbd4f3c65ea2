#!/usr/bin/env bash
# What a person does with a release: the launcher, the package in a clean tree of Debian, and the tarball. The tree is made with
# debootstrap, which needs root; what isn't tested is said. Ends with a status other than 0 where anything differs.
set -uo pipefail
cd "$(dirname "${BASH_SOURCE[0]}")/.." || exit 1
source tests/judge.sh
source tests/installing.sh

judged() { # says how many passed, and ends
  printf 'release: %s passed, %s failed\n' "$passed" "$failed"
  exit "$([ "$failed" -eq 0 ] && echo 0 || echo 1)"
}

top=$PWD
work=$(mktemp -d) && trap 'rm -rf --one-file-system "$work"' EXIT
AIM_PROGRAM=${AIM:-$top/crates/aim/out/aim}
export AIM_PROGRAM
first=$(cat examples/first.out)

# The launcher passes words, bytes and status through, and says at a terminal that it waits.
judge 'the launcher' "$first
status 0" "$(packaging/launch replay < examples/first.aim 2> "$work/told"; printf 'status %s' $?)"
judge 'what it tells' '' "$(cat "$work/told")"
judge 'the status of other words' 'usage
status 2' "$(packaging/launch 'replay ' < /dev/null; printf 'status %s' $?)"
judge 'without a terminal -v changes nothing' "$first
status 0" "$(packaging/launch -v replay < examples/first.aim 2> "$work/told"; printf 'status %s' $?)"
judge 'what it tells then' '' "$(cat "$work/told")"
if command -v script > /dev/null; then
  at_terminal() { script -qec "$1" /dev/null < /dev/null | tr '\r' '\n' | sed '/^$/d'; }
  judge 'the launcher at a terminal' 'aim: waiting for a script from the terminal, to its end (Ctrl-D); aim help tells what the words are
usage' "$(at_terminal 'packaging/launch nothing-of-it')"
  judge 'help at a terminal' 'aim 1' "$(at_terminal 'packaging/launch version' | head -n 1 | cut -c 1-5)"
  for example in first.replay lossy.drive; do
    name=${example%.*} words=${example#*.}
    [ "$words" = replay ] || words="$words 1"
    "$AIM_PROGRAM" $words < "examples/$name.aim" > "$work/plain"
    at_terminal "packaging/launch -v $words < examples/$name.aim > $work/shown" > "$work/told"
    judge "$name with -v" same "$(cmp "$work/plain" "$work/shown" && echo same)"
    judge "how far $name is" "$(wc -l < "examples/$name.aim") lines read, $(wc -l < "$work/plain") lines written" \
      "$(sed -n 's/^aim: \(.*\), [0-9]* s$/\1/p' "$work/told" | tail -n 1)"
  done
  judge 'the status with -v' 'status 3' "$(at_terminal "printf 'aim 1\n\n' | packaging/launch -v replay > $work/shown; printf 'status %s' \$?" | tail -n 1)"
else
  echo 'release: NOT TESTED: the launcher at a terminal, since there is no command script'
fi

# The same tree gives the same bytes.
tools/release.sh "$work/dist" 2> "$work/told" || { cat "$work/told"; exit 1; }
tools/release.sh "$work/again" 2> /dev/null
judge 'a second release' same "$(diff -r "$work/dist" "$work/again" && echo same)"
judge 'its sums' "$(ls "$work/dist" | grep -c -v SHA256SUMS)" "$(cd "$work/dist" && sha256sum -c SHA256SUMS 2> /dev/null | grep -c ': OK$')"
judge 'the proof that it tells of' "$(git rev-parse HEAD)" "$(sed -n 's/^aim .*, commit \([0-9a-f]*\) of .*/\1/p' "$work/dist/PROVED")"

# The tarball, for one user.
mkdir "$work/unpacked" "$work/user" && tar -C "$work/unpacked" -xf "$work"/dist/aim-*.tar.xz
judge 'its installation' "aim is in $work/user/.local" "$(HOME=$work/user "$work"/unpacked/aim-*/install.sh --prefix "$work/user/.local" | cut -d ';' -f 1)"
judge 'its first command' "$first" "$(AIM_PROGRAM='' "$work/user/.local/bin/aim" replay < "$work/user/.local/share/doc/aim/examples/first.aim")"
if command -v cc > /dev/null; then
  cc "$work/user/.local/share/doc/aim/examples/two_vehicles.c" -I"$work/user/.local/include" -L"$work/user/.local/lib" \
    -laim "-Wl,-rpath,$work/user/.local/lib" -o "$work/two" 2> "$work/told"
  judge 'its example in C' "$(cat tests/c/two_vehicles.out)" "$("$work/two")"
fi
judge 'its example in Python' "$(cat tests/c/chart.out)" "$(AIM_LIBRARY=$work/user/.local/lib/libaim.so.1 \
  PYTHONPATH=$work/user/.local/share/aim/python python3 -B python/examples/chart.py)"
# The bridge needs numpy, and says so where it isn't there. What others install meanwhile isn't half there: they wait.
bridge_help() {
  local said
  said=$("$work/user/.local/bin/aim-sumo" --help 2>&1 | head -n 1)
  if /usr/bin/python3 -c 'import numpy' 2> /dev/null; then
    printf '%s\n' "$said" | cut -c 1-15
  else
    [ "$said" != "aim-sumo: the Python module numpy isn't there (on Debian: apt install python3-numpy)" ] || echo 'usage: aim-sumo'
  fi
}
judge 'its bridge' 'usage: aim-sumo' "$(one_by_one bridge_help)"
"$work"/unpacked/aim-*/install.sh --prefix "$work/user/.local" --remove > /dev/null
judge 'what is left of it' '' "$(find "$work/user" -type f)"
judge 'a word that it does not know' 'status 2' "$("$work"/unpacked/aim-*/install.sh --all > /dev/null 2>&1; printf 'status %s' $?)"

# The package in a clean tree of Debian.
install_debootstrap() {
  timeout 1800 apt-get -qq update && timeout 1800 env DEBIAN_FRONTEND=noninteractive apt-get -qq install -y --no-install-recommends debootstrap
}
if [ "$(id -u)" -ne 0 ]; then
  echo 'release: SKIPPED: the package in a clean tree of Debian, which only root can make'
  judged
fi
command -v debootstrap > /dev/null || one_by_one install_debootstrap > /dev/null 2>&1
tree=$work/tree
if ! command -v debootstrap > /dev/null || ! timeout 3600 debootstrap --variant=minbase bookworm "$tree" > "$work/told" 2>&1; then
  echo 'release: SKIPPED: the package in a clean tree of Debian, since debootstrap made none'
  judged
fi
inside() { env -i PATH=/usr/sbin:/usr/bin:/sbin:/bin DEBIAN_FRONTEND=noninteractive chroot "$tree" "$@"; }
files() { (cd "$tree" && find . -xdev \( -path ./proc -o -path ./sys -o -path ./var/lib/dpkg -o -path ./var/log -o -path ./var/cache -o -path ./var/lib/apt \) -prune -o -print | sort); }
files > "$work/before"
cp "$work"/dist/aim_*.deb "$tree/tmp/"
name=$(basename "$work"/dist/aim_*.deb)
judge 'its installation by one command' 'status 0' "$(inside apt-get install -y "/tmp/$name" > "$work/told" 2>&1; printf 'status %s' $?)"
rm "$tree/tmp/$name"
command=$(gzip -dc "$tree/usr/share/man/man1/aim.1.gz" | sed -n 's/^aim replay < /&/p' | head -n 1)
judge 'the first command of its man page' "$first" "$(inside sh -c "$command" 2>&1)"
judge 'a drive' same "$(inside sh -c 'aim drive 1 < /usr/share/doc/aim/examples/lossy.aim' | cmp - examples/lossy.out && echo same)"
judge 'its help' "$("$AIM_PROGRAM" help | head -n 1)" "$(inside aim help | head -n 1)"
judge 'its version' "$("$AIM_PROGRAM" version)" "$(inside aim --version)"
judge 'its library for C' 'loads' "$(inside /lib64/ld-linux-x86-64.so.2 --list /usr/lib/libaim.so.1 > /dev/null && echo loads)"
judge 'its examples' "$(ls examples)" "$(ls "$tree/usr/share/doc/aim/examples")"
judge 'its removal' 'status 0' "$(inside apt-get purge -y aim > "$work/told" 2>&1; printf 'status %s' $?)"
files > "$work/after"
judge 'what is left of it' '' "$(comm -13 "$work/before" "$work/after")"
judged
