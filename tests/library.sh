#!/usr/bin/env bash
# The library for C: it is made of the proved archive, and called from C as a program would, with two compilers, under what
# finds faults of memory where that is installed, and beside `aim replay`. Ends with a status other than 0 where anything
# differs.
set -uo pipefail
cd "$(dirname "${BASH_SOURCE[0]}")/.." || exit 1
source tests/judge.sh

work=$(mktemp -d) && trap 'rm -rf "$work"' EXIT
program=${AIM:-$PWD/crates/aim/out/aim}
made=$work/made
tools/library.sh "$made" > "$work/told" 2>&1 || { cat "$work/told"; exit 1; }

build() { # build FILE FLAGS ..: with the header and the static library
  "${CC:-gcc}" -std=c11 -Wall -Wextra -Werror -I"$made/include" "tests/c/$1.c" "${@:2}" "$made/lib/libaim.a" \
    -o "$work/$1" 2>&1 && echo built
}
wrapped=(-Wl,--wrap=malloc -Wl,--wrap=realloc)
has() { command -v "$1" > /dev/null; }

# The calls, as they are and under what finds faults.
for compiler in gcc clang; do
  if has "$compiler"; then
    judge "the tests with $compiler" built "$(CC=$compiler build calls -O2 "${wrapped[@]}")"
    judge "the calls with $compiler" '0 checks failed' "$("$work/calls")"
  else
    echo "library: skipped: $compiler, which isn't installed"
  fi
done
sanitized=(-O1 -g -fsanitize=address,undefined -fno-sanitize-recover=all)
judge 'the tests with sanitizers' built "$(build calls "${sanitized[@]}" "${wrapped[@]}")"
judge 'the calls with sanitizers' '0 checks failed' "$("$work/calls" 100000 7 2>&1)"
if has valgrind; then
  judge 'the tests for valgrind' built "$(build calls -O1 -g "${wrapped[@]}")"
  judge 'the calls under valgrind' '0 checks failed' \
    "$(valgrind -q --leak-check=full --error-exitcode=9 "$work/calls" 5000 211 2>&1)"
else
  echo "library: skipped: valgrind, which isn't installed"
fi

# The header alone, in the languages that it is for.
for words in 'gcc -std=c99 -x c' 'g++ -std=c++11 -x c++' 'clang -std=c99 -x c'; do
  has "${words%% *}" || { echo "library: skipped: ${words%% *}, which isn't installed"; continue; }
  judge "the header by ${words%% -x*}" '' \
    "$($words -Wall -Wextra -Wpedantic -Werror -fsyntax-only -include include/aim.h - 2>&1 < /dev/null)"
done

# What the library shows and asks for.
calls=$(grep -o 'aim_[a-z_]*(' include/aim.h | tr -d '(' | grep -v -e take_text -e bytes | sort -u)
judge 'the names of the shared library' "$calls" "$(nm -D --defined-only "$made/lib/libaim.so.1" | sed 's/.* //' | sort)"
judge 'its soname' libaim.so.1 "$(objdump -p "$made/lib/libaim.so.1" | sed -n 's/ *SONAME *//p')"
known=(-e malloc -e realloc -e free -e 'mem[a-z]*' -e bcmp -e '__.*' -e '_ITM.*')
judge 'what it asks of the C library' '' \
  "$(nm -D --undefined-only "$made/lib/libaim.so.1" | sed 's/.* //; s/@.*//' | grep -v -x "${known[@]}")"

# The example, over the shared library.
flags=(-I"$made/include" -L"$made/lib" -laim "-Wl,-rpath,$made/lib")
if has pkg-config; then
  judge 'the version that is told' 1.0.0 "$(PKG_CONFIG_PATH=$made/lib/pkgconfig pkg-config --modversion aim)"
fi
build_example() { gcc -std=c99 -Wall -Wextra -Werror examples/two_vehicles.c "${flags[@]}" -o "$work/two" 2>&1; }
judge 'the example' built "$(build_example && echo built)"
judge 'what it prints' "$(cat tests/c/two_vehicles.out)" "$("$work/two")"

# What `aim replay` prints, by calls.
if [ -x "$program" ]; then
  judge 'a replay by calls' built "$(build replay -O2)"
  for script in examples/*.aim; do
    judge "$script" "$("$program" replay < "$script"; echo "status $?")" "$("$work/replay" < "$script"; echo "status $?")"
  done
else
  echo 'library: SKIPPED: a comparison with the program, which is not built'
fi

# From Python.
AIM=$([ ! -x "$program" ] || echo "$program") bash tests/python.sh "$made/lib/libaim.so.1"
judge 'the package for Python' 0 $?
printf 'library: %s passed, %s failed\n' "$passed" "$failed"
[ "$failed" -eq 0 ]
