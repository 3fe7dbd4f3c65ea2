#!/usr/bin/env bash
# Builds the peer of bench_manager: build.sh SOURCES OUT
# SOURCES is the src folder of a plain program of the same rules, with a book (book.rs) and what that stands on; OUT is the program.
set -euo pipefail
here=$(cd "$(dirname "${BASH_SOURCE[0]}")" && pwd)
[ $# -eq 2 ] || { sed -n 2,3p "$0" >&2; exit 2; }
sources=$(cd "$1" && pwd)
folder=$(mktemp -d)
trap 'rm -rf "$folder"' EXIT
for file in "$sources"/*.rs; do
  [ "$(basename "$file")" = main.rs ] || ln -s "$file" "$folder/"
done
cp "$here/main.rs" "$folder/main.rs"
rustc --edition 2024 -C opt-level=3 -o "$2" "$folder/main.rs" 2> "$folder/told" || { cat "$folder/told" >&2; exit 1; }
