#!/usr/bin/env bash
# Makes the library for C of the proved archive: libaim.a, libaim.so.1 with its soname, the header, and aim.pc.
#   tools/library.sh FOLDER      FOLDER/include, FOLDER/lib and FOLDER/lib/pkgconfig
# AIM_ARCHIVE names the archive in the place of the one that `rt lib` makes here.
set -euo pipefail
root=$(cd "$(dirname "${BASH_SOURCE[0]}")/.." && pwd)

fail() { printf 'library: %s\n' "$*" >&2; exit 1; }

[ $# -eq 1 ] || fail 'one word: the folder'
compiler=${CC:-cc}
for tool in "$compiler" ar install; do
  command -v "$tool" > /dev/null || fail "there is no $tool"
done
archive=${AIM_ARCHIVE:-}
if [ -z "$archive" ]; then
  archive=$root/crates/aim_c/out/libaim_c.a
  # One at a time.
  exec 8< "$root/tools/library.sh"
  ! command -v flock > /dev/null || flock 8
  (cd "$root/crates/aim_c" && rt lib 8<&-) >&2 || fail 'the archive is not proved'
fi
[ -f "$archive" ] || fail "there is no $archive"

work=$(mktemp -d) && trap 'rm -rf "$work"' EXIT
version=$(sed -n 's/^#define AIM_VERSION //p' "$root/include/aim.h")
told=$((version / 10000)).$((version / 100 % 100)).$((version % 100))
mkdir -p "$1/include" "$1/lib/pkgconfig"
into=$(cd "$1" && pwd)

"$compiler" -O2 -fPIC -c "$root/tools/heap.c" -o "$work/heap.o"
cp "$archive" "$work/libaim.a" && chmod u+w "$work/libaim.a"
exec 8<&-
ar rD "$work/libaim.a" "$work/heap.o" 2> /dev/null

# The shared library shows the calls of the header and nothing else.
{
  printf '{ global:\n'
  grep -o 'aim_[a-z_]*(' "$root/include/aim.h" | sort -u | grep -v take_text | sed 's/($/;/'
  printf 'local: *; };\n'
} > "$work/names"
"$compiler" -shared -Wl,-soname,libaim.so.1 -Wl,--version-script="$work/names" -Wl,-z,relro,-z,now -Wl,--no-undefined \
  -o "$work/libaim.so.1" -Wl,--whole-archive "$work/libaim.a" -Wl,--no-whole-archive

install -m 644 "$work/libaim.a" "$into/lib/libaim.a"
install -m 755 "$work/libaim.so.1" "$into/lib/libaim.so.1"
ln -sf libaim.so.1 "$into/lib/libaim.so"
install -m 644 "$root/include/aim.h" "$into/include/aim.h"
cat > "$into/lib/pkgconfig/aim.pc" <<PC
prefix=\${pcfiledir}/../..
includedir=\${prefix}/include
libdir=\${prefix}/lib

Name: aim
Description: an intersection manager that is proved
Version: $told
Cflags: -I\${includedir}
Libs: -L\${libdir} -laim
PC
printf 'library: %s\n' "$into"
