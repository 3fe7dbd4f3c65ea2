#!/usr/bin/env bash
# Makes a release in dist/, of a tree whose program is built: a package for Debian, a tarball for other Linux machines, sums,
# and a note of what proved the program. The same tree gives the same bytes.
#   tools/release.sh [FOLDER]      FOLDER in the place of dist/
set -euo pipefail
root=$(cd "$(dirname "${BASH_SOURCE[0]}")/.." && pwd)
dist=${1:-$root/dist}
program=${AIM_PROGRAM:-$root/crates/aim/out/aim}

tell() { printf 'release: %s\n' "$*" >&2; }
fail() { tell "$@"; exit 1; }

[ -x "$program" ] || fail 'the program is not built; ./aim version builds it'
for tool in dpkg-deb git gzip sha256sum tar xz; do
  command -v "$tool" > /dev/null || fail "there is no $tool"
done
version=$("$program" version | sed -n 's/^aim //p')
[ -n "$version" ] || fail "$program tells no version"

# All times in the release are that of the commit.
SOURCE_DATE_EPOCH=$(git -C "$root" log -1 --format=%ct)
export SOURCE_DATE_EPOCH LC_ALL=C TZ=UTC
date=$(date -u -d "@$SOURCE_DATE_EPOCH" +%Y-%m-%d)
work=$(mktemp -d) && trap 'rm -rf "$work"' EXIT
mkdir -p "$dist"

put() { # put MODE FROM TO: a file in the release's tree, with its version, date and paths filled in
  install -D -m "$1" /dev/null "$work/tree/$3"
  sed -e "s|@VERSION@|$version|g" -e "s|@DATE@|$date|g" -e 's|@PROGRAM@|/usr/lib/aim/aim|g' "$2" > "$work/tree/$3"
}

copy() { # copy FROM TO: a folder of the repository, of which only what is committed
  local name
  (cd "$root/$1" && git ls-files .) | while IFS= read -r name; do
    install -D -m "$([ -x "$root/$1/$name" ] && echo 755 || echo 644)" "$root/$1/$name" "$work/tree/$2/$name"
  done
}

ports() { # the ports on which the program's crates stand, one a line
  sed -n '/^\(bench_\|tests_\)/d; s/^[a-z_]*\( may_wait=[0-9]*\)*: *//p' "$root/crates.txt" | tr ' ' '\n' |
    grep -v -e '^aim_' -e '^$' | sort -u
}

told_of_proof() { # what proved the program
  printf 'aim %s, commit %s of %s\n\n' "$version" "$(git -C "$root" rev-parse HEAD)" "$date"
  printf 'The program was proved and built by the Rattle toolchain, version\n\n'
  printf '    %s\n\n' "$(rt version 2> /dev/null || echo unknown)"
  printf 'Each function meets its contract (crates/aim/src/program.rt has that of the whole program). Besides the\n'
  printf 'proofs it rests on the toolchain, the C library, and the statements of the ported crates:\n\n'
  ports | sed 's/^/    /'
  printf '\nSHA-256 of the program, and of the library for C:\n\n'
  sha256sum "$program" "$work/tree/usr/lib/libaim.so.1" | sed 's/^\([0-9a-f]*\).*/    \1/'
}

notices() { # the licences of the ports that are linked into the program
  local kit name file
  kit=$(dirname "$(rt doc 2> /dev/null)")/rattle
  ports | while IFS= read -r name; do
    for file in "$kit/$name"/LICENSE-MIT "$kit/$name"/LICENSE; do
      [ -f "$file" ] || continue
      printf "== %s\n\n" "$name"
      cat "$file"
      printf "\n"
      break
    done
  done
}

tree() { # all files, as they are installed
  install -D -m 755 "$program" "$work/tree/usr/lib/aim/aim"
  put 755 "$root/packaging/launch" usr/bin/aim
  put 755 "$root/packaging/aim-sumo" usr/bin/aim-sumo
  copy bridges/sumo usr/share/aim/sumo
  rm -rf "$work/tree/usr/share/aim/sumo/tests"
  put 644 "$root/tools/view/view.html" usr/share/aim/view.html
  "$root/tools/library.sh" "$work/library" > "$work/told" 2>&1 || fail "the library for C: $(tail -n 1 "$work/told")"
  mkdir -p "$work/tree/usr/include" "$work/tree/usr/lib/pkgconfig"
  cp "$work/library/include/aim.h" "$work/tree/usr/include/aim.h"
  cp -P "$work"/library/lib/libaim.* "$work/tree/usr/lib/"
  cp "$work/library/lib/pkgconfig/aim.pc" "$work/tree/usr/lib/pkgconfig/aim.pc"
  copy python/aim usr/share/aim/python/aim
  copy examples usr/share/doc/aim/examples
  put 644 "$root/packaging/completions/aim.bash" usr/share/bash-completion/completions/aim
  put 644 "$root/packaging/completions/_aim" usr/share/zsh/vendor-completions/_aim
  put 644 "$root/packaging/completions/aim.fish" usr/share/fish/vendor_completions.d/aim.fish
  local page
  for page in aim aim-sumo; do
    put 644 "$root/packaging/$page.1" "usr/share/man/man1/$page.1"
    gzip -9 -n "$work/tree/usr/share/man/man1/$page.1"
  done
  put 644 "$root/packaging/copyright" usr/share/doc/aim/copyright
  put 644 "$root/CHANGELOG.md" usr/share/doc/aim/changelog
  gzip -9 -n "$work/tree/usr/share/doc/aim/changelog"
  put 644 "$root/LICENSE-MIT" usr/share/doc/aim/LICENSE-MIT
  put 644 "$root/LICENSE-APACHE" usr/share/doc/aim/LICENSE-APACHE
  told_of_proof > "$work/tree/usr/share/doc/aim/PROVED"
  notices > "$work/tree/usr/share/doc/aim/NOTICES"
  chmod 644 "$work/tree/usr/share/doc/aim"/{PROVED,NOTICES}
  find "$work/tree" -type d -exec chmod 755 {} +
  find "$work/tree" -exec touch -h -d "@$SOURCE_DATE_EPOCH" {} +
}

package() { # the package for Debian
  local size
  size=$(find "$work/tree" -type f -printf '%s\n' | awk '{ s += int(($1 + 1023) / 1024) } END { print s + 0 }')
  cp -a "$work/tree" "$work/package"
  mkdir "$work/package/DEBIAN"
  cat > "$work/package/DEBIAN/control" << END
Package: aim
Version: $version
Architecture: amd64
Maintainer: the aim authors <aim@localhost>
Installed-Size: $size
Depends: libc6 (>= 2.34), perl-base
Suggests: python3, python3-matplotlib, python3-scipy, sumo, sumo-tools
Section: science
Priority: optional
Description: intersection manager for Autonomous Intersection Management
 Vehicles call ahead and ask to cross. The manager simulates each crossing on
 a grid of tiles, and grants it only where no tile is reserved by another
 vehicle, or claimed by another lane's green, in that step. The program is
 proved to meet its contract, and so are the calls of the library for C. Both
 need a processor with SSE4.2 (x86-64-v2).
END
  printf '#!/bin/sh\nrm -rf /usr/share/aim/python/aim/__pycache__\n' > "$work/package/DEBIAN/prerm"
  (cd "$work/package" && find usr -type f -print0 | sort -z | xargs -0 md5sum) > "$work/package/DEBIAN/md5sums"
  chmod 644 "$work/package/DEBIAN"/*
  chmod 755 "$work/package/DEBIAN/prerm"
  find "$work/package" -exec touch -h -d "@$SOURCE_DATE_EPOCH" {} +
  dpkg-deb --root-owner-group -Zxz --build "$work/package" "$dist/aim_${version}_amd64.deb" > /dev/null
}

tarball() { # the same files for other machines, with a script that installs them
  local name=aim-$version-linux-amd64
  mkdir "$work/$name"
  cp -a "$work/tree/usr/." "$work/$name"
  install -m 755 "$root/packaging/install.sh" "$work/$name/install.sh"
  find "$work/$name" -exec touch -h -d "@$SOURCE_DATE_EPOCH" {} +
  tar --sort=name --owner=0 --group=0 --numeric-owner --mtime="@$SOURCE_DATE_EPOCH" --format=gnu \
    -C "$work" -cf - "$name" | xz -9e > "$dist/$name.tar.xz"
}

tree
package
tarball
cp "$work/tree/usr/share/doc/aim/PROVED" "$dist/PROVED"
(cd "$dist" && sha256sum "aim_${version}_amd64.deb" "aim-$version-linux-amd64.tar.xz" PROVED > SHA256SUMS)
tell "made $(cd "$dist" && echo *) in $dist"
