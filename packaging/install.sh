#!/bin/sh
# Installs aim for all users (as root: below /usr/local) or for one (below ~/.local), or takes it away again.
#   ./install.sh [--prefix FOLDER] [--remove]
set -eu
here=$(cd "$(dirname "$0")" && pwd)
prefix=
remove=
while [ $# -gt 0 ]; do
  case $1 in
    --prefix) [ $# -gt 1 ] || { echo 'install.sh: --prefix wants a folder' >&2; exit 2; }; prefix=$2; shift 2 ;;
    --remove) remove=yes; shift ;;
    *) echo 'install.sh: the words are --prefix FOLDER and --remove' >&2; exit 2 ;;
  esac
done
if [ -z "$prefix" ]; then
  if [ "$(id -u)" -eq 0 ]; then prefix=/usr/local; else prefix=$HOME/.local; fi
fi
mkdir -p "$prefix"
prefix=$(cd "$prefix" && pwd)
case $(uname -s)-$(uname -m) in
  Linux-x86_64) ;;
  *) echo "install.sh: aim runs on Linux on x86-64 processors, and this is $(uname -s) on $(uname -m)" >&2; exit 1 ;;
esac

cd "$here"
find . \( -type f -o -type l \) ! -name install.sh | while IFS= read -r file; do
  if [ -n "$remove" ]; then
    rm -f "$prefix/$file"
  else
    mkdir -p "$prefix/$(dirname "$file")"
    cp -P "$file" "$prefix/$file"
  fi
done
if [ -n "$remove" ]; then
  # The folders that are aim's own, and then those that are empty.
  for folder in lib/aim share/aim share/doc/aim; do
    [ ! -d "$prefix/$folder" ] || find "$prefix/$folder" -depth -type d -exec rmdir {} + 2> /dev/null || true
  done
  echo "aim is no longer in $prefix"
  exit 0
fi
for name in aim aim-sumo; do
  sed "s|/usr/lib/aim|$prefix/lib/aim|g; s|/usr/share/aim|$prefix/share/aim|g; s|/usr/bin/aim|$prefix/bin/aim|g" "bin/$name" > "$prefix/bin/$name"
  chmod 755 "$prefix/bin/$name"
done
echo "aim is in $prefix; the first command: $prefix/bin/aim replay < $prefix/share/doc/aim/examples/first.aim"
