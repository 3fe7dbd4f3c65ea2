#!/usr/bin/env bash
# Makes a picture of the page with a script and its output: picture.sh SCRIPT OUTPUT PLACE PICTURE.png [WIDE,HIGH]
# PLACE is what is shown, as in the page's address: step=14, entry=1, vehicle=0, theme=dark, with & between several. OUTPUT
# may be empty.
set -euo pipefail
[ $# -ge 4 ] || { sed -n '2,4s/^# //p' "$0" >&2; exit 2; }
here=$(cd "$(dirname "$(readlink -f "${BASH_SOURCE[0]}")")" && pwd)
for name in chromium-headless-shell chromium chromium-browser google-chrome; do
  ! command -v "$name" > /dev/null || { browser=$name; break; }
done
[ -n "${browser-}" ] || { echo 'picture.sh: no Chromium on the PATH' >&2; exit 1; }
folder=$(mktemp -d) && trap 'rm -rf "$folder"' EXIT
"$here/fill.py" "$1" ${2:+"$2"} > "$folder/page.html"
"$browser" --headless --no-sandbox --disable-gpu --disable-dev-shm-usage --hide-scrollbars \
  --user-data-dir="$folder/user" \
  --window-size="${5:-1100,780}" --virtual-time-budget=4000 --screenshot="$folder/picture.png" \
  "file://$folder/page.html#$3" > "$folder/said" 2>&1 || { cat "$folder/said" >&2; exit 1; }
# With pngquant the picture has at most 256 colours, which is a third of the bytes.
! command -v pngquant > /dev/null || pngquant --force --ext .png --nofs 256 "$folder/picture.png"
cp "$folder/picture.png" "$4"
