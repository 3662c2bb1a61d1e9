#!/bin/sh
# Makes a picture of a script's page: picture.sh SCRIPT TITLE POSITION FILE.png, paths from the repository's root.
#   rust/replay/browser/picture.sh scripts/declined.run "A declined set-up" 48 docs/pictures/page.png
cd "$(dirname "$0")/../../.." || exit 2
folder=$(mktemp -d) || exit 2
trap 'rm -rf "$folder"' EXIT
./pandabrass replay "$1" --title "$2" -o "$folder/page.html" || exit 1
chromium --headless --no-sandbox --disable-gpu --hide-scrollbars --window-size=1280,800 \
    --virtual-time-budget=2500 --screenshot="$4" "file://$folder/page.html#$3&theme=light" 2>/dev/null
ls -l "$4"
