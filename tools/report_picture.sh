#!/usr/bin/env bash
# Takes pictures of a page in a headless browser: tools/report_picture.sh PAGE.html FOLDER
#
# light.png and dark.png (1200 wide) and narrow.png (500 wide) come into FOLDER, each $HEIGHT high
# (2200). It needs chromium.
set -euo pipefail
page=$(realpath "$1")
folder=$2
mkdir -p "$folder"
profile=$(mktemp -d)
trap 'rm -rf "$profile"' EXIT

take() {
  local name=$1 size=$2
  shift 2
  chromium --headless --no-sandbox --disable-gpu --hide-scrollbars --user-data-dir="$profile" \
    --window-size="$size" --screenshot="$folder/$name.png" "$@" "file://$page" 2> "$profile/log" ||
    { cat "$profile/log"; return 1; }
}

take light "1200,${HEIGHT:-2200}"
take dark "1200,${HEIGHT:-2200}" --force-dark-mode
take narrow "${NARROW:-500},${HEIGHT:-2200}"
