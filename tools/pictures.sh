#!/usr/bin/env bash
# Makes the pictures of docs/figures anew: tools/pictures.sh [FOLDER]. With a folder they are made there.
# Ends with status 1 if crates/README.md isn't the list of the crates of crates.txt (tools/house.py).
set -euo pipefail
cd "$(dirname "$0")/.."
folder=${1:-docs/figures}
export PYTHONDONTWRITEBYTECODE=1
tools/house.py > "$folder/house.svg"
tools/timeline.py examples/overlapping.trace > "$folder/timeline.svg"
tools/figures.py "$folder"
