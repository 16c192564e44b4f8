#!/bin/bash
# Makes docs/report.png, the picture in README: the top of `mercator check --html examples/site` in headless Chromium, in its light
# colours and in the fonts of this machine. It fails if the picture is larger than 150 KB. Needs Debian's chromium.
#
# Usage: tools/report_picture.sh [FILE]     FILE is docs/report.png by default
# Environment: PROGRAM, mercator's path (default: the program that this repository builds); HEIGHT, the picture's in pixels (default: 1160).
set -euo pipefail
cd "$(dirname "$0")/.."
program=${PROGRAM:-crates/mercator_cli/out/mercator_cli}
picture=${1:-docs/report.png}
width=1200
height=${HEIGHT:-1160}
scale=1.5 # pixels for each CSS pixel, so that the text stays legible when a page shows the picture smaller
most=150000
scratch=$(mktemp -d)
trap 'rm -rf "$scratch"' EXIT

ended=0
"$program" check --html examples/site > "$scratch/report.html" || ended=$?
if [ "$ended" -ne 4 ]; then
    echo "report_picture.sh: mercator check ended with status $ended, not 4" >&2
    exit 1
fi
size=$(awk -v w="$width" -v h="$height" -v s="$scale" 'BEGIN { printf "%d,%d", w / s, h / s }')
if ! chromium --headless=new --no-sandbox --disable-gpu --hide-scrollbars --force-device-scale-factor="$scale" \
    --blink-settings=preferredColorScheme=1 --user-data-dir="$scratch/profile" --window-size="$size" \
    --screenshot="$scratch/report.png" "file://$scratch/report.html" > "$scratch/log" 2>&1 || [ ! -s "$scratch/report.png" ]; then
    cat "$scratch/log" >&2
    exit 1
fi
bytes=$(stat -c %s "$scratch/report.png")
if [ "$bytes" -gt "$most" ]; then
    echo "report_picture.sh: the picture has $bytes bytes, and may have $most" >&2
    exit 1
fi
mv "$scratch/report.png" "$picture"
echo "$picture: $bytes bytes"
