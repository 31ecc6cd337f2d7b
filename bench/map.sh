#!/usr/bin/env bash
# Prints the seconds and the peak memory of copying the text of a map with 10^6 drawn repairs token by token, of reading
# it, and of drawing and writing it, with the ratios to the copy.
set -eu
. "$(dirname "$0")/common.sh"
program=$(built yardstick)
work=$(mktemp -d)
trap 'rm -rf "$work"' EXIT
map=$work/f.map
"$program" map-write 1000000 >"$map"
python3 "$here/measured.py" 3 "$work/said" "$program" map-copy "$map" -- "$work/said" "$program" map-read "$map" -- "$work/g.map" "$program" map-write 1000000 >"$work/figures"
cmp "$map" "$work/g.map"
awk 'BEGIN { split("copied token by token|read|drawn and written", name, "|") }
  NR == 1 { copy = $1 }
  { printf "%-24s %7.2f s %6.0f MB   ratio to the copy %.2f\n", name[NR], $1, $2 / 1024, $1 / copy }' "$work/figures"
