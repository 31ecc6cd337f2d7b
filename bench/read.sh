#!/usr/bin/env bash
# Prints the seconds and the peak memory of reading an instance, beside a solver that reads its hard clauses:
# bench/read.sh [FILE]
set -eu
. "$(dirname "$0")/common.sh"
program=$(built yardstick)
work=$(mktemp -d)
trap 'rm -rf "$work"' EXIT
if [ $# -gt 0 ]; then
  file=$1
else
  file=$work/drawn.wcnf
  python3 "$here/clauses.py" 1000000 >"$file"
fi
sized "$file" "$work/f.cnf"
reading_solver "$work/f.cnf"
measured "$work/said" "$program" read "$file" "${solver[@]}"
awk -v name="$(basename "$file")" -v s="$seconds" -v k="$peak" -v l="$literals" -v r="$reader" 'BEGIN {
  printf "%-20s %9d literals %7.2f s %6.0f MB %5.0f bytes a literal   ", name, l, s, k / 1024, 1024 * k / (l ? l : 1)
  if (r == "") print "cadical is not installed: no ratio"; else printf "cadical %.2f s, ratio %.2f\n", r, s / r }'
