#!/usr/bin/env bash
# Prints what `preprocess` costs: a line for each instance and techniques, at sizes that grow tenfold, without and with a
# chain of units; with names of files also lines for these. `ratio` is to a solver that only reads the hard clauses, where
# one is installed, and `tenfold` to the line above, whose instance is a tenth as long: bench/scale.sh [FILE..]
set -eu
. "$(dirname "$0")/common.sh"
program=$(built maxpre)
work=$(mktemp -d)
trap 'rm -rf "$work"' EXIT
command -v cadical >/dev/null || echo "cadical is not installed: no ratios to a reader"
printf '%-18s %3s %9s %8s %6s %6s %9s %9s %6s %8s\n' instance run literals seconds MB B/lit clauses left ratio tenfold
last=
line() { # name, file, techniques, whether the instance is ten times the last
  local left
  sized "$2" "$work/f.cnf"
  reading_solver "$work/f.cnf"
  measured "$work/out.wcnf" "$program" preprocess "$2" "--techniques=$3" "--mapfile=$work/f.map" "${solver[@]}"
  left=$(python3 "$here/sizes.py" "$work/out.wcnf")
  awk -v name="$1" -v run="$3" -v l="$literals" -v s="$seconds" -v k="$peak" -v c="$clauses" -v o="${left% *}" -v r="$reader" -v t="${4:+$last}" 'BEGIN {
    printf "%-18s %3s %9d %8.2f %6.0f %6.0f %9d %9d %6s %8s\n", name, run, l, s, k / 1024, 1024 * k / (l ? l : 1), c, o, r == "" ? "-" : sprintf("%.2f", s / r), t == "" ? "-" : sprintf("%.1f", s / t) }'
  last=$seconds
}
drawn() { # words of clauses.py
  python3 "$here/clauses.py" "$@" >"$work/f.wcnf"
}
for run in '#' u; do
  drawn 100000
  line "10^5 clauses" "$work/f.wcnf" "$run" ''
  drawn 1000000
  line "10^6 clauses" "$work/f.wcnf" "$run" tenfold
done
drawn 100000 10000
line "10^5, 10^4 units" "$work/f.wcnf" u ''
drawn 1000000 100000
line "10^6, 10^5 units" "$work/f.wcnf" u tenfold
for file in "$@"; do
  for run in '#' u; do
    line "$(basename "$file")" "$file" "$run" ''
  done
done
