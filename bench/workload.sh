#!/usr/bin/env bash
# Prints the seconds and the peak memory of `workload N` with the default script, or the one that is given, at tenfold sizes:
# bench/workload.sh [SCRIPT]
set -eu
. "$(dirname "$0")/common.sh"
program=$(built maxpre)
work=$(mktemp -d)
trap 'rm -rf "$work"' EXIT
words=()
[ $# -eq 0 ] || words=("--techniques=$1")
last=
for n in 1000 10000 100000; do
  measured "$work/summary" "$program" workload "$n" "${words[@]}" 2>/dev/null
  awk -v n="$n" -v s="$seconds" -v k="$peak" -v t="$last" -v after="$(sed -n 's/^c after //p' "$work/summary") $(tail -n 1 "$work/summary")" 'BEGIN {
    printf "workload %-7d %8.2f s %6.0f MB   tenfold %s   after %s\n", n, s, k / 1024, t == "" ? "-" : sprintf("%.1f", s / t), after }'
  last=$seconds
done
