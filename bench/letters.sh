#!/usr/bin/env bash
# Prints what each letter alone costs on the instances that are given: seconds, peak memory, and its line of the log; a run is cut off
# after 60 seconds, or LIMIT of them: bench/letters.sh LETTERS FILE..
set -eu
. "$(dirname "$0")/common.sh"
program=$(built maxpre)
letters=$1
shift
work=$(mktemp -d)
trap 'rm -rf "$work"' EXIT
for file in "$@"; do
  for ((at = 0; at < ${#letters}; at++)); do
    letter=${letters:at:1}
    if figures=$(timeout "${LIMIT-60}" python3 "$here/measured.py" 1 "$work/out" "$program" preprocess "$file" "--techniques=$letter" 2>"$work/log"); then
      awk -v name="$(basename "$file")" -v line="$(grep '^c stage' "$work/log" | cut -c9-)" '{ printf "%-18s %8.2f s %6.0f MB   %s\n", name, $1, $2 / 1024, line }' <<<"$figures"
    else
      printf '%-18s      > %s s             %s\n' "$(basename "$file")" "${LIMIT-60}" "$letter"
    fi
  done
done
