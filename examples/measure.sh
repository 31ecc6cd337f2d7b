#!/usr/bin/env bash
# Makes the examples of make.py, and prints a table: sizes before and after the default script, the seconds of maxpre, and those
# of clasp on what is left and on the original, each once. Both must find the same optimum.
set -u
here=$(cd "$(dirname "$0")" && pwd) || exit 1
maxpre=$here/../maxpre
command -v clasp >/dev/null || { echo "clasp is not installed" >&2; exit 1; }
work=$(mktemp -d) || exit 1
trap 'rm -rf "$work"' EXIT
cd "$work" || exit 1

# seconds of a command, its output into a file
timed() { # output, words
  local output=$1 begun
  shift
  begun=$(date +%s%N)
  "$@" >"$output" 2>>log
  echo "scale=2; ($(date +%s%N) - $begun) / 1000000000" | bc | sed 's/^\./0./'
}

sizes() { # file
  awk '/^h / { hard++; next } /^[0-9]/ { soft++ } END { printf "%d | %d", hard, soft }' "$1"
}

optimum() { # what clasp said
  grep '^s OPTIMUM' "$1" >/dev/null && sed -n 's/^o //p' "$1" | tail -n 1
}

echo "| instance | hard, soft | after | maxpre | clasp after | clasp alone | optimum |"
echo "|---|---|---|---|---|---|---|"
for name in planner scheduler verifier; do
  python3 "$here/make.py" "$name" >original
  "$maxpre" preprocess original --techniques=# --form=p >plain 2>/dev/null
  rm -f log
  preprocessing=$(timed smaller "$maxpre" preprocess original --mapfile=map --form=p)
  "$maxpre" preprocess original >smaller.h 2>/dev/null
  after=$(timed answer timeout 300 clasp -q1 smaller)
  alone=$(timed alone timeout 300 clasp -q1 plain)
  "$maxpre" reconstruct answer --mapfile=map --original=original >back
  one=$(sed -n 's/^o //p' back) other=$(optimum alone)
  [ "$one" = "$other" ] || { echo "$name: optima differ: $one, $other" >&2; exit 1; }
  echo "| $name | $(sizes original | sed 's/ |/,/') | $(sizes smaller.h | sed 's/ |/,/') | $preprocessing s | $after s | $alone s | $one |"
done
