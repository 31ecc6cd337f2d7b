#!/usr/bin/env bash
# Prints what scripts cost beside preprocessors that protect the soft literals: bench/peers.sh [-s SCRIPT].. FILE..
# A line for each instance and script: processor's seconds (median of three rounds, in which the programs run in turn), peak
# memory, clauses and literals left, and the ratio of the seconds to each peer's. Peers are the programs `minisat_frozen` and
# `cadical_frozen` (words: IN OUT) of the folder that PEERS names, and clasp (Debian's package), which reads the older form, runs its
# own preprocessing with the soft literals frozen, and stops before it searches; it writes nothing, and tells its constraints. One
# that is not there is left out, with a line.
set -eu
. "$(dirname "$0")/common.sh"
program=$(built maxpre)
work=$(mktemp -d)
trap 'rm -rf "$work"' EXIT
scripts=()
while [ "${1:-}" = -s ]; do
  scripts+=("$2")
  shift 2
done
[ ${#scripts[@]} -gt 0 ] || scripts=('#' '[us]' '[usv]' '[bu]#[buvsrgc]')
peers=()
for peer in minisat_frozen cadical_frozen; do
  if [ -x "${PEERS:-}/$peer" ]; then
    peers+=("$peer")
  else
    echo "$peer is not in PEERS (${PEERS:-not set}): left out"
  fi
done
clasp=()
if command -v clasp >/dev/null; then
  clasp=(clasp --sat-prepro=2 --solve-limit=0 --stats=2 -q)
else
  echo "clasp is not installed: left out"
fi
left_of() { # instance: clauses and literals
  python3 "$here/sizes.py" "$1"
}
printf '%-24s %-16s %8s %6s %10s %10s   %s\n' instance program seconds MB clauses literals 'ratio of seconds'
for file in "$@"; do
  name=$(basename "$file" .wcnf)
  [ ${#clasp[@]} -eq 0 ] || "$program" preprocess "$file" '--techniques=#' --form=p >"$work/older.wcnf" 2>/dev/null
  for script in "${scripts[@]}"; do
    words=(3 "$work/maxpre.out" "$program" preprocess "$file" "--techniques=$script" "--mapfile=$work/f.map")
    for peer in "${peers[@]}"; do
      words+=(-- /dev/null "$PEERS/$peer" "$file" "$work/$peer.out")
    done
    [ ${#clasp[@]} -eq 0 ] || words+=(-- "$work/clasp.out" "${clasp[@]}" "$work/older.wcnf")
    # the log of each run is no figure
    mapfile -t figures < <(python3 "$here/measured.py" "${words[@]}" 2>"$work/log")
    read -r own kept <<<"${figures[0]}"
    show() { # program, seconds, KB, instance that is left
      local left
      case $1 in
        clasp) left="$(sed -n 's/^c Constraints *: \([0-9]*\).*/\1/p' "$4") 0" ;;
        *) left=$(left_of "$4") ;;
      esac
      awk -v name="$name" -v p="$1" -v s="$2" -v k="$3" -v c="${left% *}" -v l="${left#* }" -v o="$own" 'BEGIN {
        printf "%-24s %-16s %8.2f %6.0f %10d %10d   %s\n", name, p, s, k / 1024, c, l, (s > 0 ? sprintf("%.2f", o / s) : "-") }'
    }
    show "$script" "$own" "$kept" "$work/maxpre.out"
    place=1
    for peer in "${peers[@]}"; do
      read -r seconds peak <<<"${figures[$place]}"
      show "$peer" "$seconds" "$peak" "$work/$peer.out"
      place=$((place + 1))
    done
    if [ ${#clasp[@]} -gt 0 ]; then
      read -r seconds peak <<<"${figures[$place]}"
      show clasp "$seconds" "$peak" "$work/clasp.out"
    fi
  done
done
