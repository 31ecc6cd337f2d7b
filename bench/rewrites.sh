#!/usr/bin/env bash
# Prints the seconds and the peak memory of a store of N drawn clauses under N drawn rewrites, each of which drops one
# clause or puts another in its place, and the time of a rewrite: that of all without making the store. First with
# variables that lie close together, clause after clause, as a technique goes through a store; then with variables from
# anywhere and clauses far apart, where almost every access misses the caches once the store is larger than they are. Each
# order runs with large pages, as ./maxpre runs, and with small ones. `grows` is the time of a rewrite in the tenfold store
# over that in the small one. What the program prints is compared with a plain table of clauses. Where valgrind is
# installed, the instructions of a rewrite are counted too: bench/rewrites.sh [ROUNDS]
set -eu
. "$(dirname "$0")/common.sh"
rounds=${1:-7}
program=$(built yardstick)
work=$(mktemp -d)
trap 'rm -rf "$work"' EXIT
command -v valgrind >/dev/null || echo "valgrind is not installed: no instructions"
# Prints how many instructions a command takes.
instructions() { # words
  valgrind --tool=callgrind --callgrind-out-file=/dev/null "$@" 2>&1 >/dev/null | sed -n 's/.*Collected : //p'
}
for order in near far; do
  for pages in large small; do
    huge=1
    [ "$pages" = large ] || huge=0
    words=()
    for many in 100000 1000000; do
      for part in store rewrites; do
        words+=("$work/$part-$many" env "GLIBC_TUNABLES=glibc.malloc.hugetlb=$huge" "$program" "$part-$order" "$many" --)
      done
    done
    # all four in turn, so that a slow spell of the machine falls on each
    python3 "$here/measured.py" "$rounds" "${words[@]::${#words[@]}-1}" >"$work/figures"
    last=
    for many in 100000 1000000; do
      read -r store _
      read -r seconds peak
      python3 "$here/rewrites.py" $order $many | cmp "$work/rewrites-$many" -
      each=-
      if [ $pages = large ] && command -v valgrind >/dev/null; then
        each=$((($(instructions "$program" rewrites-$order $many) - $(instructions "$program" store-$order $many)) / many))
      fi
      now=$(awk -v n=$many -v m="$store" -v s="$seconds" 'BEGIN { printf "%.3f", 1e6 * (s - m) / n }')
      awk -v o=$order -v p=$pages -v n=$many -v m="$store" -v s="$seconds" -v k="$peak" -v e="$now" -v l="$last" -v i="$each" 'BEGIN {
        printf "%-4s %-5s pages %8d clauses and rewrites %6.2f s %5.0f MB   the store alone %5.2f s   a rewrite %5.2f microseconds %5s instructions   grows %s\n", o, p, n, s, k / 1024, m, e, i, l == "" ? "-" : sprintf("%.2f", e / l) }'
      last=$now
    done <"$work/figures"
  done
done
