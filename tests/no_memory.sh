#!/usr/bin/env bash
# Runs the built program with requests for memory refused, one alone and then that one and all behind it, and looks at how it
# ends: as if nothing had been refused, or with status 1 and nothing written, or with status 3 or 4 where the C library found no
# memory for a file or a write. The last line counts.
#
#   tests/no_memory.sh        the first requests of each run, and some of the others
#   tests/no_memory.sh all    every request of each run
set -u
here=$(cd "$(dirname "$0")" && pwd) || exit 1
top=$(cd "$here/.." && pwd) || exit 1
program=$top/crates/maxpre/out/maxpre
work=$(mktemp -d) || exit 1
trap 'rm -rf "$work"' EXIT
cd "$work" || exit 1
passed=0
failed=0

if ! command -v gcc >/dev/null; then
  echo "left out: no memory (no gcc)"
  exit 0
fi
gcc -O2 -shared -fPIC -o no_memory.so "$here/no_memory.c" || exit 1
"$top/maxpre" usage >/dev/null 2>&1 # builds it, once; this is no command
if [ ! -x "$program" ]; then
  echo "the program could not be built"
  exit 1
fi

# whether the first file holds a front of what the second one holds; a missing file holds nothing
is_front() { # file, whole
  local length=0
  [ -e "$1" ] && length=$(wc -c <"$1")
  [ "$length" -eq 0 ] || cmp -s -n "$length" "$1" "$2"
}

is_empty() { # file
  [ ! -s "$1" ]
}

printf 'maxpre: out of memory\n' >no_memory
printf 'maxpre: read fault\n' >read_fault

# whether a run with refused memory ended as it may: nothing is left of the map before it is created
ended_well() { # status
  case $1 in
    0) cmp -s out whole.out && cmp -s err whole.err && is_front whole.map new.map && is_front new.map whole.map ;;
    1) is_empty out && [ ! -e new.map ] && is_front err no_memory ;;
    3) is_empty out && [ ! -e new.map ] && is_front err read_fault ;;
    4) is_front new.map whole.map && is_front out whole.out && is_front err whole.err ;;
    *) false ;;
  esac
}

# the run with the request of this number refused, alone or with all behind it
refused() { # number, "" or 1, words
  local number=$1 goes_on=$2 status
  shift 2
  rm -f new.map
  if [ -n "$goes_on" ]; then
    NO_MEMORY_AT=$number NO_MEMORY_ON=1 LD_PRELOAD=$work/no_memory.so "$program" "$@" >out 2>err
  else
    NO_MEMORY_AT=$number LD_PRELOAD=$work/no_memory.so "$program" "$@" >out 2>err
  fi
  status=$?
  if ended_well "$status"; then
    passed=$((passed + 1))
  else
    failed=$((failed + 1))
    echo "FAILED: status $status, request $number refused${goes_on:+ and all behind it}: $*"
  fi
}

# the next number to try: each one, or the first twelve and then about one in ten
next() { # number
  if [ "$which" = all ] || [ "$1" -lt 12 ]; then echo $(($1 + 1)); else echo $(($1 + 1 + $1 / 10)); fi
}

tried() { # words
  local number=1 count
  rm -f new.map
  NO_MEMORY_COUNT=$work/count LD_PRELOAD=$work/no_memory.so "$program" "$@" >whole.out 2>whole.err
  local status=$?
  if [ "$status" -ne 0 ]; then
    failed=$((failed + 1))
    echo "FAILED: status $status with memory: $*"
    return
  fi
  : >whole.map
  [ -e new.map ] && cp new.map whole.map
  count=$(cat count)
  while [ "$number" -le "$count" ]; do
    refused "$number" "" "$@"
    refused "$number" 1 "$@"
    number=$(next "$number")
  done
}

which=${1:-some}
printf 'h 1 0\nh -1 2 0\n3 -2 0\n' >chain
printf 'h 1 2 0\nh -1 3 0\n4 -2 0\n4 -3 0\n2 1 3 0\n' >small
printf 'h 1 2 0\nh -1 3 0\n2 -2 0\n2 -3 0\n' >pair
printf 'h 3 4 0\nh 1 3 0\nh 2 4 0\nh 4 5 0\n5 -3 0\n5 -4 0\n' >core
printf 'maxpre-map 2\noriginal 5\ninner 5\nwritten 4\noffset 5\nnames 1 2 3 5\nrepairs 5\n3 0 3 4 0\n4 0 2 4 0 4 5 0\n3 0 1 3 0\n-4 0 -4 0\n-3 0 -3 0\nend\n' >core.map
printf 'v 1111\n' >paid
printf 'maxpre-map 1\noriginal 2\ninner 2\nwritten 0\noffset 3\nnames\nrepairs 2\n1 0 1 0\n2 0 2 0\nend\n' >chain.map
printf 's OPTIMUM FOUND\nv\n' >found
printf 'v 1 2\n' >values
tried preprocess chain --techniques=u --mapfile=new.map
tried preprocess small --mapfile=new.map
tried preprocess pair --techniques=v --mapfile=new.map
tried preprocess core --techniques=c --mapfile=new.map
tried preprocess small --techniques=vm --merge=yes --form=p --mapversion=1 --mapfile=new.map
tried preprocess small '--techniques=[usrbvelgmcGfpTKH]{2}' --mapfile=new.map
tried reconstruct found --mapfile=chain.map
tried reconstruct found --mapfile=chain.map --original=chain --values=literals
tried reconstruct paid --mapfile=core.map --original=core
tried evaluate chain --solution=values
tried upgrade chain.map --mapfile=new.map
tried workload 2 '--techniques=[bu]'
if [ "$which" = all ]; then
  tried preprocess "$top/examples/schedule.wcnf" --mapfile=new.map
fi

echo "$passed passed, $failed failed"
[ "$failed" -eq 0 ]
