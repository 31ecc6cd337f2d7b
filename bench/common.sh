# To be sourced by the scripts beside it.
here=$(cd "$(dirname "${BASH_SOURCE[0]}")" && pwd)
top=$(dirname "$here")
# as ./maxpre runs; a solver that is measured beside it gets the same
export GLIBC_TUNABLES="${GLIBC_TUNABLES-glibc.malloc.hugetlb=1:glibc.malloc.mmap_threshold=1048576}"

# Proves and builds a program of the repository where it is missing or older than its code, and prints its file.
built() { # name of the crate
  local program=$top/crates/$1/out/$1 code=() crate log
  for crate in $1 $(sed -n "s/^$1: //p" "$top/crates.txt"); do
    [ ! -d "$top/crates/$crate" ] || code+=("$top/crates/$crate/src")
  done
  if [ ! -x "$program" ] || [ -n "$(find "${code[@]}" -name '*.rt' -newer "$program" -print -quit)" ]; then
    echo "$1: proving and building" >&2
    log=$(mktemp)
    # an older one must not stand for it where a proof fails; without words the program only says its usage
    rm -f "$program"
    (cd "$top/crates/$1" && rt run) >"$log" 2>&1 </dev/null || true
    if [ ! -x "$program" ]; then
      cat "$log" >&2
      rm -f "$log"
      return 1
    fi
    rm -f "$log"
  fi
  echo "$program"
}

# Runs a command three times, its output into a file, and sets `seconds` to the median of the processor's and `peak` to
# the greatest peak of memory in KB. With a solver's words the two run in turn, and `reader` is the solver's seconds.
measured() { # output, words, words of `reading_solver`
  local figures
  figures=$(python3 "$here/measured.py" 3 "$@") || return 1
  {
    read -r seconds peak
    read -r reader _ || true
  } <<<"$figures"
}

# Sets `solver` to the words of a solver that only reads a file of hard clauses; none where it is not installed.
reading_solver() { # file of hard clauses
  solver=()
  if command -v cadical >/dev/null; then
    solver=(-- /dev/null cadical -n -q -c 0 -d 0 --lucky=0 --plain "$1")
  fi
}

# Sets `clauses` and `literals` to the sizes of an instance, and writes its hard clauses for solvers.
sized() { # instance, file of hard clauses
  local figures
  figures=$(python3 "$here/sizes.py" "$@") || return 1
  read -r clauses literals <<<"$figures"
}
