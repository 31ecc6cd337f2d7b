#!/usr/bin/env bash
# Prints the conflicts and the processor's seconds of the solver beside minisat's, on drawn 3-clauses near the threshold and
# on pigeons, or on files of clauses in DIMACS form: bench/solver.sh [FILE]..
set -eu
. "$(dirname "$0")/common.sh"
program=$(built solver_cases)
exec python3 "$here/solver.py" "$program" "$@"
