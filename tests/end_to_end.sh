#!/usr/bin/env bash
# Runs the built program over real files as a user would, and compares what comes on standard output, on standard error, in
# the map and as exit status. Tools that are not installed are left out, with a line that says so. The last line counts.
set -u
here=$(cd "$(dirname "$0")" && pwd) || exit 1
top=$(cd "$here/.." && pwd) || exit 1
maxpre=$top/maxpre
work=$(mktemp -d) || exit 1
trap 'rm -rf "$work"' EXIT
cd "$work" || exit 1
passed=0
failed=0

say_failed() { # what
  failed=$((failed + 1))
  echo "FAILED: $1"
}

# compares two texts
same() { # what, wanted, got
  if [ "$2" = "$3" ]; then
    passed=$((passed + 1))
  else
    say_failed "$1"
    printf 'wanted:\n%s\ngot:\n%s\n' "$2" "$3"
  fi
}

# runs the program, and leaves its status and what it wrote
run() { # words
  "$maxpre" "$@" >out 2>err
  status=$?
}

# a run that ends well writes this, and this as its log
logs() { # what, output, log, words
  local what=$1 output=$2 log=$3
  shift 3
  run "$@"
  same "$what: status" 0 "$status"
  same "$what: output" "$output" "$(cat out)"
  same "$what: standard error" "$log" "$(cat err)"
}

# a run that ends well writes this and says nothing
writes() { # what, output, words
  local what=$1 output=$2
  shift 2
  logs "$what" "$output" "" "$@"
}

# a run that is refused writes nothing, creates no map, and says this
refuses() { # what, status, line, words
  local what=$1 wanted=$2 line=$3
  shift 3
  rm -f new.map
  run "$@"
  same "$what: status" "$wanted" "$status"
  same "$what: standard error" "$line" "$(cat err)"
  same "$what: output" "" "$(cat out)"
  if [ -e new.map ]; then say_failed "$what: a map was created"; else passed=$((passed + 1)); fi
}

left_out() { # what
  echo "left out: $1"
}

"$maxpre" usage >/dev/null 2>&1 # builds it, once; this is no command
if [ ! -x "$top/crates/maxpre/out/maxpre" ]; then
  echo "the program could not be built"
  echo "0 passed, 1 failed"
  exit 1
fi

chain_map='maxpre-map 2
original 2
inner 2
written 0
offset 3
names
repairs 2
1 0 1 0
2 0 2 0
end'

# --- preprocess ---
printf 'h 1 0\nh -1 2 0\n3 -2 0\n' >chain.wcnf
logs "a chain of units" "c offset 3" "c stage u finished 0 0 0
c single" preprocess chain.wcnf --techniques=u --mapfile=chain.map
same "a chain of units: map" "$chain_map" "$(cat chain.map)"
logs "no technique" "c offset 0
h 1 0
h -1 2 0
3 -2 0" "c single" preprocess chain.wcnf '--techniques=#' --mapfile=m
logs "the older form" "c offset 0
p wcnf 2 3 4
4 1 0
4 -1 2 0
3 -2 0" "c single" preprocess chain.wcnf '--techniques=#' --mapfile=m --form=p
printf 'p wcnf 2 3 10\r\n10 1 0\r\nc mid\r\n12 -1 2\r\n0 9 -2 0' >old.wcnf
logs "the older form, read, with CR LF" "c offset 9" "c stage u finished 0 0 0
c single" preprocess old.wcnf --techniques=u --mapfile=m --form=h
: >empty.wcnf
logs "an empty file" "c offset 0" "c stage u finished 0 0 0
c single" preprocess empty.wcnf --techniques=u --mapfile=m
printf 'h 1 0\nh -1 0\n' >clash.wcnf
logs "no model" "c offset 0
h 1 0
h -1 0" "c stage u finished 1 0 0
c refuted" preprocess clash.wcnf --techniques=u --mapfile=m
logs "a loop" "c offset 3" "c stage b finished 2 3 1
c stage u finished 0 0 0
c stage b finished 0 0 0
c stage u finished 0 0 0
c settled" preprocess chain.wcnf '--techniques=[bu]' --mapfile=m
"$maxpre" preprocess /dev/stdin --techniques=u --mapfile=m <chain.wcnf >out 2>err
same "standard input" "0 c offset 3" "$? $(cat out)"
printf 'h 1 0\nh -1 2 0\n3 -2 0\n' | "$maxpre" preprocess /dev/stdin --techniques=u --mapfile=m >out 2>err
same "a pipe as standard input" "0 c offset 3" "$? $(cat out)"
cp chain.map 'a map.txt'
writes "a name with a blank" "s UNKNOWN
v 11" reconstruct /dev/stdin '--mapfile=a map.txt' < <(echo v)

logs "the first version of the map" "c offset 3" "c stage u finished 0 0 0
c single" preprocess chain.wcnf --techniques=u --mapfile=first.map --mapversion=1
same "the first version of the map: map" "${chain_map/map 2/map 1}" "$(cat first.map)"
printf 'h 3 4 0\nh 1 3 0\nh 2 4 0\nh 4 5 0\n5 -3 0\n5 -4 0\n' >core.wcnf
core_map='original 5
inner 5
written 4
offset 5
names 1 2 3 5'
core_ends='3 0 1 3 0
-4 0 -4 0
-3 0 -3 0
end'
logs "a binary core" "c offset 5
h 1 2 3 0
h 1 3 4 0
5 -3 0" "c stage c finished 2 6 1
c single" preprocess core.wcnf --techniques=c --mapfile=core.map
same "a binary core: map" "maxpre-map 2
$core_map
repairs 5
3 0 3 4 0
4 0 2 4 0 4 5 0
$core_ends" "$(cat core.map)"
logs "a binary core, the first version" "c offset 5
h 1 2 3 0
h 1 3 4 0
5 -3 0" "c stage c finished 2 6 1
c single" preprocess core.wcnf --techniques=c --mapfile=core.first --mapversion=1
same "a binary core, the first version: map" "maxpre-map 1
$core_map
repairs 6
3 0 3 4 0
4 0 2 4 0
4 0 4 5 0
$core_ends" "$(cat core.first)"
printf '3 1 2 0\n' >soft.wcnf
logs "a merged label" "c offset 0
3 1 2 0" "c single" preprocess soft.wcnf '--techniques=#' --merge=yes --mapfile=soft.map
same "a merged label: map" "maxpre-map 2
original 2
inner 3
written 2
offset 0
names 1 2
repairs 1
3 0 1 2 3 0
end" "$(cat soft.map)"

# --- upgrade ---
writes "an upgrade" "" upgrade core.first --mapfile=core.new
same "an upgrade: map" "$(cat core.map)" "$(cat core.new)"
writes "an upgrade of what is new" "" upgrade core.map --mapfile=core.again
same "an upgrade of what is new: map" "$(cat core.map)" "$(cat core.again)"

# --- reconstruct ---
printf 's OPTIMUM FOUND\nv\n' >found
writes "values as bits" "s OPTIMUM FOUND
v 11" reconstruct found --mapfile=chain.map
writes "values as literals" "s OPTIMUM FOUND
v 1 2" reconstruct found --mapfile=chain.map --values=literals
writes "the cost in the original" "o 3
s OPTIMUM FOUND
v 1 2" reconstruct found --mapfile=chain.map --original=chain.wcnf --values=literals
printf 'v 1111\n' >paid
writes "a cost below what was written" "o 5
s UNKNOWN
v 11101" reconstruct paid --mapfile=core.map --original=core.wcnf
printf 's UNSATISFIABLE\n' >none
writes "an answer without values" "s UNSATISFIABLE" reconstruct none --mapfile=chain.map

# --- evaluate ---
printf 'v 1 2\n' >literals
writes "the cost of a solution" "o 3
s SATISFIABLE" evaluate chain.wcnf --solution=literals
writes "the cost of a solution on standard input" "o 3
s SATISFIABLE" evaluate chain.wcnf --solution=/dev/stdin < <(echo v 11)

# --- workload ---
logs "no task" "c workload 0
c before 0 0 0
c after 0 0 0
c offset 0
c single" "c single" workload 0 '--techniques=#'
logs "one task" "c workload 1
c before 7 16 1
c after 7 16 1
c offset 0
c single" "c single" workload 01 '--techniques=#'
run workload 300
same "300 tasks" "0 c settled" "$status $(tail -n 1 out)"
cp out first.out
cp err first.err
run workload 300
same "300 tasks again" "$(cat first.out first.err)" "$(cat out err)"

# --- refusals ---
for words in "" help --help -h; do
  # shellcheck disable=SC2086
  run $words
  same "a page of use, ${words:-no words}: status" 0 "$status"
  same "a page of use, ${words:-no words}: first line" "maxpre, a preprocessor for weighted partial MaxSAT" "$(head -n 1 out)"
done
"$top/crates/maxpre/out/maxpre" >out 2>err
same "the program itself, no words: status" 2 "$?"
same "the program itself, no words: standard error" "maxpre: usage: maxpre MODE OPERAND [--NAME=VALUE]" "$(cat err)"
refuses "no map's name for reconstruct" 2 "maxpre: usage: maxpre MODE OPERAND [--NAME=VALUE]" reconstruct found
logs "no map" "c offset 3" "c stage u finished 0 0 0
c single" --techniques=u preprocess chain.wcnf
refuses "a word that isn't UTF-8" 2 "" preprocess $'chain\xff.wcnf' --mapfile=new.map
refuses "an option that isn't UTF-8" 2 "" preprocess chain.wcnf --mapfile=new.map $'--form=\xff'
refuses "an unknown form" 2 "maxpre: usage: maxpre MODE OPERAND [--NAME=VALUE]" preprocess chain.wcnf --techniques=u --mapfile=new.map --form=x
refuses "an option of another mode" 2 "maxpre: usage: maxpre MODE OPERAND [--NAME=VALUE]" preprocess chain.wcnf --techniques=u --mapfile=new.map --values=bits
refuses "a script that is none" 10 "maxpre: script: byte 2" preprocess missing.wcnf '--techniques=[u' --mapfile=new.map
refuses "a version that is none" 2 "maxpre: usage: maxpre MODE OPERAND [--NAME=VALUE]" preprocess chain.wcnf --mapfile=new.map --mapversion=3
refuses "too many tasks" 2 "maxpre: usage: maxpre MODE OPERAND [--NAME=VALUE]" workload 1000001
refuses "no map's name for upgrade" 2 "maxpre: usage: maxpre MODE OPERAND [--NAME=VALUE]" upgrade chain.map
refuses "no solution's name for evaluate" 2 "maxpre: usage: maxpre MODE OPERAND [--NAME=VALUE]" evaluate chain.wcnf
refuses "a missing file" 3 "maxpre: read fault" preprocess missing.wcnf --techniques=u --mapfile=new.map
refuses "a folder" 3 "maxpre: read fault" preprocess . --techniques=u --mapfile=new.map
refuses "a missing map" 3 "maxpre: read fault" reconstruct found --mapfile=missing.map
refuses "a missing original" 3 "maxpre: read fault" reconstruct found --mapfile=chain.map --original=missing.wcnf
refuses "a missing solution" 3 "maxpre: read fault" evaluate chain.wcnf --solution=missing
refuses "a missing map to upgrade" 3 "maxpre: read fault" upgrade missing.map --mapfile=new.map
printf '3 1 0\nh 1 2\n' >bad.wcnf
refuses "a clause that doesn't end" 5 "maxpre: instance: line 2" preprocess bad.wcnf --techniques=u --mapfile=new.map
printf 'h 8388608 0\n' >large.wcnf
refuses "a variable past the limit" 6 "maxpre: limit: variables 8388607" preprocess large.wcnf --techniques=u --mapfile=new.map
printf '170141183460469231731687303715884105727 1 0\n1 2 0\n' >heavy.wcnf
refuses "weights past the limit" 6 "maxpre: limit: weight 170141183460469231731687303715884105727" preprocess heavy.wcnf --techniques=u --mapfile=new.map
head -7 chain.map >cut.map
refuses "a map that is cut" 7 "maxpre: map: line 7" reconstruct found --mapfile=cut.map
(cat chain.map && echo more) >long.map
refuses "a map that goes on" 7 "maxpre: map: line 11" reconstruct found --mapfile=long.map
refuses "a map that goes on, to upgrade" 7 "maxpre: map: line 11" upgrade long.map --mapfile=new.map
printf 's OPTIMUM FOUND\ns UNKNOWN\nv\n' >twice
refuses "two answers" 8 "maxpre: solution: line 2" reconstruct twice --mapfile=chain.map
printf 's SATISFIABLE\n' >silent
refuses "an answer whose values are missing" 8 "maxpre: solution: line 1" reconstruct silent --mapfile=chain.map
refuses "nothing to evaluate" 8 "maxpre: solution: line 1" evaluate chain.wcnf --solution=none
echo v 10 >wrong
refuses "values that are no model" 9 "maxpre: not a model: hard clause 2" evaluate chain.wcnf --solution=wrong
printf 'h -1 0\n' >other.wcnf
refuses "values that are no model of the original" 9 "maxpre: not a model: hard clause 1" reconstruct found --mapfile=chain.map --original=other.wcnf
if (ulimit -v 400000) 2>/dev/null && command -v python3 >/dev/null; then
  python3 "$top/bench/clauses.py" 300000 >many.wcnf
  # room for the program itself, and not for what it would hold
  (ulimit -v 30000 && exec "$maxpre" preprocess many.wcnf --techniques=u --mapfile=new.map) >out 2>err
  same "too little memory" "1 maxpre: out of memory" "$? $(cat err)"
else
  left_out "too little memory (no limit can be set here, or no python3)"
fi
free_kb=$(awk '/MemAvailable/ { print $2 }' /proc/meminfo 2>/dev/null || echo 0)
if [ "${free_kb:-0}" -gt 14000000 ] && truncate -s 4294967296 endless.wcnf 2>/dev/null; then
  refuses "a file past the greatest length" 11 "maxpre: input too long" preprocess endless.wcnf --techniques=u --mapfile=new.map
  rm -f endless.wcnf
else
  left_out "a file past the greatest length (it needs 14 GB of memory)"
fi

# --- writes that fail: status 4, and nothing said ---
run preprocess chain.wcnf --techniques=u --mapfile=missing/new.map
same "a map that can't be created" "4  " "$status $(cat out) $(cat err)"
if [ -w /dev/full ]; then
  "$maxpre" preprocess chain.wcnf --techniques=u --mapfile=full.map >/dev/full 2>err
  same "a full device" "4 " "$? $(cat err)"
  same "a full device: the map is whole" "$chain_map" "$(cat full.map)"
  run preprocess chain.wcnf --techniques=u --mapfile=/dev/full
  same "a map on a full device" "4  " "$status $(cat out) $(cat err)"
  "$maxpre" reconstruct found --mapfile=chain.map >/dev/full 2>err
  same "a solution to a full device" "4 " "$? $(cat err)"
  "$maxpre" evaluate chain.wcnf --solution=literals >/dev/full 2>err
  same "a cost to a full device" "4 " "$? $(cat err)"
  run upgrade chain.map --mapfile=/dev/full
  same "an upgrade to a full device" "4  " "$status $(cat out) $(cat err)"
else
  left_out "a full device (no /dev/full)"
fi
exec 3> >(exit 0)
sleep 1 # so that its reader is gone
"$maxpre" preprocess chain.wcnf --techniques=u --mapfile=m >&3 2>err
same "a closed pipe" "4 " "$? $(cat err)"
exec 3>&-
"$maxpre" preprocess chain.wcnf --techniques=u --mapfile=m >&- 2>err
same "a closed output" "4 " "$? $(cat err)"

# --- the round trip of each example: by the solution file beside it, and with a solver where one is installed ---
for example in "schedule 10" "release 7" "adder 3"; do
  name=${example% *}
  optimum=${example#* }
  wcnf=$top/examples/$name.wcnf
  run preprocess "$wcnf" --techniques=u --mapfile="$name.map" --form=p
  same "$name: preprocessed" 0 "$status"
  cp out "$name.smaller"
  run reconstruct "$top/examples/$name.solution" --mapfile="$name.map"
  same "$name: reconstructed" "0 $(cat "$top/examples/$name.reconstructed")" "$status $(cat out)"
  cp out "$name.back"
  writes "$name: the cost of the reconstructed model, evaluated" "o $optimum
s SATISFIABLE" evaluate "$wcnf" "--solution=$name.back"
  if command -v python3 >/dev/null; then
    same "$name: the cost of the reconstructed model" "$optimum" "$(python3 "$here/cost.py" "$wcnf" "$name.back")"
  else
    left_out "$name: its cost (no python3)"
  fi
  if command -v clasp >/dev/null && command -v python3 >/dev/null; then
    for script in u '[bu]#[buvsrgc]'; do
      "$maxpre" preprocess "$wcnf" "--techniques=$script" --mapfile="$name.map" --form=p >"$name.smaller" 2>err
      clasp -q1 "$name.smaller" >solved
      run reconstruct solved --mapfile="$name.map"
      same "$name, $script: solved and reconstructed" 0 "$status"
      same "$name, $script: the optimum" "$optimum" "$(python3 "$here/cost.py" "$wcnf" out)"
    done
  else
    left_out "$name: solved by clasp (not installed)"
  fi
done

# --- the whole way in one command ---
"$top/solve" >out 2>err
same "solve, no words: status" 0 "$?"
"$top/solve" clasp missing.wcnf >out 2>err
same "solve, no such file: status" 1 "$?"
same "solve, no such file: output" "" "$(cat out)"
cat >first_and_better <<'SOLVER'
#!/bin/sh
# a solver that prints each better model on its way: of an instance with one soft clause that every model can meet
printf 'c working\no 1\nv 0\no 0\nv 1\ns OPTIMUM FOUND\n'
exit 30
SOLVER
chmod +x first_and_better
printf 'h 1 2 0\n1 1 0\n' | gzip -c >packed.wcnf.gz
FORM=h "$top/solve" "$PWD/first_and_better {}" packed.wcnf.gz "#" >out 2>err
same "solve, a packed instance and a solver that improves: status" 30 "$?"
same "solve, a packed instance and a solver that improves: output" "o 0
s OPTIMUM FOUND
v 1 -2" "$(cat out)"
for solver in clasp sat4j toulbar2; do
  case $solver in sat4j) needs=/usr/share/java/org.ow2.sat4j.maxsat.jar ;; *) needs=$(command -v $solver) ;; esac
  if [ ! -e "$needs" ]; then
    left_out "solve by $solver (not installed)"
    continue
  fi
  for pair in schedule:10 release:7 adder:3; do
    "$top/solve" "$solver" "$top/examples/${pair%:*}.wcnf" >out 2>err
    same "solve, $solver, ${pair%:*}: status" 30 "$?"
    same "solve, $solver, ${pair%:*}: the optimum" "o ${pair#*:}" "$(grep '^o' out)"
  done
done

echo "$passed passed, $failed failed"
[ "$failed" -eq 0 ]
