#!/usr/bin/env bash
# Runs eight processes at once, half of them on a tree and half on a folder within it that is a root
# of its own. No two of them work at the same time: each call ends with its work done, with nothing
# to do, refused since a later change stands there, or refused as `in use by another run`. After
# each round each annotation stands in all of its files or in none, and no step is left pending.
# Ends with status 1 at the first fault.
# usage: tests/nested_runs.sh PROGRAM [ROUNDS] [FILES]      (50 rounds on 300 files by default)
set -euo pipefail
. "$(dirname "$0")/common.sh"
rounds=${2:-50}
files=${3:-300}
outer=$room/tree
inner=$outer/deep/in

# Half of the files in the inner tree
make_tree() {
  rm -rf "$outer"
  mkdir -p "$inner"
  for ((k = 0; k < files; k++)); do
    if ((k % 2)); then
      echo "line = $k" > "$outer/file$k.py"
    else
      echo "line = $k" > "$inner/file$k.py"
    fi
  done
}

# How many files below the root have a header of this holder
marked() { grep -rlF --include='*.py' -- "$1." "$2" | wc -l || true; }

declare -A seen=([done]=0 [idle]=0 [busy]=0 [moved]=0)
make_tree
in_inner=$(find "$inner" -name '*.py' | wc -l)
for ((round = 1; round <= rounds; round++)); do
  for process in {1..8}; do
    sleep "0.0$((RANDOM % 10))"
    root=$outer
    ((process % 2)) || root=$inner
    case $((RANDOM % 5)) in
      0 | 1 | 2)
        in_background $process --root "$root" annotate -c "Holder $round.$process." -l MIT \
          -y 2024 -r .
        ;;
      3) in_background $process --root "$root" undo ;;
      4) in_background $process --root "$root" redo ;;
    esac
  done
  wait
  for process in {1..8}; do
    what=$(outcome $process) && [[ -v seen[$what] ]] ||
      fail \
      "round $round: $(cat "$room/$process.status" "$room/$process.error" "$room/$process.out")"
    seen[$what]=$((seen[$what] + 1))
    all=$files
    ((process % 2)) || all=$in_inner
    count=$(marked "Holder $round.$process" "$outer")
    ((count == 0 || count == all)) ||
      fail "round $round: process $process stands in $count files of $all"
  done
  for root in "$outer" "$inner"; do
    ! is_pending "$root" || fail "round $round: a step is left under way"
    "$program" --root "$root" log > "$room/out" 2>&1 ||
      fail "round $round: the log is refused: $(< "$room/out")"
  done
  ((round % 10)) || make_tree
done
((seen[busy] > 0)) || fail 'no call was refused as in use'
echo "$rounds rounds of eight, half of them in a folder within the tree: ${seen[done]} done," \
  "${seen[busy]} refused as in use," \
  "${seen[moved]} as moved, ${seen[idle]} with nothing to undo or redo"

# Where another process holds a folder above exclusively, a run is refused; where it is shared, or a
# folder within the root is held, it isn't.
make_tree
for held in "$outer" "$outer/deep" "$room"; do
  for kind in -x -s; do
    exec 9< "$held"
    flock -n $kind 9 || fail "$held is in use"
    found=0
    "$program" --root "$inner" log > "$room/out" 2> "$room/error" || found=$?
    case $kind in
      -x)
        [[ $found == 1 && $(< "$room/error") == "$busy" ]] ||
          fail "below a folder that is held: status $found"
        ;;
      -s) [[ $found == 0 ]] || fail "below a folder that is shared: $(< "$room/error")" ;;
    esac
    exec 9<&-
  done
done
exec 9< "$inner"
flock -x 9
"$program" --root "$outer" log > "$room/out" || fail 'above a folder that another process holds'
exec 9<&-
echo 'a folder above that is in use: refused'
