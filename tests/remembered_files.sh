#!/usr/bin/env bash
# A call that changes files reads short ones once, if they were changed last before it began: its
# system calls a file are counted by strace. Then a file is changed while a call stands still, once
# it has planned and before it writes the file: in its place and to the same length, also with its
# time set back, or by another file of the same length and time. Nothing of such a change may be
# lost. The call sees it, as it does where it reads a file again: it changes its own lines and keeps
# the others, or it is interrupted and the file stays as the other program left it. Then
# `recover --skip-moved` leads out. Or a file is changed a moment before the call, to the same
# length: the call sees it, and reads what was written in its own moment anew. Prints how many
# changes were kept and how many system calls a file takes; ends with status 1 at the first fault.
# usage: tests/remembered_files.sh PROGRAM
# The tags below are data: REUSE-IgnoreStart
set -euo pipefail
. "$(dirname "$0")/common.sh"
wants strace strace
tree=$room/tree
annotate=(annotate -l MIT -r .)
kept=0 interrupted=0

# Makes files of so many lines each, that were changed last before any call from now on.
make_tree() {
  local k
  rm -rf "$tree"
  mkdir "$tree"
  for ((k = 100; k < 100 + $1; k++)); do seq "$k" "$((k + $2))" > "$tree/$k.py"; done
  sleep 0.1
}

# How many system calls this call makes on the tree
calls_of() {
  strace -f -qq -o "$room/trace" "$program" --root "$tree" --no-sync "$@" > "$room/out"
  wc -l < "$room/trace"
}

# The system calls a file of a step, its undoing and its redoing, in files of so many lines: those
# of 300 files without those of 100
count_calls() {
  local call few
  local -A of_few=()
  make_tree 100 "$1"
  for call in "${annotate[*]}" undo redo; do
    sleep 0.1
    # shellcheck disable=SC2086
    of_few[$call]=$(calls_of $call)
  done
  make_tree 300 "$1"
  for call in "${annotate[*]}" undo redo; do
    sleep 0.1
    few=${of_few[$call]}
    # shellcheck disable=SC2086
    echo "$(((($(calls_of $call) - few) + 100) / 200))"
  done | paste -sd ' '
}

# Ways in which another program changes a file: its last byte but the line end
in_place() {
  printf 'y' | dd of="$1" bs=1 seek=$(($(stat -c %s "$1") - 2)) conv=notrunc status=none
}
in_what_goes() { printf 'y' | dd of="$1" conv=notrunc status=none; }
in_place_with_its_time() {
  touch -r "$1" "$room/time"
  in_place "$1"
  touch -r "$room/time" "$1"
}
by_another_file() {
  cp -p "$1" "$room/other"
  in_place_with_its_time "$room/other"
  mv "$room/other" "$1"
}

# Waits until the run stands still; not if it has ended.
stands_still() {
  local state='' times=0
  while ((times < 3)) && read -r state < "/proc/$1/stat" && [[ $state != *') Z '* ]]; do
    if [[ $state == *') '[tT]' '* ]]; then times=$((times + 1)); else times=0; fi
    sleep 0.01
  done 2> /dev/null
  ((times == 3))
}

# Lets the run go on until it has ended.
go_on() {
  local state
  while read -r state < "/proc/$1/stat" && [[ $state != *') Z '* ]]; do
    kill -CONT "$1"
    sleep 0.01
  done 2> /dev/null || true
}

# This call, which stands still behind its first rename, that of the entry, while a file is changed
# in this way
change_during() {
  local way=$1 file=$tree/102.py pid status=0 name left
  shift
  name="$1 while a file is changed $way"
  sleep 0.1
  strace -D -qq -o "$room/trace" -e trace=rename -e inject=rename:signal=STOP:when=1 \
    "$program" --root "$tree" --no-sync "$@" > "$room/out" 2>&1 &
  pid=$!
  stands_still $pid || fail "$name: the call doesn't stand still"
  "$way" "$file"
  left=$(sha256sum < "$file")
  tail -n 2 "$file" > "$room/last"
  go_on $pid
  wait $pid || status=$?
  tail -n 2 "$file" | cmp -s - "$room/last" || fail "$name: the change is lost"
  if ((status == 1)); then
    grep -q '^reuse-undo: interrupted' "$room/out" || fail "$name: $(< "$room/out")"
    [[ $(sha256sum < "$file") == "$left" ]] || fail "$name: the file isn't left as it was"
    interrupted=$((interrupted + 1))
  elif ((status != 0)); then
    fail "$name: status $status"
  fi
  "$program" --root "$tree" recover --skip-moved > "$room/out" || fail "$name: no recovery"
  kept=$((kept + 1))
}

change_files() {
  local way
  for way in in_place in_place_with_its_time by_another_file; do
    make_tree 5 "$1"
    change_during "$way" "${annotate[@]}"
    make_tree 5 "$1"
    "$program" --root "$tree" --no-sync "${annotate[@]}" > "$room/out"
    change_during "$way" undo
    if [[ $way == in_place ]]; then
      # The header is taken away, so a change in it can't be kept beside.
      make_tree 5 "$1"
      "$program" --root "$tree" --no-sync "${annotate[@]}" > "$room/out"
      change_during in_what_goes undo
    fi
    make_tree 5 "$1"
    "$program" --root "$tree" --no-sync "${annotate[@]}" > "$room/out"
    "$program" --root "$tree" --no-sync undo > "$room/out"
    change_during "$way" redo
  done
}

# A file is changed a moment before a call, and to the same length: the call sees that text.
change_before() {
  local round file=$tree/102.py
  for ((round = 0; round < 20; round++)); do
    make_tree 5 20
    printf '%s\n' {1..9} 'x = 1' > "$file"
    printf '%s\n' {1..9} 'y = 2' > "$file"
    "$program" --root "$tree" --no-sync "${annotate[@]}" > "$room/out"
    [[ $(tail -n 1 "$file") == 'y = 2' ]] || fail 'a change right before annotate is lost'
    in_place "$file"
    "$program" --root "$tree" --no-sync undo > "$room/out" 2>&1 &&
      fail 'undo takes a file that was changed right before for its own'
    "$program" --root "$tree" --no-sync revert 1 > "$room/out"
    [[ $(tail -n 1 "$file") == 'y = y' && $(head -n 1 "$file") == 1 ]] ||
      fail 'a change right before undo and revert is lost'
    kept=$((kept + 2))
  done
}

# How many system calls a file takes that was written in the very moment of the call, as its time
# says: it is read anew.
count_fresh() {
  local few many
  make_tree 100 3
  touch -d '+10 seconds' "$tree"/*.py
  few=$(calls_of "${annotate[@]}")
  make_tree 300 3
  touch -d '+10 seconds' "$tree"/*.py
  many=$(calls_of "${annotate[@]}")
  echo "$(((many - few + 100) / 200))"
}

short=$(count_calls 3)
fresh=$(count_fresh)
long=$(count_calls 20000)
change_files 3
change_files 20000
change_before
((fresh >= ${short%% *} + 4)) || fail "a file written right before takes $fresh system calls"
read -r -a each <<< "$short"
for calls in "${each[@]}"; do
  ((calls <= 13)) || fail "a short file takes $short system calls"
done
echo "$kept changes beside a call were kept, $interrupted of them by an interruption; system calls a" \
  "file in annotate, undo and redo: $short of short files, $long of long ones; $fresh in annotate" \
  "of short ones that were written right before"
