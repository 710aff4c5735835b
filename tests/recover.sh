#!/usr/bin/env bash
# A run is killed in the middle, and a file that it had changed is edited. Then every call is
# refused as moved, and recover is the way out: it is refused alike, and with --skip-moved leaves
# that file, sets the others back, and frees the history. Each round kills an annotate, an amend, an
# undo, a redo or a revert at another put, and edits another of the files that it had changed. A
# recovery that is killed at any of its system calls, or of which one fails, is ended by the next
# one as if it had not been stopped.
# usage: tests/recover.sh PROGRAM [ROUNDS]      (300 rounds by default)
# The tags below are data: REUSE-IgnoreStart
set -euo pipefail
. "$(dirname "$0")/common.sh"
wants strace strace
rounds=${2:-300}
tree=$room/tree
count=12

# Runs a call, and kills it at its Nth rename.
renames=rename,renameat,renameat2
kill_at() {
  local nth=$1
  shift
  {
    strace -f -o "$room/trace" -e trace=$renames -e "inject=$renames:signal=KILL:when=$nth" \
      "$program" --root "$tree" "$@" > "$room/out" 2>&1
  } 2> /dev/null || true
}

# Makes `$tree` that of `$room/FROM`.
stand() {
  rm -rf "$tree"
  cp -a "$room/$1" "$tree"
}

# Without a pending step nothing happens
files a.py 'x = 1\n' b.py 'y = 2\n'
is "$(answer_of recover)" $'nothing changed\nstatus 0' "without a journal"
"$program" --root "$tree" annotate -l MIT -r . > "$room/out"
is "$(answer_of recover --skip-moved)" $'nothing changed\nstatus 0' "without a pending step"
is "$(answer_of log | sed 's/[0-9-]\{10\}/DATE/')" $'1 DATE annotate 2 done\nstatus 0' \
  "the log afterwards"

# A tree with a step that is done, and the same with that step undone
files
for ((k = 0; k < count; k++)); do
  seq -f "line = %.0f" $((k + 3)) > "$tree/f$(printf %02d $k).py"
done
"$program" --root "$tree" annotate -c 'Jane Doe' -y 2020 -r . > "$room/out"
cp -a "$tree" "$room/done"
"$program" --root "$tree" undo > "$room/out"
cp -a "$tree" "$room/undone"

# One round, in the words of the call, which is killed while it changes files; whether a file was
# changed by then. The call's first renames are those of an entry, if it has one, and of the head.
round_of() {
  local from=$1 first=$2 edited log changed expected call
  shift 2
  stand "$from"
  log=$(answer_of log)
  kill_at $((first + 1 + RANDOM % count)) "$@"
  is_pending "$tree" || return 1
  mapfile -t changed < <(diff -rq "$room/$from" "$tree" |
    sed -nE 's/^Files .*\/'"$from"'\/(f[0-9]+\.py) and .*/\1/p')
  ((${#changed[@]})) || return 1
  edited=${changed[RANDOM % ${#changed[@]}]}
  sed -i '1s/^/# edited\n/' "$tree/$edited"
  rm -rf "$room/stuck"
  cp -a "$tree" "$room/stuck"
  for call in log undo 'annotate -l ISC -r .' 'show 1' recover; do
    # shellcheck disable=SC2086
    is "$(answer_of $call)" "reuse-undo: $edited: moved"$'\nstatus 1' "$call with a stuck step"
  done
  diff -r "$room/stuck" "$tree" > "$room/out" || fail "a refused call changed the tree"
  expected=$(for file in "${changed[@]}"; do [[ $file == "$edited" ]] ||
    echo "set back $file"; done)
  [[ -n $expected ]] || expected='nothing changed'
  is "$(answer_of recover --skip-moved)" "$expected"$'\n'"skipped $edited"$'\nstatus 0' \
    "recover --skip-moved"
  is \
    "$(diff -rq -x .reuse "$room/$from" "$tree" |
      sed -E 's/.* and .*\/(f[0-9]+\.py) differ/\1/')" "$edited" "the files that differ afterwards"
  cmp -s "$room/stuck/$edited" "$tree/$edited" || fail "the edited file isn't left"
  is "$(answer_of log)" "$log" "the log afterwards"
  is "$(answer_of recover)" $'nothing changed\nstatus 0' "recover once more"
  "$program" --root "$tree" annotate -l MIT -r . > "$room/out" || fail "no call goes on"
}

stuck=0
for ((round = 0; stuck < rounds; round++)); do
  ((round < 3 * rounds + 20)) || fail "only $stuck of $round rounds left a stuck step"
  case $((round % 5)) in
    0) call=("done" 2 annotate -l MIT -r .) ;;
    1) call=("done" 2 amend --replace-holder 'Jane Doe' 'Jane Roe' -r .) ;;
    2) call=("done" 1 undo) ;;
    3) call=(undone 1 redo) ;;
    4) call=("done" 2 revert 1) ;;
  esac
  ! round_of "${call[@]}" || stuck=$((stuck + 1))
done

# Without an edit, recover does what each opening does
files a.py 'x = 1\n' b.py 'y = 2\n' c.py 'z = 3\n'
cp -a "$tree" "$room/clean"
kill_at 5 annotate -l MIT -r .
is_pending "$tree" || fail "the run wasn't killed in the middle"
rm -rf "$room/stuck"
cp -a "$tree" "$room/stuck"
answer_of recover > "$room/said"
diff -r -x .reuse "$room/clean" "$tree" > "$room/out" ||
  fail "recover without an edit leaves another tree"
grep -q '^set back ' "$room/said" || fail "nothing was set back"

# A recovery that leaves a file, stopped at each of its system calls, and ended by the next one
echo '# edited' >> "$room/stuck/a.py"
stand stuck
is "$(answer_of recover --skip-moved)" $'set back b.py\nskipped a.py\nstatus 0' \
  "recover --skip-moved"
ended=$(state_of "$tree")
stops=0
for call in openat read write close fchmod rename renameat renameat2 unlink unlinkat fsync \
  fdatasync; do
  for fault in error=EIO signal=KILL; do
    for ((number = 1; ; number++)); do
      stand stuck
      status=0
      {
        strace -f -qq -o "$room/trace" -e "trace=$call" -e "inject=$call:$fault:when=$number" \
          "$program" --root "$tree" recover --skip-moved > "$room/out" 2>&1
      } 2> /dev/null || status=$?
      if ((status != 137)) && ! grep -q INJECTED "$room/trace"; then break; fi
      if ((status)); then
        answer_of recover --skip-moved > "$room/said"
        is "$(tail -n 1 "$room/said")" 'status 0' "recover behind $call $number $fault"
      fi
      is "$(state_of "$tree")" "$ended" "recover behind $call $number $fault"
      stops=$((stops + 1))
    done
  done
done
echo "$stuck killed runs ($round rounds) left by recover --skip-moved, each other file as before" \
  "the step; $stops recoveries with a fault, and the next one ends them"
