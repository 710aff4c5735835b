#!/usr/bin/env bash
# Makes each system call of a run fail, one at a time, and kills the program at each; by strace. The
# next call must open the journal, and find tree and log as they were before the run or as they are
# after it. The runs are calls on three files and a dep5, and openings after a kill. Some of the
# journals have steps of both formats. No run ends well of which a sync fails, or each sync from one
# on. With --no-sync a run makes no sync. Prints how many calls failed; ends with status 1 at the
# first fault.
# usage: tests/fail_system_calls.sh PROGRAM
# The tags below are data: REUSE-IgnoreStart
set -euo pipefail
. "$(dirname "$0")/common.sh"
wants strace strace
calls=(openat read write close fchmod fchown statx newfstatat getdents64 rename renameat renameat2
  link linkat unlink unlinkat mkdir mkdirat fsync fdatasync)

# Runs the program on the tree with this fault of this system call at its Nth time.
run_with() {
  local fault=$1 call=$2 number=$3
  shift 3
  # The braces keep bash from telling each kill.
  {
    strace -f -qq -o "$room/trace" -e "trace=$call" -e "inject=$call:$fault:when=$number" \
      "$program" --root "$room/tree" "$@" > "$room/out" 2>&1
  } 2> /dev/null
}

# Makes `$room/NAME` that of `$room/FROM`.
stand() {
  rm -rf "${room:?}/$1"
  cp -a "$room/$2" "$room/$1"
}

# Makes `$room/NAME` from `$room/FROM` by a run that is killed when it renames a file the Nth time. A
# file that is made takes its name by a link.
make_killed() {
  stand tree "$2"
  run_with signal=KILL rename "$3" "${@:4}" || true
  is_pending "$room/tree" || fail "${*:4} is not pending after a kill at rename $3"
  mv "$room/tree" "$room/$1"
}

# Notes the states before and after a run that begins with the tree `$room/FROM`.
note_states() {
  stand copy "$1"
  "$program" --root "$room/copy" "${@:2}" > "$room/out" 2>&1 ||
    fail "${*:2} on $1 is refused: $(cat "$room/out")"
  after=$(state_of "$room/copy")
  # Opening a tree that a kill has left takes it back.
  stand copy "$1"
  before=$(state_of "$room/copy")
}

# Tries each fault of a run that begins with the tree `$room/FROM`.
try_all() {
  local from=$1 call fault number status found as_before=0 as_after=0
  note_states "$@"
  shift
  for call in "${calls[@]}"; do
    for fault in error=EIO signal=KILL; do
      for ((number = 1; ; number++)); do
        stand tree "$from"
        status=0
        run_with $fault $call $number "$@" || status=$?
        if ((status != 137)) && ! grep -q INJECTED "$room/trace"; then break; fi
        found=$(state_of "$room/tree") ||
          fail "$* on $from, $call $number $fault: the log is refused"
        if [[ $found == "$after" ]]; then
          as_after=$((as_after + 1))
        elif [[ $found == "$before" ]] && ((status != 0)); then
          as_before=$((as_before + 1))
        else
          fail "$* on $from, $call $number $fault, status $status: not as it may be"
        fi
      done
    done
  done
  echo "$* on $from: $((as_before + as_after)) faults; found as before $as_before, as after" \
    "$as_after"
}

# Makes each sync fail of a run that begins with the tree `$room/FROM`, alone and with all syncs of
# that name after it: the status tells it.
fail_syncs() {
  local from=$1 call number more status found count=0
  note_states "$@"
  shift
  for call in fsync fdatasync; do
    for ((number = 1; ; number++)); do
      for more in '' +; do
        stand tree "$from"
        status=0
        run_with error=EIO $call $number$more "$@" || status=$?
        grep -q INJECTED "$room/trace" || break 2
        ((status != 0)) || fail "$* on $from, $call $number$more fails: status 0"
        "$program" --root "$room/tree" log > "$room/out" 2>&1 ||
          fail "$* on $from, $call $number$more fails: the log is refused"
        # A folder that was made stays, and is no part of the tree.
        find "$room/tree" -mindepth 1 -type d -empty -delete
        found=$(state_of "$room/tree")
        [[ $found == "$after" || $found == "$before" ]] ||
          fail "$* on $from, $call $number$more fails: not as it may be"
        count=$((count + 1))
      done
    done
  done
  ((count)) || fail "$* on $from makes no sync"
  echo "$* on $from: $count runs with syncs that fail, and none ends well"
}

# The run with --no-sync ends well where each sync would fail, and makes none.
leave_syncs_out() {
  local from=$1
  note_states "$@"
  shift
  stand tree "$from"
  run_with error=EIO fsync,fdatasync,sync,syncfs,sync_file_range,msync 1+ "$1" --no-sync "${@:2}" ||
    fail "$1 --no-sync ${*:2} on $from: $(cat "$room/out")"
  [[ ! -s $room/trace ]] ||
    fail "$1 --no-sync ${*:2} on $from makes a sync: $(head -n 1 "$room/trace")"
  [[ $(state_of "$room/tree") == "$after" ]] || fail "$1 --no-sync ${*:2} on $from: not as after it"
}

mkdir -p "$room/plain"
echo 'x = 1' > "$room/plain/a.py"
printf 'int y;\n' > "$room/plain/b.c"
echo '{}' > "$room/plain/c.json"
make_dep5 "$room/plain"
mkdir "$room/texts"
echo 'Permission is granted' > "$room/texts/MIT.txt"
annotate=(annotate -c "Jane Doe" -l MIT -y 2024 -r .)
cp -a "$room/plain" "$room/done"
"$program" --root "$room/done" "${annotate[@]}" > "$room/out"
cp -a "$room/done" "$room/undone"
"$program" --root "$room/undone" undo > "$room/out"
# A step of an earlier version, then one of this
cp -a "$room/done" "$room/mixed"
as_format_1 "$room/mixed"
"$program" --root "$room/mixed" annotate -c "Max Roe" -r . > "$room/out"
cp -a "$room/mixed" "$room/older"
"$program" --root "$room/older" undo > "$room/out"
# The last renaming of each call is that of the head; c.json.license, which is made, has none.
make_killed killed_annotate plain 5 "${annotate[@]}"
make_killed killed_undo done 4 undo
make_killed killed_redo undone 4 redo
make_killed killed_older older 4 undo
# A step below another one, with a file that was edited and one that can't be taken back
cp -a "$room/done" "$room/edited"
"$program" --root "$room/edited" convert-dep5 > "$room/out"
echo 'y = 2' >> "$room/edited/a.py"
cp -a "$room/edited" "$room/stuck"
echo '# SPDX-License-Identifier: ISC' > "$room/stuck/c.json.license"
make_killed killed_revert edited 5 revert 1

try_all plain "${annotate[@]}"
try_all plain convert-dep5
try_all done undo
try_all undone redo
try_all mixed undo
try_all older undo
try_all older redo
try_all edited revert 1
try_all stuck revert --skip-moved 1
try_all stuck revert --skip-moved --dry-run --diff 1
try_all edited show --diff 1
try_all mixed forget 1
try_all older forget --all
for name in killed_annotate killed_undo killed_redo killed_older killed_revert; do
  try_all $name log
done
try_all killed_annotate recover
try_all killed_undo recover --skip-moved

for name in killed_annotate killed_undo killed_redo killed_older killed_revert; do
  fail_syncs $name log
done
fail_syncs killed_annotate recover
fail_syncs killed_undo recover --skip-moved
runs=('plain "${annotate[@]}"' 'plain convert-dep5' 'plain download --texts "$room/texts" MIT'
  'done undo' 'undone redo' 'mixed undo' 'older redo'
  'edited revert 1' 'stuck revert --skip-moved 1' 'killed_undo undo' 'older forget --all')
for run in "${runs[@]}"; do
  eval "words=($run)"
  fail_syncs "${words[@]}"
  leave_syncs_out "${words[@]}"
done
echo "${#runs[@]} runs with --no-sync make no sync"
