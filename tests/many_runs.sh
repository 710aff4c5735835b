#!/usr/bin/env bash
# Runs several processes at once on one tree. Each call ends with its work done, with nothing to do,
# or refused as `in use by another run`, and a refused one changes nothing. After each round the
# journal opens with no step under way, and undoing all gives the first tree byte for byte. A log
# during an annotate never takes its files back, and a killed run leaves no lock. Ends with status 1
# at the first fault.
# usage: tests/many_runs.sh PROGRAM [ROUNDS] [FILES]      (50 rounds on 2,000 files by default)
set -euo pipefail
. "$(dirname "$0")/common.sh"
rounds=${2:-50}
files=${3:-2000}
tree=$room/tree

# The files, in folders of a hundred
mkdir "$tree"
for ((k = 0; k < files; k++)); do
  ((k % 100)) || mkdir "$tree/folder$((k / 100))"
  echo "line = $k" > "$tree/folder$((k / 100))/file$k.py"
done

# One checksum over all names, bits and bytes outside of the journal
all_files() { tar -C "$tree" --sort=name --mtime=@0 --exclude=./.reuse -cf - . | sha256sum; }

# Makes a call on the tree in the background.
start() { in_background "$1" --root "$tree" "${@:2}"; }

# Takes every step back.
undo_all() {
  while "$program" --root "$tree" undo > "$room/out" 2> "$room/error"; do :; done
  [[ $(< "$room/error") == 'reuse-undo: nothing to undo' ]] ||
    fail "undo of all: $(< "$room/error")"
}

# Takes every step back after a part of the script, which gives the first tree.
undo_to_first() {
  undo_all
  [[ $(all_files) == "$first" ]] || fail "undo of all after $1 gives another tree"
}

first=$(all_files)
logs=0
kills=0
declare -A seen=([done]=0 [idle]=0 [busy]=0)
for ((round = 1; round <= rounds; round++)); do
  for process in {1..8}; do
    case $((RANDOM % 6)) in
      0 | 1 | 2) start $process annotate -c "Holder $round.$process" -l MIT -y 2024 -r . ;;
      3) start $process undo ;;
      4) start $process redo ;;
      5) start $process log ;;
    esac
  done
  wait
  for process in {1..8}; do
    what=$(outcome $process) && [[ -v seen[$what] ]] ||
      fail \
      "round $round: $(cat "$room/$process.status" "$room/$process.error" "$room/$process.out")"
    seen[$what]=$((seen[$what] + 1))
  done
  ! is_pending "$tree" || fail "round $round: a step is left under way"
  "$program" --root "$tree" log > "$room/out" 2>&1 ||
    fail "round $round: the log is refused: $(< "$room/out")"
  if ((round % 10 == 0)); then
    undo_to_first "round $round"
    rm -r "$tree/.reuse"
  fi
done
undo_to_first 'the rounds'
echo "$rounds rounds of eight on $files files: ${seen[done]} done, ${seen[busy]} refused as in" \
  "use, ${seen[idle]} with nothing to undo or redo"

# Logs while an annotate runs: it does what it tells, whatever they see.
for round in {1..10}; do
  start annotate annotate -c "Holder $round" -l MIT -y 2024 -r .
  while [[ ! -e $room/annotate.status ]]; do
    "$program" --root "$tree" log > "$room/out" 2> "$room/error" ||
      [[ $(< "$room/error") == "$busy" && ! -s $room/out ]] ||
      fail "a log during an annotate: $(< "$room/error")"
    logs=$((logs + 1))
  done
  wait
  case $(outcome annotate) in
    done)
      [[ $(wc -l < "$room/annotate.out") == "$files" ]] ||
        fail 'annotate tells another number of files'
      [[ $(grep -rl "Holder $round\$" "$tree" --include=*.py | wc -l) == "$files" ]] ||
        fail 'a log took files of an annotate back'
      ;;
    busy) ;;
    *) fail "annotate beside logs: $(< "$room/annotate.error")" ;;
  esac
  rm "$room/annotate.status"
done
undo_to_first 'the logs'
echo "10 annotations with $logs logs beside them: none is taken back"

# A killed run leaves no lock: the very next call is made.
for round in {1..20}; do
  "$program" --root "$tree" annotate -c "Holder $round" -l MIT -y 2024 -r . > "$room/out" \
    2> "$room/error" &
  run=$!
  sleep "0.0$((RANDOM % 90 + 10))"
  if kill -KILL $run 2> "$room/kill"; then kills=$((kills + 1)); fi
  wait $run 2> "$room/wait" || :
  "$program" --root "$tree" log > "$room/out" 2>&1 ||
    fail "the log after a killed run: $(< "$room/out")"
done
undo_to_first 'killed runs'
echo "$kills runs killed: the next call is made each time"

# No file is left behind by the lock: a log on a tree without a journal makes nothing.
rm -rf "$tree/.reuse"
"$program" --root "$tree" log > "$room/out"
[[ $(all_files) == "$first" && ! -e $tree/.reuse ]] || fail 'a log leaves a file'
# Where another process holds the lock, each subcommand is refused and reads nothing; help and wrong
# words need none.
exec 9< "$tree"
flock -x 9
calls=('annotate -l MIT .' 'amend --until 2026 .' 'styles --add' convert-dep5
  "download --texts $room MIT" undo redo 'revert 1' recover 'forget 1' log 'show 1')
[[ $(help_subcommands | grep -vxc help) == "${#calls[@]}" ]] || fail 'help has other subcommands'
for call in "${calls[@]}"; do
  found=0
  # shellcheck disable=SC2086
  "$program" --root "$tree" $call > "$room/out" 2> "$room/error" || found=$?
  [[ $found == 1 && ! -s $room/out && $(< "$room/error") == "$busy" ]] ||
    fail "$call on a tree in use: status $found, $(< "$room/error")"
done
"$program" --root "$tree" --help > "$room/out" || fail 'help needs the lock'
! "$program" --root "$tree" annotate . > "$room/out" 2> "$room/error" || fail 'nothing is added'
[[ $(< "$room/error") == 'reuse-undo: nothing to add' ]] || fail 'wrong words need the lock'
exec 9<&-
"$program" --root "$tree" log > "$room/out" || fail 'the lock is not free again'
echo "a tree in use: each of ${#calls[@]} subcommands is refused"
