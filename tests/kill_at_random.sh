#!/usr/bin/env bash
# Kills the program at random times. The next call must open the journal, and find tree and log as
# they were before the call that was killed or as they are after it. In some rounds the opening, a
# log or a recovery, is killed too. Prints what was seen; ends with status 1 at the first fault.
# usage: tests/kill_at_random.sh PROGRAM [ROUNDS]      (300 rounds by default)
set -euo pipefail
. "$(dirname "$0")/common.sh"
rounds=${2:-300}

# Some hundred files, and a dep5
for k in {1..16}; do
  mkdir -p "$room/tree/folder$k"
  for j in {1..16}; do
    seq -f "line = %.0f" $((k * j)) > "$room/tree/folder$k/file$j.py"
    printf 'int f%s(void);\n' "$j" > "$room/tree/folder$k/file$j.c"
  done
  printf '{"number": %s}\n' "$k" > "$room/tree/folder$k/data.json"
done
chmod 700 "$room/tree/folder1/file1.py"
make_dep5 "$room/tree"
# The first step is one of an earlier version, so that both formats of the journal are gone through.
"$program" --root "$room/tree" annotate -c 'First Holder' -l MIT -r . > "$room/out"
as_format_1 "$room/tree"

# Runs a call, and kills it after a random time, up to one and a half times the given one. The times
# are microseconds.
kill_call() {
  local most=$(($1 * 3 / 2)) limit
  shift
  limit=$(((RANDOM * 32768 + RANDOM) % most + 1))
  timeout --foreground -s KILL "$(printf '%d.%06d' $((limit / 1000000)) $((limit % 1000000)))" \
    "$program" "$@" > "$room/out" 2>&1 || {
    if (($? == 137)); then killed=$((killed + 1)); fi
  }
}

killed=0 openings=0 pending=0 was_before=0 was_after=0
before=$(state_of "$room/tree")
round=0
while ((round < rounds)); do
  case $((RANDOM % 11)) in
    0 | 1) call=(annotate -c "Holder $round" -l MIT -y 2024 -r .) ;;
    2 | 3 | 4) call=(undo) ;;
    5) call=(redo) ;;
    6) call=(convert-dep5) ;;
    7) call=(revert $((RANDOM % (round + 1) + 1))) ;;
    8) call=(revert --skip-moved $((RANDOM % (round + 1) + 1))) ;;
    9) call=(forget $((RANDOM % (round + 1) + 1))) ;;
    10) call=(amend --until $((2030 + round)) -r .) ;;
  esac
  # The same call on a copy, to its end; one that is refused makes no round.
  rm -rf "$room/copy"
  cp -a "$room/tree" "$room/copy"
  start=${EPOCHREALTIME/./}
  "$program" --root "$room/copy" "${call[@]}" > "$room/out" 2>&1 || continue
  time=$((${EPOCHREALTIME/./} - start))
  round=$((round + 1))
  after=$(state_of "$room/copy") || fail "the log after ${call[*]} is refused"

  kill_call $time --root "$room/tree" "${call[@]}"
  while is_pending "$room/tree"; do
    pending=$((pending + 1))
    ((RANDOM % 2)) || break
    openings=$((openings - killed))
    case $((RANDOM % 3)) in
      0) kill_call $time --root "$room/tree" log ;;
      1) kill_call $time --root "$room/tree" recover ;;
      2) kill_call $time --root "$room/tree" recover --skip-moved ;;
    esac
    openings=$((openings + killed))
  done
  found=$(state_of "$room/tree") || fail "round $round, ${call[*]} killed: the log is refused"
  if [[ $found == "$before" ]]; then
    was_before=$((was_before + 1))
  elif [[ $found == "$after" ]]; then
    was_after=$((was_after + 1))
  else
    fail "round $round, ${call[*]} killed: neither before nor after"
  fi
  before=$found
done
echo "$rounds rounds on $(find "$room/tree" -type f -not -path '*/.reuse/undo/*' | wc -l) files:" \
  "$killed killed, of them $openings openings;" \
  "a step was under way $pending times; found as before $was_before, as after $was_after"
