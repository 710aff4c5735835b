#!/usr/bin/env bash
# Makes a step of each kind, and compares the time that its entry in the journal has with the clock:
# it lies between the second before the call and the second behind it. `log --json` and `show
# --json` print that time, `log` the day of it in UTC, whatever the time zone. An undo, a redo and a
# dry run leave it. Ends with status 1 at the first fault.
# usage: tests/when.sh PROGRAM
# The tags below are data: REUSE-IgnoreStart
set -euo pipefail
. "$(dirname "$0")/common.sh"
wants python3 python3
tree=$room/tree

call() {
  "$program" --root "$tree" "$@" > "$room/out" 2>&1 || fail "$*: $(tail -n 1 "$room/out")"
}

# The time of the entry of a step, as its file has it
time_of() {
  sed -nE 's/.*"when":([0-9]+).*/\1/p' "$tree/.reuse/undo/$(printf %06d "$1").json"
}

# The times and states of all steps, oldest first
rows() {
  "$program" --root "$tree" log --json | python3 -c '
import json, sys
for line in sys.stdin:
    row = json.loads(line)
    print(row["number"], row["when"], row["date"])'
}

number=0
# A call makes the next step, and its time lies in those seconds.
steps() {
  local before after when
  before=$(date +%s)
  call "$@"
  after=$(date +%s)
  number=$((number + 1))
  when=$(time_of $number)
  ((before <= when && when <= after)) ||
    fail "$*: the step is of $when, and was made from $before to $after"
  [[ $(rows | tail -n 1) == "$number $when $(date -u -d "@$when" +%F)" ]] ||
    fail "$*: log --json prints $(rows | tail -n 1), and the entry is of $when"
  "$program" --root "$tree" show --json $number | grep -q "\"when\":$when[,}]" ||
    fail "$*: show --json prints another time than $when"
  for zone in UTC Pacific/Kiritimati Etc/GMT+12; do
    [[ $(TZ=$zone "$program" --root "$tree" log | tail -n 1) \
      == "$number $(date -u -d "@$when" +%F) "* ]] || fail "$*: another day, in $zone"
  done
}

# A call leaves the times of all steps, dry runs among them.
keeps() {
  local before
  before=$(rows | sort)
  call "$@"
  [[ $(rows | sort) == "$before" ]] || fail "$* changes the time of a step"
}

files a.py 'x = 1\n' b.c 'int y;\n' p.png '\0211\0' data.json '{}\n'
make_dep5 "$tree"
mkdir "$room/texts"
echo 'text of MIT' > "$room/texts/MIT.txt"
annotate=(annotate -c 'Jane Doe' -y 2024 -l MIT -r .)
amend=(amend --replace-license MIT ISC -r .)
# So that the steps are of different seconds, and a step that takes the time of another shows
next_second() {
  local now
  now=$(date +%s)
  while [[ $(date +%s) == "$now" ]]; do sleep 0.05; done
}
steps "${annotate[@]}"
next_second
keeps undo
keeps redo
keeps "${amend[@]}" -n
steps "${amend[@]}"
next_second
steps revert 2
next_second
steps convert-dep5
next_second
steps download --texts "$room/texts" MIT
next_second
for ((k = 0; k < number; k++)); do keeps undo; done
for ((k = 0; k < number; k++)); do keeps redo; done
echo "$number steps of five kinds: each is of the second of its call, also when it is undone and" \
  "redone later"
