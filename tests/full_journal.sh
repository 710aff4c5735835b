#!/usr/bin/env bash
# Runs the program on a tree whose journal has as many steps done as it can have, 4,096: it takes no
# further one until one is taken back.
# usage: tests/full_journal.sh PROGRAM
set -euo pipefail
. "$(dirname "$0")/common.sh"
tree=$room/tree
files a.py 'print(1)\n' b.py 'print(1)\n'
"$program" --root "$tree" annotate -c "Jane Doe" -l MIT -y 2024 a.py > "$room/told"
entry=$tree/.reuse/undo/000001.json
for number in {2..4096}; do cp "$entry" "$tree/.reuse/undo/$(printf %06d "$number").json"; done
printf '{"done":[%s],"format":2,"next":4097,"pending":null,"undone":[]}' "$(seq -s, 4096)" \
  > "$tree/.reuse/undo/head.json"

# told STATUS TEXT WORD..: whether the words have this status and tell this, on one of the two
# outputs.
told() {
  local status=$1 text=$2 found=0
  shift 2
  "$program" --root "$tree" "$@" > "$room/told" 2>&1 || found=$?
  ((found == status)) || fail "$* has status $found"
  [[ $(cat "$room/told") == "$text" ]] || fail "$* tells $(cat "$room/told")"
}
rows() { (($("$program" --root "$tree" log | wc -l) == $1)) || fail "the log has not $1 rows"; }

sign=(annotate -c "Jane Doe" -l MIT -y 2024 b.py)
rows 4096
before=$(state_of "$tree")
told 1 'reuse-undo: journal full' "${sign[@]}"
told 1 'reuse-undo: journal full' "${sign[@]}" --dry-run
[[ $(state_of "$tree") == "$before" ]] || fail 'a refused step changes the tree'
told 0 'undone a.py' undo
[[ $(cat "$tree/a.py") == 'print(1)' ]] || fail "the undo doesn't give a.py back"
told 0 'changed b.py' "${sign[@]}"
rows 4096
told 1 'reuse-undo: journal full' "${sign[@]:0:6}" 2023 b.py
echo 'a full journal takes no step until one is taken back'
