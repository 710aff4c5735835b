#!/usr/bin/env bash
# Opens the journal that version 1.0 wrote, which tests/format_1 keeps: its steps are undone and
# redone as that version did, an opening doesn't rewrite it, and a step of this version stands
# beside them. Ends with status 1 at the first fault.
# usage: tests/old_journal.sh PROGRAM
set -euo pipefail
. "$(dirname "$0")/common.sh"
kept=$(realpath "$(dirname "$0")/format_1")
# The tags below are data: REUSE-IgnoreStart

# The tree as it was before the first step
make_tree() {
  mkdir -p "$1"
  make_dep5 "$1"
  printf 'print(1)\n' > "$1/a.py"
  printf 'a {}\n' > "$1/s.css"
  printf '\211\0' > "$1/p.png"
}
# One checksum over all names and bytes of a tree outside of the journal
sum_of() {
  (cd "$1" && find . -path ./.reuse/undo -prune -o -type f -print0 | sort -z | xargs -0 sha256sum) |
    sha256sum
}
# Makes a call, and fails where it prints something else than this.
call() {
  local wanted=$1
  shift
  "$program" --root "$room/tree" "$@" > "$room/out" 2>&1 || true
  [[ $(< "$room/out") == "$wanted" ]] || fail "$*: $(< "$room/out")"
}

# Undone to its first step, the journal stands on that tree.
make_tree "$room/tree"
first=$(sum_of "$room/tree")
mkdir "$room/tree/.reuse/undo"
cp "$kept"/*.json "$room/tree/.reuse/undo"
call "$(cat "$kept/log")" log
cmp "$kept/head.json" "$room/tree/.reuse/undo/head.json" || fail 'an opening rewrote the head'
call $'redone a.py\nredone p.png.license\nredone s.css' redo
grep -q '"format":2' "$room/tree/.reuse/undo/head.json" ||
  fail 'the head that was put has not format 2'
grep -q 'Jane Doe' "$room/tree/p.png.license" || fail 'the neighbour has no notice'
call $'redone .reuse/dep5\nredone REUSE.toml' redo
call $'redone a.py' redo
call 'reuse-undo: nothing to redo' redo
cmp "$kept/000001.json" "$room/tree/.reuse/undo/000001.json" || fail 'an old entry was rewritten'

# An edit elsewhere that keeps the length isn't seen in a step of format 1, and stays.
sed -i 's/print(1)/print(2)/' "$room/tree/a.py"
call $'undone a.py' undo
grep -q 'print(2)' "$room/tree/a.py" || fail 'the edit is gone'
sed -i 's/print(2)/print(1)/' "$room/tree/a.py"

# A step of this version sees it.
call $'changed s.css' annotate -c 'Max Roe' -y 2026 s.css
sed -i 's/a {}/b {}/' "$room/tree/s.css"
call 'reuse-undo: s.css: moved' undo
sed -i 's/b {}/a {}/' "$room/tree/s.css"
call $'undone s.css' undo
call $'undone .reuse/dep5\nundone REUSE.toml' undo
call $'undone a.py\nundone p.png.license\nundone s.css' undo
call 'reuse-undo: nothing to undo' undo
[[ $(sum_of "$room/tree") == "$first" ]] || fail 'the tree is not the first one'
echo 'the steps of a journal of version 1.0 are undone and redone as that version did'
