#!/usr/bin/env bash
# Runs the commands of the README in a fresh clone: the example without the proved program; the
# install script, over what this repository's checks kept if that is of the same commit, and else
# from nothing; and the quick start, with the installed program. Last it removes what was installed.
# `./test.sh` isn't run, which takes longest.
# usage: tests/readme.sh [-x]         -x: the example alone, which needs no proof
# The tags below are data: REUSE-IgnoreStart
set -euo pipefail
top=$(cd "$(dirname "$0")/.." && pwd)
room=$(mktemp -d)
trap 'rm -rf "$room"' EXIT
fail() {
  echo "fault: $1" >&2
  exit 1
}
. "$top/tests/blocks.sh"
# Whether the README has this line
has() {
  grep -qxF -- "$1" "$room/clone/README.md" || fail "the README has no line '$1'"
}

git clone -q "$top" "$room/clone"
cd "$room/clone"

# (kits of several letters have the same logic)
logic=$(grep -oE 'logic [0-9a-f]{16}' README.md) ||
  fail 'the README names no kit'
[[ $(rt version) == *" $logic" ]] || fail "the README names the $logic, and not $(rt version)"
has '    ./install.sh'
has '    ./test.sh'
[[ -x test.sh ]] || fail 'test.sh is not there'

grep -q '^- `./example.sh`' README.md || fail "the README doesn't name the example"
start=$SECONDS
./example.sh > "$room/example"
echo "example.sh: $((SECONDS - start)) seconds"
grep -q 'NOT proved yet' "$room/example" || fail "the example doesn't say that it isn't proved"
printf '%s\n' 'changed a.py' 'changed b.py' 'undone b.py' 'undone a.py' 'redone a.py' \
  > "$room/wanted"
grep -E '^(changed|undone|redone) ' "$room/example" | diff "$room/wanted" - ||
  fail 'the example printed something else'
sed -n '/^\$ cat a.py/,$p' "$room/example" > "$room/files"
printf '%s\n' '$ cat a.py' '# SPDX-FileCopyrightText: 2024 Jane Doe' '#' \
  '# SPDX-License-Identifier: MIT' '' 'print(1)' '' '$ cat b.py' 'print(2)' |
  diff - "$room/files" || fail 'the example left other files'
[ "${1:-}" != -x ] || exit 0

if git -C "$top" diff --quiet HEAD -- crates; then
  for kept in "$top"/crates/*/out; do
    [ ! -d "$kept" ] || cp -a "$kept" "crates/$(basename "$(dirname "$kept")")/"
  done
fi
start=$SECONDS
HOME=$room/home ./install.sh | tee "$room/installed"
echo "install.sh: $((SECONDS - start)) seconds"
grep -q '^This is the proved program' "$room/installed" || fail "install.sh shows no program"
program=$room/home/.local/bin/reuse-undo
[[ $("$program" --version) == *"proved by rattle-kit ${logic#logic }" ]] ||
  fail "the installed program says $("$program" --version)"
run_blocks README.md
echo "the quick start: $compared commands print what the README says"

HOME=$room/home ./install.sh --uninstall
[ ! -e "$room/home" ] || fail "these are left: $(find "$room/home")"
echo ok
