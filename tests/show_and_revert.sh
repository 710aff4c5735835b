#!/usr/bin/env bash
# Shows steps, and takes them back in any order: what show tells is what the step changed, with
# --json as python3 reads it; a revert takes headers out of files that were edited below them,
# refuses the others or passes them over, and is a step that undo and redo go through; reverts of
# all steps, in random order, give the first tree where no step stands in another's range. Prints
# how many calls were made; ends with status 1 at the first fault.
# usage: tests/show_and_revert.sh PROGRAM [ROUNDS]      (40 rounds by default)
# The tags below are data: REUSE-IgnoreStart
set -euo pipefail
. "$(dirname "$0")/common.sh"
wants python3 python3
rounds=${2:-40}
tree=$room/tree
calls=0

# One checksum over all files' names, bits and bytes outside of the journal
all_files() {
  (cd "$tree" &&
    find . -type f -not -path './.reuse/undo/*' -print0 | sort -z |
    tar --null --no-recursion -T - --mtime=@0 -cf - | sha256sum)
}

# The call prints this, or is refused with this text.
prints() {
  local wanted=$1
  shift
  "$program" --root "$tree" "$@" > "$room/out" 2> "$room/error" || fail "$*: $(< "$room/error")"
  [[ $(< "$room/out") == "$wanted" ]] || fail "$*: it prints $(< "$room/out")"
  calls=$((calls + 1))
}
refuses() {
  local wanted=$1 status=0 before
  shift
  before=$(all_files)
  "$program" --root "$tree" "$@" > "$room/out" 2> "$room/error" || status=$?
  [[ $status == 1 && ! -s $room/out && $(< "$room/error") == "reuse-undo: $wanted" ]] ||
    fail "$*: status $status, $(< "$room/error")"
  [[ $(all_files) == "$before" ]] || fail "$*: files are changed"
  calls=$((calls + 1))
}
holds() { printf %b "$2" | cmp -s - "$tree/$1" || fail "$1 holds $(cat "$tree/$1")"; }

# ---- show

mkdir -p "$room/texts"
echo 'a text' > "$room/texts/MIT.txt"
files a.py 'x = 1\n' b.c 'int y;\r\n' p.png '\x89\0' sub/d.py '#!/bin/sh\nz\n'
make_dep5 "$tree"
header='# SPDX-License-Identifier: MIT\n\n'
prints $'changed a.py\nchanged b.c\nchanged p.png.license\nchanged sub/d.py' annotate -l MIT -r .
prints $'changed .reuse/dep5\nchanged REUSE.toml' convert-dep5
prints 'changed LICENSES/MIT.txt' download --texts "$room/texts" MIT
prints 'undone LICENSES/MIT.txt' undo
date=$(date -u +%F)
prints "1 $date annotate 4 done
changed a.py
changed b.c
made p.png.license
changed sub/d.py" show 1
prints "2 $date convert-dep5 2 done
removed .reuse/dep5
made REUSE.toml" show 2
prints "3 $date download 1 undone
made LICENSES/MIT.txt" show 3
refuses 'no such step: 4' show 4
refuses 'no such step: 0' show 0
"$program" --root "$tree" show --diff 1 > "$room/out"
printf '%s\n' "1 $date annotate 4 done" 'changed a.py' 'changed b.c' 'made p.png.license' \
  'changed sub/d.py' \
  'diff --git a/a.py b/a.py' '--- a/a.py' '+++ b/a.py' '@@ byte 0 @@' \
  '+# SPDX-License-Identifier: MIT' '+' \
  'diff --git a/b.c b/b.c' '--- a/b.c' '+++ b/b.c' '@@ byte 0 @@' \
  $'+// SPDX-License-Identifier: MIT\r' $'+\r' \
  'diff --git a/p.png.license b/p.png.license' 'new file mode 100644' '--- /dev/null' \
  '+++ b/p.png.license' '@@ -0,0 +1,1 @@' '+SPDX-License-Identifier: MIT' \
  'diff --git a/sub/d.py b/sub/d.py' '--- a/sub/d.py' '+++ b/sub/d.py' '@@ byte 10 @@' '+' \
  '+# SPDX-License-Identifier: MIT' '+' | cmp - "$room/out" ||
  fail "show --diff 1: $(< "$room/out")"

# What is told as JSON is what is told in lines
python3 - "$program" "$tree" << 'PYTHON' || fail 'JSON'
import json, subprocess, sys
program, tree = sys.argv[1:]
def told(*words):
    call = [program, '--root', tree, *words]
    return subprocess.run(call, check=True, capture_output=True, text=True).stdout
def line(row):
    assert list(row) == sorted(row), row
    state = 'done' if row['done'] else 'undone'
    return '{number} {date} {command} {count} {state}'.format(state=state, **row)
rows = [json.loads(text) for text in told('log', '--json').splitlines()]
assert [line(row) for row in rows] == told('log').splitlines(), rows
for row in rows:
    text = told('show', '--json', str(row['number']))
    assert text.endswith('}\n') and text.count('\n') == 1, text
    shown = json.loads(text)
    lines = [line(shown)] + ['{kind} {path}'.format(**change) for change in shown.pop('changes')]
    assert lines == told('show', str(row['number'])).splitlines(), lines
    assert shown == row, shown
PYTHON

# ---- revert

# Step 1 lies below step 2, and one of its files was edited.
printf 'x = 2\n' >> "$tree/a.py"
prints $'changed a.py\nchanged b.c\nchanged p.png.license\nchanged sub/d.py' revert 1
holds a.py 'x = 1\nx = 2\n'
holds b.c 'int y;\r\n'
holds sub/d.py '#!/bin/sh\nz\n'
[[ ! -e $tree/p.png.license ]] || fail 'p.png.license stays'
prints "1 $date annotate 4 done
2 $date convert-dep5 2 done
4 $date revert 4 done" log
prints "4 $date revert 4 done
changed a.py
changed b.c
removed p.png.license
changed sub/d.py" show 4
refuses 'a.py: moved' revert 1
prints $'undone a.py\nundone b.c\nundone p.png.license\nundone sub/d.py' undo
holds a.py "${header}x = 1\nx = 2\n"
prints $'redone a.py\nredone b.c\nredone p.png.license\nredone sub/d.py' redo
# A revert of the revert
prints $'changed a.py\nchanged b.c\nchanged p.png.license\nchanged sub/d.py' revert 4
holds a.py "${header}x = 1\nx = 2\n"
# What a step took away comes back once.
refuses 'a.py: moved' revert 4
holds a.py "${header}x = 1\nx = 2\n"
# What a later step touched is left, until that is taken back.
refuses 'a.py: moved' revert 1
prints $'nothing changed\nskipped a.py\nskipped b.c\nskipped p.png.license\nskipped sub/d.py' \
  revert 1 --skip-moved
prints $'undone a.py\nundone b.c\nundone p.png.license\nundone sub/d.py' undo
prints $'undone a.py\nundone b.c\nundone p.png.license\nundone sub/d.py' undo
# Files that can't be taken back
printf '# me\n' | cat - "$tree/b.c" > "$room/new"
cp "$room/new" "$tree/b.c"
echo '# SPDX-License-Identifier: ISC' > "$tree/p.png.license"
refuses 'b.c: moved' revert 1
prints $'changed a.py\nchanged sub/d.py\nskipped b.c\nskipped p.png.license' revert 1 --skip-moved
holds b.c '# me\n// SPDX-License-Identifier: MIT\r\n\r\nint y;\r\n'
prints $'nothing changed\nskipped a.py\nskipped b.c\nskipped p.png.license\nskipped sub/d.py' \
  revert --skip-moved 1
prints $'undone a.py\nundone sub/d.py' undo
# A step that is undone can't be reverted, nor one that isn't there.
refuses 'no such step: 6' revert 6
refuses 'no such step: 99' revert 99
refuses 'no such step: 99' revert --skip-moved 99
# A file that was removed is made again, unless one is there.
prints $'changed .reuse/dep5\nchanged REUSE.toml' revert 2
refuses '.reuse/dep5: moved' revert 2
rm "$tree/.reuse/dep5"
mkdir "$tree/.reuse/dep5"
echo x > "$tree/.reuse/dep5/file"
refuses '.reuse/dep5: moved' revert 2
refuses 'nothing to redo' redo

# ---- an untouched tree: the last step's revert is its undo

files a.py 'x\n' odd 'y' p.png '\x89'
prints $'changed a.py\nchanged odd.license\nchanged p.png.license' annotate -l MIT \
  -r --fallback-dot-license .
cp -a "$tree" "$room/undone"
"$program" --root "$room/undone" undo > "$room/out"
prints $'changed a.py\nchanged odd.license\nchanged p.png.license' revert 1
diff -r --exclude=.reuse "$tree" "$room/undone" > "$room/differ" ||
  fail "a revert isn't the undo: $(< "$room/differ")"

# ---- in any order: each step writes files of its own

for ((round = 0; round < rounds; round++)); do
  files start 'x\n'
  steps=$((RANDOM % 5 + 2))
  for ((k = 1; k <= steps; k++)); do
    mkdir "$tree/$k"
    for ((j = 0; j < 3; j++)); do printf 'line %s\n' $((RANDOM % 9)) > "$tree/$k/$j.py"; done
    printf '\x89' > "$tree/$k/p.png"
  done
  before=$(all_files)
  for ((k = 1; k <= steps; k++)); do
    "$program" --root "$tree" annotate -c "Holder $k" -l MIT -r "$k" > "$room/out" ||
      fail "annotate $k"
  done
  for k in $(seq "$steps" | shuf); do
    "$program" --root "$tree" revert "$k" > "$room/out" || fail "revert $k"
    calls=$((calls + 1))
  done
  [[ $(all_files) == "$before" ]] ||
    fail "round $round: the reverts of $steps steps don't give the first tree"
  for ((k = 0; k < 2 * steps; k++)); do
    "$program" --root "$tree" undo > "$room/out" || fail 'an undo of a revert'
  done
  [[ $(all_files) == "$before" ]] || fail "round $round: the undos don't give the first tree"
done
echo "$calls calls show and take back what they are to; reverts in any order give the first tree" \
  "in $rounds rounds"
